"""The series that bench/questions measures, by what they speak of."""

from question_events import SERIES as EVENTS
from question_maps import SERIES as MAPS
from question_names import SERIES as NAMES
from question_texts import Series

SERIES: list[Series] = NAMES + MAPS + EVENTS
