"""Segments and points beside polygons: each place once, and segments that go on in each other as one line."""
from collections import defaultdict
from fractions import Fraction
from typing import Iterable, Iterator, Sequence

from dedale.exporting.borders import uncovered
from dedale.exporting.boxes import BoxIndex, box_of
from dedale.exporting.pieces import Piece
from dedale.exporting.points import Line, Point, line_through, point_between

Segment = tuple[Point, Point]
LineString = tuple[Point, ...]


def lines_outside(segments: Iterable[Segment], polygons: Sequence[Piece]) -> list[LineString]:
    """What is in the segments and in none of the closed polygons, with its ends, as lines of two points or more."""
    index = BoxIndex([box_of(polygon.corners) for polygon in polygons])
    return _chained([part for segment in _united(segments) for part in _outside(segment, polygons, index)])


def points_outside(points: Iterable[Point], lines: Iterable[LineString], polygons: Sequence[Piece]) -> list[Point]:
    """The points that are on none of the lines and in none of the closed polygons, each once, in order."""
    segments = [segment for line in lines for segment in zip(line, line[1:])]
    on_segments = BoxIndex([box_of(segment) for segment in segments])
    in_polygons = BoxIndex([box_of(polygon.corners) for polygon in polygons])
    alone = []
    for point in set(points):
        box = box_of((point,))
        if not (any(polygons[near].holds(point) for near in in_polygons.meeting(box))
                or any(_is_on(point, segments[near]) for near in on_segments.meeting(box))):
            alone.append(point)
    return sorted(alone, key=Point.position)


def _is_on(point: Point, segment: Segment) -> bool:
    start, stop = sorted(end.position() for end in segment)
    return line_through(*segment).side(point) == 0 and start <= point.position() <= stop


def _united(segments: Iterable[Segment]) -> list[Segment]:
    """The segments, those on one line that touch or overlap made one. Each runs from its lesser end to its greater one."""
    on_lines: defaultdict[Line, list[Segment]] = defaultdict(list)
    for segment in segments:
        start, stop = sorted(segment, key=Point.position)
        on_lines[line_through(start, stop)].append((start, stop))
    return [united for on_line in on_lines.values() for united in _united_on_a_line(on_line)]


def _united_on_a_line(segments: list[Segment]) -> Iterator[Segment]:
    segments.sort(key=lambda segment: segment[0].position())
    first, reach = segments[0]
    for start, stop in segments:
        if start.position() > reach.position():
            yield first, reach
            first, reach = start, stop
        reach = max(reach, stop, key=Point.position)
    yield first, reach


def _outside(segment: Segment, polygons: Sequence[Piece], index: BoxIndex) -> Iterator[Segment]:
    """The parts of a segment, but for single points, that are in none of the polygons."""
    covered = []
    for near in index.meeting(box_of(segment)):
        shared = polygons[near].shared(*segment)
        if shared is not None and shared.first < shared.last:
            covered.append((shared.first, shared.last))
    for first, last in uncovered(covered):
        yield point_between(*segment, first), point_between(*segment, last)


def _chained(segments: list[Segment]) -> list[LineString]:
    """Lines of segments that meet by two at their ends. No two segments are on one line and have an end in common."""
    meeting: defaultdict[Point, list[int]] = defaultdict(list)
    segments.sort(key=lambda segment: segment[0].position())
    for number, segment in enumerate(segments):
        for end in segment:
            meeting[end].append(number)
    used: set[int] = set()
    ends = sorted((end for end, numbers in meeting.items() if len(numbers) != 2), key=Point.position)
    starts = [(end, number) for end in ends for number in meeting[end]]
    starts += [(segment[0], number) for number, segment in enumerate(segments)]        # what is left are closed lines
    lines = [_chain(start, number, segments, meeting, used) for start, number in starts if number not in used]
    return sorted(lines, key=lambda line: line[0].position())


def _chain(start: Point, number: int, segments: list[Segment], meeting: dict[Point, list[int]], used: set[int]) -> LineString:
    """The line that begins at the start with the segment of this number, and ends where none or several go on."""
    line = [start]
    following: int | None = number
    while following is not None:
        used.add(following)
        one, other = segments[following]
        end = other if one == line[-1] else one
        line.append(end)
        numbers = meeting[end] if len(meeting[end]) == 2 else []
        following = next((near for near in numbers if near not in used), None)
    return tuple(line)
