"""Areas of features as a table."""
from dedale.exporting.features import Features
from dedale.exporting.numbers import exact
from dedale.exporting.tables import Table

AREA = "area"
"""The heading of the areas."""


def csv_of(features: Features, scale: int) -> str:
    """A table as CSV with a line for each feature: its texts, and the exact area divided by the square of the scale."""
    table = Table([*features.columns, AREA])
    for feature in features.found:
        table.add({**dict(feature.texts), AREA: exact(feature.shape.area() / scale**2)})
    return table.csv()
