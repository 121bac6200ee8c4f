"""The data formats, as the rows of dictionaries/format_rows.py have them."""
import os
import sys

sys.path.append(os.path.join(os.path.dirname(os.path.abspath(__file__)), '..', 'dictionaries'))
from format_rows import ROWS

NAMES = [name for name, _, _ in ROWS]


def of_data(data):
    """The formats that accept this data."""
    return [name for name, found, _ in ROWS if found == data]


def written_as(way):
    """The formats whose data a text writes so."""
    return [name for name, _, found in ROWS if found == way]


SIZES = {**{name: data for name, data, _ in ROWS if data in (4, 8)}, "Enumerated": 4}
"""How many bytes the data of a format has, where this doesn't vary."""
