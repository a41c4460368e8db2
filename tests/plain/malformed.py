"""Lines that are wrong, of which generated scripts have some. malformed.rows has them."""

from pathlib import Path

from rows import tables

ROWS = {name: [row.data() for row in rows] for name, rows in tables(Path(__file__).with_suffix(".rows")).items()}
BAD_LINES, LONG_LINES, BAD_SCRIPT_LINES = ROWS["bad lines"], ROWS["long lines"], ROWS["bad script lines"]
BAD_ROWS, FAULTY_ROWS = ROWS["bad rows"], ROWS["faulty rows"]
