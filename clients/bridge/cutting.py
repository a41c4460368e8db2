"""The text of a list of the server, cut into columns: for each field its values of some files.

A list is the longest thing that the bridge handles, so nothing here looks at one file after the other. In the text of a
value a quotation mark has a backslash before it. So in a list without a backslash each quotation mark is one around a
key or a text.
"""

import json
from typing import Dict, List, Sequence, Tuple

# Their values are texts; those of all other fields that the server keeps are numbers, true or false.
TEXTS = ("name", "type", "cclock", "oclock")
MARKS = b":{}"
# In the place of these a text of JSON has others, which begin with a backslash.
ESCAPED = bytes([*range(32), *b'"\\'])
BETWEEN_NAMES = b'","'
# If one of these bytes is before the quotation mark that ends a name, it may be another one: before a first mark or a
# name that is a comma, or one of a name itself.
DOUBTFUL = b',["\\'
# So many bytes at the end of a text are looked at for a sure mark. Without one more of the list is waited for.
LOOKED_AT = 16_384

Column = Sequence[object]
Columns = Dict[str, Column]


class Cutter:
    """Cuts lists with these fields, in which each name begins with the same bytes, which are dropped. Texts are in
    UTF-8, as the server has them."""

    def __init__(self, fields: List[str], above: bytes) -> None:
        # Files have their keys in byte order.
        self.keys = sorted(fields)
        self.above = above
        self.is_alone = len(fields) == 1
        self.between = b',{"%b":' % self.keys[0].encode()
        self.places, self.period = places_of(self.keys)

    def last_end(self, text: bytes) -> int:
        """The place of the comma between two files, the last one that is sure; -1 if there is none."""
        if not self.is_alone:
            return text.rfind(self.between)
        first = max(0, len(text) - LOOKED_AT)
        end = text.rfind(BETWEEN_NAMES, first)
        while end > 0 and text[end - 1] in DOUBTFUL:
            end = text.rfind(BETWEEN_NAMES, first, end)
        return end + 1 if end > 0 else -1

    def columns_of(self, text: bytes) -> Tuple[Columns, int]:
        """The columns of these files, between which are commas, and how many files they are."""
        if not text:
            return {key: [] for key in self.keys}, 0
        if b"\\" in text:
            return self.read(text)
        if self.keys == ["name"]:
            names = text[1 + len(self.above) : -1].split(BETWEEN_NAMES + self.above)
            return {"name": names}, len(names)
        if self.is_alone:
            return self.read(text)
        parts = text.split(b'"')
        columns = {key: self.column(parts, key) for key in self.keys}
        return columns, len(parts) // self.period

    def column(self, parts: List[bytes], key: str) -> Column:
        found = parts[self.places[key] :: self.period]
        if key in TEXTS:
            return self.shortened(found) if key == "name" else found
        values: Column = json.loads("[%s]" % b"".join(found).translate(None, MARKS).rstrip(b",").decode())
        return values

    def read(self, text: bytes) -> Tuple[Columns, int]:
        """As JSON is read anywhere."""
        rows = json.loads((b"[%b]" % text).decode())
        columns = {key: [row[key] for row in rows] if not self.is_alone else rows for key in self.keys}
        for key in self.keys:
            if key in TEXTS:
                found = [value.encode() for value in columns[key]]
                columns[key] = self.shortened(found) if key == "name" else found
        return columns, len(rows)

    def shortened(self, names: List[bytes]) -> List[bytes]:
        return [name[len(self.above) :] for name in names] if self.above else names


def places_of(keys: List[str]) -> Tuple[Dict[str, int], int]:
    """In the parts between the quotation marks of a list: which part of the first file is the value of each key, and
    after how many parts the next file's comes."""
    places, place = {}, 0
    for key in keys:
        places[key] = place + (3 if key in TEXTS else 2)
        place += 4 if key in TEXTS else 2
    return places, place
