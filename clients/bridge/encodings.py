"""The encodings of clients: JSON on lines, and BSER 1 and 2 by the codec of the distribution's pywatchman."""

import importlib
import json
import struct
import sys
from types import ModuleType
from typing import Dict, Iterable, List, NamedTuple, Optional, cast

from bridge.cutting import ESCAPED, Column
from bridge.faults import Ended
from bridge.held import Held
from bridge.shape import INTEGER_SIZES, NoValue, TooDeep, TooMany, Walk

# The distribution keeps its packages for Python here, and another Python than its own does not look there.
DISTRIBUTION = "/usr/lib/python3/dist-packages"
CODECS = ("pywatchman.bser", "pywatchman.pybser")
MISSING = "BSER is not spoken here, since this Python has no pywatchman; Debian has it as python3-pywatchman"
# No message of a client is longer. The server takes lines of an eighth of that.
LONGEST = 8_388_608
# So many bytes of each client are kept whatever the others send, so an ordinary message finds its place.
SMALL = 65_536
FULL = "the bridge keeps as much of its clients' messages as it may"

MAGIC = {b"\x00\x01": 1, b"\x00\x02": 2}
# A message begins with the two bytes of MAGIC, in BSER 2 four bytes of capabilities, and its length as a BSER integer.
LENGTH_AT = {1: 2, 2: 6}
# The kinds of arrays in BSER: one of values, and one of objects that have the same keys. Both begin with the number of
# values or objects, in front of which the second kind has the keys.
ARRAY, TEMPLATE, NO_VALUES = b"\x00", b"\x0b", b"\x00\x03\x00"


class Encoding(NamedTuple):
    """How a client speaks: 0 is JSON, and 1 and 2 are versions of BSER."""

    version: int
    capabilities: int


JSON = Encoding(0, 0)


class Message(NamedTuple):
    encoding: Encoding
    value: object


class Unreadable(Exception):
    """A message of which the end is known, but not the meaning."""

    def __init__(self, encoding: Encoding, words: str) -> None:
        super().__init__(words)
        self.encoding = encoding


class Broken(Ended):
    """A message of which the end is not known, so that no other can be read."""

    def __init__(self, encoding: Encoding, words: str) -> None:
        super().__init__(words)
        self.encoding = encoding


def find_codec() -> Optional[ModuleType]:
    """The codec for BSER, if it is installed and works with this Python."""
    if DISTRIBUTION not in sys.path:
        sys.path.append(DISTRIBUTION)
    for name in CODECS:
        try:
            codec = importlib.import_module(name)
            if codec.loads(codec.dumps({"a": [1, True]}), value_encoding="utf-8") == {"a": [1, True]}:
                return codec
        except (ImportError, AttributeError, SystemError):
            continue
    return None


class Writer:
    """Encodes values for clients."""

    def __init__(self, codec: Optional[ModuleType]) -> None:
        self.codec = codec

    def bytes_of(self, value: object, encoding: Encoding) -> bytes:
        if encoding == JSON:
            return json_of(value).encode("utf-8", "replace") + b"\n"
        assert self.codec is not None
        if encoding.version == 1:
            return cast(bytes, self.codec.dumps(value))
        return cast(bytes, self.codec.dumps(value, version=2, capabilities=encoding.capabilities))

    def values_of(self, values: List[object], encoding: Encoding) -> bytes:
        """The values of an array in BSER, without its beginning."""
        data = self.bytes_of(values, encoding)
        start = head_length(data) + len(ARRAY)
        return data[start + 1 + INTEGER_SIZES[data[start]] :]

    def files(self, fields: List[str], columns: List[Column], count: int, encoding: Encoding) -> bytes:
        """Some files of a list with these fields, of which there is a column each."""
        if encoding == JSON:
            return files_in_json(fields, columns, count)
        return self.values_of(mixed(columns, count) if fields else [{}] * count, encoding)

    def list_of(
        self,
        value: Dict[str, object],
        fields: List[str],
        files: List[bytes],
        count: int,
        encoding: Encoding,
    ) -> List[bytes]:
        """A message in parts: an object with these keys, and with these files, of which there are so many."""
        if encoding == JSON:
            return [json_of(value).encode()[:-1], b',"files":[', b",".join(files), b"]}\n"]
        begin = self.bytes_of(dict(value, files=[]), encoding)
        head = begin[: LENGTH_AT[encoding.version]]
        begin = begin[head_length(begin) :]
        if count:
            begin = begin[: -len(NO_VALUES)] + self.begin_of_list(fields, count, encoding)
        length = len(begin) + sum(map(len, files))
        return [head + integer(length) + begin, *files]

    def begin_of_list(self, fields: List[str], count: int, encoding: Encoding) -> bytes:
        if len(fields) < 2:
            return ARRAY + integer(count)
        keys = self.values_of(list(fields), encoding)
        return TEMPLATE + ARRAY + integer(len(fields)) + keys + integer(count)


# It is made once, since each message is encoded by it.
json_of = json.JSONEncoder(separators=(",", ":"), ensure_ascii=False).encode


def integer(value: int) -> bytes:
    return struct.pack("=bi", 5, value)


def mixed(columns: Iterable[Column], count: int) -> List[object]:
    """The first value of each column, the second of each, and so on."""
    columns = list(columns)
    values: List[object] = [None] * (len(columns) * count)
    for place, column in enumerate(columns):
        values[place :: len(columns)] = column
    return values


def files_in_json(fields: List[str], columns: List[Column], count: int) -> bytes:
    """Some files with commas between."""
    if len(fields) == 1:
        return b",".join(column_in_json(columns[0]))
    file = b"{%b}," % b",".join(b'"%b":%%b' % field.encode() for field in fields)
    return (file * count % tuple(mixed(map(column_in_json, columns), count)))[:-1]


def column_in_json(column: Column) -> List[bytes]:
    """Each value as JSON. Texts of the server are bytes."""
    if isinstance(column[0], bytes):
        texts = cast(List[bytes], column)
        every = b"".join(texts)
        if len(every.translate(None, ESCAPED)) == len(every):
            return [b'"' + text + b'"' for text in texts]
        return [json_of(text.decode()).encode() for text in texts]
    if column.count(column[0]) == len(column):
        return [json_of(column[0]).encode()] * len(column)
    found = json_of(column)
    if '"' in found:
        return [json_of(value).encode() for value in column]
    return found[1:-1].encode().split(b",")


class Inbox:
    """Cuts what a client sends into messages. Each may have another encoding."""

    def __init__(self, codec: Optional[ModuleType], share: Held) -> None:
        self.codec = codec
        self.share = share
        # So many bytes are counted in the share: those over SMALL of `held`, and of the message that is answered now.
        self.counted = 0
        self.held = bytearray()
        # So many bytes of `held` have no newline.
        self.looked = 0

    def add(self, data: bytes) -> None:
        more = max(0, len(self.held) + len(data) - SMALL - self.counted)
        if not self.share.take(more):
            raise Ended(FULL)
        self.counted += more
        self.held += data

    def keep(self, length: int) -> None:
        """Counts so many bytes of this client from now on, but for the small part."""
        count = max(0, length - SMALL)
        self.share.give(self.counted - count)
        self.counted = count

    def take(self) -> Optional[Message]:
        """The next message, if the whole of it is there. That before it is answered."""
        self.keep(len(self.held))
        while self.held[:1] != b"\x00":
            line = self.line()
            if line is None:
                return None
            if line.strip():
                return message_of_line(line)
        return self.take_bser()

    def line(self) -> Optional[bytes]:
        """The next line, if the whole of it is there."""
        end = self.held.find(b"\n", self.looked)
        self.looked = len(self.held) if end < 0 else 0
        if max(end, self.looked) > LONGEST:
            raise Ended("line too long")
        return None if end < 0 else self.cut(end + 1)

    def take_bser(self) -> Optional[Message]:
        if self.codec is None:
            raise Ended(MISSING)
        length = self.length()
        if length is None or len(self.held) < length:
            return None
        data = self.cut(length)
        encoding = encoding_of(data)
        try:
            Walk(data, head_length(data)).check()
            return Message(encoding, self.codec.loads(data, value_encoding="utf-8", value_errors="strict"))
        except UnicodeDecodeError:
            raise Unreadable(encoding, "a text is not UTF-8, and wqd has no names that are not")
        except TooDeep:
            raise Unreadable(encoding, "the value is too deep")
        except TooMany:
            raise Unreadable(encoding, "the value has more values in it than a command can have")
        except (
            NoValue,
            ValueError,
            TypeError,
            LookupError,
            ArithmeticError,
            SystemError,
            MemoryError,
            struct.error,
        ) as error:
            raise Unreadable(encoding, f"this is no BSER: {error}")

    def length(self) -> Optional[int]:
        """How many bytes the BSER message has, if enough of it is there to say."""
        if len(self.held) < 2:
            return None
        version = MAGIC.get(bytes(self.held[:2]))
        if version is None:
            raise Ended("this is neither JSON nor BSER")
        start = LENGTH_AT[version]
        if len(self.held) <= start:
            return None
        size = INTEGER_SIZES.get(self.held[start])
        if size is None:
            raise Broken(encoding_of(bytes(self.held[:start])), "this is no BSER: its length is no integer")
        begin = start + 1
        if len(self.held) < begin + size:
            return None
        length = begin + size + int.from_bytes(self.held[begin : begin + size], sys.byteorder, signed=True)
        if not begin + size < length <= LONGEST:
            raise Broken(encoding_of(bytes(self.held[:start])), "the message is empty or too long")
        return length

    def cut(self, length: int) -> bytes:
        data = bytes(self.held[:length])
        del self.held[:length]
        return data


def encoding_of(data: bytes) -> Encoding:
    version = MAGIC[data[:2]]
    return Encoding(version, 0 if version == 1 else int.from_bytes(data[2:6], sys.byteorder, signed=True))


def head_length(data: bytes) -> int:
    """How many bytes of a BSER message are before its value."""
    start = LENGTH_AT[MAGIC[data[:2]]]
    return start + 1 + INTEGER_SIZES[data[start]]


def message_of_line(line: bytes) -> Message:
    try:
        return Message(JSON, json.loads(line.decode("utf-8")))
    except (ValueError, RecursionError) as error:
        raise Unreadable(JSON, f"invalid json: {error}")
