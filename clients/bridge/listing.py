"""A list of the server that becomes a client's, piece by piece as its line comes."""

import json
import socket
from typing import Dict, List, Union

from bridge.cutting import Cutter
from bridge.encodings import JSON, Encoding, Writer, json_of
from bridge.fields import Lister
from bridge.link import VERSION_LAST
from bridge.version import VERSION

VERSION_TOLD = f'"version":"{VERSION}"}}\n'.encode()
# The texts around the files of a list. A text of it has the second nowhere, since its first quotation mark would have a
# backslash before it.
FILES_BEGIN, FILES_END = b'"files":[', b'],"is_fresh_instance":'


class Passing:
    """A list that goes to a JSON client as the server wrote it, but for the version, and the client's directory in
    front of the names."""

    def __init__(self, lister: Lister, client: socket.socket) -> None:
        self.client = client
        self.above = b'"' + lister.above if "name" in lister.fields.wanted else b'"'
        # The text before each name, and before the first one of names alone. It is found nowhere else: in a text a
        # quotation mark has a backslash before it, and what comes after the mark that ends a text is no name.
        self.before, self.before_first = (b",", b"[") if lister.fields.wanted == ["name"] else (b'"name":', b"")
        # Nothing that is replaced has this in it but at its beginning.
        self.between = b"," if len(self.above) == 1 else b',"' if self.before_first else b',{"'
        self.held = b""
        # Keys of the client's list that the server's has not.
        self.more: Dict[str, object] = {}

    def add(self, piece: bytes) -> None:
        """Takes the next part of the line, and tells it but for a last part, which is a whole one with the next."""
        self.held += piece
        end = self.held.rfind(self.between)
        if end > 0:
            self.client.sendall(self.told(self.held[:end]))
            self.held = self.held[end:]

    def end(self, rest: bytes) -> None:
        """Takes the last part of the line."""
        self.held += rest

    def told(self, text: bytes) -> bytes:
        if len(self.above) == 1:
            return text
        if self.before_first:
            begin, first, rest = text.partition(self.before_first + self.above)
            if first:
                text, self.before_first = begin + self.before_first + b'"' + rest, b""
        return text.replace(self.before + self.above, self.before + b'"')

    def tell(self) -> None:
        more = b"".join(
            b"%b:%b," % (json_of(key).encode(), json_of(value).encode()) for key, value in self.more.items()
        )
        self.client.sendall(self.told(self.held[: -len(VERSION_LAST)]) + more + VERSION_TOLD)


class Listing:
    """A list that is written anew. Each part of it is written when it comes, while the server makes the next."""

    def __init__(self, lister: Lister, writer: Writer, encoding: Encoding, client: socket.socket) -> None:
        self.lister = lister
        self.writer = writer
        self.encoding = encoding
        self.client = client
        self.cutter = Cutter(lister.fields.asked, lister.above)
        # The line up to its files, and the part of it that is not written yet.
        self.begin = b""
        self.held = b""
        self.written: List[bytes] = []
        self.count = 0
        # The keys beside the files, and those that the server's list has not.
        self.value: Dict[str, object] = {}
        self.more: Dict[str, object] = {}

    def add(self, piece: bytes) -> None:
        """Takes the next part of the line."""
        self.held += piece
        self.take_begin()
        if not self.begin:
            return
        end = self.cutter.last_end(self.held)
        if end > 0:
            self.write(self.held[:end])
            self.held = self.held[end + 1 :]

    def end(self, rest: bytes) -> None:
        """Takes the last part of the line."""
        self.held += rest
        self.take_begin()
        end = self.held.rfind(FILES_END)
        self.write(self.held[:end])
        self.value = json.loads((self.begin + self.held[end:]).decode())
        del self.value["files"]

    def take_begin(self) -> None:
        """Takes the line up to its files, if so much of it has come."""
        length = -1 if self.begin else self.held.find(FILES_BEGIN)
        if length >= 0:
            length += len(FILES_BEGIN)
            self.begin, self.held = self.held[:length], self.held[length:]

    def write(self, text: bytes) -> None:
        """Writes the files of this part."""
        found, count = self.cutter.columns_of(text)
        if count:
            columns = self.lister.columns_of(found, count)
            self.written.append(self.writer.files(self.lister.fields.wanted, columns, count, self.encoding))
            self.count += count

    def tell(self) -> None:
        self.value.update(self.more, version=VERSION)
        fields = self.lister.fields.wanted
        for part in self.writer.list_of(self.value, fields, self.written, self.count, self.encoding):
            self.client.sendall(part)


Listed = Union[Passing, Listing]


def list_for(lister: Lister, writer: Writer, encoding: Encoding, client: socket.socket) -> Listed:
    if encoding == JSON and lister.passes():
        return Passing(lister, client)
    return Listing(lister, writer, encoding, client)
