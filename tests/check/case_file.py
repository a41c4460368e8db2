"""Reads the file of cases. What its lines mean stands at its head."""

from typing import Dict, Iterator, List, NamedTuple

from notation import file_of


class FileCase(NamedTuple):
    """The bytes of a program file, and the line that `wqd check` says of it."""

    name: str
    data: bytes
    line: str


TABLES = ("numbers", "texts", "lists", "patterns", "sets")


def read_cases(text: str) -> Iterator[FileCase]:
    for group in groups(text):
        for version in versions_of(group):
            yield from cases_of(group, data_of(group, version), f"{group['name']}, version {version}")


def versions_of(group: Dict[str, str]) -> List[int]:
    """The versions of the files of a case: both, if it does not say bytes or places of them, or asks for one."""
    if "version" in group:
        return [int(group["version"])]
    is_of_bytes = "hex" in group or any(key.startswith("byte ") for key in group)
    return [2] if "sets" in group else [1] if is_of_bytes else [1, 2]


def cases_of(group: Dict[str, str], data: bytes, name: str) -> Iterator[FileCase]:
    if "each prefix" in group:
        for length in range(len(data)):
            yield FileCase(f"{name}: {length} bytes", data[:length], group["says"])
    elif any(key.startswith("byte ") for key in group):
        yield from cases_of_bytes(group, data)
    else:
        yield FileCase(name, data, group["says"])


def groups(text: str) -> Iterator[Dict[str, str]]:
    """The lines of each case by what stands before their colon."""
    lines = [line for line in text.split("\n") if not line.startswith("#")]
    for part in "\n".join(lines).split("\n\n"):
        pairs: List[List[str]] = [line.split(":", 1) for line in part.split("\n") if line]
        if pairs:
            group = {key: value.strip() for key, value in pairs}
            assert len(group) == len(pairs) and "name" in group and "says" in group, part
            yield group


def data_of(group: Dict[str, str], version: int) -> bytes:
    if "hex" in group:
        data = bytes.fromhex(group["hex"])
    else:
        tables = {table: group[table] for table in TABLES if table in group}
        data = file_of(group["code"], **tables, version=version)
    data += bytes.fromhex(group.get("then", ""))
    return data[: len(data) - int(group.get("cut", "0"))]


def cases_of_bytes(group: Dict[str, str], data: bytes) -> Iterator[FileCase]:
    """A case for each value of one byte."""
    key = next(key for key in group if key.startswith("byte "))
    place = int(key.split()[1])
    for values in group[key].split():
        first, _, last = values.partition("-")
        for value in range(int(first, 16), int(last or first, 16) + 1):
            changed = data[:place] + bytes([value]) + data[place + 1 :]
            yield FileCase(f"{group['name']}: {value:02x}", changed, group["says"])
