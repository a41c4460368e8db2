"""The server runs this for a trigger of the bridge. It gives the command the input, directory and output of the
definition.

    python3 -I -S started.py DEFINITION SOCKNAME [NAME..]

DEFINITION is the trigger as the client registered it, and SOCKNAME the bridge's socket. It uses no other module of the
bridge, so that a command starts soon.
"""

import json
import os
import socket
import stat
import sys

# The letters of kinds, as the server tells them, and the bits of a mode.
MODES = {
    "f": stat.S_IFREG,
    "d": stat.S_IFDIR,
    "l": stat.S_IFLNK,
    "b": stat.S_IFBLK,
    "c": stat.S_IFCHR,
    "p": stat.S_IFIFO,
    "s": stat.S_IFSOCK,
}
OF_STAT = {
    "mode": "st_mode",
    "uid": "st_uid",
    "gid": "st_gid",
    "ino": "st_ino",
    "dev": "st_dev",
    "nlink": "st_nlink",
    "ctime": "st_ctime",
    "atime": "st_atime",
}
UNITS = {"_ms": 1_000_000, "_us": 1_000, "_ns": 1}
# The bridge is not waited for longer than this, in seconds: the line of the log is the less important thing.
PATIENCE = 1.0


def main() -> None:
    definition, sockname, names = json.loads(sys.argv[1]), sys.argv[2], sys.argv[3:]
    root, below = os.environ["WATCHMAN_ROOT"], definition.get("relative_root", "").strip("/")
    above = f"{below}/" if below else ""
    command = [*definition["command"], *(as_argument(name[len(above) :]) for name in names)]
    os.environ["WATCHMAN_SOCK"] = sockname
    if below:
        os.environ["WATCHMAN_RELATIVE_ROOT"] = os.path.join(root, below)
    give_input(definition.get("stdin", "/dev/null"), root, above)
    os.chdir(os.path.join(root, below, definition.get("chdir", "")))
    for key, number in (("stdout", 1), ("stderr", 2)):
        if key in definition:
            redirect(definition[key], number)
    log(sockname, f"trigger {definition['name']} {root} posix_spawnp: {definition['name']}")
    os.execvp(command[0], command)


def as_argument(name: str) -> str:
    """The name as Watchman has it. But a command takes `-x` and `+x` for options, and `@x` for a file of options."""
    return name if name[:1].isalnum() or name[:1] in "._/" else f"./{name}"


def give_input(style: "str | list[str]", root: str, above: str) -> None:
    """Puts the names or the fields of the files in the place of the standard input."""
    if style == "/dev/null":
        return
    text = sys.stdin.buffer.read().decode("utf-8", "surrogateescape")
    if isinstance(style, str):
        text = "".join(f"{line[len(above):]}\n" for line in text.split("\n") if line)
    else:
        text = (
            json.dumps([row_of(found, style, root, above) for found in json.loads(text)], separators=(",", ":")) + "\n"
        )
    number = os.memfd_create("input")
    with open(number, "wb", closefd=False) as file:
        file.write(text.encode("utf-8", "surrogateescape"))
    os.lseek(number, 0, os.SEEK_SET)
    os.dup2(number, 0)


def row_of(found: dict[str, object], fields: list[str], root: str, above: str) -> object:
    """A file as the definition wants it: with one field it is the bare value. What the server keeps, it has told."""
    name, kind = str(found["name"]), str(found["type"])
    file = looked_at(os.path.join(root, name)) if found["exists"] else None
    found["name"] = name[len(above) :]
    row = {field: found[field] if field in found else value_of(field, file, kind) for field in fields}
    return row if len(fields) > 1 else row[fields[0]]


def looked_at(path: str) -> object:
    try:
        return os.lstat(path)
    except OSError:
        return None


def value_of(field: str, file: object, kind: str) -> object:
    """A field of the file itself. Of one that is gone the mode tells the kind alone."""
    if file is None:
        return MODES.get(kind, 0) if field == "mode" else None
    if field in OF_STAT:
        return int(getattr(file, OF_STAT[field]))
    name, _, unit = field.partition("_")
    nanoseconds = getattr(file, f"st_{name}_ns", None)
    if nanoseconds is None:
        return None
    return nanoseconds / 1e9 if unit == "f" else nanoseconds // UNITS.get(f"_{unit}", 1_000_000_000)


def redirect(target: str, number: int) -> None:
    """Sends an output to a file, as `>path`, or to its end, as `>>path`."""
    is_added = target.startswith(">>")
    flags = os.O_CREAT | os.O_WRONLY | (os.O_APPEND if is_added else os.O_TRUNC)
    file = os.open(target[2 if is_added else 1 :], flags, 0o666)
    os.dup2(file, number)


def log(sockname: str, text: str) -> None:
    with socket.socket(socket.AF_UNIX) as stream:
        stream.settimeout(PATIENCE)
        try:
            stream.connect(sockname)
            stream.sendall(json.dumps(["log", "debug", text]).encode() + b"\n")
        except OSError:
            pass  # the bridge has ended, and nobody reads its log


main()
