"""What is installed: each file with its path below the prefix and its mode. `./install` and `./package` take it from
here."""

import functools
import gzip
import io
import os
import subprocess
import sys
import zipfile
from pathlib import Path
from typing import List, NamedTuple

import completion
import manual
import notices
import publisher

from wq import examples, statuses
from wq.usage import USAGE as WQ_USAGE
from wq.words import FORMS, Form, Option

TOP = Path(__file__).resolve().parent.parent
COMMAND = str(TOP / "wqd")
# The command's path in contrib/wqd.service, which is right for the prefix ~/.local.
UNIT_COMMAND = "%h/.local/bin/wqd"
# What could end a quotation in the unit.
UNSAFE = "\"'\\`$%\n"

HEAD = """#!/bin/sh
# Runs the program wqd, which is installed beside this file.
program=$(dirname "$(readlink -f "$0")")/../lib/wqd/wqd
version={version}

"""
TAIL = """
answer_help "$@"
run "$@"
"""
# The modules of the archives that Python runs.
WQASM_MAIN = "import sys\n\nfrom wqprogram.command import main\n\nsys.exit(main(sys.argv[1:]))\n"
WQ_MAIN = """import sys

sys.excepthook = lambda kind, *rest: None if kind is KeyboardInterrupt else sys.__excepthook__(kind, *rest)

import os

try:
    from wqclient.archive import keep_bytecode

    keep_bytecode(sys.argv[0])
    from wq.command import main

    sys.exit(main(sys.argv[1:], os.path.dirname(os.path.realpath(sys.argv[0]))))
except KeyboardInterrupt:
    sys.exit(130)
"""
# The places in an archive count from its own start, so a package may put another first line before it.
FIRST_LINE = b"#!/usr/bin/env -S python3 -IS\n"
# The modules that the command watchman and its bridge are made of.
BRIDGE_PACKAGES = ["bridge", "wqclient"]
# The manual pages of section 7: their pages in docs/, and what they are.
REFERENCE = {
    "wqd-programs": ("PROGRAMS.md", "programs with which clients of wqd filter files"),
    "wqd-protocol": ("PROTOCOL.md", "what a client of wqd may ask, and what it is answered"),
    "wqd-reference": ("REFERENCE.md", "errors, limits and costs of the protocol of wqd"),
    "wqd-scripts": ("SCRIPTS.md", "scripts that wqd replays"),
}
FORMAT = """Format: https://www.debian.org/doc/packaging-manuals/copyright-format/1.0/
Upstream-Name: wqd
"""
OWN = """Files: *
Copyright: 2026 the wqd authors
License: Expat or Apache-2.0
"""
EXPAT = "License: Expat\n"


class File(NamedTuple):
    path: str
    mode: int
    data: bytes


@functools.lru_cache(maxsize=None)
def version() -> str:
    """The version of the project, as `./wqd --version` says it."""
    return said("--version").split()[1]


def said(word: str) -> str:
    return subprocess.run([COMMAND, word], stdout=subprocess.PIPE, check=True).stdout.decode()


@functools.lru_cache(maxsize=None)
def built_program() -> bytes:
    """The program that the variable WQD names, or else the proved one, or that of the release of these sources. If
    there is none, it is built."""
    named = os.environ.get("WQD")
    if subprocess.run([COMMAND, "--is-built"]).returncode != 0 and subprocess.run([COMMAND, "--build"]).returncode != 0:
        sys.exit(1)
    path = Path(named or said("--program").rstrip("\n"))
    if named:
        print(f"The variable WQD names the program {named}: nobody checks whether it is proved.", file=sys.stderr)
    elif path == TOP / "release" / "wqd":
        print(f"The program is that of the release, {path}.", file=sys.stderr)
    return path.read_bytes()


def files(prefix: str) -> List[File]:
    """The files for a prefix. One that the unit cannot name is refused before anything is built."""
    made_unit = unit(prefix)
    return [
        File("bin/wqd", 0o755, (HEAD.format(version=version()) + text("contrib/command.sh") + TAIL).encode()),
        File("bin/wq", 0o755, archive(["wq", "wqprogram", "wqclient"], WQ_MAIN)),
        File("bin/wqasm", 0o755, archive(["wqprogram", "wqclient"], WQASM_MAIN)),
        File("lib/wqd/wqd", 0o755, built_program()),
        File("lib/wqd/git-fsmonitor-hook", 0o755, text("contrib/git-fsmonitor-hook").encode()),
        File("share/man/man1/wqd.1", 0o644, server_manual().encode()),
        File("share/man/man1/wq.1", 0o644, wq_manual().encode()),
        File("share/man/man1/wqasm.1", 0o644, wqasm_manual().encode()),
        *(File(f"share/man/man7/{name}.7", 0o644, reference_manual(name).encode()) for name in REFERENCE),
        File("share/systemd/user/wqd.service", 0o644, made_unit.encode()),
        File("share/bash-completion/completions/wq", 0o644, completion.bash().encode()),
        File("share/zsh/site-functions/_wq", 0o644, completion.zsh().encode()),
        File("share/fish/vendor_completions.d/wq.fish", 0o644, completion.fish().encode()),
        File("share/bash-completion/completions/wqd", 0o644, text("contrib/wqd.bash").encode()),
        File("share/bash-completion/completions/wqasm", 0o644, text("contrib/wqasm.bash").encode()),
        File("share/doc/wqd/CHANGELOG.md", 0o644, text("CHANGELOG.md").encode()),
        File("share/doc/wqd/copyright", 0o644, copyright_of(True)),
    ]


def files_as_watchman() -> List[File]:
    """The command watchman, and the bridge that it starts."""
    modules = [module for package in BRIDGE_PACKAGES for module in sorted((TOP / "clients" / package).glob("*.py"))]
    return [
        File("bin/watchman", 0o755, text("clients/watchman").encode()),
        *(
            File(f"lib/wqd/clients/{module.parent.name}/{module.name}", 0o644, module.read_bytes())
            for module in modules
        ),
    ]


def text(path: str) -> str:
    return (TOP / path).read_text(encoding="utf-8")


def archive(packages: List[str], main: str) -> bytes:
    """A tool as one file: an archive of the sources of its packages, of which Python runs this text. So it is the same
    whichever Python made it."""
    written = io.BytesIO()
    with zipfile.ZipFile(written, "w") as found:
        for package in packages:
            for module in sorted((TOP / "clients" / package).glob("*.py")):
                found.writestr(zipfile.ZipInfo(f"{package}/{module.name}"), module.read_bytes())
        found.writestr(zipfile.ZipInfo("__main__.py"), main)
    return FIRST_LINE + written.getvalue()


def compressed(data: bytes, second: int = 0) -> bytes:
    """Compressed as by each Python: their own short form for this differs in the head."""
    written = io.BytesIO()
    with gzip.GzipFile(fileobj=written, mode="wb", mtime=second) as file:
        file.write(data)
    return written.getvalue()


def copyright_of(has_program: bool) -> bytes:
    """The licence of wqd, and the notices of the libraries inside the program, as Debian has such files."""
    home = publisher.fields()["home"]
    front = FORMAT + (f"Source: {home}\n" if home else "")
    parts = [front, OWN, *([notices.paragraphs()] if has_program else []), EXPAT + indented(text("LICENSE-MIT"))]
    return "\n".join([*parts, "License: Apache-2.0\n" + apache()]).encode()


def apache() -> str:
    """The text of a licence that Debian has elsewhere."""
    return indented(text("LICENSE-APACHE"))


def indented(lines: str) -> str:
    """A text in a field of such a file."""
    return "".join(f" {line}\n" if line.strip() else " .\n" for line in lines.rstrip().splitlines())


def server_manual() -> str:
    """The page of the server. How it is installed is no part of it."""
    summary = "a file watch server that speaks Watchman's JSON commands"
    return manual.page(without(text("docs/SERVER.md"), "Installing it"), "wqd", 1, summary, version(), usage())


def usage() -> str:
    """The words of the installed command, as it says them itself."""
    script = ["sh", "-c", '. "$1"; usage', "sh", str(TOP / "contrib" / "command.sh")]
    return subprocess.run(script, stdout=subprocess.PIPE, check=True).stdout.decode()


def without(page: str, heading: str) -> str:
    """A page without one of its sections."""
    begin = page.index(f"\n## {heading}\n")
    return page[:begin] + page[page.index("\n## ", begin + 1) :]


def wq_manual() -> str:
    summary = "asks wqd which files match and which changed, and runs commands on changes"
    return manual.page(wq_page(), "wq", 1, summary, version(), WQ_USAGE, examples.markdown())


def wq_page() -> str:
    """The page of the command wq, with all options of each command before what follows those in pages of man."""
    return text("docs/WQ.md").replace("\n## Exit status\n", f"\n{options_of_wq()}\n## Exit status\n", 1)


def options_of_wq() -> str:
    tables = [
        f"### wq {command}\n\n{form.about.capitalize()}.\n" + table_of(form) + statuses_of(command)
        for command, form in FORMS.items()
    ]
    return "## Options\n\n" + "\n".join(tables)


def statuses_of(command: str) -> str:
    """The exit statuses of a command, as a table of Markdown."""
    rows = [f"| {status} | {says} |\n" for status, says in statuses.statuses_of(command).items()]
    return "".join(["\nExit status:\n\n| status | says |\n|---|---|\n", *rows])


def table_of(form: Form) -> str:
    """The options of a command with what they do, as a table of Markdown."""
    options = [option for option in form.options if option.names[0].startswith("-")]
    rows = [f"| {forms_of(option)} | {option.settings['help']} |\n" for option in options]
    return "".join(["\n| option | does |\n|---|---|\n", *rows]) if rows else ""


def forms_of(option: Option) -> str:
    value = f" {option.settings['metavar']}" if "metavar" in option.settings else ""
    return ", ".join(f"`{name}{value}`" for name in option.names)


def wqasm_manual() -> str:
    summary = "writes, reads, explains and tries programs for wqd"
    usage = subprocess.run(
        [sys.executable, "-I", str(TOP / "clients" / "wqasm"), "--help"], stdout=subprocess.PIPE, check=True
    )
    return manual.page(text("docs/WQASM.md"), "wqasm", 1, summary, version(), usage.stdout.decode())


def reference_manual(name: str) -> str:
    page, summary = REFERENCE[name]
    return manual.page(text(f"docs/{page}"), name, 7, summary, version())


def unit(prefix: str) -> str:
    """The unit, with the path of the command below the prefix."""
    if any(letter in prefix for letter in UNSAFE):
        sys.exit("wqd: the prefix may have no quotation mark, backslash, dollar, percent sign and newline")
    found = text("contrib/wqd.service")
    if Path(prefix) == Path.home() / ".local":
        return found
    return found.replace(UNIT_COMMAND, f"{prefix}/bin/wqd")
