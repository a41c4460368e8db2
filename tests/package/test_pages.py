"""What docs/SERVER.md quotes and lists, and the manual pages that are made from docs/."""

import re
import shutil
import subprocess
from typing import List

import files
import manual
from case import Case
from installing import FILES
from quoting import blocks
from wq.words import FORMS, options_of

MACROS = {".TH", ".SH", ".SS", ".PP", ".TP", ".IP", ".B", ".br", ".nf", ".fi", ".RS", ".RE", ".ad", ".nh"}
LETTERS = {"\\e": "\\", "\\-": "-", "\\(aq": "'", "\\(ga": "`", "\\(ha": "^", "\\(ti": "~", "\\&": ""}
ESCAPE = re.compile(r"\\e|\\-|\\&|\\\([a-z]{2}|\\\[u([0-9A-F]{4,})\]|\\f[BIR]")


SMALL = """# Title

A `.x` *b* **c `d`** [e](f.md#g), `a\\b`: \u00fc

| a | b |
|---|---|
| `-x` | |

'q'
"""
SMALL_MADE = [
    ".PP",
    "A \\fB.x\\fR \\fIb\\fR \\fBc d\\fR e, \\fBa\\eb\\fR: \\[u00FC]",
    ".TP",
    "\\fB\\-x\\fR",
    "\\&",
    ".PP",
    "\\&'q'",
]


class Pages(Case):
    def test_quotes(self) -> None:
        page = files.text("docs/SERVER.md")
        unit, strict = blocks(page, "ini")
        self.same("the unit on the page", unit, files.text("contrib/wqd.service"))
        self.same("the unit without triggers", strict.startswith("[Service]\n"), True)

    def test_table_of_files(self) -> None:
        """The table of what is installed names each file, or the directory that it is in."""
        page = files.text("docs/SERVER.md")
        table = page[page.index("| below the prefix | is |") :]
        named = re.findall(r"`([^`]+)`", "".join(line.split("|")[1] for line in table.split("\n\n")[0].splitlines()))
        covered = [
            path
            for path in FILES
            if path in named or any(name.endswith("/") and path.startswith(name) for name in named)
        ]
        self.same("the files that the table names", covered, list(FILES))
        self.same(
            "names that are no file", [name for name in named if not any(path.startswith(name) for path in FILES)], []
        )

    def test_manual(self) -> None:
        """The pages of man: only known macros, all of ASCII, each heading, and each block of code as it is in the
        page."""
        for name, text, made in (
            ("WQ.md", files.wq_page(), files.wq_manual()),
            ("SERVER.md", files.without(files.text("docs/SERVER.md"), "Installing it"), files.server_manual()),
            ("WQASM.md", files.text("docs/WQASM.md"), files.wqasm_manual()),
            *(
                (page, files.text(f"docs/{page}"), files.reference_manual(name))
                for name, (page, _) in files.REFERENCE.items()
            ),
        ):
            lines = made.splitlines()
            self.same(
                f"{name}: macros", {line.split(" ")[0] for line in lines if line.startswith((".", "'"))} - MACROS, set()
            )
            self.same(f"{name}: letters", made.isascii(), True)
            shown = [shown_as(line) for line in lines if line[:1] != "."]
            headings = [line.split(" ", 1) for line in text.splitlines() if re.match("##+ ", line)]
            expected = [
                title.replace("`", "").upper() if marks == "##" else title.replace("`", "") for marks, title in headings
            ]
            found = [shown_as(line.split(" ", 1)[1]) for line in lines if line.startswith((".SH", ".SS"))]
            found = [it for it in found if it not in ("NAME", "SYNOPSIS", "DESCRIPTION", "EXAMPLES", "SEE ALSO")]
            self.same(f"{name}: headings", found, expected)
            code = [line for line in code_of(text) if line]
            self.same(f"{name}: lines of code that are missing", [line for line in code if line not in shown], [])
            left = [line for line in shown if "](" in line or "<!--" in line]
            self.same(f"{name}: what is left of Markdown", left, [])
            self.check_by_roff(name, made)
        small = manual.page(SMALL, "n", 1, "s", "0").splitlines()
        self.same("a small page", small[6 : small.index(".SH SEE ALSO")], SMALL_MADE)
        self.same("its last line", small[-1], manual.ELSEWHERE)

    def test_sections(self) -> None:
        """The page of wq has what people look for in one, in the usual order, and each option of each command."""
        lines = files.wq_manual().splitlines()
        sections = [line[4:] for line in lines if line.startswith(".SH ")]
        usual = ["NAME", "SYNOPSIS", "DESCRIPTION", "OPTIONS", "EXIT STATUS", "ENVIRONMENT", "FILES", "EXAMPLES"]
        self.same("sections", [name for name in sections if name in usual], usual)
        shown = [shown_as(line) for line in lines]
        for command, form in FORMS.items():
            begin = shown.index(f".SS wq {command}")
            end = next(place for place in range(begin + 1, len(shown)) if shown[place].startswith((".SS", ".SH")))
            words = set(re.findall(r"--?[\w-]+", " ".join(shown[begin:end])))
            missing = [name for name in options_of(command) if name not in words]
            self.same(f"options of wq {command}", missing, [])

    def check_by_roff(self, name: str, made: str) -> None:
        if shutil.which("groff") is None:
            return
        command = ["groff", "-man", "-Tutf8", "-z", "-wmac", "-wescape", "-wsyntax", "-wchar", "-Wbreak"]
        ended = subprocess.run(command, input=made.encode(), stdout=subprocess.PIPE, stderr=subprocess.STDOUT)
        self.same(f"{name}: what groff says", (ended.returncode, ended.stdout.decode()), (0, ""))
        if name in ("WQ.md", "SERVER.md"):
            command = ["groff", "-man", "-Tutf8", "-rLL=78n", "-P-cbou"]
            shown = subprocess.run(command, input=made.encode(), stdout=subprocess.PIPE).stdout.decode()
            self.same(
                f"{name}: lines that a terminal cuts", [line for line in shown.splitlines() if len(line) > 80], []
            )


def shown_as(line: str) -> str:
    """What a reader sees of a line of roff."""
    return ESCAPE.sub(lambda found: chr(int(found[1], 16)) if found[1] else LETTERS.get(found[0], ""), line)


def code_of(text: str) -> List[str]:
    """The lines of the blocks of code of a page."""
    text = re.sub(r"<!--.*?-->", "", text, flags=re.DOTALL)
    fenced = "".join(re.findall(r"^```\w*\n(.*?)^```$", text, re.DOTALL | re.MULTILINE))
    text = re.sub(r"^```\w*\n(.*?)^```$", "", text, flags=re.DOTALL | re.MULTILINE)
    return fenced.splitlines() + [line[4:] for line in text.splitlines() if line.startswith("    ")]
