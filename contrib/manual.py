"""A page of man, in the macros `man` of roff, from a page of docs/ in Markdown.

Of Markdown it knows what these pages have: headings, paragraphs, lists with `-`, blocks of code, tables, and within a
line code, bold and slanted text and links. A narrow table stays one. A wide one becomes a list: each row has its first
cell as a tag, and the others below. Comments and lists of links are left out.
"""

import re
from typing import Callable, Dict, Iterable, Iterator, List, Tuple

COMMENT = re.compile(r"<!--.*?-->", re.DOTALL)
# What marks code, bold and slanted text.
MARKS = re.compile(r"[`*]")
LINK = re.compile(r"\[([^\]]*)\]\(([^)]*)\)")
# The parts of a line: code, bold, slanted, a link.
INLINE = re.compile(r"`([^`]+)`|\*\*(.+?)\*\*|\*([^* ][^*]*)\*|" + LINK.pattern)
# The pages of docs/ that are pages of man.
PAGES = {
    "WQ.md": "wq(1)",
    "SERVER.md": "wqd(1)",
    "WQASM.md": "wqasm(1)",
    "PROTOCOL.md": "wqd-protocol(7)",
    "REFERENCE.md": "wqd-reference(7)",
    "PROGRAMS.md": "wqd-programs(7)",
    "SCRIPTS.md": "wqd-scripts(7)",
}
# Of the pages of docs/ that are no pages of man, which pages of man name too.
ELSEWHERE = "Other names of pages, such as SECURITY, are those of pages below docs in the sources."
# Lines are not stretched, and words are not cut: most are code.
LAYOUT = [".ad l", ".nh"]
# Code of so many letters may be too long for a line.
LONG = 40
ESCAPES = {"\\": "\\e", "-": "\\-", "'": "\\(aq", "`": "\\(ga", "^": "\\(ha", "~": "\\(ti"}


# So many columns a block of code has at a terminal of 80.
COLUMNS = 71


def page(text: str, name: str, section: int, summary: str, version: str, usage: str = "", more: str = "") -> str:
    """The page of man. Its synopsis is the front of the usage that the command prints. More sections, in Markdown, come
    after those of the page."""
    lines = [f'.TH {name.upper()} {section} "" "wqd {version}" ""', *LAYOUT, ".SH NAME", f"{name} \\- {prose(summary)}"]
    if usage:
        lines += [".SH SYNOPSIS", *block(synopsis(usage))]
    lines += [".SH DESCRIPTION", *body(COMMENT.sub("", text + more).split("\n"))]
    others = [other for other in PAGES.values() if other != f"{name}({section})"]
    lines += [".SH SEE ALSO", *(f".B {other}" for other in others), ".PP", ELSEWHERE]
    return "\n".join(lines) + "\n"


def synopsis(usage: str) -> List[str]:
    """The lines of a usage up to the first blank one, without the word before them."""
    front = usage.split("\n\n")[0].rstrip("\n").split("\n")
    return [line[len("usage: ") :] for line in front]


def body(lines: List[str]) -> Iterator[str]:
    place = 0
    while place < len(lines):
        kind, end = element(lines, place)
        yield from WRITERS[kind](lines[place:end])
        place = end


def kind_of(line: str) -> str:
    if not line.strip():
        return "blank"
    for start, kind in (("#", "heading"), ("|", "table"), ("- ", "list"), ("```", "fence"), ("    ", "code")):
        if line.startswith(start):
            return kind
    return "text"


def element(lines: List[str], place: int) -> Tuple[str, int]:
    """What begins here, and the place after it."""
    kind = kind_of(lines[place])
    end = place + 1
    if kind == "fence":
        while lines[end] != "```":
            end += 1
        return kind, end + 1
    if kind in ("table", "code", "text"):
        while end < len(lines) and kind_of(lines[end]) == kind:
            end += 1
    elif kind == "list":
        while end < len(lines) and lines[end].startswith("  "):
            end += 1
    return kind, end


def heading(lines: List[str]) -> List[str]:
    """The first heading is the title of the page, which has another one here."""
    marks, words = lines[0].split(" ", 1)
    if len(marks) == 1:
        return []
    return [f".SH {prose(words).upper()}" if len(marks) == 2 else f".SS {prose(words)}"]


def paragraph(lines: List[str]) -> List[str]:
    return [".PP", prose(" ".join(lines))]


def item(lines: List[str]) -> List[str]:
    words = " ".join(line.strip() for line in lines)[2:]
    if not LINK.sub("", words).strip(" ·"):
        return []
    return [".IP \\(bu 2", prose(words)]


def block(lines: List[str]) -> List[str]:
    return [".PP", ".RS 2", ".nf", *(at_start(plain(line)) for line in lines), ".fi", ".RE"]


def table(lines: List[str]) -> Iterator[str]:
    header, _, *rows = [[cell.strip() for cell in line.strip()[1:-1].split("|")] for line in lines]
    aligned = narrow([header, *rows]) if len(header) > 2 else []
    if aligned:
        yield from block(aligned)
        return
    for tag, *cells in rows:
        yield from (".TP", prose(tag) or "\\&")
        # The second cell says what the row is, and each further one what its column is called.
        named = [cells[0], *(f"{name.capitalize()}: {cell}" for name, cell in zip(header[2:], cells[1:]) if cell)]
        texts = [prose(cell) for cell in named if cell] or ["\\&"]
        yield from "\n.br\n".join(texts).split("\n")


def narrow(rows: List[List[str]]) -> List[str]:
    """The lines of a table whose columns fit beside each other; none if they do not."""
    texts = [[MARKS.sub("", LINK.sub(lambda found: found[1], cell)) for cell in row] for row in rows]
    widths = [max(map(len, column)) for column in zip(*texts)]
    lines = ["  ".join(cell.ljust(width) for cell, width in zip(row, widths)).rstrip() for row in texts]
    return lines if max(map(len, lines)) <= COLUMNS else []


WRITERS: Dict[str, Callable[[List[str]], Iterable[str]]] = {
    "blank": lambda lines: [],
    "heading": heading,
    "table": table,
    "list": item,
    "fence": lambda lines: block(lines[1:-1]),
    "code": lambda lines: block([line[4:] for line in lines]),
    "text": paragraph,
}


def prose(text: str) -> str:
    """A line of text, with what is marked in it."""
    written, place = "", 0
    for found in INLINE.finditer(text):
        written += escaped(text[place : found.start()]) + marked(found)
        place = found.end()
    return at_start(written + escaped(text[place:]))


def marked(found: "re.Match[str]") -> str:
    code, bold, slanted, words, target = found.groups()
    if code is not None:
        written = plain(code)
        return f"\\fB{written if len(code) < LONG else breaking(written)}\\fR"
    if bold is not None:
        return f"\\fB{escaped(bold.replace('`', ''))}\\fR"
    if slanted is not None:
        return f"\\fI{escaped(slanted)}\\fR"
    other = target.rpartition("/")[2].partition("#")[0]
    return prose(PAGES.get(other, words) if words in (other, other[: -len(".md")]) else words)


def breaking(written: str) -> str:
    """Code that may go on in another line after each comma."""
    return written.replace(",", ",\\:")


def plain(text: str) -> str:
    """Text in which each byte is shown as it is."""
    return ascii_of("".join(ESCAPES.get(letter, letter) for letter in text))


def escaped(text: str) -> str:
    """Text in which hyphens and quotes may be shown as in a book."""
    return ascii_of(text.replace("\\", "\\e"))


def ascii_of(text: str) -> str:
    return "".join(letter if ord(letter) < 128 else f"\\[u{ord(letter):04X}]" for letter in text)


def at_start(line: str) -> str:
    """A line that roff does not take for one of its own."""
    return f"\\&{line}" if line[:1] in (".", "'") else line
