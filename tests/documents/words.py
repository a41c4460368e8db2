"""The words of the pages: how many a page has that no question covers, how many sentences are long, and words that the
pages no longer use."""

import re
from pathlib import Path
from typing import Dict, Iterator, List

# What follows this mark in a page is written from the sources.
GENERATED = "<!-- docs/crates/generate writes what follows -->"
# Pages for users. Each is as long as the questions need that `questions` has of it.
COVERED = (
    "README.md",
    "docs/ARCHITECTURE.md",
    "docs/CLIENTS.md",
    "docs/EMBEDDING.md",
    "docs/FILESYSTEMS.md",
    "docs/LIBRARY.md",
    "docs/PLACES.md",
    "docs/PROGRAMS.md",
    "docs/PROOFS.md",
    "docs/PROTOCOL.md",
    "docs/REFERENCE.md",
    "docs/SCRIPTS.md",
    "docs/SECURITY.md",
    "docs/SERVER.md",
    "docs/SPEED.md",
    "docs/STABILITY.md",
    "docs/TROUBLESHOOTING.md",
    "docs/TUTORIAL.md",
    "docs/WQ.md",
    "docs/WQASM.md",
)
# The most words of each other page, or of several together. Shorten before you raise one.
MOST = {
    "CONTRIBUTING.md": 1600,
    "CHANGELOG.md": 2400,
    "docs/DECISIONS.md": 2250,
    "crates/*/DECISIONS.md": 8050,
    "docs/RECIPES.md": 1660,
    "docs/crates": 3600,
    "tests/README.md": 1950,
}
# A sentence of more words is long.
LONG = 30
# The most long sentences of all these pages.
MOST_LONG = 4
# Phrases that have a plainer form, each with that form.
PLAINER = {
    r"\bis told\b": "hears, gets",
    r"\bare told\b": "hear, get",
    r"\bso many\b": "a number",
    r"\bas it stands\b": "as it is",
    r"\bstands on\b": "rests on",
    r"\bWhat stands\b": "what there is",
    r"\b(?:was|were|be) told\b": "heard, got",
    r"\bare said\b": "say",
    r"\bis wanted\b": "is needed, runs out",
    r"\b[Ww]ant of\b": "no, without",
    r"\bthere is none\b": "there is no, nothing",
    r"\bare looked at\b": "looks at them",
    r"\bso long as\b": "as long as",
    r"\bin order to\b": "to",
}
MOST_PLAINER = 0
# On these pages one thing has one word: *scan*, and *quick scan*. The code has more, which the other pages keep.
OF_USERS = (
    "README.md",
    *(
        f"docs/{name}.md"
        for name in ("TUTORIAL", "WQ", "FILESYSTEMS", "CLIENTS", "EMBEDDING", "PLACES", "TROUBLESHOOTING")
    ),
)
OTHER_WORDS = {r"\bcrawl": "scan", r"\b[Gg]lances?\b": "quick scan", r"\b(?:server|wqd|It) polls\b": "scans"}


def wordy(top: Path) -> Iterator[str]:
    """What is over its budget."""
    texts = {name: text_of(top, name) for name in (*COVERED, *MOST)}
    for name, most in MOST.items():
        count = len(texts[name].split())
        if count > most:
            yield f"{name} has {count} words, and may have {most}"
    long = [
        f"{name}: {sentence}"
        for name, text in texts.items()
        for sentence in sentences(text)
        if len(sentence.split()) > LONG
    ]
    if len(long) > MOST_LONG:
        yield from (f"{len(long)} sentences have over {LONG} words, and {MOST_LONG} may", *long[-3:])
    found = [*plainer(texts, PLAINER), *plainer({name: texts[name] for name in OF_USERS}, OTHER_WORDS)]
    if len(found) > MOST_PLAINER:
        yield from (f"{len(found)} phrases have a plainer form, and {MOST_PLAINER} may", *found[-3:])


def text_of(top: Path, name: str) -> str:
    """The words that are written by hand of a page, or of all pages of a pattern or a directory."""
    pages = sorted(top.glob(f"{name}/*.md" if (top / name).is_dir() else name))
    return "\n\n".join(page.read_text(encoding="utf-8").split(GENERATED)[0] for page in pages)


def sentences(text: str) -> Iterator[str]:
    """The sentences of a page, without blocks of code; a cell of a table, an item of a list and a link of many end
    one."""
    text = re.sub(r"(?ms)^```.*?^```$", "", text)
    text = "\n".join(line for line in text.split("\n") if not line.startswith("    "))
    for part in re.split(r"\n\s*\n|\n(?=[-*|] )|\n(?=\d+\. )|(?<=\s)[|·](?=\s)", text):
        yield from re.split(r"(?<=[.:;?!])(?:\*\*)?\s+", " ".join(part.split()))


def plainer(texts: Dict[str, str], forms: Dict[str, str]) -> Iterator[str]:
    for name, text in texts.items():
        for phrase, form in forms.items():
            found: List[str] = re.findall(f".{{0,30}}{phrase}.{{0,20}}", text)
            yield from (f"{name}: {words}: {form}" for words in found)
