"""Tells a person who looks elsewhere that a run has ended: the terminal shows a text, or rings."""

import os
import sys

from wqclient.harmless import harmless

from .terminal import is_terminal

BELL = "\a"
# These show the text of OSC 9 on the desktop; others ring.
PROGRAMS = ("iTerm.app", "WezTerm", "ghostty")
TERMS = ("xterm-kitty", "xterm-ghostty", "foot")


def notify(text: str) -> None:
    if is_terminal(sys.stderr):
        print(f"\x1b]9;{harmless(text)}{BELL}" if shows_texts() else BELL, end="", file=sys.stderr, flush=True)


def shows_texts() -> bool:
    return os.environ.get("TERM_PROGRAM") in PROGRAMS or os.environ.get("TERM") in TERMS or "WT_SESSION" in os.environ
