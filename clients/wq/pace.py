"""How often a server scans a root, by the words of its process and what a scan costs."""

from typing import Dict, List

INTERVAL, SHARE = "--interval", "--share"
# The values without these options: milliseconds, and percent of a processor.
USUAL = {INTERVAL: 1000, SHARE: 100}
OPTIONS = (INTERVAL, SHARE, "--quiet-after", "--workers")


def kept_words(words: List[str]) -> List[str]:
    """Of the words of a server those that say how it works, and not where or when."""
    found: List[str] = []
    for place, word in enumerate(words):
        option, is_joined, value = word.partition("=")
        if option in OPTIONS:
            found += [option, value if is_joined else words[place + 1]]
    return found


def seconds_between_scans(words: List[str], scan: float) -> float:
    """The time from one scan of a root to the next, if the root has the whole share. A scan takes `scan` seconds."""
    numbers: Dict[str, int] = dict(USUAL)
    given = kept_words(words)
    for option, value in zip(given[::2], given[1::2]):
        if option in numbers and value.isdigit():
            numbers[option] = max(1, int(value))
    return max(numbers[INTERVAL] / 1000, scan * (100 / numbers[SHARE] - 1)) + scan


def seconds_shown(seconds: float) -> str:
    return f"{seconds:.0f} s" if seconds >= 0.95 else f"{seconds:.1g} s"
