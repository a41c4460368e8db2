"""The old forms of `find`, `since` and `trigger`, which have patterns on their line in place of a query."""

from typing import Dict, List, Optional

from bridge.faults import Refused

FIELDS = [
    "name",
    "exists",
    "size",
    "mode",
    "uid",
    "gid",
    "mtime",
    "ctime",
    "ino",
    "dev",
    "nlink",
    "new",
    "cclock",
    "oclock",
]
# A trigger of the old form gives its command these fields.
INPUT = ["name", "exists", "new", "size", "mode"]
REGULAR_EXPRESSIONS = ("-p", "-P")
END = "--"


class Rules:
    """Patterns on a line: those that files have to fit, and after -X those that they may not fit."""

    def __init__(self, command: List[object], start: int) -> None:
        self.included: List[object] = []
        self.excluded: List[object] = []
        # Where the words after the rules begin: the two dashes at the end of the rules belong to these.
        self.end = len(command)
        for place, word in enumerate(command[start:], start):
            if not isinstance(word, str):
                raise Refused(f"failed to parse query: rule @ position {place} is not a string value")
        self.read([str(word) for word in command[start:]], start)

    def read(self, words: List[str], start: int) -> None:
        group, is_negated = self.included, False
        for place, word in enumerate(words, start):
            if word == END:
                self.end = place + 1
                return
            if word in REGULAR_EXPRESSIONS:
                raise Refused("failed to parse query: unknown expression term 'pcre'")
            if word == "!":
                is_negated = True
            elif word in ("-X", "-I"):
                group = self.excluded if word == "-X" else self.included
            else:
                term = ["match", word, "wholename"]
                group.append(["not", term] if is_negated else term)
                is_negated = False

    def expression(self) -> Optional[object]:
        """The term that Watchman makes of the rules: `trigger-list` shows it."""
        excluded: List[object] = ["not", ["anyof", *self.excluded]]
        included: List[object] = ["anyof", *self.included]
        if self.excluded and self.included:
            return ["allof", excluded, included]
        if self.excluded or self.included:
            return included if self.included else excluded
        return None


def query_of(command: List[object], start: int, since: Optional[object] = None) -> Dict[str, object]:
    """The query of `find` and `since`, whose patterns start at a place of the command."""
    query: Dict[str, object] = {"fields": FIELDS}
    expression = Rules(command, start).expression()
    if expression is not None:
        query["expression"] = expression
    if since is not None:
        query["since"] = since
    return query


def trigger_of(command: List[object]) -> Dict[str, object]:
    """The object of a trigger: its name, patterns, two dashes and the words that it runs."""
    rules = Rules(command, 3)
    words = command[rules.end :]
    if not words:
        raise Refused("no command was specified")
    trigger: Dict[str, object] = {"name": command[2], "command": words, "append_files": True, "stdin": INPUT}
    expression = rules.expression()
    if expression is not None:
        trigger["expression"] = expression
    return trigger
