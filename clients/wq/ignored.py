"""What git ignores below a directory that is asked about. Queries leave out directories in which all is ignored, and of
lists the ignored names are taken out. A file that git tracks is not ignored."""

import argparse
from typing import Any, Dict, List, Optional, Set

from .git import Unanswered, top_of
from .globs import any_of, left_out_names, note, terms_of_left_out
from .ignore_lines import Terms, one_of
from .ignore_rules import Ask, PastRules, Rules, Said, directories_of
from .roots import Place

NOTHING_SAID = Said({}, {})
# Of longer lists only the names are judged that some rule could mean.
LONG = 500
# A query leaves out this number of directories, those near the root. Each costs time for each file.
MOST_TERMS = 16


def is_wanted(options: argparse.Namespace) -> bool:
    """Whether ignored files are to be left out, if there is a repository."""
    return bool(getattr(options, "ignore", False))


class Ignored:
    """What is ignored below a place, of whose root `ask` asks the server. `terms` are those that a query leaves out.
    For a window that stays `renew` reads the rules anew, once they changed or `is_stale` says so."""

    def __init__(self, ask: Ask, place: Place, options: argparse.Namespace) -> None:
        self.ask = ask
        self.place = place
        self.options = options
        self.rules: Optional[Rules] = None
        # What the rules say, which is nothing if they leave nothing out; None if git does not answer.
        self.said: Optional[Said] = NOTHING_SAID
        self.begin()

    def begin(self) -> None:
        # The ignored directories without a tracked file, terms of those that queries leave out, and of the others.
        self.whole: Set[str] = set()
        self.found: Dict[str, bool] = {}
        self.terms: Terms = []
        self.partly: Terms = []
        self.said = NOTHING_SAID
        if not is_wanted(self.options):
            return
        top = top_of(self.place.root)
        if top is None and not self.options.gitignore:
            return
        try:
            self.rules = Rules(self.ask, self.place.root, top)
            self.leave_out(self.rules)
            self.said = self.rules.said if self.rules else NOTHING_SAID
        except Unanswered as reason:
            self.give_up(reason)

    def give_up(self, reason: Unanswered) -> None:
        self.close()
        self.said = None
        note(f"ignored files of {self.place.root} are listed too, since git does not answer: {reason}")

    def leave_out(self, rules: Rules) -> None:
        """Finds the directories in which all is ignored. If the place itself is ignored, all of it is asked for."""
        below = self.place.below
        if not rules.lines or below and rules.judged([(below, False)])[0]:
            self.close()
            return
        parts = [["type", "d"], one_of(rules.lines)]
        left_out = left_out_names(self.place, self.options)
        if left_out:
            parts.append(["not", any_of(terms_of_left_out(self.place, left_out))])
        names: List[str] = self.ask({"expression": self.within(parts), "fields": ["name"]})["files"]
        for name, is_ignored in zip(names, rules.judged([(name, False) for name in names])):
            if is_ignored and rules.is_tracked(name):
                self.partly.append(["dirname", name])
            elif is_ignored and not any(above in self.whole for above in directories_of(name)):
                self.whole.add(name)
        nearest = sorted(self.whole, key=lambda name: (name.count("/"), name))[:MOST_TERMS]
        if nearest:
            self.terms = [["name", nearest, "wholename"], *(["dirname", name] for name in nearest)]

    def is_within(self, name: str) -> bool:
        """Whether a name lies in a directory in which all is ignored. Of each directory that is found once."""
        directory = name.rpartition("/")[0]
        if directory not in self.found:
            self.found[directory] = bool(directory) and (directory in self.whole or self.is_within(directory))
        return self.found[directory]

    def within(self, parts: List[Any]) -> Any:
        below = self.place.below
        return ["allof", *([["dirname", below]] if below else []), *parts]

    def kept(self, files: List[Any]) -> List[Any]:
        """The files of a list that are not ignored."""
        rules = self.rules
        if rules is None:
            return files
        files = [file for file in files if not self.is_within(name_of(file))]
        asked = files
        if len(files) > LONG:
            parts = [one_of([*rules.lines, *self.partly]), *([["not", any_of(self.terms)]] if self.terms else [])]
            # Since a second, so that files that are gone are among them.
            suspects = set(self.ask({"since": 0, "expression": self.within(parts), "fields": ["name"]})["files"])
            asked = [file for file in files if name_of(file) in suspects]
        names = [(name_of(file), is_gone_directory(file)) for file in asked]
        try:
            judged = zip(names, rules.judged(names))
            ignored = {name for (name, _), is_ignored in judged if is_ignored and not rules.is_tracked(name)}
        except Unanswered as reason:
            self.give_up(reason)
            return files
        return [file for file in files if name_of(file) not in ignored]

    def told_by_rules(self, before: Said, files: List[Any]) -> List[Any]:
        """Of all files those about which the rules said otherwise before: what they no longer leave out came, and what
        they leave out now went."""
        try:
            were = self.ignored_by(before, [file["name"] for file in files]) if any(before) else set()
        except Unanswered:
            return []
        are_kept = {name_of(file) for file in self.kept(files)}
        came = [{**file, "exists": True, "new": True} for file in files if file["name"] in were & are_kept]
        return came + [{**file, "exists": False, "new": False} for file in files if file["name"] not in were | are_kept]

    def ignored_by(self, said: Said, names: List[str]) -> Set[str]:
        """The names that rules ignored when they said this."""
        past = PastRules(self.ask, self.place.root, top_of(self.place.root), said)
        try:
            judged = zip(names, past.judged([(name, False) for name in names]))
            return {name for name, is_ignored in judged if is_ignored and not past.is_tracked(name)}
        finally:
            past.close()

    def is_stale(self) -> bool:
        """Whether files of git changed since it was asked: an index, or what it ignores apart from the tree."""
        return self.rules is not None and self.rules.state() != self.rules.seen

    def renew(self) -> bool:
        """Reads the rules anew. Gives whether queries leave out other directories now."""
        before = self.terms
        self.close()
        self.begin()
        return self.terms != before

    def close(self) -> None:
        if self.rules is not None:
            self.rules.close()
        self.rules = None


def name_of(file: Any) -> str:
    return str(file["name"] if isinstance(file, dict) else file)


def is_gone_directory(file: Any) -> bool:
    return isinstance(file, dict) and file.get("type") == "d" and not file.get("exists", True)
