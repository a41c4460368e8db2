"""The directories that a command line asks about, the globs beside them, and how their roots are asked."""

import argparse
import os
import sys
from typing import Any, Callable, Dict, List, Optional, Set, Tuple

from wqclient.root_notes import MOMENT, STAYS, WINDOW

from .answering import require_answers
from .became_links import Links
from .braces import all_expanded, has_braces
from .globs import (
    LINK,
    any_of,
    are_links_told,
    expression_of,
    glob_term,
    is_executable_meant,
    is_left_out,
    left_out_names,
    user_expression,
)
from .ignore_rules import Said
from .ignored import Ignored, name_of
from .open_roots import OpenRoots
from .outside import require_below, require_none_above
from .roots import Place, front_of, is_directory, is_pattern, place_of, real_path, require_utf8
from .server import Server, Value
from .trouble import WrongWords

FIRST = "."


class UnknownWord(WrongWords):
    """A word names nothing that is there."""

    def __init__(self, word: str, more: str = "") -> None:
        part = "" if "/" in word else f"'*{word}*' for names that contain it, or "
        like = f"; did you mean {name_like(word)}?" if name_like(word) else ""
        super().__init__(f"{word} is no directory here{like}; write {part}'./{word}' for a file of that name{more}")
        self.word = word


def name_like(word: str) -> str:
    """The name of a directory that may have been meant; nothing if none is like the word."""
    import difflib  # most words are right

    above, name = os.path.split(word)
    try:
        with os.scandir(above or ".") as entries:
            names = [entry.name for entry in entries if entry.is_dir() and entry.name.isprintable()]
    except (OSError, ValueError):
        return ""
    found = difflib.get_close_matches(name, names, 1)
    return os.path.join(above, found[0]) if found else ""


class Places:
    """Directories whose roots are watched. A list of files has names as the directory was typed."""

    def __init__(self, server: Server, words: List[str], options: argparse.Namespace, purpose: str = STAYS) -> None:
        self.directories, self.words = directories_and_globs(words)
        self.globs = all_expanded(self.words)
        self.server = server
        self.options = options
        # What the roots are watched for.
        self.purpose = purpose
        watched = server.roots()
        self.places = [place_of(directory, watched) for directory in self.directories]
        if getattr(options, "absolute", False):
            self.places = [place._replace(front=front_of(os.path.abspath(place.front))) for place in self.places]
        # Looked at before a root is watched, since an option or a word may be wrong.
        require_below(self.words, self.places)
        self.expressions = [expression_of(place, self.globs, options) for place in self.places]
        # The roots that were scanned since this command began, and those that were not watched before.
        self.scanned: Set[str] = set()
        self.added: List[str] = []
        self.open = OpenRoots(server, self.roots() if purpose == WINDOW else [])
        # Those of each directory, if it is to be told that a file became one.
        self.links = [Links() for _ in self.places] if are_links_told(options) else []
        self.ignored: List[Ignored] = []
        try:
            self.watch(watched)
            self.require_right()
            self.require_known()
            self.ignored = [Ignored(self.asks(place), place, options) for place in self.places]
        except BaseException:
            self.close(sys.exc_info()[1])
            raise

    def __enter__(self) -> "Places":
        return self

    def __exit__(self, kind: object, error: Optional[BaseException], _: object) -> None:
        self.close(error)

    def close(self, error: Optional[BaseException] = None) -> None:
        """Gives back each root that was watched for this command, unless it is to stay. A command that a person ends
        waits for no reply."""
        for ignored in self.ignored:
            ignored.close()
        for root in self.added if self.purpose == MOMENT else []:
            self.server.give_back(root, is_hurried(error))
        self.open.close(self.server, self.added, is_hurried(error))

    def roots(self) -> List[str]:
        return list(dict.fromkeys(place.root for place in self.places))

    def again(self, server: Server) -> None:
        """Watches the same roots by another server."""
        self.server, self.scanned, self.added = server, set(), []
        self.watch(server.roots())
        for ignored in self.ignored:
            ignored.renew()

    def watch(self, watched: List[str]) -> None:
        for root in self.roots():
            if root not in watched:
                self.added.append(root)
            if self.server.watch(root, watched, self.purpose) or not getattr(self.options, "sync", True):
                self.scanned.add(root)

    def ask(self, place: Place, query: Dict[str, Any]) -> Value:
        """The reply to a query. The first one of a root knows all that there was when this command began."""
        found = self.server.ask("query", place.root, {**query, **self.timeout(place)})
        self.scanned.add(place.root)
        return found

    def asks(self, place: Place) -> Callable[[Dict[str, Any]], Value]:
        return lambda query: self.ask(place, query)

    def expression(self, number: int) -> Any:
        """That of a directory, without the directories in which all is ignored."""
        terms = self.ignored[number].terms
        return ["allof", self.expressions[number], ["not", any_of(terms)]] if terms else self.expressions[number]

    def timeout(self, place: Place) -> Dict[str, Any]:
        return {"sync_timeout": 0} if place.root in self.scanned else {}

    def told(self, number: int, found: Value) -> Value:
        """A list as people are shown it: without what is ignored, names as the directory was typed, and of which
        directory it is."""
        place = self.places[number]
        files = self.ignored[number].kept(found["files"])
        if getattr(self.options, "program", None) is not None:
            files = [
                file
                for file in files
                if not is_left_out(place.rest(name_of(file)), left_out_names(place, self.options))
            ]
        if is_executable_meant(self.options):
            files = [file for file in files if is_executable(file, place.root)]
        if self.links:
            files = self.links[number].told(files, found["is_fresh_instance"])
        found["files"] = [renamed(file, place.shown(name_of(file))) for file in files]
        found.update(root=place.root, below=place.below)
        return found

    def told_by_rules(
        self, number: int, before: Optional[Said], fields: List[str], since: Optional[str] = None
    ) -> List[Any]:
        """The files that rules of git shut in or out since they said something else, as people are shown them. Nothing
        if it is not known what they said. A file that came since a clock was not told, so it does not go."""
        place, ignored = self.places[number], self.ignored[number]
        if before is None or ignored.said is None or before == ignored.said:
            return []
        query = {"expression": self.expressions[number], "fields": fields}
        files = ignored.told_by_rules(before, self.ask(place, query)["files"])
        later = self.ask(place, {**query, "since": since})["files"] if since else []
        new = {file["name"] for file in later if file["new"]}
        files = [file for file in files if file["exists"] or file["name"] not in new]
        if self.links:
            files = [file for file in files if file["type"] != LINK]
        return [renamed(file, place.shown(file["name"])) for file in files]

    def require_right(self) -> None:
        """Asks about the expression that a person wrote, alone: so its error has a place in what was written."""
        text = getattr(self.options, "expression", None)
        if text is not None:
            from .questions import WRONG_FLAG  # few write one

            command = ["query", self.places[0].root, {"expression": user_expression(text), **WRONG_FLAG.refused}]
            found = self.server.reply(command)
            if not found.get("error", WRONG_FLAG.error).startswith(WRONG_FLAG.error):
                self.server.checked(command, found)

    def require_known(self) -> None:
        """A word that is neither a directory nor a pattern names files: some that are there, or that the server knows
        to be gone. Else it is a mistake."""
        for word in self.words:
            if not is_pattern(word) and not has_braces(word) and not word.startswith("./") and not self.is_known(word):
                if os.path.isabs(word):
                    raise WrongWords(f"{word} is no directory here")
                if os.path.lexists(word):
                    raise WrongWords(f"{word} is a file here, and not below {', '.join(self.directories)}")
                raise UnknownWord(word)

    def has_file(self, word: str) -> bool:
        """Whether a word is the name of a file that is there now."""
        return any(os.path.lexists(os.path.join(place.path(), word.lstrip("/"))) for place in self.places)

    def is_known(self, word: str) -> bool:
        if self.has_file(word):
            return True
        for place in self.places:
            front = [["dirname", place.below]] if place.below else []
            expression = ["allof", *front, glob_term(word, place, self.options.ignore_case)]
            # Since a second, so that the server names what is gone too.
            if self.ask(place, {"since": 0, "expression": expression, "fields": ["name"]})["files"]:
                return True
        return False


def require_words(options: argparse.Namespace) -> None:
    """Refuses directories, globs and options that are wrong whatever a server watches."""
    directories, words = directories_and_globs(options.words)
    places = [place_of(directory, []) for directory in directories]
    require_below(words, places)
    for place in places:
        expression_of(place, words, options)


def is_hurried(error: Optional[BaseException]) -> bool:
    """Whether a person ends the command, and not an error."""
    return error is not None and not isinstance(error, Exception)


def directories_and_globs(words: List[str]) -> Tuple[List[str], List[str]]:
    """The directories among the words, the current one if there is none, and the globs."""
    directories: List[str] = []
    globs: List[str] = []
    require_answers([FIRST, *words])
    for word in words:
        require_utf8(word, "a word of the command line")
        if not word:
            raise WrongWords("a word is empty, as of a variable that is not set; write . for the current directory")
        if is_directory(word):
            directories.append(word)
            continue
        if os.path.isabs(word) and not is_pattern(word) and not has_braces(word) and not os.path.lexists(word):
            real_path(word)
        if word.endswith("/"):
            raise WrongWords(f"{word} is no directory here")
        require_none_above(word)
        globs.append(word)
    return directories or [FIRST], globs


def is_executable(file: Any, root: str) -> bool:
    """Whether this user may run a file. One that is gone is told as it was asked about."""
    is_gone = isinstance(file, dict) and not file.get("exists", True)
    return is_gone or os.access(os.path.join(root, name_of(file)), os.X_OK)


def renamed(file: Any, name: str) -> Any:
    return {**file, "name": name} if isinstance(file, dict) else name
