"""A client's knowledge of the files of a root, by the lists that it got."""

from typing import Any, Dict, List, Set, Tuple

# What else a list may have of a file.
FACTS = ("type", "size", "mtime_ms")


class Picture:
    """The files that exist, with what else the lists have of each."""

    def __init__(self) -> None:
        self.known: Dict[str, Tuple[Any, ...]] = {}

    def take(self, files: List[Dict[str, Any]], is_fresh: bool = False) -> None:
        """Takes the changes of a list. One that is fresh has all files."""
        known = {} if is_fresh else dict(self.known)
        for file in files:
            known.pop(file["name"], None)
            if file["exists"]:
                known[file["name"]] = tuple(file[fact] for fact in FACTS if fact in file)
        self.known = known

    def names(self) -> Set[str]:
        return set(self.known)
