"""Files that became links, where files are asked for and links are not: they are gone. The server says which kind a
file has now, so the names of links are known from what it said before."""

from typing import Any, Dict, Iterator, List, Optional, Set

from .globs import FILE, LINK


class Links:
    """The names of the links that are known below a directory; none if it is not known which there were."""

    def __init__(self, names: Optional[Set[str]] = None) -> None:
        self.names = names

    def told(self, files: List[Dict[str, Any]], is_fresh: bool) -> List[Dict[str, Any]]:
        """A list with links, as one without them tells it. A fresh one has all links that there are."""
        if is_fresh:
            self.names = {file["name"] for file in files if file["type"] == LINK}
            return [file for file in files if file["type"] != LINK]
        return [told for file in files for told in self.one_told(file)]

    def one_told(self, file: Dict[str, Any]) -> Iterator[Dict[str, Any]]:
        name, was_link = file["name"], file["name"] in (self.names or ())
        if file["type"] != LINK:
            if was_link and self.names:
                self.names.discard(name)
            yield {**file, "new": True} if was_link else file
            return
        if self.names is not None:
            (self.names.add if file["exists"] else self.names.discard)(name)
        if not file["new"] and not was_link:
            yield {**file, "exists": False, "type": FILE}
