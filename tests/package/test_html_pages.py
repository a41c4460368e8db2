"""The pages as HTML: each page of the sources is there, each link leads to a page and a heading that are there, and the
search knows each page. Each has what readers need who go by keys alone; what they see was looked at in a browser."""

import json
import re
import subprocess
from pathlib import Path
from typing import Dict, Iterator, Set
from urllib.parse import unquote

import built
from case import Case, needs

TARGET = re.compile(r'(?:href|src)="([^"]+)"')
ID = re.compile(r' id="([^"]+)"')
SKIP = re.compile(r'<a href="#([^"]+)" class="md-skip"')
STYLE = re.compile(r'rel="stylesheet" href="([^"]*keys\.css)"')
SCRIPT = re.compile(r'<script src="([^"]*keys\.js)"')
# What the style says of keys: the list of pages opens for the focus, a closed search takes none, and links show it.
RULES = (
    ".md-sidebar--primary:focus-within {",
    ".md-nav__toggle ~ .md-nav:focus-within {",
    "[data-md-toggle=search]:not(:checked) ~ .md-header .md-search__output { visibility: hidden",
    ".md-nav__link.focus-visible { outline: ",
    ".md-search-result__link.focus-visible { outline: ",
    ".md-option.focus-visible + label {\n  outline: ",
)
SOURCES = ("README.md", "CHANGELOG.md", "CONTRIBUTING.md", "docs/*.md", "docs/crates/*.md", "*/README.md")


class HtmlPages(Case):
    @needs("mkdocs")
    def test_html(self) -> None:
        site = (self.room / "html").resolve()
        ended = subprocess.run([str(built.TOP / "docs" / "html"), str(site)], stdout=subprocess.PIPE)
        self.check("the pages are written", ended.returncode == 0)
        pages = {path: set(ID.findall(path.read_text("utf-8"))) for path in site.rglob("*.html")}
        self.check("README is the first", site / "index.html" in pages)
        sources = {path.relative_to(built.TOP) for given in SOURCES for path in built.TOP.glob(given)}
        absent = [str(path) for path in sources if site / name_of(path) not in pages]
        self.check("each page of the sources is there", not absent, absent)
        wrong = [f"{page.name}: {link}" for page in pages if page.name != "404.html" for link in broken(page, pages)]
        self.check("each link of the pages", not wrong, wrong)
        found = json.loads((site / "search" / "search_index.json").read_text("utf-8"))["docs"]
        known = {row["location"].partition("#")[0] for row in found}
        unknown = [str(path) for path in sources if str(name_of(path)) not in known]
        self.check("the search knows each page", not unknown, unknown)
        self.keys(site, pages)

    def keys(self, site: Path, pages: Dict[Path, Set[str]]) -> None:
        """Each page leads past the list of pages, and has the style and the script for keys."""
        without = [page.name for page in pages if page.name != "404.html" and not is_for_keys(page, pages[page])]
        self.check("each page is for keys", not without, without)
        style = (site / "keys.css").read_text("utf-8")
        self.same("rules of the style", [rule for rule in RULES if rule not in style], [])
        themes = "".join(path.read_text("utf-8") for path in site.glob("assets/javascripts/bundle.*.js"))
        self.check("code that scrolls takes the focus", 'setAttribute("tabindex","0")' in themes)
        self.check("no rule takes an outline away", "outline: none" not in style and "outline: 0" not in style)


def is_for_keys(page: Path, ids: Set[str]) -> bool:
    text = page.read_text("utf-8")
    skip, style, script = SKIP.search(text), STYLE.search(text), SCRIPT.search(text)
    if skip is None or style is None or script is None:
        return False
    return unquote(skip[1]) in ids and (page.parent / style[1]).is_file() and (page.parent / script[1]).is_file()


def name_of(source: Path) -> Path:
    return source.with_name("index.html") if source.name == "README.md" else source.with_suffix(".html")


def broken(page: Path, pages: Dict[Path, Set[str]]) -> Iterator[str]:
    """The links of a page that lead nowhere. What begins with two underscores is the theme's own."""
    for link in TARGET.findall(page.read_text("utf-8")):
        if "://" in link or link.startswith(("data:", "mailto:")):
            continue
        file, _, anchor = unquote(link).partition("#")
        target = (page.parent / file).resolve() if file else page
        target = target / "index.html" if target.is_dir() else target
        is_own = anchor.startswith("__") or anchor == ""
        if not target.exists() or not is_own and anchor not in pages.get(target, set()):
            yield link
