"""The commands of docs/TUTORIAL.md, TROUBLESHOOTING.md, EMBEDDING.md and PLACES.md and of README's picture, which write
what the pages show. Each block has a mark, a comment that a reader does not see; terminal.py says which there are."""

import shutil
import subprocess

import built
from case import Case
from pages import elements_of
from terminal import Terminal

# This mark has no block.
INTERRUPTS = "run: interrupts "


class Pages(Case):
    def test_tutorial(self) -> None:
        self.check_page("TUTORIAL.md")

    def test_troubleshooting(self) -> None:
        self.check_page("TROUBLESHOOTING.md")

    def test_embedding(self) -> None:
        """Without Node the part in JavaScript, which is the last with commands, is left out."""
        self.check_page("EMBEDDING.md", until="" if shutil.which("node") else "\n## In JavaScript\n")

    def test_places(self) -> None:
        self.check_page("PLACES.md")

    def test_picture(self) -> None:
        self.check_page("terminal/session.md")
        drawn = subprocess.run([built.TOP / "docs" / "terminal" / "draw"], stdout=subprocess.PIPE, check=False)
        self.check("docs/terminal.svg", drawn.returncode == 0, drawn.stdout.decode().splitlines())

    def check_page(self, name: str, until: str = "") -> None:
        text = (built.TOP / "docs" / name).read_text(encoding="utf-8")
        if until:
            text = text.partition(until)[0]
        with Terminal() as terminal:
            for element in elements_of(text):
                is_run = element.mark.startswith(INTERRUPTS) if element.kind == "comment" else element.kind == "block"
                for done in terminal.run(element) if is_run else ():
                    where = f"docs/{name}, line {element.number}: {done.name}"
                    self.check(where, done.is_right, [f"expected: {done.expected!r}", f"written:  {done.written!r}"])
