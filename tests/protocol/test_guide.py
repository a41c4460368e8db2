"""The examples of the pages. Each block and each table has a mark that says how it is run, or why it is not;
document.py says which marks there are. A block or table without one fails."""

import built
from case import Case
from document import Page, errors_in, read_page
from examples import RULES, Example
from pages import Element

# A page may use the words of an error whose number another page gives.
PAGES = ["PROTOCOL.md", "REFERENCE.md", "SCRIPTS.md", "PROGRAMS.md", "WQASM.md", "SECURITY.md"]


class Pages(Case):
    def test_protocol(self) -> None:
        self.run_page("PROTOCOL.md")

    def test_reference(self) -> None:
        self.run_page("REFERENCE.md")

    def test_scripts(self) -> None:
        self.run_page("SCRIPTS.md")

    def test_programs(self) -> None:
        self.run_page("PROGRAMS.md")

    def test_wqasm(self) -> None:
        self.run_page("WQASM.md")

    def test_security(self) -> None:
        self.run_page("SECURITY.md")

    def run_page(self, name: str) -> None:
        page = read_page(text_of(name))._replace(errors=errors_in("\n".join(map(text_of, PAGES))))
        with page.room:
            for element in page.elements:
                self.run_element(f"docs/{name}, line {element.number}", element, page)

    def run_element(self, where: str, element: Element, page: Page) -> None:
        if element.mark.startswith("not run: "):
            return
        rule = next((rule for start, rule in RULES if element.mark.startswith(f"run: {start}")), None)
        if rule is None:
            self.check(where, False, [f"this {element.kind} has no mark that says how it is run: {element.mark!r}"])
            return
        examples = list(rule(element, page))
        if not examples:
            self.check(where, element.mark.startswith(("run: script ", "run: file ")), ["no example was found"])
        for example in examples:
            self.run_example(where, example)

    def run_example(self, where: str, example: Example) -> None:
        if example.written is not None:
            details = [f"expected: {example.expected}", f"written:  {example.written}"]
            self.check(f"{where}: {example.name[:200]}", example.is_right(example.written), details)
            return
        ended = built.replay(example.script.encode()) if example.file is None else built.check(example.file)
        output = ended.output.decode()
        status = 1 if example.errors else 3 if output.startswith("refused ") else 0
        is_right = ended.errors == example.errors.encode() and ended.status == status and example.is_right(output)
        expected = f"{example.expected}{example.errors}"
        details = [f"expected: {expected}", f"written:  {output}{built.excerpt(ended.errors)}"]
        self.check(f"{where}: {example.name[:200]}", is_right, details)


def text_of(page: str) -> str:
    return (built.TOP / "docs" / page).read_text(encoding="utf-8")
