"""Drawn expressions that are wrong: the server refuses them for the term that `read_term` names, and none before it."""

import json
from typing import Any, List, Tuple

import generate_terms
from case import Beside
from client import Client
from draws import Draws
from scene import Scene
from wq.faults import refusal
from wq.questions import WRONG_FLAG
from wqprogram.errors import TOO_DEEP
from wqprogram.limits import MAX_TERM_DEPTH

DRAWN = 1_500
FEWEST_WRONG = 300
WORLD = generate_terms.World(["Makefile", "src", "src/a.c", "src/deep/c.h"], 3, [100, 200, 300])


class DrawnPlaces(Beside):
    def test_drawn_places(self) -> None:
        with Scene(self.room) as scene, scene.client() as client:
            root = str(scene.tree)
            client.ask("watch", root)
            wrong = 0
            for number in range(1, DRAWN + 1):
                wrong += self.is_wrong(f"drawn expression {number}", drawn(Draws(number)), client, root)
            self.check("wrong ones among drawn expressions", wrong >= FEWEST_WRONG, [str(wrong)])

    def is_wrong(self, name: str, expression: Any, client: Client, root: str) -> bool:
        """Whether an expression is wrong, by the server as by `read_term`. If so, what is before the faulty term is
        right, and that term alone is wrong, unless it is too deep inside others."""
        refused, error = refusal(expression), error_of(client, root, expression)
        details = [json.dumps(expression), f"read: {refused}", f"server: {error}"]
        self.check(name, (refused.error if refused else "") == error, details)
        if refused is None:
            return False
        before = error_of(client, root, front(expression, refused.place))
        details += [f"place: {refused.place}", f"before: {before}"]
        self.check(f"what is before the fault in {name}", before == "", details)
        if error == TOO_DEEP:
            self.check(f"the depth in {name}", len(refused.place) == MAX_TERM_DEPTH, details)
        else:
            found = error_of(client, root, part_of(expression, refused.place))
            self.check(f"the faulty term of {name}", found == error, [*details, f"found: {found}"])
        return True

    def test_deepest(self) -> None:
        """Terms that are too deep inside one another: it is the first of these."""
        for text, place in (
            ('["not",' * 64 + '"exists"' + "]" * 64, (1,) * 64),
            ('["not",' * 63 + '"exists"' + "]" * 63, None),
            ('["allof","true",' * 63 + '["not",["x"]]' + "]" * 63, (*(2,) * 63, 1)),
        ):
            refused = refusal(json.loads(text))
            self.same(f"the place in {text[:20]}..", refused.place if refused else None, place)


def drawn(draws: Draws) -> Any:
    """Several expressions in one, of which some are wrong."""
    parts = [json.loads(generate_terms.expression(draws, WORLD)) for _ in range(draws.pick([1, 1, 3, 9]))]
    return parts[0] if len(parts) == 1 else ["anyof", *parts[:4], ["allof", *parts[4:]]]


def error_of(client: Client, root: str, expression: Any) -> str:
    """The error of an expression alone, by the server. It refuses the query for another key if there is none."""
    found = str(client.ask("query", root, {"expression": expression, **WRONG_FLAG.refused})["error"])
    return "" if found.startswith(WRONG_FLAG.error) else found


def front(term: Any, place: Tuple[int, ...]) -> Any:
    """An expression up to the term at a place: that one and what comes after it are left out."""
    if not place or term[0] == "not" and len(place) == 1:
        return "true"
    number, *rest = place
    inner: List[Any] = [front(term[number], tuple(rest))] if rest else []
    return [term[0], *term[1:number], *inner]


def part_of(term: Any, place: Tuple[int, ...]) -> Any:
    for number in place:
        term = term[number]
    return term
