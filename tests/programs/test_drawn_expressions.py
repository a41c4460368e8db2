"""Drawn expressions: the file that `wqasm compile` makes of each, and what the proved program makes of it."""

import base64
import json
from typing import List, Union

import built
import generate_terms
from case import Case
from replies import TREE, records_of, replies_to
from draws import Draws
from scripted import FIRST
from wqprogram.command import program_of
from wqprogram.errors import Refused
from wqprogram.program_file import written
from wqprogram.verifier import said

DRAWN = 900
FEWEST_PROGRAMS = 500
SINCE_ALL = '"since":"c:7:9:1:0","sync_timeout":0,"fields":["name"]'


class DrawnExpressions(Case):
    def test_expressions(self) -> None:
        """The program of a drawn expression may run, at the cost that `check` says, and answers as the expression. An
        expression with a fault is refused as a query with it."""
        expressions = drawn_expressions()
        made = [file_or_error(expression) for expression in expressions]
        lines: List[str] = []
        for expression, file in zip(expressions, made):
            text = base64.b64encode(file).decode() if isinstance(file, bytes) else "="
            lines += [
                json.dumps(["program-add", "p", text]),
                '["query","/r",{"program":"p",%s}]' % SINCE_ALL,
                '["query","/r",{"expression":%s,%s}]' % (expression, SINCE_ALL),
            ]
        replies = replies_to(lines)
        for number, (expression, file) in enumerate(zip(expressions, made)):
            added, by_program, by_expression = replies[3 * number : 3 * number + 3]
            name = f"compile, drawn expression {number + 1}"
            details = [expression, str(added), str(by_program), str(by_expression)]
            if isinstance(file, bytes):
                line = said(file)
                is_right = added["instructions"] == int(line.split()[1]) and by_program == by_expression
                self.same(f"check, {name}", built.check(file), built.Ended(f"{line}\n".encode(), b"", 0))
            else:
                is_right = by_expression.get("error") == file
            self.check(name, is_right, details)
        programs = sum(isinstance(file, bytes) for file in made)
        self.check(f"{DRAWN} drawn expressions: {programs} have a program", programs >= FEWEST_PROGRAMS)
        print(f"{DRAWN} drawn expressions: {programs} have a program")


def drawn_expressions() -> List[str]:
    records = records_of(TREE.read_bytes())
    world = generate_terms.World([record.name.decode() for record in records], 3, [100, 200, 300])
    return [generate_terms.expression(Draws(counter), world) for counter in range(1, DRAWN + 1)]


def file_or_error(expression: str) -> Union[bytes, str]:
    try:
        return written(program_of(expression.encode(), FIRST))
    except Refused as refused:
        return refused.error
