"""`wq explain`: what an expression means, and the program that the server makes of it."""

import argparse
import json
import sys

from wqclient.harmless import harmless
from wqprogram.command import program_of
from wqprogram.errors import Refused
from wqprogram.explainer import explained

from .errors import culprits
from .faults import OF_TERMS, of_expression
from .home import Home
from .sentences import TERMS, lines_of
from .terminal import say, show, write
from .trouble import FOUND, Trouble, WrongWords
from .values import NotJson, read
from .warnings import of_term


def explain(options: argparse.Namespace, home: Home) -> int:
    if options.terms:
        show(f"{name:<9} {takes}" for name, takes in TERMS.items())
        return FOUND
    if options.expression is None:
        raise WrongWords('explain takes an expression, such as \'["suffix","c"]\', or - for that of standard input')
    text = quoted_name(text_of(options.expression))
    value = read(text, "the expression")
    try:
        program = program_of(text.encode("utf-8"))
    except Refused as refused:
        of_terms = [of_expression(refused, value)] if refused.error[:3] in OF_TERMS else []
        raise Trouble(refused.error, *of_terms or culprits(refused.error, None, lambda *_: {})) from None
    for sentence in of_term(value, "expression"):
        say(sentence, "yellow")
    words = ["A file matches if", *map(harmless, lines_of(value, "  ")), ""]
    show([*words, "Its program, whose cost is for a name of 4,096 bytes:"])
    write(explained(program).encode("utf-8"))
    return FOUND


def text_of(word: str) -> str:
    return sys.stdin.buffer.read().decode("utf-8", "surrogateescape") if word == "-" else word


def quoted_name(text: str) -> str:
    """The text of an expression. A bare name of a term needs no quotes here."""
    try:
        read(text, "the expression")
        is_name = text in TERMS
    except NotJson:
        is_name = text.isalpha()
    return json.dumps(text) if is_name else text
