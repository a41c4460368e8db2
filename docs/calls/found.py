"""What is found in a body: calls, and what has to be so that they are made."""

from typing import FrozenSet, NamedTuple, Optional, Tuple

from items import Function
from types_of import Type

# A variant of an enum, or a struct with the empty name.
Made = Tuple[str, str]
# A pattern holds if of one of these sets all variants are made.
Guard = Tuple[FrozenSet[Made], ...]
# What holds if something failed.
FAULT: Guard = (frozenset([("Result", "Err")]),)


class Call(NamedTuple):
    """A call of a function with what its parameters are bound to, or of whatever is a trait's method of this name."""

    guards: Tuple[Guard, ...]
    function: Optional[Function]
    bound: Tuple[Tuple[str, Type], ...]
    virtual: Tuple[str, str]
