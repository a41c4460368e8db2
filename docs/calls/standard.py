"""What the calls of the standard library give that the crates use most."""

from typing import List

from types_of import BOOL, LISTS, UNKNOWN, Type, element, inside

SAME = set(
    "as_ref as_mut as_deref as_deref_mut take cloned copied filter by_ref rev skip peekable clone to_owned as_slice "
    "as_mut_slice to_vec borrow borrow_mut inspect replace step_by skip_while take_while chain fuse or or_else".split()
)
INSIDE = set("unwrap expect unwrap_or unwrap_or_default unwrap_or_else".split())
OPTIONS = set(
    "get get_mut first last first_mut last_mut pop pop_front pop_back find next next_back max min front back".split()
)
ITERATORS = set("iter iter_mut into_iter drain chunks windows values".split())


def given_by(type: Type, name: str, given: List[Type]) -> Type:
    """What a method gives for values of these types."""
    item = element(type)
    closure = next((inside(it) for it in given if it.name == "Fn"), UNKNOWN)
    if name in ("wait", "wait_while") and len(given) > 1:
        return given[1]
    if type.name == "Mutex" and name == "lock":
        return inside(type)
    if type.name in ("Option", "Result"):
        return of_option(type, name, closure)
    if type.name in LISTS or type.name == "Iter":
        if name in ITERATORS:
            return Type("Iter", (item,))
        if name in OPTIONS:
            return Type("Option", (item,))
        if name in SAME:
            return type
        return of_iterator(name, item, closure)
    return type if name == "clone" else UNKNOWN


def of_option(type: Type, name: str, closure: Type) -> Type:
    item = inside(type)
    if name in INSIDE:
        return item
    if name in ("ok", "err"):
        return Type("Option", (inside(type, int(name == "err")),))
    if name == "map":
        return Type(type.name, (closure, *type.given[1:]))
    if name == "and_then":
        return closure
    if name in ("map_or", "map_or_else"):
        return closure
    if name in ("ok_or", "ok_or_else"):
        return Type("Result", (item,))
    if name in ("iter", "into_iter"):
        return Type("Iter", (item,))
    return type if name in SAME or name == "map_err" else UNKNOWN


def of_iterator(name: str, item: Type, closure: Type) -> Type:
    if name == "map":
        return Type("Iter", (closure,))
    if name in ("filter_map", "flat_map"):
        return Type("Iter", (element(closure),))
    if name == "enumerate":
        return Type("Iter", (Type("()", (Type("usize"), item)),))
    if name in ("split_at", "split_at_mut"):
        return Type("()", (Type("[]", (item,)),) * 2)
    if name in ("split_first", "split_last"):
        return Type("Option", (Type("()", (item, Type("[]", (item,)))),))
    return BOOL if name in ("any", "all", "contains", "is_empty") else UNKNOWN
