"""Types as the graph of calls needs them: a name and the types that it is given. References and boxes are left out."""

from typing import Callable, Dict, List, NamedTuple, Tuple

from tokens import Reader, is_name


class Type(NamedTuple):
    """A type of the crates is named `crate::Name`, a parameter `$Name`, and a tuple or a slice by its brackets."""

    name: str
    given: Tuple["Type", ...] = ()


UNKNOWN = Type("?")
UNIT = Type("()")
BOOL = Type("bool")
# A value of these is used as the value inside.
TRANSPARENT = {"Box", "Arc", "Rc", "ManuallyDrop", "MutexGuard", "CachePadded"}
# How deep types are kept, so that there are finitely many.
DEEPEST = 4


def inside(type: Type, place: int = 0) -> Type:
    return type.given[place] if place < len(type.given) else UNKNOWN


def element(type: Type) -> Type:
    """The type of what a list, an option or an iterator has."""
    return inside(type) if type.name in LISTS or type.name in ("Option", "Result", "Iter") else UNKNOWN


LISTS = {"[]", "Vec", "VecDeque", "Table"}


def read_type(reader: Reader, named: Callable[[List[str]], str]) -> Type:
    """Reads a type. `named` gives the whole name of a path."""
    while reader.take("&", "&&", "*", "mut", "const", "dyn") or reader.peek().startswith("'"):
        if reader.peek().startswith("'"):
            reader.next()
    if reader.take("["):
        item = read_type(reader, named)
        while not reader.take("]") and reader.peek():
            reader.skip()
        return Type("[]", (item,))
    if reader.take("("):
        items = []
        while not reader.take(")") and reader.peek():
            items.append(read_type(reader, named))
            reader.take(",")
        return Type("()", tuple(items))
    if reader.take("impl"):
        return read_bound(reader, named)
    return read_path(reader, named)


def read_bound(reader: Reader, named: Callable[[List[str]], str]) -> Type:
    """What `impl` says: an iterator, a function, or any type with the first bound."""
    found = read_path(reader, named)
    while reader.take("+"):
        read_type(reader, named)
    return found if found.name in ("Fn", "Iter") else any_of([found.name])


def read_path(reader: Reader, named: Callable[[List[str]], str]) -> Type:
    path: List[str] = []
    given: List[Type] = []
    while is_name(reader.peek()):
        path.append(reader.next())
        if reader.peek() == "<":
            given = read_given(reader, named)
        if reader.peek() == "(" and path[-1] in ("fn", "Fn", "FnMut", "FnOnce"):
            reader.skip()
            return Type("Fn", (read_type(reader, named) if reader.take("->") else UNIT,))
        if not reader.take("::"):
            break
    if not path:
        reader.next()
        return UNKNOWN
    name = named(path)
    if name in TRANSPARENT:
        return given[0] if given else UNKNOWN
    return Type("Iter" if name.endswith("Iterator") and "::" not in name else name, tuple(given))


def read_given(reader: Reader, named: Callable[[List[str]], str]) -> List[Type]:
    """The types between `<` and `>`, without lifetimes."""
    reader.need("<")
    given = []
    while reader.peek() and not reader.take(">"):
        if reader.peek().startswith("'"):
            reader.next()
        else:
            if is_name(reader.peek()) and reader.peek(1) == "=":
                reader.place += 2
            given.append(read_type(reader, named))
        while reader.take("+"):
            read_type(reader, named)
        reader.take(",")
    return given


def put(type: Type, bound: Dict[str, Type], depth: int = 0) -> Type:
    """The type with what its parameters are bound to."""
    if type.name in bound:
        return bound[type.name]
    if depth >= DEEPEST:
        return Type(type.name)
    return Type(type.name, tuple(put(it, bound, depth + 1) for it in type.given))


def bind(pattern: Type, type: Type, bound: Dict[str, Type]) -> None:
    """Binds the parameters of a pattern so that it is the type."""
    if pattern.name.startswith("$"):
        if not is_open(type):
            bound.setdefault(pattern.name, type)
    elif pattern.name == type.name:
        for one, other in zip(pattern.given, type.given):
            bind(one, other, bound)


def is_open(type: Type) -> bool:
    """Whether little is known of a type."""
    return type.name.startswith("$") or type == UNKNOWN


def any_of(traits: List[str]) -> Type:
    """Any type that has these traits."""
    return Type(f"$impl {' '.join(traits)}")


def traits_of(type: Type) -> List[str]:
    return type.name.split()[1:]
