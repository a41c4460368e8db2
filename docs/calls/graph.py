"""Which functions may run once some others do."""

from typing import AbstractSet, Dict, FrozenSet, Iterable, Iterator, List, NamedTuple, Set, Tuple

from bodies import Body
from found import Call, Guard, Made
from items import Function, Items
from types_of import Type

# A function with what its parameters are bound to.
Instance = Tuple[Function, Tuple[Tuple[str, Type], ...]]
# Methods that lists and texts of the standard library have too.
COMMON = {"push", "as_str", "as_bytes", "as_slice", "clone", "len", "is_empty", "first", "next", "take", "get"}
# The only variants that these enums have in a run.
Facts = Dict[str, FrozenSet[str]]


class Edge(NamedTuple):
    """A call of one function by another: by a trait, or by its own name."""

    caller: Function
    callee: Function
    trait: str


class Graph:
    """The calls of all functions, which are read when they are first asked for."""

    def __init__(self, items: Items) -> None:
        self.items = items
        self.bodies: Dict[Instance, Body] = {}

    def body(self, instance: Instance) -> Body:
        if instance not in self.bodies:
            self.bodies[instance] = Body(self.items, instance[0], dict(instance[1]))
        return self.bodies[instance]

    def targets(self, caller: Function, call: Call, types: AbstractSet[str]) -> Iterator[Instance]:
        """What a call may run: by a trait, the function of each of these types. If the type of a value is not known, it
        is the method of this name, if the crates that the caller uses have only one."""
        trait, name = call.virtual
        methods = self.items.named.get(name, [])
        if call.function is not None:
            yield call.function, call.bound
        elif trait != "?":
            yield from ((it, ()) for it in methods if it.trait == trait and (it.owner.name in types or is_default(it)))
        elif name not in COMMON:
            known = {caller.crate, *self.items.below[caller.crate]}
            found = [it for it in methods if it.owner.name in types and it.crate in known]
            yield from ((it, ()) for it in found if len(found) == 1)


def is_default(function: Function) -> bool:
    """Whether it is the body that a trait has for types that have none."""
    return function.owner.name == "$Self" and bool(function.body)


class Run:
    """What may run from some functions on, in the order in which it is found."""

    def __init__(
        self,
        graph: Graph,
        roots: Iterable[Instance],
        facts: Facts,
        types: AbstractSet[str] = frozenset(),
        made: AbstractSet[Made] = frozenset(),
    ) -> None:
        self.graph, self.facts, self.types = graph, facts, types
        self.made: Set[Made] = set(made)
        self.instances: Dict[Instance, None] = dict.fromkeys(roots)
        self.edges: Dict[Edge, None] = {}
        self.unsure: Set[Tuple[Function, str]] = set()
        self.waiting: List[Tuple[Instance, Call]] = []
        self.unmade: List[Tuple[Tuple[Guard, ...], Made]] = []
        self.unread = list(self.instances)
        while self.unread:
            for instance in self.unread:
                body = graph.body(instance)
                self.waiting += [(instance, call) for call in body.calls]
                self.unmade += body.makes
            self.unread = []
            self.make()
            self.follow()

    @property
    def functions(self) -> List[Function]:
        return list(dict.fromkeys(function for function, _ in self.instances))

    def make(self) -> None:
        """Adds the variants that are made by now, until no more are."""
        count = -1
        while count != len(self.made):
            count = len(self.made)
            self.made.update(made for guards, made in self.unmade if self.hold(guards))
            self.unmade = [it for it in self.unmade if not self.hold(it[0])]

    def follow(self) -> None:
        """Follows the calls that may be made by now. The others wait."""
        types = self.types | {it for it, _ in self.made}
        waiting, self.waiting = self.waiting, []
        for instance, call in waiting:
            if not self.hold(call.guards):
                self.waiting.append((instance, call))
                continue
            targets = list(self.graph.targets(instance[0], call, types))
            if call.virtual[0] == "?" and not targets:
                self.unsure.add((instance[0], call.virtual[1]))
            for target in targets:
                self.edges.setdefault(Edge(instance[0], target[0], call.virtual[0]))
                if target not in self.instances:
                    self.instances[target] = None
                    self.unread.append(target)

    def hold(self, guards: Tuple[Guard, ...]) -> bool:
        return all(any(all(map(self.may_be, needs)) for needs in guard) for guard in guards)

    def may_be(self, made: Made) -> bool:
        kind, variant = made
        name = kind.rpartition("::")[2]
        if name in self.facts:
            return variant in self.facts[name]
        return "::" not in kind or not variant or made in self.made
