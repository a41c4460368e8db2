"""What the sources of the crates define: types with their fields, traits, and functions with their bodies."""

import re
from collections import defaultdict
from dataclasses import dataclass, field
from pathlib import Path
from typing import Callable, Dict, Iterator, List, Optional, Set, Tuple

from tokens import Reader, is_name, tokens
from types_of import UNIT, UNKNOWN, Type, read_type

Bounds = Dict[str, List[str]]
Named = Callable[[List[str]], str]
ITEM = re.compile(
    r"^(?P<indent> *)(?:pub(?:\([a-z :]+\))? )?(?:unsafe |const )*"
    r"(?:(?P<kind>struct|enum|trait) (?P<type>\w+)|impl\b(?P<head>[^{;]*?)\s*\{|fn (?P<name>\w+))",
    re.M,
)
ALIAS = re.compile(r"^(?:pub(?:\([a-z :]+\))? )?type (\w+)(?:<[^=]*>)? = (\w+)", re.M)
USE = re.compile(r"^\s*(?:pub(?:\([a-z :]+\))? )?use (?P<tree>[^;]+);", re.M)
# What may come in the head of a function: a clause of its contract, a comment, its body, or its end without one.
HEAD = re.compile(r"\b(?:requires|ensures)\b|//[^\n]*|\{|;(?! \w+\])")
BRACE = re.compile(r'"[^"\n]*"|[{}]')


@dataclass
class File:
    crate: str
    module: Tuple[str, ...]
    text: str
    imports: Dict[str, List[str]] = field(default_factory=dict)


@dataclass
class Kind:
    """A struct or an enum, with its parameters. The variant of a struct is the empty name."""

    name: str
    parameters: List[str]
    variants: Dict[str, Dict[str, Type]]
    is_enum: bool


@dataclass
class Function:
    file: File
    name: str
    # The type that it is of, and the trait, if it has one.
    owner: Type
    trait: str
    bounds: Bounds
    parameters: List[Tuple[List[str], Type]]
    returns: Type
    body: List[str]

    @property
    def crate(self) -> str:
        return self.file.crate

    @property
    def shown(self) -> str:
        """Its name as a page shows it."""
        whole = self.trait if self.owner.name == "$Self" else self.owner.name
        owner = whole.rpartition("::")[2] if self.owner != UNKNOWN else ""
        return f"{owner}::{self.name}" if owner else self.name

    @property
    def is_law(self) -> bool:
        """Whether only the prover reads it: what it says of the definitions is its contract."""
        return not self.body or self.file.module[-1:] == ("law",)

    def __hash__(self) -> int:
        return id(self)

    def __eq__(self, other: object) -> bool:
        return self is other


class Items:
    """All that some crates define. Each crate has the names of the crates that it may use."""

    def __init__(self, top: Path, below: Dict[str, Set[str]]) -> None:
        self.below = below
        self.files = [file for crate in below for file in files_of(top, crate)]
        self.kinds: Dict[str, Kind] = {}
        self.traits: Dict[str, List[str]] = {}
        self.homes: Dict[str, List[str]] = defaultdict(list)
        self.functions: List[Function] = []
        self.named: Dict[str, List[Function]] = defaultdict(list)
        self.methods: Dict[Tuple[str, str], List[Function]] = defaultdict(list)
        # What a trait declares, and the traits of each type.
        self.declared: Dict[Tuple[str, str], Function] = {}
        self.traits_of: Dict[str, Set[str]] = defaultdict(set)
        self.aliases: Dict[str, str] = {}
        for file in self.files:
            for found in ITEM.finditer(file.text):
                if found["kind"]:
                    self.homes[found["type"]].append(file.crate)
        for file in self.files:
            for alias, name in ALIAS.findall(file.text):
                self.homes[alias].append(file.crate)
                self.aliases[f"{file.crate}::{alias}"] = self.whole(file, name)
        for file in self.files:
            self.read(file)
        self.short_traits = {it.rpartition("::")[2] for it in self.traits}
        for function in self.functions:
            self.named[function.name].append(function)
            if function.owner != UNKNOWN:
                self.methods[function.owner.name, function.name].append(function)
                self.traits_of[function.owner.name].add(function.trait)
            if function.owner.name == "$Self":
                self.declared[function.trait, function.name] = function

    def default(self, type: str, name: str) -> Optional[Function]:
        """The method of this name that a type has from one of its traits, and does not define."""
        for trait in self.traits_of.get(type, ()):
            found = self.declared.get((trait, name))
            if found is not None and found.body:
                return found
        return None

    def with_above(self, traits: List[str]) -> List[str]:
        """Traits, and those that they ask for."""
        return [*traits, *(it for trait in traits for it in self.with_above(self.traits.get(trait, [])))]

    def is_method(self, name: str) -> bool:
        return name in self.named and any(it.owner != UNKNOWN for it in self.named[name])

    def function_at(self, caller: Function, path: List[str], owner: str) -> Optional[Function]:
        """The function that a path names in the body of a caller, where the path is perhaps of a type."""
        of_type = self.methods.get((owner, path[-1]))
        if of_type:
            return of_type[0]
        whole = [*caller.file.imports.get(path[0], path[:1]), *path[1:]]
        free = [it for it in self.named.get(whole[-1], []) if it.owner == UNKNOWN]
        if len(whole) == 1:
            return next((it for it in free if it.file is caller.file), None)
        crate = caller.crate if whole[0] in ("crate", "self", "super") else whole[0]
        crate = crate if crate in self.below else caller.crate
        there = [it for it in free if it.crate == crate]
        there.sort(key=lambda it: -len(set(it.file.module) & set(whole)))
        return there[0] if there else None

    def whole(self, file: File, name: str) -> str:
        """The name of a type or a trait with its crate, or alone if it is of no crate here."""
        homes = self.homes.get(name, [])
        if file.crate in homes:
            return f"{file.crate}::{name}"
        known = [home for home in homes if home in self.below[file.crate]]
        path = file.imports.get(name, [])
        if not known or path and path[0] in ("std", "core", "serde_json"):
            return name
        return f"{path[0] if path and path[0] in known else known[0]}::{name}"

    def read(self, file: File) -> None:
        owner, trait, ends = UNKNOWN, "", 0
        bounds: Bounds = {}
        for found in ITEM.finditer(file.text):
            if found["kind"]:
                owner, trait, bounds, ends = self.read_kind(file, found)
            elif found["head"] is not None:
                owner, trait, bounds = self.read_head(file, found["head"])
                ends = end_of(file.text, found.end(), found["indent"])
            else:
                if found.start() >= ends:
                    owner, trait, bounds = UNKNOWN, "", {}
                self.functions.append(self.function(file, found, owner, trait, bounds))

    def read_kind(self, file: File, found: "re.Match[str]") -> Tuple[Type, str, Bounds, int]:
        """Reads a type or a trait, and gives what its functions are of."""
        name = f"{file.crate}::{found['type']}"
        end = end_of(file.text, found.end(), found["indent"])
        reader = Reader(tokens(file.text[found.end() : end]))
        bounds = self.read_bounds(file, reader)
        while reader.peek() not in ("{", "(", ";", ""):
            reader.next()
        if found["kind"] == "trait":
            above = re.match(r"[^:{]*:([^{]*)\{", file.text[found.end() : end].split("\n    ")[0])
            words = re.findall(r"\b[A-Z]\w*", above[1]) if above else []
            self.traits[name] = [self.whole(file, it) for it in words]
            return Type("$Self"), name, {**bounds, "$Self": [name]}, end
        named = lambda path: self.name_of(file, path, list(bounds), UNKNOWN)
        variants = read_variants(reader, named) if found["kind"] == "enum" else {"": read_fields(reader, named)}
        self.kinds[name] = Kind(name, list(bounds), variants, found["kind"] == "enum")
        return UNKNOWN, "", {}, 0

    def read_head(self, file: File, head: str) -> Tuple[Type, str, Bounds]:
        """What an impl is of: its type, its trait, and its parameters."""
        main, _, where = head.partition("\nwhere")
        reader = Reader(tokens(main))
        bounds = self.read_bounds(file, reader)
        add_where(bounds, where, lambda word: self.whole(file, word))
        named = lambda path: self.name_of(file, path, list(bounds), UNKNOWN)
        first = read_type(reader, named)
        if reader.take("for"):
            return read_type(reader, named), first.name, bounds
        return first, "", bounds

    def read_bounds(self, file: File, reader: Reader) -> Bounds:
        """The parameters between `<` and `>`, each with its traits."""
        bounds: Bounds = {}
        if not reader.take("<"):
            return bounds
        while reader.peek() and not reader.take(">"):
            name = reader.next()
            if name == "const":
                name = reader.next()
            words: List[str] = []
            while reader.peek() not in (",", ">", ""):
                if reader.peek() == "<":
                    reader.skip_angles()
                else:
                    words.append(reader.next())
            reader.take(",")
            if not name.startswith("'"):
                bounds[f"${name}"] = [self.whole(file, it) for it in words if it[:1].isupper()]
        return bounds

    def name_of(self, file: File, path: List[str], parameters: List[str], owner: Type) -> str:
        name = path[-1]
        if path[0] == "Self":
            return owner.name if len(path) == 1 and owner != UNKNOWN else "?"
        if f"${path[0]}" in parameters:
            return f"${name}" if len(path) == 1 else "?"
        whole = self.whole(file, name)
        return self.aliases.get(whole, whole)

    def function(self, file: File, found: "re.Match[str]", owner: Type, trait: str, outer: Bounds) -> Function:
        signature, begins = signature_of(file.text, found.end())
        signature, _, where = signature.partition("where")
        body = tokens(body_of(file.text, begins, found["indent"])) if begins else []
        reader = Reader(tokens(signature))
        bounds = {**outer, **self.read_bounds(file, reader)}
        add_where(bounds, where, lambda word: self.whole(file, word))

        def named(path: List[str]) -> str:
            return self.name_of(file, path, list(bounds), owner)

        parameters = read_parameters(reader, named, owner)
        returns = read_type(reader, named) if reader.take("->") else UNIT
        return Function(file, found["name"], owner, trait, bounds, parameters, returns, body)


def add_where(bounds: Bounds, where: str, whole: Callable[[str], str]) -> None:
    """Adds the bounds of a `where` clause."""
    for name, words in re.findall(r"(\w+): ([^,]+)", where):
        bounds.setdefault(f"${name}", []).extend(whole(it) for it in re.findall(r"\b[A-Z]\w*", words))


def read_parameters(reader: Reader, named: Named, owner: Type) -> List[Tuple[List[str], Type]]:
    """The pattern and the type of each parameter."""
    found = []
    reader.need("(")
    while reader.peek() and not reader.take(")"):
        pattern = []
        while reader.peek() not in (":", ",", ")", ""):
            pattern.append(reader.next())
        if reader.take(":"):
            found.append((pattern, read_type(reader, named)))
        else:
            found.append((["self"], owner))
        reader.take(",")
    return found


def read_fields(reader: Reader, named: Named) -> Dict[str, Type]:
    """The fields of a struct or of a variant, by their names or by their numbers."""
    found: Dict[str, Type] = {}
    closing = "}" if reader.take("{") else ")" if reader.take("(") else ""
    while closing and reader.peek() and not reader.take(closing):
        if reader.take("#"):
            reader.skip()
        elif reader.take("pub"):
            if reader.peek() == "(":
                reader.skip()
        elif reader.take("ghost"):
            while reader.peek() not in (";", ""):
                reader.skip()
            reader.next()
        else:
            name = reader.next() if closing == "}" else str(len(found))
            reader.take(":")
            found[name] = read_type(reader, named)
            reader.take(",")
    return found


def read_variants(reader: Reader, named: Named) -> Dict[str, Dict[str, Type]]:
    found: Dict[str, Dict[str, Type]] = {}
    reader.take("{")
    while reader.peek() and not reader.take("}"):
        if reader.take("#"):
            reader.skip()
        else:
            name = reader.next()
            found[name] = read_fields(reader, named)
            while reader.peek() not in (",", "}", ""):
                reader.skip()
            reader.take(",")
    return found


def files_of(top: Path, crate: str) -> Iterator[File]:
    source = top / "crates" / crate / "src"
    for path in sorted(source.rglob("*.rt")):
        module = tuple(path.relative_to(source).with_suffix("").parts)
        file = File(crate, () if module in (("lib",), ("main",)) else module, path.read_text(encoding="utf-8"))
        for found in USE.finditer(file.text):
            if not file.text[: found.start()].endswith("ghost "):
                file.imports.update(imports_in(Reader(tokens(found["tree"])), []))
        yield file


def imports_in(reader: Reader, above: List[str]) -> Iterator[Tuple[str, List[str]]]:
    """The names of a tree of imports, each with its path."""
    path = list(above)
    while is_name(reader.peek()):
        path.append(reader.next())
        if not reader.take("::"):
            break
    if reader.take("{"):
        while reader.peek() and not reader.take("}"):
            yield from imports_in(reader, path)
            reader.take(",")
    elif path[len(above) :]:
        path = path[:-1] if path[-1] == "self" else path
        yield (reader.next() if reader.take("as") else path[-1]), path
    else:
        reader.next()


def end_of(text: str, begins: int, indent: str) -> int:
    """Where the item ends that begins there: at its brace, or at the end of its line."""
    line = text.find("\n", begins)
    if text[begins:line].rstrip().endswith((";", "{}")):
        return line
    end = re.compile(rf"^{indent}\}}|^{indent}\);", re.M).search(text, begins)
    return end.end() if end else len(text)


def signature_of(text: str, begins: int) -> Tuple[str, int]:
    """The signature that begins there, and where its body begins, or 0 if it has none. The clauses of the contract,
    which only the prover reads, are between them."""
    ends, place = 0, begins
    while True:
        found = HEAD.search(text, place)
        if found is None:
            return text[begins:], 0
        if not found[0].startswith("//"):
            ends = ends or found.start()
        if found[0] in ("{", ";"):
            return text[begins:ends], found.end() if found[0] == "{" else 0
        place = found.end() if found[0].startswith("//") else after_braces(text, text.index("{", found.end()))


def after_braces(text: str, begins: int) -> int:
    """Where the braces end that begin there."""
    depth = 0
    for found in BRACE.finditer(text, begins):
        depth += {"{": 1, "}": -1}.get(found[0], 0)
        if depth == 0:
            return found.end()
    return len(text)


def body_of(text: str, begins: int, indent: str) -> str:
    """The body that begins there: it ends in its line, or at a brace that is as far from the left as its function."""
    line = text[begins : text.find("\n", begins)]
    if line.endswith("}"):
        return line[:-1]
    closing = re.compile(rf"^{indent}\}}", re.M).search(text, begins)
    return text[begins : closing.start() if closing else len(text)]
