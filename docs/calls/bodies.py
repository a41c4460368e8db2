"""What a function calls and makes, by a reading of its body with the types of what it names."""

from typing import Callable, Dict, FrozenSet, List, Optional, Tuple

from found import FAULT, Call, Guard, Made
from items import Function, Items, Kind
from standard import given_by
from tokens import Reader, Unread, is_name
from types_of import BOOL, UNIT, UNKNOWN, Type
from types_of import any_of, bind, element, inside, is_open, put, read_given, read_type, traits_of

Bound = Dict[str, Type]
BINARY = set("+ - * / % ^ & | < > && || == != <= >= += -= *= /= %= ^= &= |= = .. ..= as".split())
COMPARING = {"<", ">", "&&", "||", "==", "!=", "<=", ">="}
BLOCKS = {"if", "match", "loop", "while", "for", "unsafe", "{"}
ENDS = {")", "]", "}", ",", ";", "=>", ""}
# These take a closure or a function for the case that something failed.
OF_FAULTS = {"map_err", "ok_or", "ok_or_else", "or_else", "unwrap_or_else"}


class Body:
    """The reading of one body."""

    def __init__(self, items: Items, function: Function, bound: Bound) -> None:
        self.items, self.function = items, function
        # A parameter that nothing binds is any type with its traits.
        self.bound = {**{name: any_of(traits) for name, traits in function.bounds.items()}, **bound}
        self.reader = Reader(function.body)
        self.names: List[Dict[str, Type]] = [{}]
        self.guards: List[Guard] = []
        self.calls: List[Call] = []
        self.makes: List[Tuple[Tuple[Guard, ...], Made]] = []
        for pattern, type in function.parameters:
            self.pattern_of(pattern, put(type, self.bound))
        if function.body:
            self.statements()

    # Names and types.

    def named(self, path: List[str]) -> str:
        owner = put(self.function.owner, self.bound)
        return self.items.name_of(self.function.file, path, list(self.function.bounds), owner)

    def type(self) -> Type:
        return put(read_type(self.reader, self.named), self.bound)

    def variable(self, name: str) -> Optional[Type]:
        return next((names[name] for names in reversed(self.names) if name in names), None)

    def within(self, read: Callable[[], Type], guard: Optional[Guard] = None) -> Type:
        """What is read with names of its own, perhaps only if a pattern holds."""
        self.names.append({})
        if guard is not None:
            self.guards.append(guard)
        found = read()
        if guard is not None:
            self.guards.pop()
        self.names.pop()
        return found

    # Statements.

    def block(self) -> Type:
        self.reader.need("{")
        return self.within(self.statements)

    def statements(self) -> Type:
        reader, last = self.reader, UNIT
        while reader.peek() and not reader.take("}"):
            last = UNIT
            if reader.take("let"):
                self.let()
            elif reader.peek() in ("use", "ghost", "const"):
                while not reader.take(";"):
                    reader.skip()
            elif reader.peek() == "#":
                reader.next()
                reader.skip()
            elif reader.peek() in BLOCKS:
                last = self.primary(False)
                if reader.peek() in (".", "?"):
                    last = self.binary(self.postfix(last), False)
            elif not reader.take(";"):
                last = self.expression()
            if reader.take(";"):
                last = UNIT
        return last

    def let(self) -> None:
        reader = self.reader
        begins = reader.place
        self.skip_pattern()
        pattern = reader.words[begins : reader.place]
        type = self.type() if reader.take(":") else UNKNOWN
        if reader.take("="):
            found = self.expression()
            type = found if type == UNKNOWN else type
        if reader.take("else"):
            self.guards.append(FAULT)
            self.block()
            self.guards.pop()
        self.pattern_of(list(pattern), type)
        reader.take(";")

    def skip_pattern(self) -> None:
        while self.reader.peek() not in (":", "=", ";", "in", "=>", "if", ""):
            self.reader.skip()

    # Patterns.

    def pattern_of(self, words: List[str], type: Type) -> Guard:
        """Binds the names of a pattern, and gives the variants that it needs."""
        outer, self.reader = self.reader, Reader(words)
        found = [self.one_pattern(type)]
        while self.reader.take("|"):
            found.append(self.one_pattern(type))
        self.reader = outer
        return tuple(found)

    def one_pattern(self, type: Type) -> FrozenSet[Made]:
        reader = self.reader
        while reader.take("&", "&&", "mut", "ref", "|"):
            pass
        if reader.take("("):
            return self.many_patterns(")", lambda place: inside(type, place) if type.name == "()" else UNKNOWN)
        if reader.take("["):
            return self.many_patterns("]", lambda _: element(type))
        if not is_name(reader.peek()) or reader.peek() == "_":
            reader.next()
            while reader.peek() not in ENDS | {"|"}:
                reader.next()
            return frozenset()
        path = [reader.next()]
        while reader.take("::"):
            path.append(reader.next())
        if len(path) == 1 and path[0][0].islower() and reader.peek() not in ("(", "{"):
            self.names[-1][path[0]] = type
            return self.one_pattern(type) if reader.take("@") else frozenset()
        return self.path_pattern(path, type)

    def path_pattern(self, path: List[str], type: Type) -> FrozenSet[Made]:
        made, fields = self.variant(path, type)
        needs = frozenset([made] if made[0] else [])
        if self.reader.take("("):
            return needs | self.many_patterns(")", lambda place: fields.get(str(place), UNKNOWN))
        if self.reader.take("{"):
            return needs | self.field_patterns(fields)
        return needs

    def many_patterns(self, closing: str, type_at: Callable[[int], Type]) -> FrozenSet[Made]:
        found: FrozenSet[Made] = frozenset()
        place = 0
        while self.reader.peek() and not self.reader.take(closing):
            alternatives = [self.one_pattern(type_at(place))]
            while self.reader.take("|"):
                alternatives.append(self.one_pattern(type_at(place)))
            found |= alternatives[0] if len(alternatives) == 1 else frozenset()
            self.reader.take(",")
            place += 1
        return found

    def field_patterns(self, fields: Dict[str, Type]) -> FrozenSet[Made]:
        found: FrozenSet[Made] = frozenset()
        while self.reader.peek() and not self.reader.take("}"):
            if self.reader.take("..", "mut", "ref", ","):
                continue
            name = self.reader.next()
            if self.reader.take(":"):
                found |= self.one_pattern(fields.get(name, UNKNOWN))
            else:
                self.names[-1][name] = fields.get(name, UNKNOWN)
        return found

    def variant(self, path: List[str], type: Type = UNKNOWN) -> Tuple[Made, Dict[str, Type]]:
        """The variant or the struct of a path, with its fields."""
        last = path[-1]
        if last in ("Some", "Ok", "Err"):
            return ("Option" if last == "Some" else "Result", last), {"0": inside(type, int(last == "Err"))}
        kind = self.kind(path[:-1]) if len(path) > 1 else None
        if kind is not None and kind.is_enum and last in kind.variants:
            return (kind.name, last), self.fields(kind, last, type)
        kind = self.kind(path)
        if kind is not None and not kind.is_enum:
            return (kind.name, ""), self.fields(kind, "", type)
        return ("", ""), {}

    def kind(self, path: List[str]) -> Optional[Kind]:
        return self.items.kinds.get(self.named(path))

    def fields(self, kind: Kind, variant: str, type: Type) -> Dict[str, Type]:
        bound = dict(zip(kind.parameters, type.given)) if type.name == kind.name else {}
        return {name: put(it, bound) for name, it in kind.variants[variant].items()}

    # Expressions.

    def expression(self, bare: bool = False) -> Type:
        """Reads an expression. A bare one is before a block, so no name in it begins a struct."""
        return self.binary(self.unary(bare), bare)

    def binary(self, left: Type, bare: bool) -> Type:
        reader = self.reader
        while reader.peek() in BINARY and not (reader.peek() == "&&" and reader.peek(1) == "let"):
            sign = reader.next()
            if sign == "as":
                left = self.type()
            elif sign in ("..", "..="):
                if reader.peek() not in ENDS and not (bare and reader.peek() == "{"):
                    self.unary(bare)
                left = Type("Iter", (Type("usize"),))
            else:
                while reader.peek() in ("<", ">", "="):
                    reader.next()
                self.unary(bare)
                left = BOOL if sign in COMPARING else left
        return left

    def unary(self, bare: bool) -> Type:
        reader = self.reader
        if not reader.peek():
            raise Unread("an expression is missing")
        if reader.take("&", "&&", "*", "-", "!", "mut", "move"):
            return self.unary(bare)
        if reader.take("..", "..="):
            if reader.peek() not in ENDS:
                self.unary(bare)
            return Type("Iter", (Type("usize"),))
        if reader.peek() in ("|", "||"):
            return self.closure(UNKNOWN)
        if reader.take("return", "break", "continue"):
            if reader.peek() not in ENDS:
                self.expression(bare)
            return UNKNOWN
        return self.postfix(self.primary(bare))

    def closure(self, item: Type) -> Type:
        """Reads a closure, whose first parameter is perhaps of a known type, and gives the type of what it returns."""
        reader = self.reader
        reader.take("move")
        self.names.append({})
        if not reader.take("||"):
            reader.need("|")
            while reader.peek() and not reader.take("|"):
                begins = reader.place
                while reader.peek() not in (",", "|", ":", ""):
                    reader.skip()
                words = list(reader.words[begins : reader.place])
                self.pattern_of(words, self.type() if reader.take(":") else item)
                item = UNKNOWN
                reader.take(",")
        if reader.take("->"):
            self.type()
        found = self.expression()
        self.names.pop()
        return Type("Fn", (found,))

    def primary(self, bare: bool) -> Type:
        reader = self.reader
        word = reader.peek()
        if word == "{":
            return self.block()
        if word in BLOCKS:
            return self.block_of(reader.next())
        if word == "(":
            found = self.several(")")
            return found[0] if len(found) == 1 and reader.words[reader.place - 2] != "," else Type("()", tuple(found))
        if word == "[":
            found = self.several("]")
            return Type("[]", tuple(found[:1]))
        if not is_name(word) or word[:1] in "'\"":
            reader.next()
            return Type("str") if word[:1] in "'\"" else Type("usize")
        return Type("str") if word[-1:] == '"' and reader.next() else self.path(bare)

    def several(self, closing: str, item: Type = UNKNOWN) -> List[Type]:
        """Reads expressions between brackets. A closure among them may take an item."""
        reader = self.reader
        found: List[Type] = []
        reader.next()
        while reader.peek() and not reader.take(closing):
            if reader.take(",", ";"):
                continue
            is_closure = reader.peek() in ("|", "||") or reader.peek() == "move"
            taken = found[-1] if found and item == UNKNOWN else item
            found.append(self.closure(taken) if is_closure else self.expression())
        return found

    def block_of(self, word: str) -> Type:
        reader = self.reader
        if word == "match":
            return self.match()
        if word == "for":
            begins = reader.place
            self.skip_pattern()
            pattern = list(reader.words[begins : reader.place])
            reader.need("in")
            type = element(self.expression(bare=True))
            self.names.append({})
            self.pattern_of(pattern, type)
            self.block()
            self.names.pop()
            return UNIT
        if word in ("if", "while"):
            return self.condition(word)
        return self.block()

    def condition(self, word: str) -> Type:
        reader, depth = self.reader, len(self.guards)
        self.names.append({})
        while True:
            if reader.take("let"):
                begins = reader.place
                self.skip_pattern()
                pattern = list(reader.words[begins : reader.place])
                reader.need("=")
                self.guards.append(self.pattern_of(pattern, self.unary(bare=True)))
            else:
                self.expression(bare=True)
            if not reader.take("&&"):
                break
        found = self.block()
        self.names.pop()
        del self.guards[depth:]
        if word == "if" and reader.take("else"):
            other = self.block_of(reader.next()) if reader.peek() == "if" else self.block()
            found = other if is_open(found) else found
        return found

    def match(self) -> Type:
        reader, found = self.reader, UNKNOWN
        type = self.expression(bare=True)
        reader.need("{")
        while reader.peek() and not reader.take("}"):
            begins = reader.place
            while reader.peek() not in ("=>", "if", ""):
                reader.skip()
            self.names.append({})
            self.guards.append(self.pattern_of(list(reader.words[begins : reader.place]), type))
            if reader.take("if"):
                self.expression(bare=True)
            reader.need("=>")
            arm = self.expression() if reader.peek() not in BLOCKS else self.postfix(self.primary(False))
            self.guards.pop()
            self.names.pop()
            found = arm if is_open(found) or found == UNIT else found
            reader.take(",")
        return found

    def postfix(self, type: Type) -> Type:
        reader = self.reader
        while True:
            if reader.take("?"):
                type = inside(type)
            elif reader.peek() == "[":
                begins = reader.place + 1
                self.several("]")
                is_range = any(it in ("..", "..=") for it in reader.words[begins : reader.place])
                type = type if is_range else element(type)
            elif reader.peek() == "(":
                self.several(")")
                type = inside(type) if type.name == "Fn" else UNKNOWN
            elif reader.take("."):
                type = self.member(type)
            else:
                return type

    def member(self, type: Type) -> Type:
        """A field of a value, or a call of its method."""
        reader = self.reader
        name = reader.next()
        if reader.take("::"):
            read_given(reader, self.named)
        if reader.peek() != "(":
            kind = self.items.kinds.get(type.name)
            fields = self.fields(kind, "", type) if kind is not None and not kind.is_enum else {}
            return inside(type, int(name)) if name.isdigit() and type.name == "()" else fields.get(name, UNKNOWN)
        if name in OF_FAULTS:
            self.guards.append(FAULT)
        given = self.several(")", element(type))
        if name in OF_FAULTS:
            self.guards.pop()
        return self.method(type, name, given)

    # Calls.

    def method(self, type: Type, name: str, given: List[Type]) -> Type:
        found = self.items.methods.get((type.name, name))
        if found:
            return self.call(found[0], [type, *given])
        if type.name.startswith("$"):
            return self.of_traits(type, name, given)
        result = given_by(type, name, given)
        if type.name in self.items.kinds:
            default = self.items.default(type.name, name)
            return self.call(default, [type, *given]) if default is not None else result
        if type == UNKNOWN and self.items.is_method(name):
            self.add(Call(tuple(self.guards), None, (), ("?", name)))
        return result

    def of_traits(self, type: Type, name: str, given: List[Type]) -> Type:
        """The call of a parameter's method: of any of the trait's types."""
        for trait in self.items.with_above(traits_of(type)):
            declared = self.items.declared.get((trait, name))
            if declared is not None or "::" not in trait:
                self.add(Call(tuple(self.guards), None, (), (trait, name)))
            if declared is not None:
                return put(declared.returns, {"$Self": type})
        return UNKNOWN

    def call(self, function: Function, given: List[Type]) -> Type:
        bound: Bound = {}
        for (_, parameter), type in zip(function.parameters, given):
            bind(parameter, type, bound)
        self.add(Call(tuple(self.guards), function, tuple(sorted(bound.items())), ("", "")))
        return put(function.returns, bound)

    def add(self, call: Call) -> None:
        self.calls.append(call)

    def path(self, bare: bool) -> Type:
        reader = self.reader
        words = [reader.next()]
        while reader.peek() == "::":
            reader.next()
            if reader.peek() == "<":
                read_given(reader, self.named)
            else:
                words.append(reader.next())
        if reader.peek() == "!" and reader.peek(1) in ("(", "[", "{"):
            return self.macro(words[-1])
        known = self.variable(words[0]) if len(words) == 1 else None
        if known is not None:
            return known
        made, fields = self.variant(words)
        if reader.peek() == "{" and not bare and (made[0] or words[-1][:1].isupper()):
            return self.literal(made, fields)
        given = self.several(")") if reader.peek() == "(" else None
        if made[0]:
            return self.make(made, {str(place): it for place, it in enumerate(given or [])})
        return self.of_path(words, given)

    def of_path(self, words: List[str], given: Optional[List[Type]]) -> Type:
        """A function that a path names, called or handed on."""
        found = self.items.function_at(self.function, words, self.named(words[:-1]) if len(words) > 1 else "")
        if found is not None:
            result = self.call(found, given or [])
            return result if given is not None else Type("Fn", (result,))
        if len(words) == 2 and words[0] in self.items.short_traits:
            trait = self.items.whole(self.function.file, words[0])
            self.add(Call(tuple(self.guards), None, (), (trait, words[1])))
        if words[-1] in ("new", "with_capacity", "from") and len(words) > 1:
            return (given[0] if given else UNKNOWN) if words[0] in ("Arc", "Box", "Rc") else Type(words[-2])
        return Type("Option") if words == ["None"] else UNKNOWN

    def literal(self, made: Made, fields: Dict[str, Type]) -> Type:
        reader = self.reader
        given: Dict[str, Type] = {}
        reader.need("{")
        while reader.peek() and not reader.take("}"):
            if reader.take(".."):
                self.expression()
                continue
            name = reader.next()
            given[name] = self.expression() if reader.take(":") else self.variable(name) or UNKNOWN
            reader.take(",")
        return self.make(made, given)

    def make(self, made: Made, given: Dict[str, Type]) -> Type:
        """A value of a variant or a struct with these fields. One of no crate here has the empty name."""
        if not made[0]:
            return UNKNOWN
        if made[0] in ("Option", "Result"):
            item = given.get("0", UNKNOWN)
            return Type(made[0], (UNKNOWN, item) if made[1] == "Err" else (item,))
        self.makes.append((tuple(self.guards), made))
        kind = self.items.kinds[made[0]]
        bound: Bound = {}
        for name, type in given.items():
            bind(kind.variants.get(made[1], {}).get(name, UNKNOWN), type, bound)
        return Type(kind.name, tuple(bound.get(it, UNKNOWN) for it in kind.parameters))

    def macro(self, name: str) -> Type:
        """A macro: what it calls is read as expressions, as far as they are some."""
        reader = self.reader
        reader.next()
        begins = reader.place
        reader.skip()
        words = list(reader.words[begins + 1 : reader.place - 1])
        outer, self.reader = self.reader, Reader([it for it in words if it != "in"])
        try:
            while self.reader.peek() and name != "json":
                if not self.reader.take(",", ";"):
                    self.expression()
                    if name == "matches":
                        break
        except Unread:
            pass
        self.reader = outer
        return {"vec": Type("Vec"), "matches": BOOL, "format": Type("Result")}.get(name, UNKNOWN)
