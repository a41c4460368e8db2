"""The program of an expression, by a plain compiler that is written from the section "The program of an expression" of
the user's reference, and not from the program."""

from typing import Any, Callable, Dict, List, NamedTuple, Optional

from .clocks import Instance, bound_of
from .instructions import BY_NAME, RELATIONS
from .program_file import Operation, Program, blank

LONGEST_CODE = 65_536
LONGEST_LIST = 65_536
CLOCK_ID_COLONS = 4

# What reads the tick and the second of a field of `since`.
CLOCKS = {"oclock": {"tick": "oclock", "second": "osec"}, "cclock": {"tick": "cclock", "second": "csec"}}


class Step(NamedTuple):
    """An instruction with its operand a, and its constant or how many places it jumps."""

    name: str
    a: int = 0
    operand: Any = None


Code = List[Step]


class TooLarge(Exception):
    """The expression has no program, since its code would be so long or a list in it is."""

    def __init__(self, length: int) -> None:
        super().__init__(f"{length} instructions")
        self.length = length


def compiled(value: Any, instance: Optional[Instance] = None) -> Program:
    """The program of an expression in JSON, which has no fault. Clock ids of the instance are its ticks."""
    code = code_of(value, instance)
    if len(code) >= LONGEST_CODE or any(step.name == "oneof" and len(step.operand) > LONGEST_LIST for step in code):
        raise TooLarge(len(code))
    program = blank()
    for place, step in enumerate([*code, Step("ret")]):
        instruction = BY_NAME[step.name]
        operand = 0
        if instruction.b == "code":
            operand = place + step.operand
        elif instruction.b:
            table = getattr(program, instruction.b)
            operand = len(table)
            table.append(step.operand)
        program.code.append(Operation(instruction, step.a, operand))
    return program


def names_tick(value: Any) -> bool:
    """Whether the expression, which has no fault, has a clock id of some server: its program depends on whose it is."""
    head, *arguments = [value] if isinstance(value, str) else value
    if head in COMBINATIONS:
        return any(map(names_tick, arguments))
    return head == "since" and isinstance(arguments[0], str) and arguments[0].count(":") == CLOCK_ID_COLONS


def code_of(value: Any, instance: Optional[Instance]) -> Code:
    head, *arguments = [value] if isinstance(value, str) else value
    if head in COMBINATIONS:
        return COMBINATIONS[head]([code_of(term, instance) for term in arguments])
    return since_code(instance, *arguments) if head == "since" else TERMS[head](*arguments)


def joined(jump: str, parts: List[Code]) -> Code:
    """Parts one after the other. After each but the last a jump goes to the end, if the part decides, and a `drop`
    takes its flag away, if not."""
    length = sum(2 + len(part) for part in parts) - 2
    code: Code = []
    for part in parts:
        if code:
            code += [Step(jump, 0, length - len(code)), Step("drop")]
        code += part
    return code


def compared(read: Code, relation: str, number: int) -> Code:
    return [*read, Step("num", 0, number), Step("cmp", RELATIONS.index(relation))]


def list_code(jump: str) -> Callable[[List[Code]], Code]:
    """`allof` and `anyof`. Of no term the flag is the one that does not decide."""
    nothing = [Step("flag", int(jump == "jf"))]
    return lambda codes: joined(jump, codes) if codes else nothing


def empty_code() -> Code:
    kinds = joined("jt", [type_code("f"), type_code("d")])
    return joined("jf", [[Step("exists")], kinds, compared([Step("size")], "eq", 0)])


def type_code(letter: str) -> Code:
    return compared([Step("kind")], "eq", ord(letter))


def texts_of(value: Any) -> List[bytes]:
    return [text.encode() for text in (value if isinstance(value, list) else [value])]


def name_code(fold: int) -> Callable[..., Code]:
    return lambda named, scope="basename": [Step(scope), Step("oneof", fold, texts_of(named))]


def suffix_code(suffixes: Any) -> Code:
    return [Step("suffix"), Step("oneof", 1, [text for text in texts_of(suffixes) if text])]


def match_code(fold: int) -> Callable[..., Code]:
    def code(pattern: str, scope: str = "basename", asked: Optional[Dict[str, bool]] = None) -> Code:
        flags = [scope == "wholename", *((asked or {}).get(key) for key in ("includedotfiles", "noescape")), fold]
        byte = sum(2**bit for bit, flag in enumerate(flags) if flag)
        return [Step(scope), Step("match", 0, (byte, pattern.encode()))]

    return code


def size_code(relation: str, number: int) -> Code:
    return joined("jf", [[Step("exists")], compared([Step("size")], relation, number)])


def since_code(instance: Optional[Instance], spec: Any, field: str = "oclock") -> Code:
    bound = bound_of(spec, instance)
    if bound.kind == "fresh":
        return [Step("exists")]
    return compared([Step("mtime" if field == "mtime" else CLOCKS[field][bound.kind])], "gt", bound.number)


def dirname_code(fold: int) -> Callable[..., Code]:
    def code(directory: str, *depth: List[Any]) -> Code:
        read = [Step("wholename"), Step("text", 0, directory.rstrip("/").encode()), Step("depth", fold)]
        return joined("jf", [compared(read, relation, number) for _, relation, number in [("depth", "ge", 0), *depth]])

    return code


TERMS: Dict[str, Callable[..., Code]] = {
    "true": lambda: [Step("flag", 1)],
    "false": lambda: [Step("flag", 0)],
    "exists": lambda: [Step("exists")],
    "empty": empty_code,
    "type": type_code,
    "name": name_code(fold=0),
    "iname": name_code(fold=1),
    "suffix": suffix_code,
    "match": match_code(fold=0),
    "imatch": match_code(fold=1),
    "size": size_code,
    "dirname": dirname_code(fold=0),
    "idirname": dirname_code(fold=1),
}
COMBINATIONS: Dict[str, Callable[[List[Code]], Code]] = {
    "not": lambda codes: [*codes[0], Step("not")],
    "allof": list_code("jf"),
    "anyof": list_code("jt"),
}
