"""Program files that a counter draws: most are near to ones that may run."""

from typing import List, NamedTuple

from draws import Draws
from notation import WIDTHS, Width, short
from wqprogram.instructions import INSTRUCTIONS, Instruction
from wqprogram.program_file import VERSIONS

TEXTS = [b"", b"a", b"src", b"*.c", b"**/a", b"[a-z]?", b"a" * 300]


def drawn_file(counter: int) -> bytes:
    """The same counter always gives the same file."""
    draws = Draws(counter)
    return mutated(draws, program(draws))


class Drawn(NamedTuple):
    """The file of a drawn program, and the same or one with some change."""

    file: bytes
    mutated: bytes


def drawn_of(version: int, count: int) -> List[Drawn]:
    """So many drawn programs in files of this version, always the same."""
    found = []
    for counter in range(1, count + 1):
        draws = Draws(len(VERSIONS) * counter + version)
        file = program_of(draws, version)
        found.append(Drawn(file, mutated(draws, file)))
    return found


def program(draws: Draws) -> bytes:
    """A program in a file of either version."""
    return program_of(draws, draws.pick([1, 2]))


def program_of(draws: Draws, version: int) -> bytes:
    """A program in a file of this version."""
    wide = WIDTHS[version]
    rows = 0 if draws.one_in(10) else 2
    constants = [
        [draws.next().to_bytes(8, "big") for _ in range(rows)],
        [text(draws) for _ in range(rows)],
        [entries(draws, wide) for _ in range(rows)],
        [pattern(draws) for _ in range(rows)],
        [patterns(draws, wide) for _ in range(rows)],
    ]
    tables = [*constants[: wide.tables], instructions(draws, wide)]
    counts = b"".join(wide.bytes_of(len(table)) for table in tables)
    return b"WQPF" + bytes([wide.version]) + counts + b"".join(row for table in tables for row in table)


def text(draws: Draws) -> bytes:
    chosen = draws.pick(TEXTS)
    return short(len(chosen)) + chosen


def entries(draws: Draws, wide: Width) -> bytes:
    count = draws.below(4)
    return wide.bytes_of(count) + b"".join(text(draws) for _ in range(count))


def pattern(draws: Draws) -> bytes:
    chosen = draws.pick(TEXTS[:-1])
    return bytes([draws.below(16), len(chosen)]) + chosen


def patterns(draws: Draws, wide: Width) -> bytes:
    count = draws.below(4)
    return wide.bytes_of(count) + b"".join(pattern(draws) for _ in range(count))


def instructions(draws: Draws, wide: Width) -> List[bytes]:
    """A walk that mostly keeps the stack right, with jumps forward, and ends with one flag."""
    length = draws.pick([1, 2, 4, 8, 16, 40])
    code: List[bytes] = []
    stack = ""
    while len(code) < length:
        chosen = next_instruction(draws, stack, wide)
        code.append(operation(draws, chosen, len(code), wide))
        stack = (stack[: max(0, len(stack) - len(chosen.needs))] + chosen.leaves)[:17]
    if not draws.one_in(8):
        code += [b"\x18\0" + wide.bytes_of(0)] * len(stack) + [b"\x0e\0" + wide.bytes_of(0)]
    if not draws.one_in(8):
        code.append(b"\x23\0" + wide.bytes_of(0))
    return code


def next_instruction(draws: Draws, stack: str, wide: Width) -> Instruction:
    known = [instruction for instruction in INSTRUCTIONS if VERSIONS[wide.version].knows(instruction)]
    if draws.one_in(30):
        return draws.pick(known)
    left_out = ("ret",) if draws.one_in(4) else ("ret", "jump")
    fitting = [
        instruction for instruction in known if instruction.name not in left_out and can_take(stack, instruction.needs)
    ]
    return draws.pick(fitting)


def can_take(stack: str, needs: str) -> bool:
    top = stack[len(stack) - len(needs) :] if len(needs) <= len(stack) else None
    return top is not None and all(need in ("?", cell) for cell, need in zip(top, needs))


def operation(draws: Draws, instruction: Instruction, place: int, wide: Width) -> bytes:
    a = draws.below(instruction.greatest_a + 1)
    b = 0
    if instruction.b == "code":
        b = place + 1 if draws.one_in(2) else max(0, place + draws.between(-1, 5))
    elif instruction.b:
        b = 2 if draws.one_in(60) else draws.below(2)
    return bytes([instruction.byte, a]) + wide.bytes_of(b)


def mutated(draws: Draws, data: bytes) -> bytes:
    """The file as it is, or with some change."""
    change = draws.below(13)
    place = draws.below(len(data))
    if change == 0:
        return data[:place]
    if change == 1:
        return data[:place] + bytes([draws.below(256)]) + data[place + 1 :]
    if change == 2:
        return data[:place] + bytes([data[place] ^ 1 << draws.below(8)]) + data[place + 1 :]
    if change == 3:
        return data[:place] + bytes([draws.below(256)]) + data[place:]
    if change == 4:
        return data[:place] + data[place + 1 :]
    if change == 5:
        return data + data[place:]
    if change == 6:
        return data[:5] + bytes(draws.below(256) for _ in range(draws.below(40)))
    if change == 7:
        return data[:4] + bytes([3 - data[4]]) + data[5:]
    return data
