"""Generated scripts, each by a fixed rule from a counter.

    python3 tests/plain/generate.py COUNTER

writes the script of that counter.
"""

import sys
from pathlib import Path
from typing import Callable, Dict, List, Tuple

TESTS = Path(__file__).resolve().parents[1]
sys.path[:0] = [str(TESTS), str(TESTS.parent / "clients")]

from draws import Draws, array, json_object
from generate_terms import GENERATED, MAX, WRONG_NUMBERS, World, clock_spec, expression, globs, paths, suffixes
from generate_triggers import rounds, trigger_command
from malformed import BAD_LINES, BAD_ROWS, BAD_SCRIPT_LINES, FAULTY_ROWS, LONG_LINES
from programs import FAULTS, PROGRAMS
from queries import LEFT_OUT_KEYS
from wqclient.names import FIELDS

# The text of a value of a key.
Value = Callable[[Draws, World], str]

NAMES = GENERATED["names"]
LETTERS = "fffffffddddlbcpsD?"
WRONG_FIELDS = [
    '"name"',
    "[]",
    '["name",7]',
    '["mode"]',
    '["Name"]',
    "null",
    "{}",
    '[["name"]]',
    '[""]',
    '["name",null]',
]
SUBSCRIPTION_NAMES = ['"s"', '"s"', '"s"', '"t"', '"ü"', '""', '"' + "s" * 256 + '"', "7"]
PROGRAM_NAMES = ['"p"', '"p"', '"p"', '"q"', '"ü"', '""', '"' + "p" * 256 + '"', "7"]
IGNORED_KEYS = ["dedup_results", "defer", "drop", "frob", "", "Fields", "case_sensitive "]
ANY_VALUES = ["true", "null", "[]", '{"a":[1,2]}', '"x"', "1.5", "-0", '"\\ud83d\\ude00"']
ROOTS = ['"/r"', '"/r/"', '"/r///"', '"\\u002fr"']
WRONG_ROOTS = [
    '""',
    '"r"',
    '"./r"',
    '"/r\\u0000"',
    '"/q/"',
    '"/"',
    '"//"',
    '"' + "/" * 4097 + '"',
    '"/' + "q" * 4095 + '"',
    "7",
    "null",
]
OTHER_ROOTS = ['"/q"', '"/"', '"r"', '""', '"//r"', '"/r/x"', '"/R"', '"/r "']

LONG_LINE_EACH = 250
CLASS_SCRIPT_EACH = 500
CLASS_NAMES = [
    "alnum",
    "alpha",
    "blank",
    "cntrl",
    "digit",
    "graph",
    "lower",
    "print",
    "punct",
    "space",
    "upper",
    "xdigit",
    "foo",
]

Tree = Dict[str, Tuple[str, int, int]]


def script(counter: int) -> bytes:
    """The script of a counter: passes with questions, idle moments and rounds between them, and now and then a
    malformed line."""
    draws = Draws(counter)
    if counter % CLASS_SCRIPT_EACH == 1:
        return class_script(draws)
    names = sorted({draws.pick(NAMES) for _ in range(draws.between(3, 18))})
    lines: List[bytes] = []
    seconds = [draws.pick([0, 10, 100, 1000])]
    tree: Tree = {}
    passes = 0 if draws.one_in(10) else draws.between(1, 7)
    root = 1
    for number in range(passes):
        lines += questions(draws, World(names, number, seconds, root), draws.below(3))
        if draws.one_in(12):
            lines += watching_again(draws, World(names, number, seconds, root), tree)
            root += 1
        tree = next_tree(draws, names, tree)
        seconds.append(next_second(draws, seconds[-1]))
        lines += pass_lines(draws, tree, seconds[-1], b"tree" if draws.one_in(4) else b"pass")
        lines += following(draws, World(names, number + 1, seconds, root))
        lines += rounds(draws, World(names, number + 1, seconds, root), draws.pick(ROOTS))
    lines += questions(draws, World(names, passes, seconds, root), draws.between(6, 30))
    if draws.one_in(6):
        lines += watching_again(draws, World(names, passes, seconds, root), tree)
        lines += following(draws, World(names, passes, seconds, root + 1))
        lines += pass_lines(draws, next_tree(draws, names, tree), next_second(draws, seconds[-1]))
        lines += questions(draws, World(names, passes, seconds, root + 1), draws.between(2, 8))
        lines += rounds(draws, World(names, passes, seconds, root + 1), draws.pick(ROOTS))
        lines += [b"idle 1", b"idle 2", b"fire ok"]
    if draws.one_in(40):
        lines += [b'ask 3 ["shutdown-server"]', b"pass"]
    if draws.one_in(8):
        lines += malformed_end(draws, tree)
        lines += questions(draws, World(names, passes, seconds), 1)
    if counter % LONG_LINE_EACH == 0:
        lines.insert(0, LONG_LINES[counter // LONG_LINE_EACH % len(LONG_LINES)])
    return b"\n".join(lines) + draws.pick([b"\n", b"\n", b"\n", b""])


def class_script(draws: Draws) -> bytes:
    """Each named class, turned and not, on a name that ends in each byte that can end one."""
    names = ["x" + chr(byte) for byte in range(1, 128) if chr(byte) not in "/\n"] + ["xü"]
    lines = pass_lines(draws, {name: ("f", 1, 1) for name in names}, 1)
    for name in CLASS_NAMES:
        for head, text in [("match", "x[{}]"), ("match", "x[!{}]"), ("imatch", "X[{}]"), ("imatch", "x[^{}]?")]:
            term = f'["{head}","{text}"]'.replace("{}", f"[:{name}:]")
            lines.append(b'ask 1 ["query","/r",{"expression":%s,"fields":["name"]}]' % term.encode())
    return b"\n".join(lines) + b"\n"


def next_second(draws: Draws, second: int) -> int:
    if second == MAX:
        return draws.pick([0, MAX])
    return draws.pick([second, second + 1, second + 1, second + 10, max(second - 5, 0), MAX])


def next_tree(draws: Draws, names: List[str], tree: Tree) -> Tree:
    """The tree that the next pass sees: some files come, some change, some go, most stay."""
    if draws.one_in(8):
        return dict(tree)
    following: Tree = {}
    for name in names:
        choice = draws.below(8)
        if choice == 0 or (choice < 3 and name not in tree):
            continue
        is_same = name in tree and choice < 6
        following[name] = tree[name] if is_same else sight(draws)
    return following


def sight(draws: Draws) -> Tuple[str, int, int]:
    size = draws.pick([0, 0, 0, 1, 2, 3, 7, 100, MAX])
    mtime_ms = draws.pick([0, 999, 1000, 1999, 2000, 3000, -1, -1000, -1001, MAX, -MAX])
    return draws.pick(LETTERS), size, mtime_ms


def pass_lines(draws: Draws, tree: Tree, second: int, word: bytes = b"pass") -> List[bytes]:
    rows = [f"{letter} {size} {mtime_ms} {name}".encode() for name, (letter, size, mtime_ms) in tree.items()]
    if draws.one_in(2):
        rows.reverse()
    return [word + b" %d" % second, *rows, b"end"]


def malformed_end(draws: Draws, tree: Tree) -> List[bytes]:
    """Lines with which the replay ends, or a pass that is left open."""
    choice = draws.below(6)
    if choice <= 1:
        return [draws.pick(BAD_SCRIPT_LINES + [b"end", b"f 1 1 a"] * 3)]
    if choice == 2:
        return [b"pass 5", draws.pick(BAD_ROWS), b"end"]
    if choice == 3:
        return [b"pass " + draws.pick([b"-1", b"4611686018427387905", b"-9223372036854775808"]), b"end"]
    row = draws.pick([b"f 1 1 twice", b"d 0 0 twice"]) if draws.one_in(2) else draws.pick(FAULTY_ROWS)
    rows = [b"f 1 1 twice", row]
    return [b"pass 5", *rows] if choice == 4 and draws.one_in(2) else [b"pass 5", *rows, b"end"]


def watching_again(draws: Draws, world: World, tree: Tree) -> List[bytes]:
    """The root is watched no more, and then anew, but now and then not."""
    end = b'ask 2 ["watch-del",%s]' % draws.pick(ROOTS).encode()
    begin = b'ask 2 ["%s",%s]' % (draws.pick([b"watch", b"watch-project"]), draws.pick(ROOTS).encode())
    between = questions(draws, world, draws.below(3))
    if draws.one_in(2):
        between += pass_lines(draws, tree, draws.pick(world.seconds))
    return [end, *between] + ([] if draws.one_in(10) else [begin])


def following(draws: Draws, world: World) -> List[bytes]:
    """Lines by which the first two clients subscribe to changes, and idle moments of them."""
    lines = []
    if draws.one_in(6):
        lines.append(b'ask 3 ["program-add","p","%s"]' % draws.pick(list(PROGRAMS)).encode())
    for client in (1, 2):
        if draws.one_in(3):
            lines += [b"ask %d " % client + subscribing(draws, world).encode() for _ in range(draws.between(1, 2))]
        if draws.one_in(12):
            lines.append(draws.pick([b"leave %d", b"ask %d \x00"]) % client)
        if draws.one_in(2):
            lines.append(b"idle %d" % client)
    return lines


def subscribing(draws: Draws, world: World) -> str:
    root = draws.pick(OTHER_ROOTS) if draws.one_in(20) else draws.pick(ROOTS)
    name = draws.pick(SUBSCRIPTION_NAMES)
    if draws.one_in(6):
        wrong = [['"unsubscribe"', root], ['"unsubscribe"', root, name, "{}"]]
        return array(draws, draws.pick([['"unsubscribe"', root, name]] * 6 + wrong))
    asked = query(draws, world) if draws.one_in(4) else plain_query(draws, world)
    wrong = [['"subscribe"', root, name], ['"subscribe"', root, name, "[]"]]
    return array(draws, draws.pick([['"subscribe"', root, name, asked]] * 12 + wrong))


def plain_query(draws: Draws, world: World) -> str:
    """The object of a subscription that is rarely refused."""
    members = [("fields", array(draws, [f'"{draws.pick(FIELDS)}"' for _ in range(draws.between(1, 4))]))]
    if draws.one_in(4):
        members.append(("program", '"p"'))
    elif draws.one_in(2):
        members.append(("expression", expression(draws, world)))
    if draws.one_in(3):
        members.append(("since", clock_spec(draws, world)))
    if draws.one_in(4):
        members.append(("empty_on_fresh_instance", draws.pick(["true", "false"])))
    return json_object(draws, members)


def questions(draws: Draws, world: World, count: int) -> List[bytes]:
    return [question(draws, world) for _ in range(count)]


def question(draws: Draws, world: World) -> bytes:
    client = draws.between(1, 2) if draws.one_in(4) else draws.between(1, 32)
    if draws.one_in(60):
        return b"leave %d" % client
    if draws.one_in(12):
        return b"idle %d" % draws.between(1, 2)
    if draws.one_in(20):
        return b"ask %d " % client + subscribing(draws, world).encode()
    if draws.one_in(30):
        root = draws.pick(OTHER_ROOTS) if draws.one_in(10) else draws.pick(ROOTS)
        return b"ask %d " % client + trigger_command(draws, world, root).encode()
    return b"ask %d " % client + line(draws, world)


def line(draws: Draws, world: World) -> bytes:
    if draws.one_in(12):
        return draws.pick(BAD_LINES)
    root = draws.pick(OTHER_ROOTS) if draws.one_in(40) else draws.pick(ROOTS)
    if draws.one_in(10):
        return command(draws).encode()
    if draws.one_in(30):
        return root_command(draws, root).encode()
    if draws.one_in(15):
        options = json_object(draws, [("sync_timeout", draws.pick(ANY_VALUES + ["0", "5000"]))])
        return array(draws, ['"clock"', root] + draws.pick([[], [options]])).encode()
    asked = array(draws, ['"query"', root, query(draws, world)]).encode()
    return damage(draws, asked) if draws.one_in(20) else asked


def command(draws: Draws) -> str:
    """A command that names no root."""
    name = draws.pick(PROGRAM_NAMES)
    text = f'"{draws.pick(list(PROGRAMS) * 3 + list(FAULTS))}"'
    words = draws.pick(
        [
            ['"program-add"', name, text],
            ['"program-add"', name, text],
            ['"program-add"', name, text],
            ['"program-del"', name],
            ['"program-list"'],
            ['"version"'],
            ['"version"', "{}"],
            ['"version"', "null"],
            ['"get-sockname"'],
            ['"get-sockname"', "{}"],
            ['"program-list"', "[]"],
            ['"program-add"', name],
        ]
    )
    return array(draws, words)


def root_command(draws: Draws, root: str) -> str:
    """A command on the roots that are watched. The root stays watched."""
    watched = draws.pick([root] * 4 + WRONG_ROOTS)
    ended = draws.pick(OTHER_ROOTS + WRONG_ROOTS)
    words = draws.pick(
        [
            ['"watch"', watched],
            ['"watch"', watched],
            ['"watch-project"', watched],
            ['"watch-del"', ended],
            ['"watch-list"'],
            ['"watch-list"', root],
            ['"watch"'],
            ['"watch"', root, "{}"],
            ['"watch-del"'],
            ['"watch-del"', root, root],
        ]
    )
    return array(draws, words)


def damage(draws: Draws, text: bytes) -> bytes:
    """The text with a byte left out, put in or changed."""
    place = draws.below(len(text))
    byte = bytes([draws.pick(b'"\\[]{},:0-+.eE \t\r\x00\x1f\xff\xc3/ut1')])
    return text[:place] + draws.pick([b"", byte]) + text[place + draws.below(2) :]


def query(draws: Draws, world: World) -> str:
    members: List[Tuple[str, str]] = []
    by_program = draws.one_in(10)
    if draws.one_in(8) if by_program else not draws.one_in(6):
        members.append(("expression", expression(draws, world)))
    if by_program:
        members.append(("program", draws.pick(PROGRAM_NAMES)))
    if not draws.one_in(4):
        members.append(("fields", fields(draws)))
    for key, share, value in KEYS:
        if draws.one_in(share):
            members.append((key, value(draws, world)))
    if draws.one_in(10):
        members.append((draws.pick(IGNORED_KEYS), draws.pick(ANY_VALUES)))
    if draws.one_in(40):
        members.append((draws.pick(LEFT_OUT_KEYS), draws.pick(ANY_VALUES)))
    if members and draws.one_in(15):
        again = draws.pick(members)[0]
        members.append((again, draws.pick(ANY_VALUES + ['"exists"', '["name"]', '"c:7:9:1:1"', "0"])))
    return json_object(draws, members)


def fields(draws: Draws) -> str:
    if draws.one_in(25):
        return draws.pick(WRONG_FIELDS)
    if draws.one_in(3):
        return '["name"]'
    return array(draws, [f'"{draws.pick(FIELDS)}"' for _ in range(draws.between(1, 5))])


def one_of(*values: str) -> Value:
    return lambda draws, world: draws.pick(values)


# The other keys of a query: one query in so many has the key, with such a value.
KEYS: List[Tuple[str, int, Value]] = [
    ("since", 2, clock_spec),
    ("suffix", 4, lambda draws, world: suffixes(draws)),
    ("path", 4, paths),
    ("glob", 4, globs),
    ("glob_includedotfiles", 6, one_of(*["true"] * 8, *["false"] * 3, "null", "1", '"true"')),
    ("empty_on_fresh_instance", 6, one_of(*["true"] * 4, *["false"] * 3, "null", "1", '"true"')),
    ("sync_timeout", 6, one_of(*WRONG_NUMBERS, *["0", "5000", "-1", str(MAX), str(-MAX)] * 8)),
    ("case_sensitive", 10, one_of(*["true"] * 6, "false", "null", "1")),
]


if __name__ == "__main__":
    sys.stdout.buffer.write(script(int(sys.argv[1])))
