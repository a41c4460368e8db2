"""Generated expressions and clock specs, as JSON texts."""

from pathlib import Path
from typing import Callable, Dict, List, NamedTuple

from cases import MANY
from draws import Draws, array, json_object, json_text
from rows import tables

ROWS = tables(Path(__file__).with_name("generated.rows"))
GENERATED = {name: [row.text() for row in rows] for name, rows in ROWS.items()}
MAX = 2**62
NOT_TERMS = ["7", "null", "{}", "[]", '[["name"]]', "[7]", "true", "1.5", '[null,"exists"]']
SUFFIXES = ["c", "C", "txt", "TXT", "php", "", "ü", "Ü", ".c", "c.c"]
UNKNOWN_TERMS = ['"frob"', '["frob",7,null]', '"True"', '""', '["pcre","x"]', '["ipcre","x"]', '"NAME"', '"exists "']
WRONG_TEXTS = ["7", "null", "{}", "true", "[7]", '["a",null]', '[["a"]]']
WRONG_NUMBERS = ["1.5", "0.0", "-0", "1e3", '"1"', "null", str(MAX + 1), str(-MAX - 1), str(2**64), "[1]"]
RELATIONS = ["eq", "ne", "gt", "ge", "lt", "le"]
CLASSES = GENERATED["classes"]
STARTS = ["**/", "**/", "**/**/", "**/*/", "*/", "***/", "**", "**\\/"]
PIECES = ["*", "**", "?", "/", "**/", "a", "A", ".", "\\", "x", "[", "]", "!", "-", *CLASSES]


class World(NamedTuple):
    """What generated questions speak of: the names of the script, the number of its passes and their seconds, and the
    number of the root."""

    names: List[str]
    passes: int
    seconds: List[int]
    root: int = 1


def expression(draws: Draws, world: World) -> str:
    if draws.one_in(50):
        count = draws.pick([62, 63, 63, 64])
        return '["not",' * count + draws.pick(['"exists"', '["type","f"]', "7"]) + "]" * count
    return term(draws, world, 3)


def term(draws: Draws, world: World, levels: int) -> str:
    if draws.one_in(60):
        return draws.pick(NOT_TERMS)
    if draws.one_in(60):
        return draws.pick(UNKNOWN_TERMS)
    if levels > 0 and draws.one_in(3):
        return combination(draws, world, levels)
    head = draws.pick([*TERMS, *["match", "imatch"] * 3])
    return TERMS[head](draws, world, head)


def combination(draws: Draws, world: World, levels: int) -> str:
    head = draws.pick(["not", "allof", "anyof"])
    count = 1 if head == "not" and not draws.one_in(20) else draws.below(4)
    if count == 0 and draws.one_in(2):
        return f'"{head}"'
    return array(draws, [f'"{head}"'] + [term(draws, world, levels - 1) for _ in range(count)])


def plain_term(draws: Draws, world: World, head: str) -> str:
    if draws.one_in(25):
        return f'["{head}","{head}"]'
    return draws.pick([f'"{head}"', f'["{head}"]'])


def type_term(draws: Draws, world: World, head: str) -> str:
    if draws.one_in(15):
        return draws.pick(
            [
                '["type"]',
                '"type"',
                '["type","?"]',
                '["type","F"]',
                '["type",102]',
                '["type","f","d"]',
                '["type",["f"]]',
                '["type",""]',
                '["type","ff"]',
            ]
        )
    return f'["type","{draws.pick("bcdflpsDffdl")}"]'


def size_term(draws: Draws, world: World, head: str) -> str:
    return array(draws, ['"size"'] + comparison(draws))


def comparison(draws: Draws) -> List[str]:
    relation = '"xx"' if draws.one_in(40) else f'"{draws.pick(RELATIONS)}"'
    number = draws.pick(WRONG_NUMBERS) if draws.one_in(20) else str(draws.pick([0, 0, 1, 1, 2, 3, 7, -1, MAX, -MAX]))
    return draws.pick([[relation], [], [number, relation], ["7", number]]) if draws.one_in(40) else [relation, number]


def file_text(draws: Draws, world: World, is_basename: bool) -> str:
    """A text that may be the name of a file, in another letter case now and then."""
    name = draws.pick(world.names)
    text = name.rsplit("/", 1)[-1] if is_basename else name
    return draws.pick([text, text, text, text.upper(), text.lower(), text.swapcase(), text + "x", ""])


def scope(draws: Draws) -> List[str]:
    if draws.one_in(30):
        return draws.pick([['"dirname"'], ["null"], ["7"], ['"basename"', "null"], ['"Basename"']])
    return draws.pick([[], ['"basename"'], ['"wholename"']])


def name_term(draws: Draws, world: World, head: str) -> str:
    chosen = scope(draws)
    if draws.one_in(25):
        wrong = [[], [draws.pick(WRONG_TEXTS)] + chosen, [long_text(draws, 4096)]]
        return array(draws, [f'"{head}"'] + draws.pick(wrong))
    is_basename = chosen != ['"wholename"']
    count = draws.between(MANY, 24) if draws.one_in(8) else draws.between(0, 3)
    texts = [json_text(draws, file_text(draws, world, is_basename)) for _ in range(count)]
    named = texts[0] if len(texts) == 1 and draws.one_in(2) else array(draws, texts)
    return array(draws, [f'"{head}"', named] + chosen)


def long_text(draws: Draws, limit: int) -> str:
    """A text that has as many bytes as the limit says, or one more. Some of its characters have two bytes."""
    length = limit + draws.below(2)
    return '"' + draws.pick(["a" * length, "ü" * (length // 2) + "a" * (length % 2)]) + '"'


def suffix_term(draws: Draws, world: World, head: str) -> str:
    if draws.one_in(20):
        wrong = [[], [draws.pick(WRONG_TEXTS)], ['"c"', '"c"'], [long_text(draws, 4096)]]
        return array(draws, ['"suffix"'] + draws.pick(wrong))
    if draws.one_in(8):
        return array(draws, ['"suffix"', array(draws, [json_text(draws, draws.pick(SUFFIXES)) for _ in range(30)])])
    return array(draws, ['"suffix"', some_suffixes(draws)])


def some_suffixes(draws: Draws) -> str:
    texts = [json_text(draws, text) for text in draws.some(SUFFIXES, 3)]
    return texts[0] if len(texts) == 1 and draws.one_in(2) else array(draws, texts)


def suffixes(draws: Draws) -> str:
    """The value of the query key `suffix`."""
    if draws.one_in(20):
        return draws.pick([draws.pick(WRONG_TEXTS), long_text(draws, 4096)])
    return some_suffixes(draws)


def paths(draws: Draws, world: World) -> str:
    """The value of the query key `path`."""
    if draws.one_in(20):
        return draws.pick(['"a"', "7", "null", "{}", '{"path":"a","depth":0}'])
    return array(draws, [path(draws, world) for _ in range(draws.between(0, 3))])


def globs(draws: Draws, world: World) -> str:
    """The value of the query key `glob`."""
    if draws.one_in(20):
        return draws.pick(['"*"', "7", "null", "{}", "[7]", '["*",null]', array(draws, ["7", long_text(draws, 255)])])
    if draws.one_in(20):
        return array(draws, [long_text(draws, 255)])
    return array(draws, [json_text(draws, pattern(draws, world, True)) for _ in range(draws.between(0, 3))])


def path(draws: Draws, world: World) -> str:
    if draws.one_in(40):
        wrong = ["7", "null", '["a"]', "{}", '{"path":"a"}', '{"depth":0}', '{"path":7,"depth":0}']
        return draws.pick(wrong + [long_text(draws, 4096)])
    text = json_text(draws, directory_text(draws, world))
    if draws.one_in(2):
        return text
    depth = draws.pick(WRONG_NUMBERS + ["-2"]) if draws.one_in(40) else str(draws.pick([-1, 0, 0, 1, 2, MAX]))
    members = [("path", text), ("depth", depth)]
    return json_object(draws, members + [("frob", "null")] if draws.one_in(10) else members)


def directory_text(draws: Draws, world: World) -> str:
    """A text that may name a directory or a file, maybe with slashes at its end."""
    name = draws.pick(world.names)
    return draws.pick([name, "", name.rsplit("/", 1)[0], name.split("/", 1)[0]]) + draws.pick(["", "", "/", "//"])


def dirname_term(draws: Draws, world: World, head: str) -> str:
    if draws.one_in(25):
        wrong = [
            [],
            ["7"],
            ['["a"]'],
            [long_text(draws, 4096)],
            ['"a"', "null"],
            ['"a"', '["eq",0]'],
            ['"a"', '["Depth","eq",0]'],
            ['"a"', '["depth","eq",0]', "null"],
            ['"a"', '"depth"'],
        ]
        return array(draws, [f'"{head}"'] + draws.pick(wrong))
    directory = directory_text(draws, world)
    directory = draws.pick([directory, directory, directory.upper(), directory.lower()])
    depth = draws.pick([[], [array(draws, ['"depth"'] + comparison(draws))]])
    return array(draws, [f'"{head}"', json_text(draws, directory)] + depth)


def match_term(draws: Draws, world: World, head: str) -> str:
    if draws.one_in(20):
        long = [long_text(draws, 255)]
        wrong = [[], ["7"], ['["*"]'], ['"*"', '"basename"', "null"], long, long]
        return array(draws, [f'"{head}"'] + draws.pick(wrong))
    chosen = scope(draws)
    text = pattern(draws, world, chosen == ['"wholename"'])
    flags = [match_flags(draws)] if len(chosen) == 1 and draws.one_in(2) else []
    return array(draws, [f'"{head}"', json_text(draws, text)] + chosen + flags)


def match_flags(draws: Draws) -> str:
    if draws.one_in(20):
        return draws.pick(['{"dotfiles":true}', "[]", "null", '{"noescape":1}', '{"includedotfiles":null}', "true"])
    members = [(key, draws.pick(["true", "true", "false"])) for key in draws.some(["includedotfiles", "noescape"], 2)]
    return json_object(draws, members)


def pattern(draws: Draws, world: World, is_wholename: bool) -> str:
    """A pattern from the name of a file, with some of its characters made wild; or one of pieces alone."""
    choice = draws.below(12)
    if choice == 0:
        return "".join(draws.some(PIECES, 6))
    if choice == 1:
        return draws.pick(["", "?", "*", "x"]) + draws.pick(CLASSES) + draws.pick(["", "", "]", "y"])
    name = draws.pick(world.names)
    if not is_wholename:
        return wild_part(draws, name.rsplit("/", 1)[-1])
    parts = [wild_part(draws, part) for part in name.split("/")]
    kept = draws.below(len(parts)) if draws.one_in(2) else 0
    start = draws.pick(STARTS) if kept or draws.one_in(4) else ""
    end = draws.pick(["/**", "/*", "**"]) if draws.one_in(8) else ""
    return start + draws.pick(["/", "/", "/", "/", "/**/", "[/]", "\\/"]).join(parts[kept:]) + end


def wild_part(draws: Draws, text: str) -> str:
    """A part of a name, with one, two or all of its characters made wild."""
    wilds = draws.pick([0, 1, 1, 1, 2, 2, len(text)])
    places = {draws.below(len(text)) for _ in range(wilds)}
    end = draws.pick(["*", "**", "?", "\\", "["]) if draws.one_in(10) else ""
    made = [wildcard_for(draws, text[place]) if place in places else text[place] for place in range(len(text))]
    return "".join(made) + end


def wildcard_for(draws: Draws, character: str) -> str:
    """What often takes this character."""
    single = draws.pick(["[{}]", "[!{}]", "[^x{}]", "[{}-{}]", "[.{}]", "[\\{}]"]).replace("{}", character)
    near = f"[{chr(max(ord(character) - 1, 1))}-{chr(ord(character) + 1)}]"
    return draws.pick(
        [
            "?" * len(character.encode()),
            "*",
            "**",
            "*" + character,
            character + "*",
            "\\" + character,
            character.swapcase(),
            single,
            single,
            single,
            near,
            draws.pick(CLASSES),
            draws.pick(CLASSES),
            "",
        ]
    )


def since_term(draws: Draws, world: World, head: str) -> str:
    if draws.one_in(25):
        wrong = ['["since"]', '["since",1,"ctime"]', '["since",1,null]', '["since",1,"oclock",1]', '["since","x",7]']
        return draws.pick(wrong)
    field = draws.pick([[], ['"oclock"'], ['"cclock"'], ['"mtime"']])
    spec = str(draws.below(4)) if field == ['"mtime"'] and not draws.one_in(8) else clock_spec(draws, world)
    return array(draws, ['"since"', spec] + field)


def clock_spec(draws: Draws, world: World) -> str:
    if draws.one_in(20):
        return draws.pick(BAD_CLOCK_SPECS)
    if draws.one_in(12):
        names = ["k", "k", "k", "c:1:2", " ", "\\u0000", "k" * 255, "ü" * 127]
        return f'"n:{draws.pick(names)}"'
    if draws.one_in(8):
        return draws.pick(FRESH_IDS)
    if draws.one_in(2):
        second = draws.pick(world.seconds) + draws.between(-1, 1)
        return str(draws.pick([second, second, second, 0, MAX, MAX - 1]))
    tick = draws.pick([99, MAX]) if draws.one_in(8) else draws.below(world.passes + 1)
    root = draws.between(1, world.root) if draws.one_in(4) else world.root
    return f'"c:7:9:{root}:{tick}"'


FRESH_IDS = [
    '"c:7:8:1:1"',
    '"c:8:9:1:1"',
    '"c:7:9:2:1"',
    '"c:9:1"',
    '"c:0:0"',
    f'"c:{MAX}:{MAX}:{MAX}:{MAX}"',
    '"c:0:0:0:0"',
]
BAD_CLOCK_SPECS = [
    '"c:7:9:1:01"',
    '"c:+7:9:1:1"',
    '"c:-0:9:1:1"',
    '"c: 7:9:1:1"',
    '"c:7:9:1:1\\n"',
    f'"c:7:9:1:{MAX + 1}"',
    '"c:1"',
    '"c:1:2:3"',
    '"c:1:2:3:4:5"',
    '"c:"',
    '"c::::"',
    '"C:7:9:1:1"',
    '"n:"',
    '"n:' + "k" * 256 + '"',
    '""',
    '"7"',
    "-1",
    str(MAX + 1),
    str(2**64),
    "1.5",
    "-0",
    "1e2",
    "null",
    "[]",
    "{}",
    "true",
    '"c:7:9:1:१"',
    '"n:' + "ü" * 128 + '"',
]
TERMS: Dict[str, Callable[[Draws, World, str], str]] = {
    "true": plain_term,
    "false": plain_term,
    "exists": plain_term,
    "empty": plain_term,
    "type": type_term,
    "size": size_term,
    "name": name_term,
    "iname": name_term,
    "suffix": suffix_term,
    "dirname": dirname_term,
    "idirname": dirname_term,
    "match": match_term,
    "imatch": match_term,
    "since": since_term,
}
