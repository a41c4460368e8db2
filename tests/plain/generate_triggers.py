"""Generated triggers, as JSON texts; rounds of them, and ends of their commands, as lines of a script."""

from typing import List, Tuple

from draws import Draws, array, json_object
from generate_terms import MAX, WRONG_NUMBERS, World, expression

NAMES = ['"t"'] * 8 + ['"\\u0074"', '"u"', '"u"', '"ü v"', '""', '"' + "t" * 256 + '"', "7"]
COMMANDS = ['["cc"]', '["cc","-c"]', '["sh","-c","x \\"y\\""]', '["ü",""]']
WRONG_COMMANDS = ["[]", '[""]', '"cc"', "[7]", '["cc",null]', '["cc","a\\u0000"]', "null"]
INPUTS = [
    '"/dev/null"',
    '"NAME_PER_LINE"',
    '"NAME_PER_LINE"',
    '["name"]',
    '["name","size","new"]',
    '["exists","oclock"]',
]
WRONG_INPUTS = ['"name_per_line"', '""', "[]", '["frob"]', "null", "{}", '["name",7]']
LIMITS = ["0", "1", "1", "2", "3", str(MAX)]
WRONG_KEYS = ["stdout", "stderr", "chdir", "relative_root"]
IGNORED_KEYS = ["fields", "since", "defer", "stdin ", "glob"]
STRANGERS = [b"done ", b"done x", b"done t ", b"done \xff"]
MOMENTS = [b"fire ok"] * 6 + [b"fire fail"] + [b"done t"] * 3 + [b"done u", "done ü v".encode()]


def rounds(draws: Draws, world: World, root: str) -> List[bytes]:
    """Lines by which clients ask for triggers, rounds of these, and ends of commands."""
    lines = []
    if draws.one_in(3):
        asks = [trigger_command(draws, world, root) for _ in range(draws.between(1, 3))]
        lines += [b"ask %d " % draws.between(1, 3) + ask.encode() for ask in asks]
    if draws.one_in(2):
        lines += [draws.pick(STRANGERS if draws.one_in(30) else MOMENTS) for _ in range(draws.between(1, 3))]
    return lines


def trigger_command(draws: Draws, world: World, root: str) -> str:
    name = draws.pick(NAMES)
    if draws.one_in(12):
        words = draws.pick(
            [['"trigger-del"', root, name]] * 3 + [['"trigger-del"', root], ['"trigger-del"', root, name, name]]
        )
        return array(draws, words)
    if draws.one_in(12):
        return array(
            draws, draws.pick([['"trigger-list"', root]] * 3 + [['"trigger-list"'], ['"trigger-list"', root, "{}"]])
        )
    asked = json_object(draws, trigger(draws, world, name))
    wrong = [['"trigger"', root], ['"trigger"', root, "[]"], ['"trigger"', root, name, '["cc"]']]
    return array(draws, draws.pick([['"trigger"', root, asked]] * 20 + wrong))


def trigger(draws: Draws, world: World, name: str) -> List[Tuple[str, str]]:
    """The members of the object of a trigger, which is refused now and then."""
    members = [("name", name), ("command", draws.pick(WRONG_COMMANDS if draws.one_in(25) else COMMANDS))]
    if draws.one_in(2):
        members.append(("append_files", draws.pick(["true"] * 8 + ["false", "null"])))
    if draws.one_in(2):
        members.append(("stdin", draws.pick(WRONG_INPUTS if draws.one_in(25) else INPUTS)))
    if draws.one_in(3):
        members.append(("max_files_stdin", draws.pick(WRONG_NUMBERS + ["-1"] if draws.one_in(15) else LIMITS)))
    if draws.one_in(3):
        members.append(("expression", expression(draws, world)))
    if draws.one_in(5):
        members.append(("program", draws.pick(['"p"'] * 8 + ["7", '"q"'])))
    if draws.one_in(10):
        members.append((draws.pick(IGNORED_KEYS), draws.pick(["true", "7", '["x"]', '"n:k"'])))
    if draws.one_in(40):
        members.append((draws.pick(WRONG_KEYS), draws.pick(["true", '">x"'])))
    if draws.one_in(25):
        del members[draws.below(2)]
    return members
