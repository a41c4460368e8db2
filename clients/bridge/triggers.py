"""Triggers: what the server registers for the definition of a client, and which definitions it has."""

import json
import os
import sys
from typing import Dict, List, Optional, Sequence

from bridge import old_forms
from bridge.checking import check_term
from bridge.expressions import Place, Term, all_of, below, said_at
from bridge.faults import Refused
from bridge.fields import KEPT, fields_of
from bridge.queries import directory_of

Definition = Dict[str, object]
STARTED = os.path.join(os.path.dirname(os.path.realpath(__file__)), "started.py")
# The words before the definition, of which the first is the interpreter.
BEGIN = ("-I", "-S", STARTED)
# The system takes no longer word of a command.
LONGEST = 120_000
STYLES = ("/dev/null", "NAME_PER_LINE")
# How the expression of a trigger begins that is held back: it fits no file.
HELD_BACK: List[Term] = ["allof", "false", "false"]


def definition_of(command: List[object]) -> Definition:
    """The trigger that a command has, as an object or in the old form."""
    given = old_forms.trigger_of(command) if isinstance(command[2], str) else command[2]
    if not isinstance(given, dict) or not isinstance(given.get("name"), str):
        raise Refused("invalid or missing name")
    words = given.get("command")
    if not isinstance(words, list) or not words or not all(isinstance(word, str) for word in words):
        raise Refused("invalid command array")
    check_input(given)
    for key in ("stdout", "stderr"):
        target = given.get(key, ">")
        if not isinstance(target, str) or not target.startswith(">"):
            raise Refused(f"{key}: must be prefixed with either > or >>, got {target}")
    if not isinstance(given.get("chdir", ""), str):
        raise Refused("expected json string object")
    return given


def check_input(given: Definition) -> None:
    style, most = given.get("stdin", STYLES[0]), given.get("max_files_stdin", 0)
    if isinstance(style, str):
        if style not in STYLES:
            raise Refused(f"invalid stdin value {style}")
    elif isinstance(style, list):
        fields_of(style, is_in_json=True, is_fresh=False)
    else:
        raise Refused("invalid value for stdin")
    if isinstance(most, bool) or not isinstance(most, int) or most < 0:
        raise Refused("max_files_stdin must be >= 0")


def registered(given: Definition, sockname: str, left_out: Sequence[Term]) -> Definition:
    """The trigger of the server, which runs the command through `started.py`."""
    text = json.dumps(given, separators=(",", ":"))
    if len(text) > LONGEST:
        raise Refused(f"the trigger is too long: a definition may have {LONGEST:,} bytes")
    found: Definition = {"name": given["name"], "command": [sys.executable, *BEGIN, text, sockname]}
    if given.get("append_files") is True:
        found["append_files"] = True
    style = given.get("stdin", STYLES[0])
    if isinstance(style, list):
        asked = [name for name in style if name in KEPT]
        found["stdin"] = list(dict.fromkeys([*asked, "name", "exists", "type"]))
    else:
        found["stdin"] = style
    if given.get("max_files_stdin"):
        found["max_files_stdin"] = given["max_files_stdin"]
    if "program" in given:
        return {**found, "program": given["program"]}
    place = Place(directory_of(given), True)
    terms = [*below(place), *expression_of(given, place), *left_out]
    if terms:
        found["expression"] = all_of(terms)
    return found


def expression_of(given: Definition, place: Place) -> List[Term]:
    if "expression" not in given:
        return []
    check_term(given["expression"])
    return [said_at(given["expression"], place)]


def held_back(found: Definition) -> Definition:
    """The trigger as the server has it until its first run: it never starts."""
    return {**found, "expression": [*HELD_BACK, found.get("expression", "true")]}


def is_held_back(found: Definition) -> bool:
    expression = found.get("expression")
    return isinstance(expression, list) and expression[: len(HELD_BACK)] == HELD_BACK


def given_of(found: Definition) -> Definition:
    """The definition of a client, for a trigger of the server. One that was registered without the bridge is its
    own."""
    text = text_of(found)
    return found if text is None else dict(json.loads(text))


def text_of(found: Definition) -> Optional[str]:
    """The definition of a client as the server's trigger has it, if it was registered by the bridge."""
    command = found.get("command")
    if not isinstance(command, list):
        return None
    words = [str(word) for word in command[1:5]]
    if len(words) < 4 or words[:2] != list(BEGIN[:2]) or os.path.basename(words[2]) != os.path.basename(STARTED):
        return None
    return words[3]
