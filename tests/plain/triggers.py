"""Triggers: the commands that a round starts for files that changed."""

from typing import Any, Dict, List, NamedTuple, Optional

from followers import changed_after
from programs import require_program
from queries import FIELDS, Query, file_of, listed_records
from scripted import at_root, clock_id
from servers import Server
from wqprogram.clocks import FRESH, Bound
from wqprogram.errors import BAD_NAME, BAD_TRIGGER, EXPRESSION_AND_PROGRAM, TOO_MANY_TRIGGERS, Refused
from wqprogram.json_values import compact_text, is_whole_number
from wqprogram.limits import MAX_APPENDED, MAX_NUMBER, MAX_TRIGGER_NAME, MAX_TRIGGERS
from wqprogram.records import Record
from wqprogram.terms import read_term

KNOWN_KEYS = ["append_files", "command", "expression", "max_files_stdin", "name", "program", "stdin"]
LEFT_OUT_KEYS = ["stdout", "stderr", "chdir", "relative_root"]
INPUTS = ["/dev/null", "NAME_PER_LINE"]


class Trigger(NamedTuple):
    """A trigger, the tick up to which its batches went, if it had one, and whether its command runs."""

    asked: Dict[str, Any]
    root: str
    query: Query
    last: Optional[int] = None
    runs: bool = False

    @property
    def name(self) -> str:
        return self.asked["name"]


class Start(NamedTuple):
    """A start of a command, and whether it succeeded."""

    trigger: Trigger
    files: List[Record]
    line: Dict[str, Any]
    succeeds: bool

    def text(self) -> bytes:
        if not self.succeeds:
            return b"failed " + self.trigger.name.encode()
        return b"start " + compact_text(self.line).encode()


def read_trigger(asked: Dict[str, Any], root: str, number: int, server: Server) -> Trigger:
    """The trigger that an object says, of the root of this number, or the refusal of its first fault."""
    name = asked.get("name")
    if isinstance(name, str) and not 1 <= len(name.encode()) <= MAX_TRIGGER_NAME:
        raise Refused(BAD_NAME)
    if not has_good_shape(asked):
        raise Refused(BAD_TRIGGER)
    if "expression" in asked and "program" in asked:
        raise Refused(EXPRESSION_AND_PROGRAM)
    expression = asked.get("expression", "true")
    matches = read_term(expression, at_root(number))
    if "program" in asked:
        matches = server.program(asked["program"]).matches
    else:
        require_program(expression, number)
    stdin = asked.get("stdin")
    fields = stdin if isinstance(stdin, list) else ["name"]
    known = {key: asked[key] for key in KNOWN_KEYS if key in asked}
    return Trigger(known, root, Query(matches, fields, FRESH, False, program=asked.get("program"), root=number))


def has_good_shape(asked: Dict[str, Any]) -> bool:
    limit = asked.get("max_files_stdin", 0)
    return (
        not any(key in asked for key in LEFT_OUT_KEYS)
        and isinstance(asked.get("program", ""), str)
        and isinstance(asked.get("name"), str)
        and isinstance(asked.get("append_files", False), bool)
        and is_whole_number(limit)
        and 0 <= limit <= MAX_NUMBER
        and is_command(asked.get("command"))
        and is_input(asked.get("stdin", "/dev/null"))
    )


def is_command(value: Any) -> bool:
    """Texts without byte 0, of which the first names the program."""
    if not isinstance(value, list) or not all(isinstance(word, str) and "\0" not in word for word in value):
        return False
    return bool(value) and value[0] != ""


def is_input(value: Any) -> bool:
    if isinstance(value, str):
        return value in INPUTS
    return (
        isinstance(value, list) and bool(value) and all(isinstance(field, str) and field in FIELDS for field in value)
    )


def add_trigger(trigger: Trigger, server: Server) -> bool:
    """Puts a trigger under its name, and says whether it replaced one. It takes over whether the command runs."""
    old = server.triggers.get(trigger.name)
    if old is None and len(server.triggers) >= MAX_TRIGGERS:
        raise Refused(TOO_MANY_TRIGGERS)
    server.triggers[trigger.name] = trigger._replace(runs=old is not None and old.runs)
    return old is not None


def end_run(name: bytes, server: Server) -> bool:
    """The command of the trigger of this name has ended. Says whether it ran."""
    for trigger in server.triggers.values():
        if trigger.name.encode() == name and trigger.runs:
            server.triggers[trigger.name] = trigger._replace(runs=False)
            return True
    return False


class Round(NamedTuple):
    """The starts of a round, the triggers that it passed over since their commands run, and those without files. It
    has none, if the root is not watched."""

    starts: List[Start]
    passed_over: List[Trigger]
    quiet: List[Trigger]
    is_watched: bool

    def lines(self) -> List[bytes]:
        return [start.text() for start in self.starts]


def fire(succeeds: bool, server: Server) -> Round:
    """A round of the triggers, in which each start succeeds, or each fails."""
    done = Round([], [], [], server.root is not None)
    for trigger in list(server.triggers.values()):
        files = batch_of(trigger, server)
        if trigger.runs:
            done.passed_over.append(trigger)
            continue
        if files:
            done.starts.append(Start(trigger, files, start_line(trigger, files, server.view.tick), succeeds))
        else:
            done.quiet.append(trigger)
        if not files or succeeds:
            server.triggers[trigger.name] = trigger._replace(last=server.view.tick, runs=bool(files))
    return done


def batch_of(trigger: Trigger, server: Server) -> List[Record]:
    """The files that there are, the first time; from then on those that changed, deleted ones too."""
    if trigger.last is None:
        return listed_records(trigger.query, server.view)
    return [record for record in changed_after(trigger.last, server.history) if trigger.query.matches(record)]


def start_line(trigger: Trigger, files: List[Record], tick: int) -> Dict[str, Any]:
    names = [record.name.decode() for record in files]
    appended = fitting(names) if trigger.asked.get("append_files", False) else []
    given = files[: trigger.asked.get("max_files_stdin", 0) or len(files)]
    number = trigger.query.root
    env = {"WATCHMAN_CLOCK": clock_id(number, tick), "WATCHMAN_ROOT": trigger.root, "WATCHMAN_TRIGGER": trigger.name}
    if trigger.last is not None:
        env["WATCHMAN_SINCE"] = clock_id(number, trigger.last)
    if is_cut(trigger, files, appended, given):
        env["WATCHMAN_FILES_OVERFLOW"] = "true"
    return {
        "args": trigger.asked["command"] + appended,
        "env": env,
        "name": trigger.name,
        "stdin": input_of(trigger, given),
    }


def fitting(names: List[str]) -> List[str]:
    """The first names, as long as their lengths, plus 1 each, come to the limit at most."""
    room = MAX_APPENDED
    for count, name in enumerate(names):
        room -= len(name.encode()) + 1
        if room < 0:
            return names[:count]
    return names


def is_cut(trigger: Trigger, files: List[Record], appended: List[str], given: List[Record]) -> bool:
    are_names_cut = trigger.asked.get("append_files", False) and len(appended) < len(files)
    return are_names_cut or (has_input(trigger) and len(given) < len(files))


def has_input(trigger: Trigger) -> bool:
    return trigger.asked.get("stdin", "/dev/null") != "/dev/null"


def input_of(trigger: Trigger, files: List[Record]) -> str:
    if not has_input(trigger):
        return ""
    if trigger.asked["stdin"] == "NAME_PER_LINE":
        return "".join(record.name.decode() + "\n" for record in files)
    bound = FRESH if trigger.last is None else Bound("tick", trigger.last)
    query = trigger.query._replace(bound=bound)
    return compact_text([file_of(record, query) for record in files]) + "\n"
