"""What a client's line is answered."""

from typing import Any, Callable, Dict, List, NamedTuple, Optional

from followers import Session, Told
from programs import program_of
from queries import Query, read_query, reply_to, settled
from scripted import clock_id
from servers import Server
from triggers import add_trigger, read_trigger
from wqprogram.errors import (
    BAD_NAME,
    BINARY,
    LINE_TOO_LONG,
    NOT_A_COMMAND,
    NOT_JSON,
    ROOT_NOT_ABSOLUTE,
    UNKNOWN_COMMAND,
    WRONG_ARGUMENTS,
    Refused,
)
from wqprogram.json_values import NotJson, compact_text, is_whole_number, read
from wqprogram.limits import MAX_LINE, MAX_PROGRAM_NAME, MAX_ROOT, MAX_SUBSCRIPTION_NAME, MAX_TRIGGER_NAME


class Answer(NamedTuple):
    """A reply without a newline, whether the server ends with it, whether the session does, the query that it answers,
    if it does, and the list that follows it, if one does."""

    reply: bytes
    shuts: bool = False
    ends: bool = False
    query: Optional[Query] = None
    told: Optional[Told] = None


def answer(line: bytes, session: Session, server: Server) -> Answer:
    """What a line is answered. The root is crawled first, if the line asks for that."""
    try:
        return answer_line(line, session, server)
    except Refused as refused:
        return said({"error": refused.error})._replace(ends=refused.error in (BINARY, LINE_TOO_LONG))


def said(reply: Dict[str, Any], shuts: bool = False) -> Answer:
    return Answer(text_of(reply), shuts, ends=shuts)


def text_of(line: Dict[str, Any]) -> bytes:
    return compact_text({**line, "version": "wq-1"}).encode()


def answer_line(line: bytes, session: Session, server: Server) -> Answer:
    if line.startswith(b"\0"):
        raise Refused(BINARY)
    if len(line) > MAX_LINE:
        raise Refused(LINE_TOO_LONG)
    try:
        value = read(line)
    except NotJson:
        raise Refused(NOT_JSON) from None
    if not isinstance(value, list) or not value or not isinstance(value[0], str):
        raise Refused(NOT_A_COMMAND)
    name, arguments = value[0], value[1:]
    if name in SESSION_COMMANDS:
        return SESSION_COMMANDS[name](arguments, session, server)
    if name not in COMMANDS:
        raise Refused(UNKNOWN_COMMAND)
    return COMMANDS[name](arguments, server)


def query(arguments: List[Any], server: Server) -> Answer:
    require(len(arguments) == 2 and isinstance(arguments[0], str) and isinstance(arguments[1], dict))
    root, asked = arguments
    timeout = asked.get("sync_timeout", 1)
    number = look_at(root, is_whole_number(timeout) and timeout != 0, server)
    settled_query = settled(read_query(asked, number), server)
    return said(reply_to(settled_query, server.view))._replace(query=settled_query)


def subscribe(arguments: List[Any], session: Session, server: Server) -> Answer:
    require(len(arguments) == 3 and isinstance(arguments[0], str) and isinstance(arguments[1], str))
    require(isinstance(arguments[2], dict))
    root, name, asked = arguments
    number = server.watched(root_named(root))
    require_name(name, MAX_SUBSCRIPTION_NAME)
    query = settled(read_query(asked, number, is_subscription=True), server)
    told = session.subscribe(name, root_named(root), query, server)
    return said({"clock": clock_id(number, server.view.tick), "subscribe": name})._replace(told=told)


def unsubscribe(arguments: List[Any], session: Session, server: Server) -> Answer:
    require(len(arguments) == 2 and all(isinstance(argument, str) for argument in arguments))
    root, name = arguments
    number = server.watched(root_named(root))
    require_name(name, MAX_SUBSCRIPTION_NAME)
    return said({"deleted": session.unsubscribe(name, number), "unsubscribe": name})


def clock(arguments: List[Any], server: Server) -> Answer:
    require(len(arguments) in (1, 2) and isinstance(arguments[0], str))
    require(len(arguments) == 1 or isinstance(arguments[1], dict))
    timeout = arguments[1].get("sync_timeout", 0) if len(arguments) == 2 else 0
    number = look_at(arguments[0], is_whole_number(timeout) and timeout > 0, server)
    return said({"clock": clock_id(number, server.view.tick)})


def watch(arguments: List[Any], server: Server) -> Answer:
    text = one_text(arguments)
    if not text.startswith("/") or len(text.encode()) > MAX_ROOT or "\0" in text:
        raise Refused(ROOT_NOT_ABSOLUTE)
    server.watch(root_named(text))
    return said({"watch": root_named(text), "watcher": "poll"})


def watch_list(arguments: List[Any], server: Server) -> Answer:
    require(not arguments)
    return said({"roots": server.roots()})


def watch_del(arguments: List[Any], server: Server) -> Answer:
    root = root_named(one_text(arguments))
    server.end_watch(root)
    return said({"root": root, "watch-del": True})


def version(arguments: List[Any], server: Server) -> Answer:
    require(not arguments or (len(arguments) == 1 and isinstance(arguments[0], dict)))
    return said({})


def get_sockname(arguments: List[Any], server: Server) -> Answer:
    require(not arguments)
    return said({"sockname": "replay"})


def shutdown_server(arguments: List[Any], server: Server) -> Answer:
    require(not arguments)
    return said({"shutdown-server": True}, shuts=True)


def program_add(arguments: List[Any], server: Server) -> Answer:
    require(len(arguments) == 2 and all(isinstance(argument, str) for argument in arguments))
    name, text = arguments
    require_name(name, MAX_PROGRAM_NAME)
    program = program_of(text)
    replaced = server.add_program(name, program)
    return said({"instructions": program.instructions, "program-add": name, "replaced": replaced})


def program_list(arguments: List[Any], server: Server) -> Answer:
    require(not arguments)
    return said({"programs": server.program_names()})


def program_del(arguments: List[Any], server: Server) -> Answer:
    name = one_text(arguments)
    require_name(name, MAX_PROGRAM_NAME)
    deleted = server.programs.pop(name, None) is not None
    return said({"deleted": deleted, "program-del": name})


def trigger(arguments: List[Any], server: Server) -> Answer:
    require(len(arguments) == 2 and isinstance(arguments[0], str) and isinstance(arguments[1], dict))
    root = root_named(arguments[0])
    made = read_trigger(arguments[1], root, server.watched(root), server)
    disposition = "replaced" if add_trigger(made, server) else "created"
    return said({"disposition": disposition, "triggerid": made.name})


def trigger_list(arguments: List[Any], server: Server) -> Answer:
    server.watched(root_named(one_text(arguments)))
    return said({"triggers": [one.asked for one in server.triggers.values()]})


def trigger_del(arguments: List[Any], server: Server) -> Answer:
    require(len(arguments) == 2 and all(isinstance(argument, str) for argument in arguments))
    root, name = arguments
    server.watched(root_named(root))
    require_name(name, MAX_TRIGGER_NAME)
    return said({"deleted": server.triggers.pop(name, None) is not None, "trigger": name})


def one_text(arguments: List[Any]) -> str:
    require(len(arguments) == 1 and isinstance(arguments[0], str))
    return arguments[0]


def require(are_right: bool) -> None:
    if not are_right:
        raise Refused(WRONG_ARGUMENTS)


def require_name(name: str, limit: int) -> None:
    if not 1 <= len(name.encode()) <= limit:
        raise Refused(BAD_NAME)


def look_at(root: str, crawls: bool, server: Server) -> int:
    """The number of the root, which is crawled first or not."""
    number = server.watched(root_named(root))
    if crawls:
        server.crawl()
    return number


def root_named(text: str) -> str:
    """Slashes at the end change nothing, but slashes alone are the root `/`."""
    return "/" if text and not text.strip("/") else text.rstrip("/")


COMMANDS: Dict[str, Callable[[List[Any], Server], Answer]] = {
    "watch": watch,
    "watch-project": watch,
    "watch-list": watch_list,
    "watch-del": watch_del,
    "query": query,
    "clock": clock,
    "version": version,
    "get-sockname": get_sockname,
    "shutdown-server": shutdown_server,
    "program-add": program_add,
    "program-list": program_list,
    "program-del": program_del,
    "trigger": trigger,
    "trigger-list": trigger_list,
    "trigger-del": trigger_del,
}

# Those that change what is kept of the client.
SESSION_COMMANDS: Dict[str, Callable[[List[Any], Session, Server], Answer]] = {
    "subscribe": subscribe,
    "unsubscribe": unsubscribe,
}
