"""Each command of a client: what the server is asked for it, and what the client is answered."""

import os
from typing import Callable, Dict, List, NamedTuple

from bridge import notifying, old_forms, subscribing, triggering, watching
from bridge.abilities import abilities_of, checked
from bridge.encodings import JSON
from bridge.faults import Refused
from bridge.listing import Listed, Listing
from bridge.places import resolved
from bridge.queries import asking_of, directory_of, is_plain
from bridge.session import Session
from bridge.settling import settle
from bridge.telling import Reply
from wqclient import names

Command = List[object]


def answer(session: Session, command: object) -> Reply:
    """The reply to a command of a client."""
    if not isinstance(command, list) or not command:
        raise Refused("invalid command (expected an array with some elements!)")
    name = command[0]
    if not isinstance(name, str):
        raise Refused("invalid command: expected element 0 to be the command name")
    found = COMMANDS.get(name)
    if found is None:
        raise Refused(f"unknown command {name}")
    if not found.least <= len(command) - 1 <= found.most:
        raise Refused(found.refusal.format(name))
    return found.handler(session, command)


def version(session: Session, command: Command) -> Reply:
    reply = session.ask(["version"])
    found: Dict[str, object] = {"wqd": reply["version"]}
    if len(command) == 2:
        found.update(checked(command[1], abilities(session)))
    return found


def list_capabilities(session: Session, _: Command) -> Reply:
    return {"capabilities": abilities(session)}


def abilities(session: Session) -> List[str]:
    return abilities_of(COMMANDS, session.has_bser)


def get_sockname(session: Session, _: Command) -> Reply:
    return {"sockname": session.bridge.sockname}


def get_pid(session: Session, _: Command) -> Reply:
    return {"pid": session.server().server_process()}


def clock(session: Session, command: Command) -> Reply:
    wishes = command[2] if len(command) > 2 else {}
    timeout = wishes.get("sync_timeout", 0) if isinstance(wishes, dict) else None
    if isinstance(timeout, bool) or not isinstance(timeout, int):
        raise Refused("malformated argument list for 'clock'")
    return session.ask(["clock", resolved(command[1]), {"sync_timeout": timeout}], patience=timeout)


def query(session: Session, command: Command) -> Reply:
    return listed(session, resolved(command[1]), command[2])


def listed(session: Session, root: str, wishes: object) -> Listed:
    bridge = session.bridge
    asking = asking_of(root, wishes, session.encoding == JSON, bridge.configurations.of(root).terms())
    assert isinstance(wishes, dict)
    check_directory(session, root, wishes)
    settle(wishes, lambda: str(session.ask(["clock", root, {"sync_timeout": 1}])["clock"]))
    patience = wishes.get("sync_timeout", 0)
    assert isinstance(patience, int)
    found = session.ask_for_list(["query", root, asking.query], asking.lister, patience)
    found.more.update(bridge.recrawls.keys(root))
    return found


def check_directory(session: Session, root: str, wishes: Dict[str, object]) -> None:
    """Watchman looks for the directory of a query with globs, and only of one. It may be gone, but was there once."""
    below = directory_of(wishes)
    if "glob" not in wishes or not below or is_plain(below) and os.path.isdir(os.path.join(root, below)):
        return
    expression = ["allof", ["type", "d"], ["name", below, "wholename"]]
    query = {"since": 0, "expression": expression, "fields": ["name"], "sync_timeout": 0}
    if not session.ask(["query", root, query])["files"]:
        words = f"glob_generator could not resolve {root}/{below}, check your relative_root parameter!"
        raise Refused(f"query failed: {words}")


def find(session: Session, command: Command) -> Reply:
    """A list without two keys that the one of `query` has."""
    reply = listed(session, resolved(command[1]), old_forms.query_of(command, 2))
    assert isinstance(reply, Listing)
    del reply.value["is_fresh_instance"]
    reply.more.pop("warning", None)
    return reply


def since(session: Session, command: Command) -> Reply:
    if not isinstance(command[2], str):
        raise Refused("expected argument 2 to be a valid clockspec")
    return listed(session, resolved(command[1]), old_forms.query_of(command, 3, command[2]))


def shutdown_server(session: Session, _: Command) -> Reply:
    reply = session.ask(["shutdown-server"])
    session.ends_server = True
    return reply


def passed(session: Session, command: Command) -> Reply:
    """A command of wqd that Watchman has not."""
    return session.ask(command)


MANY = 1_000_000
# The words with which Watchman refuses a wrong number of arguments.
FOR, TO = "wrong number of arguments for '{}'", "wrong number of arguments to '{}'"
BARE, FEW = "wrong number of arguments", "not enough arguments for '{}'"
Handler = Callable[[Session, Command], Reply]


class Known(NamedTuple):
    """The handler of a command, how many arguments it takes, and the words that refuse another number."""

    handler: Handler
    least: int
    most: int
    refusal: str = FOR


COMMANDS: Dict[str, Known] = {
    "clock": Known(clock, 1, 2, TO),
    "debug-get-subscriptions": Known(subscribing.get_subscriptions, 1, MANY, BARE),
    "debug-recrawl": Known(watching.debug_recrawl, 1, 1),
    "debug-set-subscriptions-paused": Known(subscribing.set_paused, 1, MANY),
    "find": Known(find, 1, MANY, FEW),
    "flush-subscriptions": Known(subscribing.flush_subscriptions, 0, MANY),
    "get-config": Known(watching.get_config, 1, 1),
    "get-pid": Known(get_pid, 0, MANY),
    "get-sockname": Known(get_sockname, 0, MANY),
    "list-capabilities": Known(list_capabilities, 0, MANY),
    "log": Known(notifying.log, 0, MANY),
    "log-level": Known(notifying.log_level, 0, MANY),
    "query": Known(query, 2, 2),
    "shutdown-server": Known(shutdown_server, 0, MANY),
    "since": Known(since, 2, MANY, FEW),
    "state-enter": Known(notifying.state_enter, 1, MANY, BARE),
    "state-leave": Known(notifying.state_leave, 1, MANY, BARE),
    "subscribe": Known(subscribing.subscribe, 3, 3, "wrong number of arguments for subscribe"),
    "trigger": Known(triggering.trigger, 1, MANY, BARE),
    "trigger-del": Known(triggering.trigger_del, 2, 2, BARE),
    "trigger-list": Known(triggering.trigger_list, 1, MANY, BARE),
    "unsubscribe": Known(subscribing.unsubscribe, 1, MANY, BARE),
    "version": Known(version, 0, MANY),
    "watch": Known(watching.watch, 1, 1, TO),
    "watch-del": Known(watching.watch_del, 1, 1, TO),
    "watch-del-all": Known(watching.watch_del_all, 0, MANY),
    "watch-list": Known(watching.watch_list, 0, MANY),
    "watch-project": Known(watching.watch_project, 1, 1, TO),
}
# The server itself judges the arguments of its other commands, which Watchman has not.
COMMANDS.update({name: Known(passed, 0, MANY) for name in names.COMMANDS if name not in COMMANDS})
