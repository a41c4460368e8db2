"""Commands that tell other clients: states, and the log."""

from typing import Dict, List

from bridge.faults import Refused
from bridge.logs import level_of, line_of
from bridge.notices import ENTERS, LEAVES, Notice
from bridge.places import resolved
from bridge.session import Session
from bridge.telling import Reply
from bridge.states import Wish, wish_of
from bridge.watching import watch_if_needed

Command = List[object]


def state_enter(session: Session, command: Command) -> Reply:
    root = resolved(command[1])
    wish = wish_of(command)
    watch_if_needed(session, root)
    clock = clock_of(session, root, wish)
    session.bridge.states.enter(root, wish.name, session)
    return told(session, root, ENTERS, wish, clock)


def state_leave(session: Session, command: Command) -> Reply:
    root = resolved(command[1])
    wish = wish_of(command)
    clock = clock_of(session, root, wish)
    session.bridge.states.leave(root, wish.name, session)
    return told(session, root, LEAVES, wish, clock)


def clock_of(session: Session, root: str, wish: Wish) -> str:
    """The clock of the root, which is crawled first unless the client does not want it."""
    return str(session.ask(["clock", root, {"sync_timeout": wish.timeout}], patience=wish.timeout)["clock"])


def told(session: Session, root: str, key: str, wish: Wish, clock: str) -> Reply:
    """The reply, which comes before the notices."""
    keys: Dict[str, object] = {"root": root, key: wish.name, "clock": clock}
    session.tell(dict(keys))
    session.bridge.mailboxes.put(Notice(root, {**keys, **wish.keys}))
    return None


def log_level(session: Session, command: Command) -> Reply:
    session.log_level = level_of(command, 1)
    session.listens()
    return {"log_level": session.log_level}


def log(session: Session, command: Command) -> Reply:
    level, text = level_of(command, 2), command[2]
    if not isinstance(text, str):
        raise Refused("expected json string object")
    session.bridge.mailboxes.put(Notice(None, {"log": line_of("client", text), "level": level}))
    return {"logged": True}
