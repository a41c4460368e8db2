"""Commands about triggers."""

from typing import Dict, List

from bridge.faults import Refused
from bridge.first_runs import FirstRun
from bridge.places import resolved
from bridge.session import Session
from bridge.telling import Reply
from bridge.triggers import Definition, definition_of, given_of, held_back, is_held_back, registered
from bridge.watching import watch_if_needed

Command = List[object]
# Watchman's `settle` where a root's configuration has none, in milliseconds.
SETTLE = 20


def trigger(session: Session, command: Command) -> Reply:
    root = resolved(command[1])
    if len(command) < 3:
        raise Refused("not enough arguments")
    given = definition_of(command)
    settings = session.bridge.configurations.of(root)
    found = registered(given, session.bridge.sockname, settings.terms())
    watch_if_needed(session, root)
    with session.bridge.first_runs.lock:
        if is_defined(session, root, given):
            # A trigger that is registered already stays, and does not start anew.
            return {"triggerid": given["name"], "disposition": "already_defined"}
        first = None
        if "program" not in given:
            settle = settings.number("settle") or SETTLE
            first = session.bridge.first_runs.hold(root, found, settle / 1000)
        if first is None:
            return session.ask(["trigger", root, found])
        reply = begun(session, first)
    try:
        session.tell(reply)
    finally:
        first.is_told = True
    return None


def begun(session: Session, first: FirstRun) -> Dict[str, object]:
    """Registers a trigger whose first run is held back. What the server says of one that it refuses is said of the
    client's own."""
    try:
        return session.ask(["trigger", first.root, held_back(first.definition)])
    except Refused:
        session.bridge.first_runs.drop(first)
        return session.ask(["trigger", first.root, first.definition])
    except BaseException:
        session.bridge.first_runs.drop(first)
        raise


def is_defined(session: Session, root: str, given: Definition) -> bool:
    """Whether a trigger is registered. One whose first run a bridge held back that was killed is not."""
    first_runs = session.bridge.first_runs
    return any(
        given_of(each) == given and (not is_held_back(each) or first_runs.holds(root, each))
        for each in triggers_of(session, root)
    )


def triggers_of(session: Session, root: str) -> List[Definition]:
    found = session.ask(["trigger-list", root])["triggers"]
    assert isinstance(found, list)
    return found


def listed(session: Session, root: str) -> List[Definition]:
    """The triggers of a root as clients registered them."""
    return [given_of(each) for each in triggers_of(session, root)]


def trigger_list(session: Session, command: Command) -> Reply:
    triggers: Dict[str, object] = {"triggers": listed(session, resolved(command[1]))}
    return triggers


def trigger_del(session: Session, command: Command) -> Reply:
    root, name = resolved(command[1]), command[2]
    if not isinstance(name, str):
        raise Refused("expected 2nd parameter to be trigger name")
    with session.bridge.first_runs.lock:
        return session.ask(["trigger-del", root, name])
