"""Commands about roots: watching them, and what is set for them."""

from typing import Dict, List

from bridge.faults import Refused
from bridge.places import project_of, resolved, resolved_if_there
from bridge.session import Session
from bridge.telling import Reply

Command = List[object]
TOP = "/"


def watch(session: Session, command: Command) -> Reply:
    return watched(session, resolved(command[1]))


def watched(session: Session, root: str) -> Dict[str, object]:
    """Has the server watch a root, whose place is given back if its directory goes."""
    bridge = session.bridge
    if root not in roots(session):
        if root == TOP:
            raise Refused(f'unable to resolve root {root}: cannot watch "{TOP}"')
        bridge.forget(root)
        bridge.configurations.check(root)
    settings = bridge.configurations.of(root)
    reply = session.ask(["watch", root])
    bridge.keeper.add(root)
    if settings.is_true("watch_symlinks"):
        bridge.follower.add(root)
    return {**reply, **bridge.recrawls.keys(root)}


def watch_if_needed(session: Session, root: str) -> None:
    """Subscriptions and triggers watch their roots."""
    if root not in roots(session):
        watched(session, root)


def watch_project(session: Session, command: Command) -> Reply:
    configurations = session.bridge.configurations
    project = project_of(command[1], roots(session), configurations.root_files(), configurations.enforces())
    reply = watched(session, project.root)
    if project.below:
        reply["relative_path"] = project.below
    return reply


def roots(session: Session) -> List[str]:
    found = session.ask(["watch-list"])["roots"]
    assert isinstance(found, list)
    return found


def watch_list(session: Session, _: Command) -> Reply:
    return session.ask(["watch-list"])


def watch_del(session: Session, command: Command) -> Reply:
    root = resolved_if_there(command[1])
    reply = session.ask(["watch-del", root])
    session.bridge.forget(root)
    return reply


def watch_del_all(session: Session, _: Command) -> Reply:
    found = roots(session)
    for root in found:
        session.ask(["watch-del", root])
        session.bridge.forget(root)
    return {"roots": found}


def get_config(session: Session, command: Command) -> Reply:
    root = resolved(command[1])
    session.ask(["clock", root])  # a root that is not watched is refused
    return {"config": dict(session.bridge.configurations.of(root).settings)}


def debug_recrawl(session: Session, command: Command) -> Reply:
    root = resolved(command[1])
    session.ask(["clock", root, {"sync_timeout": 1}])
    session.bridge.recrawls.add(root)
    return {"recrawl": True}
