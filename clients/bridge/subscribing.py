"""Commands about subscriptions: beginning, ending, flushing and pausing them."""

from typing import Dict, List

from bridge.clocks import CURSOR
from bridge.faults import Refused
from bridge.places import resolved, resolved_if_there
from bridge.queries import Asking, asking_of_subscription
from bridge.session import Session
from bridge.telling import Reply
from bridge.subscriptions import DROP, Policy, Subscription
from bridge.watching import watch_if_needed

Command = List[object]


def name_in(command: Command) -> str:
    name = command[2] if len(command) > 2 else None
    if not isinstance(name, str):
        raise Refused("expected 2nd parameter to be subscription name")
    return name


def subscribe(session: Session, command: Command) -> Reply:
    root, name = resolved(command[1]), name_in(command)
    watch_if_needed(session, root)
    settings = session.bridge.configurations.of(root)
    asking = asking_of_subscription(root, command[3], settings.terms())
    assert isinstance(command[3], dict)
    subscription = Subscription(
        root, name, asking.query, asking.lister, Policy(command[3]), settings.number("settle") / 1000
    )
    first = list_of_cursor(session, root, asking)
    link = session.links.for_one_more((root, name))
    try:
        reply = session.ask(["subscribe", root, name, asking.query], link)
    except Refused:
        session.links.give_back(link)
        raise
    session.listens()
    session.links.add((root, name), link)
    session.subscriptions[root, name] = subscription
    subscription.states = session.bridge.states.of(root)
    session.tell({**reply, **session.bridge.recrawls.keys(root)})
    if first:
        session.tell_reply(subscription, first)
    return None


def list_of_cursor(session: Session, root: str, asking: Asking) -> bytes:
    """The first list of a subscription that starts from a cursor, which moves; after it the server starts from its
    clock."""
    since = asking.query.get("since")
    if not isinstance(since, str) or not since.startswith(CURSOR):
        return b""
    line = session.ask_for_line(["query", root, dict(asking.query, sync_timeout=0)])
    asking.query["since"] = line.split(b'"', 4)[3].decode()
    return line


def unsubscribe(session: Session, command: Command) -> Reply:
    root, name = resolved_if_there(command[1]), name_in(command)
    reply = session.ask(["unsubscribe", root, name], session.links.of((root, name)))
    session.subscriptions.pop((root, name), None)
    session.links.remove((root, name))
    return reply


def flush_subscriptions(session: Session, command: Command) -> Reply:
    """Tells lists at once, those too that are held back, and then which there were."""
    if len(command) != 3 or not isinstance(command[2], dict):
        raise Refused("wrong number of arguments to 'flush-subscriptions'")
    wishes: Dict[str, object] = command[2]
    if "sync_timeout" not in wishes:
        raise Refused("key 'sync_timeout' is not present in this json object")
    timeout = wishes["sync_timeout"]
    if isinstance(timeout, bool) or not isinstance(timeout, int):
        raise Refused("'sync_timeout' must be an integer")
    root = resolved(command[1])
    flushed = named(session, root, wishes["subscriptions"]) if "subscriptions" in wishes else of_root(session, root)
    clock = str(session.ask(["clock", root, {"sync_timeout": timeout}], patience=timeout)["clock"])
    found: Dict[str, List[str]] = {"synced": [], "no_sync_needed": [], "dropped": []}
    for subscription in flushed:
        wait_for_first_list(session, subscription)
        if subscription.action() == DROP:
            subscription.drop(clock)
            found["dropped"].append(subscription.name)
        else:
            found["synced" if session.tell_since(subscription) else "no_sync_needed"].append(subscription.name)
    return {**found, **session.bridge.recrawls.keys(root)}


def of_root(session: Session, root: str) -> List[Subscription]:
    return [each for each in session.subscriptions.values() if each.root == root]


def named(session: Session, root: str, names: object) -> List[Subscription]:
    """The subscriptions of these names, which have to be to this root."""
    if not isinstance(names, list) or not all(isinstance(name, str) for name in names):
        raise Refused("expected 'subscriptions' to be an array of subscription names")
    found = []
    for name in names:
        same = by_name(session, name)
        here = [each for each in same if each.root == root]
        if not here:
            raise Refused(f"subscription '{name}' is on root '{same[0].root}' different from command root '{root}'")
        found += here
    return found


def by_name(session: Session, name: str) -> List[Subscription]:
    found = [each for each in session.subscriptions.values() if each.name == name]
    if not found:
        raise Refused(f"this client does not have a subscription named '{name}'")
    return found


def wait_for_first_list(session: Session, subscription: Subscription) -> None:
    """The first list follows the reply to `subscribe`, and may still be on its way."""
    link = session.links.of((subscription.root, subscription.name))
    while link is not None and subscription.passed is None:
        session.take(link.line())


def set_paused(session: Session, command: Command) -> Reply:
    """Holds lists of this client back, and lets them go again."""
    wishes = command[1]
    if not isinstance(wishes, dict):
        raise Refused("wrong arguments for 'debug-set-subscriptions-paused'")
    for name, value in wishes.items():
        by_name(session, name)
        if not isinstance(value, bool):
            raise Refused(f"new value for subscription '{name}' not a boolean")
    found: Dict[str, object] = {}
    for name, value in wishes.items():
        for subscription in by_name(session, name):
            found[name] = {"old": subscription.is_paused, "new": value}
            subscription.is_paused = value
    return {"paused": found}


def get_subscriptions(session: Session, command: Command) -> Reply:
    """Those of this client: no client sees those of another."""
    root = resolved(command[1])
    return {
        "subscribers": [{"info": each.name, "serial": 0} for each in of_root(session, root)],
        "items": [],
        "next_serial": 1,
    }
