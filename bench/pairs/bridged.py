"""The cost of the bridge: the same request to wqd itself, and through the bridge in JSON and in BSER."""

import json
from pathlib import Path
from typing import Dict, List, NamedTuple, Tuple

import served
from bridge.encodings import find_codec
from pairs.measures import Load
from trees import Tree

ROUNDS = 3


class Cost(NamedTuple):
    """Medians in milliseconds, of wqd itself and through the bridge."""

    name: str
    itself: float
    in_json: float
    in_bser: float


def costs(tree: Tree, room: Path, load: Load, seconds: float) -> List[Cost]:
    with served.Wqd(room) as server, served.bridge(room, server) as through:
        with server.client() as client:
            client.ask("watch", str(tree.root))
        return [cost(name, command, server, through, load, seconds) for name, command in commands(tree)]


def commands(tree: Tree) -> List[Tuple[str, List[object]]]:
    root = str(tree.root)

    def query(**keys: object) -> List[object]:
        all_keys: Dict[str, object] = {"sync_timeout": 0, **keys}
        return ["query", root, all_keys]

    flat = [{"path": tree.directories[0], "depth": 0}]
    return [
        ("`clock`", ["clock", root]),
        ("a query for a directory", query(path=flat, fields=["name"])),
        (
            "the same by `relative_root`",
            query(path=[{"path": "", "depth": 0}], relative_root=tree.directories[0], fields=["name"]),
        ),
        ("all names", query(fields=["name"])),
        ("all names below a directory, by `relative_root`", query(relative_root=tree.directories[0], fields=["name"])),
        ("four fields of all", query(fields=["name", "exists", "new", "size"])),
        ("the fields by default of all", query()),
    ]


def cost(
    name: str, command: List[object], server: served.Wqd, through: served.Peer, load: Load, seconds: float
) -> Cost:
    """The least of some medians, which are taken in turn. The server itself is not asked for a `relative_root`."""
    codec = find_codec()
    line = json.dumps(command).encode() + b"\n"
    found: Dict[str, List[float]] = {"itself": [], "json": [], "bser": []}
    for _ in range(ROUNDS):
        if "relative_root" not in line.decode():
            found["itself"].append(load.press(server.sockname, line, 1, seconds)["p50"])
        found["json"].append(load.press(through.sockname, line, 1, seconds)["p50"])
        if codec is not None:
            found["bser"].append(load.press(through.sockname, codec.dumps(command), 1, seconds, "bser")["p50"])
    nothing = float("nan")
    return Cost(name, *(min(found[key], default=nothing) for key in ("itself", "json", "bser")))


def table(found: List[Cost]) -> str:
    rows = ["| asked | wqd itself | through the bridge, JSON | through the bridge, BSER |", "|---|---|---|---|"]
    for each in found:
        cells = [f"{each.itself:.3g} ms" if each.itself == each.itself else ""]
        for value in (each.in_json, each.in_bser):
            if value != value:
                cells.append("")
            elif each.itself != each.itself:
                cells.append(f"{value:.3g} ms")
            else:
                cells.append(f"{value:.3g} ms, {value - each.itself:.2f} ms more, {value / each.itself:.2f} times")
        rows.append(f"| {each.name} | {' | '.join(cells)} |")
    return "\n".join(rows)
