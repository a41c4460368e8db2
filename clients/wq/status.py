"""`wq status`: the server's process, its roots, triggers and programs."""

import argparse
import sys
import time
from concurrent.futures import ThreadPoolExecutor
from typing import Any, Dict, Iterator, List, NamedTuple, Optional

from wqclient.client import Client
from wqclient.harmless import harmless
from wqclient.kept import BUDGETS, kept, run_of
from wqclient.lines import Ended
from wqclient.unit import RESTART

from .home import Home
from .pace import seconds_between_scans, seconds_shown
from .processes import Facts, facts_of, is_of_unit, own_processor_seconds, words_of
from .server import Server, Value, reached
from .server_log import Failures, Log
from .silence import LATE
from .terminal import painted, show
from .triggers import command_of
from .trouble import FOUND
from .values_shown import json_shown

# How far back the last change is looked for, in seconds.
AGES = (1, 10, 60, 600, 3_600, 21_600, 86_400, 604_800)
MEBIBYTE = 1024 * 1024
# So many roots are asked at once: a server has 32 clients at most.
MOST_AT_ONCE = 8
# How the system names a program whose file is gone, as after an upgrade.
REPLACED = " (deleted)"


def status(options: argparse.Namespace, home: Home) -> int:
    with reached(home, starts=False) as server:
        found = facts(server, home)
        if options.json:
            show([json_shown(found)])
        else:
            show(lines_of(found))
    return FOUND


def facts(server: Server, home: Home) -> Dict[str, Any]:
    # A client is one of the server's only when it was answered.
    programs = server.ask("program-list")["programs"]
    roots = server.roots()
    process, log, words = facts_of(server.peer.process), Log(server), words_of(server.peer.process)
    return {
        "socket": server.sockname,
        "version": home.version(),
        "protocol": server.ask("version")["version"],
        "process": server.peer.process,
        **(process_facts(process) if process else {}),
        "log": log.words(),
        "roots": [root_facts(server, root, log, words, scan) for root, scan in zip(roots, scans(server, roots))],
        "programs": [{"name": name, "budget": budget_of(server, name)} for name in programs],
    }


def process_facts(found: Facts) -> Dict[str, Any]:
    return {
        "program": found.program,
        "started": int(found.started),
        "memory": found.memory,
        "processor_seconds": found.processor_seconds,
        "threads": found.threads,
        # This command is one of them, and soon gone.
        "clients": None if found.clients is None else max(0, found.clients - 1),
    }


class Scan(NamedTuple):
    """The clock of a root after a scan, or an error; the seconds that it took, and those of a processor."""

    reply: Value
    took: float = 0.0
    used: float = 0.0


def root_facts(server: Server, root: str, log: Log, words: List[str], scan: Scan) -> Dict[str, Any]:
    """The facts about a root: how long a scan takes was measured by one. The server tells no pause, and by its own
    words a scan of that cost has this one."""
    if "error" in scan.reply:
        return {"root": root, "error": scan.reply["error"]}
    letters = server.look("query", root, {"fields": ["type"], "sync_timeout": 0}).get("files", [])
    return {
        "root": root,
        "files": len(letters),
        "directories": letters.count("d"),
        "tick": int(scan.reply["clock"].rsplit(":", 1)[1]),
        "crawl_seconds": round(scan.took, 4),
        "crawl_processor_seconds": round(scan.used, 4),
        "between_scans": round(seconds_between_scans(words, scan.used), 4) if words else None,
        "changed_within": changed_within(server, root),
        "left_out": dict(zip(("names", "directories"), log.left_out.get(root, (0, 0)))),
        "triggers": [trigger_facts(one, root, log) for one in server.look("trigger-list", root).get("triggers", [])],
    }


def scans(server: Server, roots: List[str]) -> List[Scan]:
    """A scan of each root, one after the other, so that each is measured alone. When one does not end, the others begin
    at once: a person waits for none of them."""
    found: List[Scan] = []
    while len(found) < len(roots) and not (found and found[-1].took >= LATE):
        found.append(scanned(server, roots[len(found)]))
    with ThreadPoolExecutor(MOST_AT_ONCE) as pool:
        return [*found, *pool.map(lambda root: scanned(server, root), roots[len(found) :])]


def scanned(server: Server, root: str) -> Scan:
    """A scan by a connection of its own, since it may not end."""
    began, used = time.monotonic(), own_processor_seconds(server.peer.process)
    try:
        with Client(server.sockname, LATE) as client:
            reply = client.ask("clock", root, {"sync_timeout": 1})
    except (OSError, Ended):
        return Scan({"error": f"no scan of it ended within {LATE:.0f} s; its file system may not answer"}, LATE)
    return Scan(reply, time.monotonic() - began, own_processor_seconds(server.peer.process) - used)


def trigger_facts(trigger: Dict[str, Any], root: str, log: Log) -> Dict[str, Any]:
    failures = log.failures(root, trigger["name"])
    return {**trigger, "failures": failures.times, "last_failure": failures.last}


def changed_within(server: Server, root: str) -> Optional[int]:
    """Of some ages the least within which something changed, in seconds; nothing if the change is older."""
    for age in AGES:
        query = {"since": max(0, int(time.time()) - age), "fields": ["type"], "sync_timeout": 0}
        if server.look("query", root, query).get("files"):
            return age
    return None


def budget_of(server: Server, name: str) -> Optional[int]:
    """The most that a run of a stored program can cost, if `wqasm add` stored it: the server gives no program back."""
    budget = kept(BUDGETS, server.sockname, run_of(server.peer.process), name).get("budget")
    return budget if isinstance(budget, int) else None


# In words.


def lines_of(found: Dict[str, Any]) -> Iterator[str]:
    yield row("server", f"{found['version'] or 'wqd'}, protocol {found['protocol']}")
    yield row("socket", found["socket"])
    if "program" in found:
        yield row("process", f"{found['process']}, {found['program']}")
        if found["program"].endswith(REPLACED):
            command = RESTART if is_of_unit(found["process"]) else "wq restart"
            yield row("", f"the program was replaced since it started; `{command}` starts the new one", "yellow")
        started = time.strftime("%Y-%m-%d %H:%M:%S", time.localtime(found["started"]))
        yield row("since", f"{started}, {duration(time.time() - found['started'])}")
        yield row("memory", f"{found['memory'] / MEBIBYTE:.1f} MiB")
        yield row("processor", f"{found['processor_seconds']:.2f} s, {counted(found['threads'], 'thread')}")
        if found["clients"] is not None:
            yield row("clients", f"{found['clients']} beside this one, of at most 32")
        yield row("log", found["log"])
    else:
        yield row("process", f"{found['process']}, of which the system tells nothing")
    for root in found["roots"]:
        yield from root_lines(root)
    if not found["roots"]:
        yield row("roots", "none")
    for program in found["programs"]:
        budget = "budget unknown" if program["budget"] is None else f"budget {program['budget']:,} steps a file"
        yield row("program", f"{program['name']}, {budget}")


def root_lines(root: Dict[str, Any]) -> Iterator[str]:
    if "error" in root:
        yield row("root", f"{root['root']}: {root['error']}", "red")
        return
    age = root["changed_within"]
    changed = f"last change {f'within {duration(age)}' if age is not None else 'over a week ago'}"
    if not root["tick"]:
        changed = "no change yet"
    yield row("root", root["root"])
    yield row(
        "",
        f"{of_size(root['files'], root['directories'])}, tick {root['tick']}, "
        f"a scan takes {root['crawl_seconds']:.3f} s ({root['crawl_processor_seconds']:.2f} s of a processor)"
        f"{pause_shown(root)}, {changed}",
    )
    for what, count in zip(("names that are not UTF-8", "directories that cannot be read"), root["left_out"].values()):
        if count:
            yield row("", f"left out: {what}: {count:,}", "yellow")
    for trigger in root["triggers"]:
        yield row("", f"trigger {trigger['name']}: {command_of(trigger)}")
        failures = Failures(trigger["failures"], trigger["last_failure"]).sentence()
        if failures:
            yield row("", f"  {failures}", "red")


def pause_shown(root: Dict[str, Any]) -> str:
    between = root["between_scans"]
    return "" if between is None else f" and comes about each {seconds_shown(between)}"


def row(head: str, text: str, colour: Optional[str] = None) -> str:
    return painted(f"{head:<10}", "cyan" if head else None, sys.stdout) + painted(harmless(text), colour, sys.stdout)


def of_size(names: int, directories: int) -> str:
    """How many files and directories so many names are."""
    ending = "y" if directories == 1 else "ies"
    return f"{counted(names - directories, 'file')} and {directories:,} director{ending}"


def counted(count: int, noun: str) -> str:
    return f"{count:,} {noun}{'' if count == 1 else 's'}"


def duration(seconds: float) -> str:
    """A time span in its two largest units."""
    parts: List[str] = []
    left = int(seconds)
    for unit, length in (("day", 86_400), ("hour", 3_600), ("minute", 60), ("second", 1)):
        count, left = divmod(left, length)
        if count:
            parts.append(counted(count, unit))
    return " ".join(parts[:2]) or "0 seconds"
