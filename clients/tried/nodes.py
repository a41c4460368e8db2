"""The clients in JavaScript: fb-watchman, sane and jest."""

import re

from tried.gits import commit, git
from tried.room import HERE, Outcome, Room, Running, outcome, unreaped

COLOURS = re.compile(r"\x1b\[[0-9;]*[A-Za-z]")
# How often a change is made until sane tells it.
ATTEMPTS = 40
TOTAL = re.compile(r"Tests: +([0-9]+) passed, ([0-9]+) total")


def try_fb_watchman(room: Room) -> Outcome:
    (room.project / ".git").mkdir()
    room.put("sub/a.c")
    said = script(room, "with_fb_watchman.js")
    expected = [
        '{"relative_root":true,"nothing":false}',
        "sub",
        '["a.c"]',
        "unknown command frob",
        '[["b.c",true,true]]',
        '[["a.c",false,false]]',
    ]
    return outcome(
        "capabilities, watch-project, query below it, an error, a subscription: a file comes and one goes",
        said,
        expected,
    )


def try_sane(room: Room) -> Outcome:
    (room.project / ".git").mkdir()
    room.put("sub/a.js")
    said = script(room, "with_sane.js")
    return outcome(
        "a new file, a change, a deleted file; files that its patterns do not fit",
        said,
        ["ready", "add b.js", "change b.js", "delete a.js"],
    )


def try_sane_restarts(room: Room) -> Outcome:
    """Changes before and after the server ends, the server is killed, and the bridge is killed, both as if nobody
    looked at processes that have ended."""
    with unreaped():
        return ends_under_sane(room)


def ends_under_sane(room: Room) -> Outcome:
    (room.project / ".git").mkdir()
    room.put("a.js")
    sane = room.begin(["node", str(HERE / "with_sane_restarts.js"), str(room.project)], "sane")
    found = [sane.waits_for(lambda lines: "ready" in lines)]
    try:
        for number, end in enumerate((lambda: None, room.end_server, room.kill_server, room.kill_bridge)):
            end()
            found.append(is_told(room, sane, f"b{number}.js"))
    finally:
        sane.end()
    return outcome(
        "a new file before the server ends, after it, after it was killed, and after the bridge was killed, "
        "though no first process reaps",
        found,
        [True] * 5,
    )


def is_told(room: Room, sane: Running, name: str) -> bool:
    """Whether sane tells a change. It misses those before it connects anew, so the file changes until it tells one."""
    for attempt in range(ATTEMPTS):
        room.put(name, "x" * (attempt + 1))
        if sane.waits_for(lambda lines: any(line.endswith(f" {name}") for line in lines), 1):
            return True
    return False


def script(room: Room, name: str) -> list:
    """The lines of a script."""
    said = room.run(["node", str(HERE / name), str(room.project)])
    return said.stdout.splitlines() or said.stderr.splitlines()[-1:]


def try_jest(room: Room) -> Outcome:
    """The first crawl and the watch mode of jest. The last number of tests that it prints tells what it has seen."""
    (room.project / ".git").mkdir()
    room.put("package.json", '{"name": "project", "version": "1.0.0", "jest": {"testEnvironment": "node"}}\n')
    room.put("src/sum.js", "module.exports = (a, b) => a + b;\n")
    test = "test('%s', () => expect(require('./sum')(1, 2)).toBe(3));\n"
    room.put("src/sum.test.js", test % "one")
    jest = room.begin(["jest", "--watchAll", "--no-cache", "--watchman"], "jest")
    try:
        found = [count_of_tests(jest, 1), room.watchman("watch-list")["roots"]]
        room.put("src/sum.test.js", test % "one" + test % "two")
        found.append(count_of_tests(jest, 2))
        room.put("src/new.test.js", test % "three")
        found.append(count_of_tests(jest, 3))
        (room.project / "src" / "new.test.js").unlink()
        found += [count_of_tests(jest, 2), failed_crawls(jest)]
    finally:
        jest.end()
    return outcome(
        "first crawl; watch mode: a change, a new test, a deleted one", found, [1, [str(room.project)], 2, 3, 2, []]
    )


def try_jest_in_git(room: Room) -> Outcome:
    """`jest --watch`, which runs the tests of what changed since the last commit."""
    git(room, "init", "-q", ".")
    room.put("package.json", '{"name": "project", "version": "1.0.0", "jest": {"testEnvironment": "node"}}\n')
    for name in ("one", "two"):
        room.put(f"src/{name}.js", "module.exports = (a, b) => a + b;\n")
        room.put(f"src/{name}.test.js", f"test('t', () => expect(require('./{name}')(1, 2)).toBe(3));\n")
    commit(room, "one")
    room.put("src/one.js", "module.exports = (a, b) => b + a;\n")
    jest = room.begin(["jest", "--watch", "--no-cache", "--watchman"], "jest")
    try:
        found = [count_of_tests(jest, 1)]
        room.put("src/two.js", "module.exports = (a, b) => b + a;\n")
        found.append(count_of_tests(jest, 2))
        room.put("src/new.test.js", "test('new', () => {});\n")
        found += [count_of_tests(jest, 3), room.watchman("watch-list")["roots"], failed_crawls(jest)]
    finally:
        jest.end()
    return outcome(
        "in a git repository: the tests of a changed module, of a second one, and a new test",
        found,
        [1, 2, 3, [str(room.project)], []],
    )


def failed_crawls(jest: Running) -> list:
    """If Watchman cannot crawl, jest says so and crawls by itself."""
    return [line for line in jest.lines() if "crawl failed" in line]


def count_of_tests(jest: Running, expected: int) -> int:
    """How many tests the last run of jest had, as soon as it is the expected number."""

    def count(lines: list) -> int:
        runs = TOTAL.findall(COLOURS.sub("", "\n".join(lines)))
        return int(runs[-1][1]) if runs else 0

    jest.waits_for(lambda lines: count(lines) == expected)
    return count(jest.lines())
