"""The other user's directory has the name of this user's for moments, while clients look at it and connect: of many
runs of each client none takes his answer."""

import io
import os
import socket
import sys
import time
import unittest
from pathlib import Path
from typing import Callable, Dict, List

import built
from bridge.faults import Ended
from bridge.link import Link
from case import Beside
from client import PATIENCE
from neighbours import HOOK, environment_of
from users import FORGED, for_all, given, of_two_users, other, serve
from waiting import wait_until
from wqclient.client import Client

sys.path[:0] = [str(built.TOP / "tests" / "adapters_node")]
from node_version import OLDEST, version

TRIES = 1_000
# So long each of the two directories has the name, in seconds.
PAUSE = 0.0003
NODE = """
const { connect } = require(process.argv[1]);
const one = async () => {
  const connection = await connect(process.env.WQD_SOCK);
  const said = new Promise((resolve) => { connection.on('value', resolve).on('end', resolve); });
  connection.send(['version']);
  const value = JSON.stringify(await said);
  connection.socket.destroy();
  return value;
};
(async () => {
  for (let turn = 0; turn < Number(process.argv[2]); turn += 1) {
    console.log(await one().catch((fault) => fault.code + ' ' + fault.message));
  }
})();
"""


@of_two_users
class Races(Beside):
    def test_the_hook(self) -> None:
        code = compile(Path(HOOK).read_text(), HOOK, "exec")

        def hook() -> None:
            sys.argv = ["hook", "2", "c:1:2:3:3"]
            exec(code, {"__name__": "__main__"})

        found = self.raced(lambda environment: [said_by(hook, environment) for _ in range(TRIES)], "since ")
        self.same("runs that say why git looks itself", sum("git looks at all files" in text for text in found), TRIES)

    def test_the_client_of_python(self) -> None:
        def client() -> None:
            with Client(os.environ["WQD_SOCK"]) as lines:
                print(lines.ask("version"))

        self.raced(lambda environment: [said_by(client, environment) for _ in range(TRIES)])

    def test_the_bridge(self) -> None:
        """It asks the server by its own connection."""

        def link() -> None:
            try:
                lines = Link(os.environ["WQD_SOCK"])
                lines.send(["version"])
                print(lines.line())
            except Ended as reason:
                sys.exit(str(reason))

        self.raced(lambda environment: [said_by(link, environment) for _ in range(TRIES)])

    @unittest.skipIf(version() < OLDEST, f"no Node of version {OLDEST} or later is installed")
    def test_the_client_of_node(self) -> None:
        words = ["node", "-e", NODE, str(built.TOP / "clients/node/lib/connection.js"), str(TRIES)]

        def run(environment: Dict[str, str]) -> List[str]:
            return built.call(words, env=environment, timeout=5 * PATIENCE).output.decode().splitlines()

        found = self.raced(run)
        self.same("runs", len(found), TRIES)

    def raced(self, run: Callable[[Dict[str, str]], List[str]], begin: str = "") -> List[str]:
        """What the runs of a client say whose directory another user renames meanwhile."""
        place = for_all(self.room, mode=0o777)
        attack, target = given(place / "attack"), place / f"wqd-{os.getuid()}"
        target.mkdir(mode=0o700)
        # What the user's own server left behind.
        socket.socket(socket.AF_UNIX).bind(f"{target}/wqd.sock")
        environment = environment_of(self.room, TMPDIR=str(place))
        if not begin:
            environment["WQD_SOCK"] = f"{target}/wqd.sock"
        with other(rename, str(attack), str(target)):
            wait_until(lambda: (place / "aside").exists())
            found = run(environment)
        forged = [text for text in found if str(FORGED["clock"]) in text or "planted" in text]
        seen = {text.partition(begin)[2][:200] if begin else text[:200] for text in found}
        self.same("forged answers", forged, [])
        self.check("the other user was seen too", len(seen) > 1, sorted(seen))
        return found


def rename(attack: str, target: str) -> None:
    """Gives a directory with a server of its own the name that this user's has, and takes it away, again and again."""
    server = os.fork()
    if server == 0:
        serve(f"{attack}/wqd.sock")
    wait_until(lambda: os.path.exists(f"{attack}/wqd.sock"))
    aside = os.path.join(os.path.dirname(target), "aside")
    while True:
        for old, new in ((target, aside), (attack, target)):
            os.rename(old, new)
        time.sleep(PAUSE)
        for old, new in ((target, attack), (aside, target)):
            os.rename(old, new)
        time.sleep(PAUSE)


def said_by(function: Callable[[], None], environment: Dict[str, str]) -> str:
    """What a client writes on both streams, in a process that need not start Python anew."""
    reader, writer = os.pipe()
    number = os.fork()
    if number == 0:
        os.dup2(writer, 1)
        os.environ.clear()
        os.environ.update(environment)
        sys.stdout = io.TextIOWrapper(open(1, "wb", buffering=0), write_through=True)
        try:
            function()
        except (OSError, SystemExit) as end:
            os.write(1, str(end).encode())
        os._exit(0)
    os.close(writer)
    with open(reader, "rb") as stream:
        text = stream.read().decode()
    os.waitpid(number, 0)
    return text
