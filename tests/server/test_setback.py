"""A clock of the machine that is set back while the server runs. A library that is loaded before the C library reads it
so."""

import os
import shutil
import subprocess
from pathlib import Path
from typing import List

from case import Case
from client import A_HOUR, VERSION, Client, Server
from shared import second, until_second

SOURCE = Path(__file__).resolve().parent / "clock.c"
SECONDS_BACK = 7_200


class Setback(Case):
    def test_a_clock_that_is_set_back(self) -> None:
        """Passes after that have the last second before it again. Who asks by a second misses nothing, and clocks go
        on."""
        library, back, root = self.room / "clock.so", self.room / "back", self.room / "tree"
        compile_library(library)
        back.write_text("0")
        root.mkdir()
        (root / "first").touch()
        through = ["env", f"LD_PRELOAD={library}", f"WQD_CLOCK={back}"]
        with Server(self.room, interval=A_HOUR, through=through) as server, server.client(root) as client:
            seen = second()
            until_second(seen + 2)
            (root / "second").touch()
            last = second()
            clock = client.ask("query", str(root), {})["clock"]
            latest = second()
            back.write_text(str(SECONDS_BACK))
            until_second(latest + 3)
            (root / "third").touch()
            reply = client.ask("query", str(root), {"since": clock, "fields": ["name"]})
            self.same("what changed since a clock, when it was set back", reply["files"], ["third"])
            self.same("the clock goes on when it was set back", reply["clock"], "c:7:9:1:3")
            found = [names_since(client, root, since) for since in (seen + 1, last)]
            self.same("what changed since a second, when it was set back", found, [["second", "third"]] * 2)
            self.same("the last second is told again", names_since(client, root, latest + 2), [])
            back.write_text("0")
            (root / "fourth").touch()
            client.ask("query", str(root), {})
            self.same(
                "since a second after it, when it is right again", names_since(client, root, latest + 2), ["fourth"]
            )
            self.same("the server goes on", client.ask("version"), VERSION)
            self.same("the end of a server whose clock was set back", server.shut_down(client), 0)


def names_since(client: Client, root: Path, since: int) -> List[str]:
    return client.ask("query", str(root), {"since": since, "fields": ["name"], "sync_timeout": 0})["files"]


def compile_library(library: Path) -> None:
    """Compiles it with the compiler of the kit, or with the machine's if there is no kit."""
    rt = shutil.which("rt")
    kit = Path(os.path.realpath(rt)).parent.parent / "toolchain" / "bin" / "clang" if rt else Path("cc")
    command = [str(kit) if kit.exists() else "cc", "-shared", "-fPIC", "-nostdlib", "-O1"]
    if kit.exists():
        command += ["--target=x86_64-unknown-linux-gnu", "--no-default-config", "-fuse-ld=lld"]
    subprocess.run([*command, "-o", str(library), str(SOURCE)], check=True)
