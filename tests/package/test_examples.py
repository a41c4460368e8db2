"""The examples of examples/, as its page says that they run, and the client of docs/SERVER.md."""

import json
import os
import shutil
import subprocess
import sys
from pathlib import Path
from typing import Dict, List

import built
from case import Case
from client import PATIENCE, Server
from installing import present
from quoting import blocks

EXAMPLES = built.TOP / "examples"
LARGE = EXAMPLES / "large.program"
REPLY = b'1 {"clock":"c:7:9:1:1","files":["b.txt","src/a.c"],"is_fresh_instance":true,"version":"wq-1"}\n'


class Examples(Case):
    def test_script(self) -> None:
        script = (EXAMPLES / "first.script").read_text()
        self.same("the script", built.replay(script.encode()), built.Ended(REPLY, b"", 0))
        page = (built.TOP / "docs" / "SCRIPTS.md").read_text(encoding="utf-8")
        shown = "".join(f"    {line}\n" for line in script.splitlines())
        self.same("the script on the page of scripts", f"\n{shown}\n" in page, True)

    def test_program_file(self) -> None:
        self.same("the program file", built.check(LARGE.read_bytes()), built.Ended(b"ok 7 7\n", b"", 0))
        page = (EXAMPLES / "README.md").read_text()
        for name in sorted(os.listdir(EXAMPLES)):
            self.same(f"{name} on the page of examples", name == "README.md" or f"`{name}`" in page, True)

    def test_client(self) -> None:
        """The client lists the files, and after a line those that changed; with the program file the large ones
        alone."""
        root = self.room / "root"
        (root / "src").mkdir(parents=True)
        (root / "src" / "a.c").touch()
        with Server(self.room) as server:
            self.same("the client", followed(server, root, []), ["  src", "  src/a.c", "- src/a.c", "  src/b.c"])
            found = followed(server, root, [str(LARGE)])
            self.same("the client with a program", found, ["  large"])
            self.check_client_of_the_page(server, root)
            self.check_default_socket(server, self.room, root)

    def check_default_socket(self, server: Server, room: Path, root: Path) -> None:
        """Without WQD_SOCK the client asks at the default socket, and says so in one line if nobody listens there."""
        runtime = room / "runtime"
        runtime.mkdir(mode=0o700)
        environment = {name: value for name, value in os.environ.items() if name != "WQD_SOCK"}
        environment.update(XDG_RUNTIME_DIR=str(runtime), TMPDIR=str(room))
        command = [sys.executable, str(EXAMPLES / "client.py"), str(root)]

        def client() -> built.Ended:
            return built.call(command, stdin=subprocess.DEVNULL, env=environment)

        nobody = f"{runtime}/wqd.sock: No such file or directory; `wq start` starts a server\n".encode()
        self.same("the client without a server", client(), built.Ended(b"", nobody, 1))
        (runtime / "wqd.sock").symlink_to(server.sockname)
        self.same("the client at the default socket", (client().status, b"src/b.c" in client().output), (0, True))

    def check_client_of_the_page(self, server: Server, root: Path) -> None:
        """The few lines of Python in docs/SERVER.md, for this root."""
        page = (built.TOP / "docs" / "SERVER.md").read_text(encoding="utf-8")
        script = next(block for block in blocks(page, "python") if "first[" in block)
        script = script.replace("/home/me/src", str(root)) + '\nprint(first["files"], later["files"])\n'
        environment = {**os.environ, "WQD_SOCK": server.sockname}
        ended = subprocess.run([sys.executable, "-c", script], stdout=subprocess.PIPE, env=environment)
        self.same("the client of SERVER", ended.stdout, b"['src/b.c'] []\n")
        self.check_shell_client(page, root, environment)

    def check_shell_client(self, page: str, root: Path, environment: Dict[str, str]) -> None:
        """The two lines of shell in docs/SERVER.md, by each of the two programs that it names."""
        script = next(block for block in blocks(page, "sh") if block.startswith("ask()")).replace(
            "/home/me/src", str(root)
        )
        for name, command in (("nc", 'nc -N -U "$WQD_SOCK"'), ("socat", 'socat -t 60 - UNIX-CONNECT:"$WQD_SOCK"')):
            self.check(f"{name} on the page", command in page)
            if shutil.which(name) is not None:
                script = script.replace('nc -N -U "$WQD_SOCK"', command)
                ended = subprocess.run(["sh", "-c", script], stdout=subprocess.PIPE, env=environment, timeout=PATIENCE)
                found = [json.loads(line) for line in ended.stdout.splitlines()]
                files = [file["name"] for file in found[-1]["files"]]
                self.same(f"{name} in a shell", (len(found), files), (2, ["src/b.c"]))


def followed(server: Server, root: Path, words: List[str]) -> List[str]:
    """What the client prints of a tree before and after a change, but for the directories that lie above it."""
    command = [sys.executable, str(EXAMPLES / "client.py"), str(root), *words]
    environment = {**os.environ, "WQD_SOCK": server.sockname}
    client = subprocess.Popen(command, stdin=subprocess.PIPE, stdout=subprocess.PIPE, env=environment)
    lines = []
    if not words:
        lines = [present(client.stdout).readline(), present(client.stdout).readline()]
        (root / "src" / "a.c").rename(root / "src" / "b.c")
    else:
        with open(root / "large", "wb") as large:
            large.truncate(1_048_577)
        with open(root / "small", "wb") as small:
            small.truncate(1_048_576)
    output, _ = client.communicate(b"\n", timeout=PATIENCE)
    lines += output.splitlines()
    names = [line.decode().rstrip("\n") for line in lines]
    return names[:2] + [name for name in names[2:] if name != "  src"] if not words else sorted(set(names))
