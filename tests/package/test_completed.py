"""The completion of words in bash, zsh and fish, each tried in the shell itself, if it is there."""

import os
import pty
import select
import shutil
import subprocess
from pathlib import Path
from typing import Dict, List, Optional

import built
import completion
from case import Case
from client import PATIENCE, Server
from wq.words import FORMS, options_of

# A program file that says yes, as the protocol takes it.
PROGRAM = "V1FQRgEAAAAAAAAAAAACAQEAACMAAAA="
SCRIPT = '. "$1"; shift; COMP_WORDS=("$@"); COMP_CWORD=$(($# - 1)); "_$1"; printf "%s\\n" "${COMPREPLY[@]}"'


class Completed(Case):
    def test_completion(self) -> None:
        if shutil.which("bash") is None:
            return
        (self.room / "a file").touch()
        for words, expected in (
            ([""], ["serve", "sockname", "replay", "check", "--help", "--version"]),
            (["s"], ["serve", "sockname"]),
            (
                ["sockname", ""],
                ["--sockname", "--start", "--pid", "--interval", "--share", "--quiet-after", "--workers"],
            ),
            (["serve", "--s"], ["--sockname", "--start", "--share"]),
            (["serve", "--interval", "6"], ["60000", "600000"]),
            (["serve", "--sockname", str(self.room) + "/a"], [str(self.room / "a file")]),
            (["check", str(self.room) + "/a"], [str(self.room / "a file")]),
            (["replay", ""], [""]),
        ):
            self.same(f"the completion of wqd {words}", completed("wqd", words), expected)
        for words, expected in (
            ([""], ["assemble", "disassemble", "explain", "run", "compile", "add", "--help"]),
            (["d"], ["disassemble"]),
            (["explain", str(self.room) + "/a"], [str(self.room / "a file")]),
            (["assemble", "text", "-"], ["-o", "--version"]),
            (["assemble", "text", "--version", ""], ["1", "2"]),
            (["run", "file", "--c"], ["--cclock", "--csec"]),
            (["explain", "-"], [""]),
        ):
            self.same(f"the completion of wqasm {words}", completed("wqasm", words), expected)
        self.check_wq(self.room)

    def check_wq(self, room: Path) -> None:
        for words, expected in (
            (["st"], ["status", "start", "stop"]),
            (["find", "--exp"], ["--expression"]),
            (["run", "--onc"], ["--once"]),
            (["run", "--on-busy", ""], ["wait", "restart", "ignore", "signal"]),
            (["run", "--stop-signal", "US"], ["USR1", "USR2"]),
            (["since", "a", "-t", ""], ["f", "d", "l", "x", "e"]),
            (["find", str(room) + "/a"], [str(room / "a file")]),
            (["stop", "-"], ["-h", "--help"]),
            (["run", "*.c", "--", "truncat"], ["truncate"]),
            (["run", "*.c", "--", "cat", str(room) + "/a"], [str(room / "a file")]),
        ):
            (room / "wq.bash").write_text(completion.bash())
            self.same(f"the completion of wq {words}", completed("wq", words, room / "wq.bash"), expected)
        self.check_names_of_a_server(room)
        for shell, check in (("zsh", ["zsh", "-n"]), ("fish", ["fish", "--no-execute"])):
            script = completion.SHELLS[shell]()
            missing = [
                f"{command} {name}"
                for command in FORMS
                for name in options_of(command)
                if not names(shell, script, command, name)
            ]
            self.same(f"words that {shell} does not complete", missing, [])
            if shutil.which(shell) is not None:
                (room / "script").write_text(script)
                self.same(f"how {shell} reads it", subprocess.run([*check, str(room / "script")]).returncode, 0)

    def test_every_word(self) -> None:
        """Each command, and each option of each command, is completed by each shell, and values of some."""
        lines = {
            "": [*FORMS],
            "--": ["--help", "--version"],
            "st": ["status", "start", "stop"],
            "run --on-busy ": ["wait", "restart", "ignore", "signal"],
            "find --color ": ["auto", "always", "never"],
            **{f"{command} -": [*options_of(command), "-h", "--help"] for command in FORMS},
        }
        for shell, complete in (("bash", in_bash), ("zsh", in_zsh), ("fish", in_fish)):
            if shutil.which(shell) is None:
                print(f"left out: completion in {shell}, which is not installed")
                continue
            (self.room / shell).mkdir()
            found = complete(list(lines), self.room / shell)
            for line, expected in lines.items():
                missing = [word for word in expected if word not in found.get(line, [])]
                self.same(f"{shell} completes wq {line}", missing, [])

    def check_names_of_a_server(self, room: Path) -> None:
        """Programs, triggers and roots that a server has, of which one has a letter of the shell. No server is
        started."""
        root = room / "root"
        root.mkdir()
        (room / "bin").mkdir()
        (room / "bin" / "wq").symlink_to(built.TOP / "wq")
        (room / "wq.fish").write_text(completion.fish())
        values = {**os.environ, "PATH": f"{room}/bin:{os.environ['PATH']}", "WQD_SOCK": str(room / "socket")}

        def found(*words: str) -> List[str]:
            return [
                name
                for name in completed("wq", list(words), room / "wq.bash", values, root)
                if "/" not in name or name == str(root)
            ]

        self.same("names without a server", (found("find", "--program", ""), (room / "socket").exists()), ([""], False))
        with Server(room) as server, server.client(root) as client:
            for name in ("build", "$(touch ran)"):
                client.ask("trigger", str(root), {"name": name, "command": ["true"], "expression": "false"})
            client.ask("program-add", "large", PROGRAM)
            self.same("programs", found("find", "--program", ""), ["large"])
            self.same("triggers", found("untrigger", ""), ["build", "\\$\\(touch\\ ran\\)"])
            self.same("a trigger that is begun", found("untrigger", "\\$\\(t"), ["\\$\\(touch\\ ran\\)"])
            self.same("one trigger", found("untrigger", "b"), ["build"])
            self.same("roots", found("unwatch", ""), [str(root)])
            self.same("no name is a command", (root / "ran").exists(), False)
            if shutil.which("fish") is not None:
                completes = [("unwatch ", str(root)), ("untrigger b", "build"), ("find --program ", "large")]
                for words, expected in [*completes, ("run -- tru", "true")]:
                    script = f"source {room}/wq.fish; complete -C 'wq {words}'"
                    ended = subprocess.run(
                        ["fish", "--no-config", "-c", script], cwd=root, env=values, stdout=subprocess.PIPE
                    )
                    names_found = [line.split("\t")[0] for line in ended.stdout.decode().splitlines()]
                    self.same(f"fish completes {words}", expected in names_found, True)


def names(shell: str, script: str, command: str, option: str) -> bool:
    """Whether a script for a shell names this option of a command of wq."""
    if shell == "zsh":
        return any(f"*{option}[" in line for line in script.splitlines() if line.strip().startswith(f"{command}) "))
    word = f" -l {option[2:]} " if option.startswith("--") else f" -s {option[1:]} "
    return any(f"from {command}'" in line and word in line for line in script.splitlines())


def in_bash(lines: List[str], room: Path) -> Dict[str, List[str]]:
    (room / "wq.bash").write_text(completion.bash())
    return {line: completed("wq", line.split(" "), room / "wq.bash", directory=room) for line in lines}


def in_fish(lines: List[str], room: Path) -> Dict[str, List[str]]:
    (room / "wq.fish").write_text(completion.fish())
    script = f"source {room}/wq.fish\n" + "".join(f"echo '= {line}'; complete -C 'wq {line}'\n" for line in lines)
    words = ["fish", "--no-config", "-c", script]
    found: Dict[str, List[str]] = {}
    ended = subprocess.run(words, cwd=room, env=of_home(room), stdout=subprocess.PIPE, stderr=subprocess.DEVNULL)
    for line in ended.stdout.decode().splitlines():
        if line.startswith("= "):
            words = found[line[2:]] = []
        else:
            words.append(line.split("\t")[0])
    return found


# A zsh that prints what is completed, each word on a line after a mark, and a mark after the last.
ZSH = """
PROMPT= PROMPT2=
# The completions of other commands take long to read.
fpath=($PWD ${fpath:#*(Unix|Linux|X|BSD|Darwin|Solaris|Mandriva|Debian|openSUSE|Cygwin|AIX|Redhat)*})
autoload -U compinit && compinit -u -d $PWD/dump
bindkey '^I' complete-word
unsetopt auto_list list_beep auto_menu
# They are called once.
ended() { print -r -- $'\\1end'; comppostfuncs=(ended) }
comppostfuncs=(ended)
compadd() {
    if [[ ${@[1,(i)(-|--)]} == *-(O|A|D)\\ * ]]; then builtin compadd "$@"; return; fi
    local -a hits
    builtin compadd -A hits "$@"
    print -rl -- $'\\1'${^hits}
    builtin compadd "$@"
}
print -r -- $'\\1'ready
"""


def in_zsh(lines: List[str], room: Path) -> Dict[str, List[str]]:
    (room / "_wq").write_text(completion.zsh())
    (room / ".zshrc").write_text(ZSH)
    number, terminal = pty.fork()
    if number == 0:
        os.chdir(room)
        os.execvpe("zsh", ["zsh", "-i"], {**of_home(room), "TERM": "dumb", "COLUMNS": "200"})
    found: Dict[str, List[str]] = {}
    for line in lines if read_to(terminal, "ready") else []:
        os.write(terminal, f"wq {line}\t".encode())
        found[line] = read_to(terminal, "end")
        # Control and U begin another line.
        os.write(terminal, b"\x15")
    os.close(terminal)
    os.waitpid(number, 0)
    return found


def of_home(room: Path) -> Dict[str, str]:
    return {**os.environ, "HOME": str(room), "ZDOTDIR": str(room), "XDG_CONFIG_HOME": str(room), "LC_ALL": "C.UTF-8"}


def read_to(terminal: int, last: str) -> List[str]:
    """The words that are marked, up to the last one."""
    text = ""
    while f"\1{last}\r\n" not in text:
        if not select.select([terminal], [], [], PATIENCE)[0]:
            return []
        text += os.read(terminal, 65_536).decode("utf-8", "replace")
    return [line.partition("\1")[2] for line in text.split("\r\n") if "\1" in line]


def completed(
    command: str,
    words: List[str],
    path: Optional[Path] = None,
    environment: Optional[Dict[str, str]] = None,
    directory: Optional[Path] = None,
) -> List[str]:
    script = path or built.TOP / "contrib" / f"{command}.bash"
    line = ["bash", "-c", SCRIPT, "bash", str(script), command, *words]
    ended = subprocess.run(line, stdout=subprocess.PIPE, env=environment, cwd=directory)
    return ended.stdout.decode().splitlines()
