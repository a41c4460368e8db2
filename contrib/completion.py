#!/usr/bin/env -S python3 -IB
"""Writes what completes the words of wq in a shell, from the words that wq has.

    contrib/completion.py bash|zsh|fish
"""

import shlex
import sys
from pathlib import Path
from typing import Callable, Dict, Iterator, List

TOP = Path(__file__).resolve().parent.parent
sys.path[:0] = [str(TOP / "clients")]

from wq.words import FORMS, NEEDS_DASHES, Option, options_of

# Values of some options.
VALUES = {
    "-t": "f d l x e",
    "--type": "file dir link executable empty",
    "--newer": "10min 1h 1d 1w",
    "--changed-within": "10min 1h 1d 1w",
    "--older": "1d 1w",
    "--changed-before": "1d 1w",
    "--size": "+1M -1k",
    "--color": "auto always never",
    "-d": "1 2 3",
    "--max-depth": "1 2 3",
    "--min-depth": "1 2 3",
    "--debounce": "100 500",
    "--timeout": "10 60",
    "--on-busy": "wait restart ignore signal",
    "--stop-signal": "TERM INT HUP USR1 USR2 QUIT",
    "--delay": "500 1000",
    "--share": "5 10 25 50 100",
    "--interval": "100 1000 60000 600000",
    "--quiet-after": "0 600",
    "--workers": "auto 1 2 4",
}

# Options and commands that take names of the server, by `wq --names KIND`, and the commands that run another one.
NAMES = {"--program": "programs"}
NAMES_OF_COMMANDS = {"untrigger": "triggers", "unwatch": "roots"}
HELP = Option(("-h", "--help"), {"help": "print what the command does, and its options"})
VERSION = Option(("--version",), {"help": "print the version"})
RUNNERS = [command for command in FORMS if command in NEEDS_DASHES]

# What stays the same in each shell; the words of wq are put into it.
BASH = """# Completes the words of wq in bash.

# Adds the names of a kind that the server has, in quotes: bash puts them into the line as they are.
_wq_names() {{
    local name quoted
    while IFS= read -r name; do
        printf -v quoted %q "$name"
        if [[ $name == "$word"* || $quoted == "$word"* ]]; then COMPREPLY+=("$quoted"); fi
    done < <("${{COMP_WORDS[0]}}" --names "$1" 2> /dev/null)
}}

# Completes the command that begins at a place, as its own completion does if bash-completion is there.
_wq_command() {{
    if declare -F _command_offset > /dev/null; then
        _command_offset "$1"
    elif [ "$COMP_CWORD" -eq "$1" ]; then
        mapfile -t COMPREPLY < <(compgen -c -- "$word" | sort -u)
    else
        mapfile -t COMPREPLY < <(compgen -f -- "$word")
    fi
}}

_wq() {{
    local word=${{COMP_WORDS[COMP_CWORD]}} before=${{COMP_WORDS[COMP_CWORD - 1]}} command=${{COMP_WORDS[1]}}
    local choices= place
    COMPREPLY=()
    if [ "$COMP_CWORD" -eq 1 ]; then
        mapfile -t COMPREPLY < <(compgen -W "{commands} --help --version" -- "$word")
        return
    fi
    for ((place = 2; place < COMP_CWORD; place++)); do
        case $command:${{COMP_WORDS[place]}} in {runs})
            _wq_command $((place + 1))
            return ;;
        esac
    done
    case $before in
{values}
    esac
    if [ -z "$choices" ] && [ "${{word:0:1}}" = - ]; then
        case $command in
{cases}
        esac
    fi
    if [ -n "$choices" ]; then
        mapfile -t COMPREPLY < <(compgen -W "$choices" -- "$word")
    else
        mapfile -t COMPREPLY < <(compgen -f -- "$word")
    fi
    case $command in
{named}
    esac
}}

complete -o filenames -F _wq wq
"""

ZSH = """#compdef wq
# Completes the words of wq in zsh.

# Adds the names of a kind that the server has.
_wq_names() {{
    local -a names
    names=(${{(f)"$(wq --names $1 2> /dev/null)"}})
    compadd -a names
}}

_wq() {{
    local place=${{words[(i)--]}}
    if (( place < CURRENT )) && [[ $words[2] == ({runs}) ]]; then
        shift $place words
        (( CURRENT -= place ))
        _normal
        return
    fi
    local -a commands
    commands=(
{commands}
    )
    if (( CURRENT == 2 )); then
        _describe command commands
        return
    fi
    local command=$words[2]
    shift words
    (( CURRENT-- ))
    case $command in
{cases}
    esac
}}

_wq "$@"
"""


def bash() -> str:
    options = {command: " ".join([*options_of(command), *HELP.names]) for command in FORMS}
    cases = "\n".join(f'            {command}) choices="{words}" ;;' for command, words in options.items())
    values = "\n".join(f'        {option}) choices="{words}" ;;' for option, words in VALUES.items())
    values += "".join(f"\n        {option}) _wq_names {kind}; return ;;" for option, kind in NAMES.items())
    named = "\n".join(f"        {command}) _wq_names {kind} ;;" for command, kind in NAMES_OF_COMMANDS.items())
    runs = " | ".join(f"{command}:--" for command in RUNNERS)
    return BASH.format(commands=" ".join(FORMS), runs=runs, values=values, cases=cases, named=named)


def zsh() -> str:
    abouts = {command: form.about for command, form in FORMS.items()}
    abouts.update({option.names[-1]: help_of(option) for option in (HELP, VERSION)})
    commands = "\n".join(f"        {shlex.quote(f'{command}:{about}')}" for command, about in abouts.items())
    cases = "\n".join(
        f"        {command}) _arguments {' '.join(map(shlex.quote, zsh_options(command)))} {zsh_words(command)} ;;"
        for command in FORMS
    )
    return ZSH.format(commands=commands, runs="|".join(RUNNERS), cases=cases)


def zsh_options(command: str) -> Iterator[str]:
    for option in named(command):
        about = help_of(option).replace("[", "(").replace("]", ")").replace(":", ";")
        for name in option.names:
            choices = f"_wq_names {NAMES[name]}" if name in NAMES else f"({VALUES[name]})" if name in VALUES else " "
            yield f"*{name}[{about}]" + ("" if is_flag(option) else f":{option.settings['metavar']}:{choices}")


def zsh_words(command: str) -> str:
    kind = NAMES_OF_COMMANDS.get(command)
    return f"'*:{kind}:_wq_names {kind}'" if kind else "'*:file:_files'"


FISH = """# Completes the words of wq in fish.

# Completes the command after two dashes as it is completed by itself.
function __wq_command
    set -l words (commandline -opc)
    set -l place (contains -i -- -- $words)
    complete -C (string join ' ' -- $words[(math $place + 1)..-1] (commandline -ct))
end
complete -c wq -x -n 'contains -- -- (commandline -opc)' -a '(__wq_command)'
"""


def fish() -> str:
    lines = [FISH]
    lines += [
        f"complete -c wq -f -n __fish_use_subcommand -l {option.names[-1][2:]} -d {quoted(help_of(option))}"
        for option in (HELP, VERSION)
    ]
    for command, form in FORMS.items():
        lines.append(f"complete -c wq -f -n __fish_use_subcommand -a {command} -d {quoted(form.about)}")
        for option in named(command):
            for name in option.names:
                lines.append(fish_line(command, option, name))
    for command, kind in NAMES_OF_COMMANDS.items():
        lines.append(f"complete -c wq -n '__fish_seen_subcommand_from {command}' -a {quoted(fish_names(kind))}")
    return "\n".join(lines) + "\n"


def fish_names(kind: str) -> str:
    return f"(wq --names {kind} 2> /dev/null)"


def fish_line(command: str, option: Option, name: str) -> str:
    kind = f"-l {name[2:]}" if name.startswith("--") else f"-s {name[1:]}"
    choices = fish_names(NAMES[name]) if name in NAMES else VALUES.get(name)
    value = "" if is_flag(option) else " -x" + (f" -a {quoted(choices)}" if choices else "")
    return f"complete -c wq -n '__fish_seen_subcommand_from {command}' {kind}{value} -d {quoted(help_of(option))}"


def quoted(text: str) -> str:
    return "'" + text.replace("\\", "\\\\").replace("'", "\\'") + "'"


def named(command: str) -> List[Option]:
    return [*(option for option in FORMS[command].options if option.names[0].startswith("-")), HELP]


def is_flag(option: Option) -> bool:
    return "metavar" not in option.settings


def help_of(option: Option) -> str:
    return str(option.settings["help"])


SHELLS: Dict[str, Callable[[], str]] = {"bash": bash, "zsh": zsh, "fish": fish}

if __name__ == "__main__":
    if sys.argv[1:] not in ([shell] for shell in SHELLS):
        sys.exit((__doc__ or "").strip())
    print(SHELLS[sys.argv[1]](), end="")
