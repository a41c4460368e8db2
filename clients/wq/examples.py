"""Examples of each command, for `wq COMMAND --help` and the page of man."""

from typing import Dict, List, NamedTuple


class Example(NamedTuple):
    line: str
    does: str


EXAMPLES: Dict[str, List[Example]] = {
    "find": [
        Example("wq find '*.c' '*.h'", "the sources below here"),
        Example("wq find src -e py --newer 2h", "what was written in src within two hours"),
        Example("wq find -0 '*.log' --size +1M | xargs -0 gzip", "packs large logs"),
        Example("wq find -i '*.jpg' -x convert {} {.}.png", "a command for each picture"),
    ],
    "since": [
        Example("wq since", "what changed here since the last call"),
        Example("wq since -n build src '*.c'", "the same under a name of its own, for one question"),
        Example("wq since '*.c' -x make", "builds if something changed, and again until that succeeds"),
    ],
    "follow": [Example("wq follow src -e c", "each change of a C source, as it comes")],
    "wait": [
        Example("wq wait src -e c && make", "builds after the first change"),
        Example("wq wait --timeout 60 ./results.json", "waits a minute at most for one file"),
    ],
    "run": [
        Example("wq run '*.c' '*.h' -- make", "builds now and after each change"),
        Example("wq run --restart -e py -- python3 serve.py", "starts a server anew after each change"),
        Example("wq run --postpone '*.py' -- ruff check {}", "checks the files that changed"),
        Example("wq run -e go --shell -- 'go vet && go test'", "a text for sh, after each change"),
    ],
    "status": [Example("wq status", "memory, processor time, roots and triggers of the server")],
    "watch": [
        Example("wq watch ~/src/project", "keeps a project watched, so that answers come at once"),
        Example("wq watch --root src", "makes src a root of its own, for a repository that is too large"),
    ],
    "log": [Example("wq log -f", "what the server said, and what it says from now on")],
    "sockname": [Example("wq sockname --start", "the socket, for a client of your own")],
    "doctor": [Example("wq doctor", "the file system here, and what a scan costs")],
    "unwatch": [Example("wq unwatch", "gives the place of this project back")],
    "roots": [Example("wq roots", "the directories that are watched")],
    "trigger": [
        Example("wq trigger build '*.c' -- make", "the server runs make after changes, in the root"),
        Example("wq trigger lint '*.py' -- ruff check {}", "the same with the names of the files"),
    ],
    "triggers": [Example("wq triggers", "the triggers of this project")],
    "untrigger": [Example("wq untrigger build", "removes the trigger build")],
    "ask": [Example("wq ask '[\"watch-list\"]'", "one line of the protocol, and its reply")],
    "start": [Example("wq start --share 5", "a server that takes at most 5 % of a processor")],
    "stop": [Example("wq stop", "ends the server")],
    "restart": [Example("wq restart --workers 4", "a server with four threads for each query")],
    "explain": [Example('wq explain \'["suffix","c"]\'', "what this expression means, and what it costs")],
}


def lines_of(command: str) -> str:
    """The examples of a command, for its page of help."""
    return "\n".join(["examples:", *(f"  {example.line}\n      {example.does}" for example in EXAMPLES[command])])


def markdown() -> str:
    """A section with all examples, for the page of man."""
    texts = [
        f"    {example.line}\n\n{example.does[0].upper()}{example.does[1:]}.\n"
        for several in EXAMPLES.values()
        for example in several
    ]
    return "\n## Examples\n\n" + "\n".join(texts)
