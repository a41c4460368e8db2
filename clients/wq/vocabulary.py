"""The arguments that words of the protocol take: commands, keys of queries and triggers. It is for hints alone: the
server decides what is right. Terms are in `sentences`."""

import json
from typing import Dict, Iterable, NamedTuple, Tuple

from wqclient.names import FIELDS, FIELDS_OF_SINCE, FLAGS_OF_MATCH, KINDS, RELATIONS, SCOPES

# Terms of Watchman that the server does not have.
TERMS_OF_WATCHMAN = {"pcre": "match", "ipcre": "imatch"}

EXPRESSION = 'an expression, such as ["suffix","c"]'
PROGRAM = "the name of a stored program"
QUERY_KEYS: Dict[str, str] = {
    "expression": EXPRESSION,
    "program": PROGRAM,
    "fields": f"a list of one or more of {', '.join(FIELDS)}",
    "since": 'a clock id that a reply gave ("c:.."), a cursor ("n:NAME"), or a second as a whole number from 0 to 2^62',
    "suffix": 'a text or a list of texts, such as ["c","h"]',
    "path": 'a list of paths, each alone or with a depth from -1 (any) on, such as ["src",{"path":"lib","depth":0}]',
    "glob": 'a list of patterns, such as ["**/*.c"]',
    "glob_includedotfiles": "true or false",
    "empty_on_fresh_instance": "true or false",
    "sync_timeout": "a whole number of milliseconds without quotes, from -2^62 to 2^62",
    "case_sensitive": "true alone; the terms iname, imatch and idirname leave out the case of A to Z",
    **dict.fromkeys(("dedup_results", "defer", "drop"), "any value"),
}
# The server takes these keys of Watchman, and they change nothing.
IGNORED_KEYS = ["omit_changed_files", "always_include_directories", "lock_timeout", "request_id"]
TRIGGER_KEYS: Dict[str, str] = {
    "name": "a text",
    "command": 'a list of texts without byte 0, the program first, such as ["make","-s"]',
    "expression": EXPRESSION,
    "program": PROGRAM,
    "append_files": "true or false",
    "stdin": f'"/dev/null", "NAME_PER_LINE" or a list of {", ".join(FIELDS)}',
    "max_files_stdin": "a whole number from 0 to 2^62",
}
# Keys that are refused, and what can be done instead.
LEFT_OUT_KEYS: Dict[str, str] = {
    "relative_root": '["dirname",..] narrows a query to a directory, and names stay those below the root',
    **dict.fromkeys(("settle_period", "settle_timeout"), "take it out"),
}
LEFT_OUT_OF_SUBSCRIPTIONS = dict.fromkeys(("suffix", "path", "glob"), "put it into the expression")
LEFT_OUT_OF_TRIGGERS: Dict[str, str] = dict.fromkeys(
    ("stdout", "stderr", "chdir", "relative_root"), 'the command can do that: ["sh","-c","cd src && make > log"]'
)
# The words that are values of keys and terms.
VALUES = sorted(
    {*FIELDS, *FIELDS_OF_SINCE, *SCOPES, *FLAGS_OF_MATCH, *RELATIONS, *KINDS, "depth", "/dev/null", "NAME_PER_LINE"}
)


class Shape(NamedTuple):
    """The arguments of a command: a kind each, of which so many have to be there, and an example of its line."""

    kinds: Tuple[str, ...]
    fewest: int
    example: str


COMMANDS: Dict[str, Shape] = {
    "query": Shape(("root", "object"), 2, '["query","/home/me/src",{"suffix":"c"}]'),
    "clock": Shape(("root", "object"), 1, '["clock","/home/me/src"]'),
    "watch": Shape(("root",), 1, '["watch","/home/me/src"]'),
    "watch-project": Shape(("root",), 1, '["watch-project","/home/me/src"]'),
    "watch-list": Shape((), 0, '["watch-list"]'),
    "watch-del": Shape(("root",), 1, '["watch-del","/home/me/src"]'),
    "subscribe": Shape(("root", "name", "object"), 3, '["subscribe","/home/me/src","s",{"fields":["name"]}]'),
    "unsubscribe": Shape(("root", "name"), 2, '["unsubscribe","/home/me/src","s"]'),
    "trigger": Shape(("root", "object"), 2, '["trigger","/home/me/src",{"name":"t","command":["make"]}]'),
    "trigger-list": Shape(("root",), 1, '["trigger-list","/home/me/src"]'),
    "trigger-del": Shape(("root", "name"), 2, '["trigger-del","/home/me/src","t"]'),
    "program-add": Shape(("name", "base64"), 2, '["program-add","p","V1FQRg.."]'),
    "program-list": Shape((), 0, '["program-list"]'),
    "program-del": Shape(("name",), 1, '["program-del","p"]'),
    "version": Shape(("object",), 0, '["version"]'),
    "get-sockname": Shape((), 0, '["get-sockname"]'),
    "shutdown-server": Shape((), 0, '["shutdown-server"]'),
}


def meant(word: object, words: Iterable[str]) -> str:
    """The word that was probably meant, as the end of a sentence; nothing if no word is like it."""
    import difflib  # most words are right

    found = difflib.get_close_matches(str(word).lower(), list(words), 1)
    return f"; did you mean {json.dumps(found[0])}?" if found and found[0] != word else ""


def quoted(value: object, longest: int = 60) -> str:
    """A value in JSON as one types it, cut if it is long."""
    text = json.dumps(value, ensure_ascii=False, separators=(",", ":"))
    return text if len(text) <= longest else text[:longest] + ".."


def kind_of(value: object) -> str:
    """The kind of a value of JSON, in words."""
    if value is None:
        return "null"
    if isinstance(value, bool):
        return "true" if value else "false"
    for kind, word in ((str, "a text"), (list, "a list"), (dict, "an object")):
        if isinstance(value, kind):
            return word
    return f"the number {value}"
