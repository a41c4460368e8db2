"""The names of the protocol. docs/crates/generate writes this file from the sources of the crates."""

COMMANDS = [
    "watch",
    "watch-project",
    "watch-list",
    "watch-del",
    "query",
    "clock",
    "version",
    "get-sockname",
    "shutdown-server",
    "program-add",
    "program-list",
    "program-del",
    "subscribe",
    "unsubscribe",
    "trigger",
    "trigger-list",
    "trigger-del",
]
QUERY_KEYS = [
    "expression",
    "fields",
    "suffix",
    "path",
    "glob_includedotfiles",
    "glob",
    "since",
    "program",
    "sync_timeout",
    "empty_on_fresh_instance",
    "case_sensitive",
]
FIELDS = ["name", "exists", "new", "size", "type", "cclock", "oclock", "mtime", "mtime_ms"]
TERMS = [
    "true",
    "false",
    "exists",
    "empty",
    "type",
    "name",
    "iname",
    "match",
    "imatch",
    "suffix",
    "size",
    "since",
    "dirname",
    "idirname",
    "not",
    "allof",
    "anyof",
]
KINDS = ["b", "c", "d", "f", "p", "l", "s", "D"]
SCOPES = ["basename", "wholename"]
RELATIONS = ["eq", "ne", "gt", "ge", "lt", "le"]
FIELDS_OF_SINCE = ["oclock", "cclock", "mtime"]
FLAGS_OF_MATCH = ["includedotfiles", "noescape"]
COMMANDS_OF_A_ROOT = [
    "watch",
    "watch-project",
    "watch-del",
    "query",
    "clock",
    "subscribe",
    "unsubscribe",
    "trigger",
    "trigger-list",
    "trigger-del",
]
