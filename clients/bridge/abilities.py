"""Capabilities: what a client may rely on, by the names that Watchman has for it."""

from typing import Dict, Iterable, List

from bridge.expressions import TERMS
from bridge.fields import KEPT, READ

OF_QUERIES = (
    "relative_root",
    "glob_generator",
    "wildmatch",
    "wildmatch-multislash",
    "dedup_results",
    "clock-sync-timeout",
    "suffix-set",
)
BSER = "bser-v2"


def abilities_of(commands: Iterable[str], has_bser: bool) -> List[str]:
    """The capabilities, if the bridge answers these commands."""
    found = [*OF_QUERIES, *(f"cmd-{name}" for name in commands), *(f"term-{name}" for name in TERMS)]
    found += [f"field-{name}" for name in (*KEPT, *READ)]
    return sorted([*found, BSER] if has_bser else found)


def checked(wishes: object, abilities: List[str]) -> Dict[str, object]:
    """The answer beside the version to a client that asks for capabilities. As in Watchman, wishes in another form ask
    for none, as those of Mercurial's debuginstall."""
    optional, required = names_in(wishes, "optional"), names_in(wishes, "required")
    has = {name: name in abilities for name in (*optional, *required)}
    found: Dict[str, object] = {"capabilities": has}
    for name in required:
        if not has[name]:
            found["error"] = f"client required capability `{name}` is not supported by this server"
            break
    return found


def names_in(wishes: object, key: str) -> List[str]:
    names = wishes.get(key) if isinstance(wishes, dict) else None
    return [name for name in names if isinstance(name, str)] if isinstance(names, list) else []
