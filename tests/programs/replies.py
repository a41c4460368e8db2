"""What the built program answers about drawn programs and expressions, in one run over a small tree."""

import json
from typing import List

import built
from replay import Turn, turns
from wqprogram.records import Record

TREE = built.TOP / "tests" / "compile" / "tree"


def replies_to(lines: List[str]) -> List[dict]:
    """The answer of a server to each line, after the passes of the tree."""
    script = TREE.read_bytes() + "".join(f"ask 1 {line}\n" for line in lines).encode()
    ended = built.replay(script)
    assert (ended.errors, ended.status) == (b"", 0), built.excerpt(ended.errors)
    replies = [json.loads(line[2:]) for line in ended.output.splitlines()]
    assert len(replies) == len(lines), f"{len(replies)} replies to {len(lines)} lines"
    return replies


def records_of(tree: bytes) -> List[Record]:
    """The records of the plain program after the passes of a tree."""
    last = list(turns(tree + b'ask 1 ["clock","/r"]\n'))[-1]
    assert isinstance(last, Turn)
    return last.view.records
