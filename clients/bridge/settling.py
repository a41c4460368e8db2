"""Queries that wait until nothing changes in their root."""

import time
from typing import Callable, Dict

from bridge.faults import Refused

PATIENCE = 60_000


def settle(query: Dict[str, object], clock: Callable[[], str]) -> None:
    """Waits until the clock of the root, which is crawled for each look, is the same for the query's `settle_period`.
    If it is not within its `settle_timeout`, the query is refused."""
    period, timeout = number(query, "settle_period", 0), number(query, "settle_timeout", PATIENCE)
    if not period:
        return
    end = time.monotonic() + timeout / 1000
    before = clock()
    while True:
        if time.monotonic() + period / 1000 > end:
            raise Refused(f"query failed: the root did not settle for {period} ms within {timeout} ms")
        time.sleep(period / 1000)
        found = clock()
        if found == before:
            return
        before = found


def number(query: Dict[str, object], key: str, without: int) -> int:
    value = query.get(key, without)
    return value if isinstance(value, int) else without
