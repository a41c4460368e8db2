"""How long work takes, and what is said of many times."""

import statistics
import time
from typing import Callable, List


def seconds_of(work: Callable[[], object]) -> float:
    began = time.monotonic()
    work()
    return time.monotonic() - began


def spread(times: List[float]) -> str:
    return f"{statistics.median(times):.3f} s ({min(times):.3f} to {max(times):.3f})"


def quantiles(times: List[float]) -> str:
    found = [seconds * 1000 for seconds in statistics.quantiles(times, n=100, method="inclusive")]
    return f"p50 {found[49]:.2f} ms, p99 {found[98]:.2f} ms, the longest {max(times) * 1000:.2f} ms"
