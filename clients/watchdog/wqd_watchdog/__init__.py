"""Serves tools that poll by Python's watchdog from one server wqd, without a change in the tool.

`WqdObserver` takes the place of watchdog's `PollingObserver`. `python3 -m wqd_watchdog COMMAND ..` puts it there for a
command such as mkdocs.
"""

import os
from typing import TYPE_CHECKING

if TYPE_CHECKING:
    from .observer import WqdObserver

__all__ = ["WqdObserver"]

# The client of wqd, `wqclient`, is inside this package if it is installed, and two directories above in a clone. The
# prover refuses a repository with links.
if not os.path.isdir(os.path.join(__path__[0], "wqclient")):
    __path__.append(os.path.dirname(os.path.dirname(os.path.realpath(__path__[0]))))


def __getattr__(name: str) -> object:
    """The observer is read when it is asked for: the rest needs no watchdog."""
    if name == "WqdObserver":
        from . import observer

        return observer.WqdObserver
    raise AttributeError(f"module {__name__!r} has no attribute {name!r}")
