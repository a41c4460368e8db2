"""Puts the observer in the place of watchdog's, in this process and in those that it starts."""

import importlib
import os
import sys

from .trouble import Unserved

CHILDREN = os.path.join(os.path.dirname(os.path.realpath(__file__)), "children")
VARIABLE = "PYTHONPATH"


def put_in_place() -> None:
    """Whoever imports an observer of watchdog from now on gets this one."""
    try:
        observers = importlib.import_module("watchdog.observers")
        polling = importlib.import_module("watchdog.observers.polling")
    except ImportError:
        raise Unserved(f"the Python {sys.executable} has no module watchdog") from None
    from .observer import WqdObserver

    setattr(polling, "PollingObserver", WqdObserver)
    setattr(observers, "Observer", WqdObserver)


def put_in_place_of_children() -> None:
    """Each Python that this process starts does the same, since it reads `children/sitecustomize.py`."""
    others = [each for each in os.environ.get(VARIABLE, "").split(os.pathsep) if each not in ("", CHILDREN)]
    os.environ[VARIABLE] = os.pathsep.join([CHILDREN, *others])
