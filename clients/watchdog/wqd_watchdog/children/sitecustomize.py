"""Python reads this at the start of each process that a served tool starts, such as that of werkzeug's reloader: there
this directory is on PYTHONPATH. It reads the sitecustomize that it hides, and replaces watchdog's observers when they
are imported."""

import os
import sys
from importlib.machinery import ModuleSpec, PathFinder
from importlib.util import module_from_spec
from types import ModuleType
from typing import Optional, Sequence

HERE = os.path.dirname(os.path.realpath(__file__))
PACKAGE = os.path.dirname(HERE)
OBSERVERS = "watchdog.observers"


class Finder:
    """Finds watchdog's observers as Python does."""

    @staticmethod
    def find_spec(name: str, path: Optional[Sequence[str]] = None, target: object = None) -> Optional[ModuleSpec]:
        spec = PathFinder.find_spec(name, path) if name == OBSERVERS else None
        if spec is None or spec.loader is None:
            return None
        execute = spec.loader.exec_module

        def execute_and_replace(module: ModuleType) -> None:
            execute(module)
            replace()

        setattr(spec.loader, "exec_module", execute_and_replace)
        return spec


def replace() -> None:
    sys.path.append(os.path.dirname(PACKAGE))
    try:
        from wqd_watchdog.replacing import put_in_place
    finally:
        sys.path.remove(os.path.dirname(PACKAGE))
    put_in_place()


def read_hidden() -> None:
    sys.path[:] = [each for each in sys.path if os.path.realpath(each) != HERE]
    spec = PathFinder.find_spec("sitecustomize", sys.path)
    if spec is not None and spec.loader is not None:
        spec.loader.exec_module(module_from_spec(spec))


sys.meta_path.insert(0, Finder)
read_hidden()
