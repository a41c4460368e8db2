"""The publisher of a release, as contrib/publisher says: name and address, a contact for reports about security, the
key that signs, and the home page."""

from pathlib import Path
from typing import Dict

PATH = Path(__file__).resolve().parent / "publisher"
# The word in the place of a key if nothing is signed.
NO_KEY = "none"


def fields() -> Dict[str, str]:
    lines = [line for line in PATH.read_text("utf-8").splitlines() if line and not line.startswith("#")]
    return {name: value.strip() for name, _, value in (line.partition(":") for line in lines)}


def require() -> None:
    """A release is published by somebody who can be reached."""
    missing = [name for name, value in fields().items() if not value]
    if missing:
        raise ValueError(f"contrib/publisher says no {', '.join(missing)}, which a release needs")
