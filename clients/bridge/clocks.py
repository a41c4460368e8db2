"""Clock specs of clients, said in the server's terms."""

from typing import Dict, Optional

from bridge.faults import Refused

CURSOR = "n:"
# A cursor without a name is one as any other in Watchman. The server wants a name, and this is nobody else's.
UNNAMED = "n:\0"
# A clock of no run, so everything that exists is listed.
OF_NO_RUN = "c:0:0"
BAD = "invalid clockspec"


def second_of(spec: object) -> Optional[int]:
    """The second that a clock spec is, if it is one."""
    return spec if isinstance(spec, int) and not isinstance(spec, bool) else None


def said_clock(spec: object) -> object:
    """The clock spec without the forms that the server does not know. What is none stays as it is, and the server
    refuses it."""
    if isinstance(spec, dict):
        return clock_in(spec)
    if spec == CURSOR:
        return UNNAMED
    second = second_of(spec)
    return spec if second is None else max(second, 0)


def clock_in(spec: Dict[str, object]) -> str:
    """The clock in an object. One that has none is a clock of no run, as in Watchman."""
    if "scm" in spec:
        raise Refused("failed to parse query: wqd has no clocks that follow source control")
    clock = spec.get("clock", OF_NO_RUN)
    if not isinstance(clock, str) or clock.startswith(CURSOR):
        raise Refused(BAD)
    return clock
