"""How many bytes the bridge keeps for its clients. Without a bound for all together, each could fill the memory in its
turn."""

import threading

# Of messages that are not whole or not answered yet, and of notices that clients are still to be told; all clients
# together.
MOST = 67_108_864
MOST_CLIENTS = 64


class Held:
    """A count of bytes, which sessions share."""

    def __init__(self, most: int = MOST) -> None:
        self.most = most
        self.lock = threading.Lock()
        self.count = 0

    def take(self, count: int) -> bool:
        """Counts more bytes, if there may be so many more."""
        with self.lock:
            if self.count + count > self.most:
                return False
            self.count += count
            return True

    def give(self, count: int) -> None:
        with self.lock:
            self.count -= count
