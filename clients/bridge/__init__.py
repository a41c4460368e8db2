"""A bridge beside wqd: clients of Watchman connect to it as they are, and it asks the server in JSON lines."""
