"""Drawn histories of a tree, which several observers of watchdog follow, and real tools: for clients/watchdog/compare,
bench/delayed and tests/adapters_watchdog."""
