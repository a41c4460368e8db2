"""Measures wqd and Watchman in one run on one tree."""
