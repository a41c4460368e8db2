"""Program files of wqd: a plain reader, verifier, machine and compiler, and texts of programs.

The tests compare these with the proved crates, and `clients/wqasm` is made of them. They are written from the user's
reference, docs/PROGRAMS.md and docs/PROTOCOL.md, and not from the crates. Speed does not count here.
"""
