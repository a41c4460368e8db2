"""The command wq, with which people ask wqd. `wq --help` prints its words.

A module is named after its command or its subject: `find`, `since`, `follow`, `run`, `status`. `server` has the
connection, `places`, `roots` and `globs` what is asked, `ignored` what git leaves out of it, `errors` and the modules
`.._faults` what is wrong with it.
"""
