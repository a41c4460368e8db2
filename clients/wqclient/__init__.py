"""The client of wqd: its socket, the lines on it, and how a server is started if none listens.

`clients/wq`, `clients/wqasm`, the bridge, the tests and the benches share it. Of Watchman's protocol it knows that a
request is a JSON array on a line and a reply a JSON object on one, and the names of `names.py`.
"""
