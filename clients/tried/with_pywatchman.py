"""Uses pywatchman as its documentation does, and prints what it tells of a project."""

import os
import sys

import pywatchman

root = sys.argv[1]
client = pywatchman.client(timeout=30)
print(client.capabilityCheck(required=["relative_root"])["capabilities"])
below = client.query("watch-project", os.path.join(root, "sub"))
print(below["relative_path"])
query = {"fields": ["name"], "relative_root": below["relative_path"], "expression": ["suffix", "c"]}
print(client.query("query", below["watch"], query)["files"])
try:
    client.query("query", "/usr", query)
except pywatchman.CommandError as error:
    print("is not watched" if "directory /usr is not watched" in str(error) else error)


def next_files():
    while True:
        client.receive()
        found = client.getSubscription("s", root=below["watch"])
        if found:
            return found[-1]["files"]


def put(name):
    aside = os.path.join(os.path.dirname(root), "aside")
    open(aside, "w").close()
    os.rename(aside, os.path.join(root, name))


client.query("subscribe", below["watch"], "s", query)
print(next_files())
client.query("unsubscribe", below["watch"], "s")
query["fields"] = ["name", "exists", "new"]
query["since"] = client.query("clock", below["watch"])["clock"]
client.query("subscribe", below["watch"], "s", query)
put("sub/b.c")
print([(file["name"], file["exists"], file["new"]) for file in next_files()])
os.unlink(os.path.join(root, "sub", "a.c"))
print([(file["name"], file["exists"]) for file in next_files()])
