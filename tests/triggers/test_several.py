"""Triggers that are deleted, replaced, or many at once, and a command that changes its own root."""

import shlex
import time

from case import Case
from client import VERSION
from triggered import QUIET, Scene
from waiting import wait_until

MOST = 64


class Several(Case):
    def test_a_deletion_during_a_run(self) -> None:
        """The command of a trigger that is deleted goes on. It is not started again."""
        with Scene(self.room) as scene:
            scene.make("a")
            scene.trigger("t", f"{scene.log('begun')}; {scene.waits()}; {scene.log('over')}", append_files=True)
            self.check("it begins before it is deleted", scene.has_lines(1))
            reply = scene.client.ask("trigger-del", str(scene.root), "t")
            self.same("a deletion while it runs", reply, {"deleted": True, "trigger": "t", **VERSION})
            scene.make("b")
            scene.see()
            time.sleep(QUIET)
            scene.go()
            self.check("it goes on after it is deleted", scene.has_lines(2))
            time.sleep(QUIET)
            self.same("no other start after it is deleted", scene.lines(), ["begun a", "over a"])
            self.check("it has been waited for", wait_until(lambda: not scene.children()))

    def test_a_replacement_during_a_run(self) -> None:
        """A trigger that is replaced while its command runs begins anew, once that has ended."""
        with Scene(self.room) as scene:
            scene.make("a")
            scene.trigger("t", f"{scene.log('old')}; {scene.waits()}; {scene.log('over')}", append_files=True)
            self.check("it begins before it is replaced", scene.has_lines(1))
            reply = scene.trigger("t", scene.log("new"), append_files=True)
            self.same("a replacement while it runs", reply, {"disposition": "replaced", "triggerid": "t", **VERSION})
            scene.make("b")
            scene.see()
            time.sleep(QUIET)
            self.same("no start while the old command runs", scene.lines(), ["old a"])
            scene.go()
            self.check("the new command starts", scene.has_lines(3))
            self.same("the new command has all files", scene.lines(), ["old a", "over a", "new a b"])

    def test_a_root_that_is_deleted(self) -> None:
        """A root takes its triggers with it. A command that runs goes on, and the root is watched anew without it."""
        with Scene(self.room) as scene:
            root = str(scene.root)
            scene.make("a")
            scene.trigger("t", f"{scene.log('begun')}; {scene.waits()}; {scene.log('over')}")
            self.check("it begins before its root is deleted", scene.has_lines(1))
            scene.client.ask("watch-del", root)
            self.same(
                "no triggers without a root",
                scene.client.ask("trigger-list", root)["error"],
                "E14: root is not watched",
            )
            scene.client.ask("watch", root)
            self.same(
                "no triggers of a root that is watched anew", scene.client.ask("trigger-list", root)["triggers"], []
            )
            scene.make("b")
            scene.go()
            self.check("it goes on after its root is deleted", scene.has_lines(2))
            time.sleep(QUIET)
            self.same("no other start after its root is deleted", scene.lines(), ["begun", "over"])

    def test_many_triggers(self) -> None:
        """64 triggers of one root all start, and each again after a change. The next one is refused."""
        with Scene(self.room) as scene:
            scene.make("a")
            threads = scene.server.least_threads()
            names = [f"t{number:02}" for number in range(MOST)]
            for name in names:
                scene.trigger(name, makes(scene, name), append_files=True)
            reply = scene.register("one more", ["true"])
            self.same("one trigger more than may be", reply["error"], "E42: too many triggers")
            reply = scene.trigger(names[0], makes(scene, names[0]), append_files=True)
            self.same("a replacement among so many", reply.get("disposition"), "replaced")
            self.check("all of them start", wait_until(lambda: has_made(scene, names, "a")))
            scene.make("b")
            self.check("all of them start again", wait_until(lambda: has_made(scene, names, "b")))
            self.check("all of them have been waited for", wait_until(lambda: not scene.children()))
            self.check("no thread is left", scene.server.has_threads(threads, 60))

    def test_a_command_that_changes_its_root(self) -> None:
        """A command makes a file in its root, and is started once more for that."""
        with Scene(self.room) as scene:
            scene.make("a")
            scene.trigger("t", f"{scene.log('ran')}; [ -e made ] || touch made", append_files=True)
            self.check("it is started for its own file", scene.has_lines(2))
            time.sleep(QUIET)
            self.same("and no more", scene.lines(), ["ran a", "ran made"])


def makes(scene: Scene, name: str) -> str:
    """A command that makes a file for each name that it is given."""
    return f'for file; do touch {shlex.quote(str(scene.out / name))}-"$file"; done'


def has_made(scene: Scene, names: list, ending: str) -> bool:
    """Whether each of these triggers has made its file."""
    return all((scene.out / f"{name}-{ending}").exists() for name in names)
