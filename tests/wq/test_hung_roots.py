"""File systems: what the kernel tells of there, what `wq doctor` says of them, and those that do not answer."""

import json
import subprocess
import sys
import time
from typing import Any, Dict

import built
from case import Beside, Timed
from client import PATIENCE
from scene import COMMAND, Scene
from stand_ins import answering, stand_in
from waiting import wait_until
from wq.answering import require_answers
from wq.doctor import mount_shown
from wq.file_systems import hearing_of, mount_of
from wq.processes import states_of
from wq.trouble import WrongWords

# The answers of a stand-in for a server to commands of `wq status`.
STAND_IN: Dict[str, Any] = {
    "program-list": {"programs": []},
    "version": {"version": "wq-1"},
    "clock": {"clock": "c:1:2:3:7"},
    "query": {"files": ["f"]},
    "trigger-list": {"triggers": []},
}


# A window and a search of a mount that goes, in a namespace where it is mounted. Then what is below it is watched.
UNMOUNTED = """
exec 2>&1
mount -t tmpfs none ../place || exit 77
echo x > ../place/behind
"$0" watch ../place > told 2>&1
"$0" follow ../place >> told 2>&1 &
until grep -q following told; do sleep 0.05; done
umount -l ../place
until grep -q waiting told; do sleep 0.05; done
kill $!
wait
tail -n 1 told
"$0" find ../place
"$0" unwatch ../place
"$0" find ../place
"$0" stop
"""
NAMESPACES = (["unshare", "--mount"], ["unshare", "--mount", "--map-root-user"])


class HungRoots(Timed, Beside):
    def test_unmounted(self) -> None:
        """A root that is not mounted any more is named, as one that is gone is."""
        with Scene(self.room, starts=False) as scene:
            words = next((words for words in NAMESPACES if built.call([*words, "true"]).status == 0), None)
            if words is None:
                self.skipTest("this machine gives no namespace for mounts")
            command = [*words, "--propagation", "private", "sh", "-c", UNMOUNTED, COMMAND]
            root = scene.room / "place"
            root.mkdir()
            (root / "below").touch()
            ended = built.call(command, cwd=scene.tree, env=scene.environment, timeout=PATIENCE)
            went = f"what was mounted there is not any more (then `wq unwatch {root}` forgets it)"
            more = "it went during the walk, or no file handle was left (ulimit -n)"
            lines = [
                f"wq: {root} is not mounted any more; waiting for it",
                "wq: E11: root cannot be read",
                f"wq: {root} can be read now; perhaps {went}, {more}",
                str(root),
                "../place/below",
                f"wq: the server at {scene.sockname} has ended",
            ]
            self.same("a mount that went", ended.output.decode().splitlines(), lines)

    def test_file_systems(self) -> None:
        """The mount of a path, and what the kernel does not tell of there."""
        mounts = (
            "22 1 8:1 / / rw,relatime - ext4 /dev/sda1 rw\n"
            "30 22 0:40 / /mnt/with\\040space rw - nfs4 host:/ rw,vers=4.2\n"
            "31 22 0:41 / /mnt/with\\040space/in rw - fuse.sshfs host: rw\n"
        )
        for path, kind, silent in (
            ("/home", "ext4", None),
            ("/mnt/with space/x", "nfs4", "other machines"),
            ("/mnt/with space/in", "fuse.sshfs", "other machines"),
            ("/mnt/with spaces", "ext4", None),
        ):
            mount = mount_of(path, mounts)
            found = hearing_of(mount.kind)
            self.same(f"the mount of {path}", (mount.kind, found and found.silent_about), (kind, silent))
        for kind, part in (
            ("9p", "differs, also to a query that scans first; with `-o cache=none` at once"),
            ("virtiofs", "up to 1 s late, also to a query that scans first; with `virtiofsd --cache never` at once"),
            ("cifs", "up to 1 s late, also to a query that scans first; with `-o actimeo=0` at once"),
            ("hostfs", "it shows such a change at once"),
            ("nfs4", "3 to 60 s late, also to a query that scans first; with `-o actimeo=1` up to 1 s"),
            ("fuse.sshfs", "dcache_stat_timeout=1"),
            ("fuse.rclone", "`--dir-cache-time 1s --attr-timeout 1s`"),
            ("fuse.bindfs", "attr_timeout=0"),
            ("fuse.mergerfs", "cache.attr=0"),
            ("fuse.fuse-overlayfs", "never shows such a change"),
            ("fuse.unknown", "how late it shows such a change differs"),
            ("overlay", "how late it shows such a change differs"),
        ):
            deaf = hearing_of(kind)
            self.check(f"{kind} is not heard", deaf is not None and part in mount_shown(deaf))

    def test_threads(self) -> None:
        """A process is judged by all its threads: the first one may only wait for the others."""
        text = "import threading, time; threading.Thread(target=lambda: [None for _ in iter(int, 1)]).start()"
        with subprocess.Popen([sys.executable, "-c", f"{text}; time.sleep(1000)"]) as process:
            self.check("a thread that works", wait_until(lambda: "R" in states_of(process.pid)))
            self.check("beside one that waits", wait_until(lambda: "S" in states_of(process.pid)))
            process.kill()

    def test_hung_roots(self) -> None:
        """Roots whose file systems do not answer are named, all of them in the time of two."""
        with Scene(self.room, starts=False) as scene:
            roots = ["/hangs", "/also", "/third", "/fourth", "/fifth"]

            def answer(line: bytes) -> bytes:
                command, *words = json.loads(line)
                if command == "clock" and words[0] in roots:
                    time.sleep(PATIENCE)
                return json.dumps(STAND_IN.get(command, {"roots": [*roots, "/good"]})).encode()

            stand_in(scene.sockname, answering(answer))
            began = time.monotonic()
            found = json.loads(scene.wq("status", "--json").output)["roots"]
            silent = "no scan of it ended within 5 s; its file system may not answer"
            self.same("roots that hang", found[:5], [{"root": root, "error": silent} for root in roots])
            self.same("one that answers", (found[5]["root"], found[5]["tick"]), ("/good", 7))
            self.check("two waits, one after the other", time.monotonic() - began < 20)

    def test_answers(self) -> None:
        """A file system that does not answer is named, and nothing waits for it."""
        began = time.monotonic()
        with self.assertRaisesRegex(WrongWords, "^hangs: its file system does not answer$"):
            require_answers(["good", "hangs", "later"], lambda path: time.sleep(60 if path == "hangs" else 0), 8.0)
        self.check("it does not take long", time.monotonic() - began < 40)
        require_answers(["good", "not there"])
