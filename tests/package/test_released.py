"""The files of `./package --archive` and `--release`: an archive that is unpacked below a home, the same each time, and
a release of a program alone that was proved here."""

import hashlib
import json
import os
import re
import subprocess
import sys
import tarfile
from pathlib import Path
from typing import Dict, List

import built
import files
import notices
from case import Case, needs
from clones import make_clone, sources_of
from installing import FILES, LIST, call, version_of

# What a release has.
RELEASED = (
    "SHA256SUMS",
    "SHA256SUMS.asc",
    "devcontainer-feature-wqd.tgz",
    "node-wqd-chokidar_{}_all.deb",
    "python3-wqd-watchdog_{}_all.deb",
    "wqclient-{}-py3-none-any.whl",
    "wqd-chokidar-{}.tgz",
    "wqd-client-{}.tgz",
    "wqd-watchman_{}_all.deb",
    "wqd-{}-linux-x86_64.tar.gz",
    "wqd-{}-oci.tar",
    "wqd-{}-sources.tar.gz",
    "wqd-{}.cdx.json",
    "wqd-{}.proof",
    "wqd_watchdog-{}-py3-none-any.whl",
    "wqd_{}_amd64.deb",
)


class Released(Case):
    def test_archive(self) -> None:
        """Its files are those of ./install below ~/.local, and the commands run where it is unpacked."""
        home = self.directory("home")
        paths = [
            Path(call(home, "package", "--archive", str(self.room / name)).output.decode().strip())
            for name in ("one", "two")
        ]
        version = version_of(home)
        self.same("the name of the archive", paths[0].name, f"wqd-{version}-linux-x86_64.tar.gz")
        self.check("it is the same each time", paths[0].read_bytes() == paths[1].read_bytes())
        with tarfile.open(paths[0]) as archive:
            owners = {(entry.uid, entry.gid, entry.uname, entry.gname) for entry in archive.getmembers()}
        self.same("its owner", owners, {(0, 0, "root", "root")})
        with tarfile.open(paths[0]) as archive:
            self.same("directories in it", [entry.name for entry in archive.getmembers() if not entry.isfile()], [])
        share = self.room / "user" / ".local" / "share"
        share.mkdir(parents=True, mode=0o700)
        top = unpacked(paths[0], self.room)
        self.same("a directory of the user's", share.stat().st_mode & 0o777, 0o700)
        about = (top / "share/doc/wqd/README").read_text()
        self.check("what it needs", re.search(r"glibc 2\.\d+ or later and libgcc_s", about), [about])
        found = {str(path.relative_to(top)): path.stat().st_mode & 0o777 for path in top.rglob("*") if path.is_file()}
        expected = {path: mode for path, mode in FILES.items() if path != LIST}
        self.same("its files", found, {**expected, "share/doc/wqd/README": 0o644})
        for name, says in (("wqd", f"wqd {version}\n"), ("wq", f"wq {version}\n")):
            ended = subprocess.run([str(top / "bin" / name), "--version"], stdout=subprocess.PIPE)
            self.same(f"its command {name}", ended.stdout.decode().splitlines(True)[:1], [says])

    @needs("gpg")
    def test_release(self) -> None:
        """It has the packages, the archive, the note and their checksums. Of another program or other sources than the
        proved ones there is none, and none without a publisher."""
        place = self.directory("clone")
        program = make_clone(place)
        note = place / "crates" / "wqd" / "out" / "wqd.proof"
        self.check_refused(place, "contrib/publisher says no name, address, security, key, home")
        lines = ["name", "address", "security", "key", "home"]
        (place / "contrib" / "publisher").write_text("".join(f"{line}: {line}@example.com\n" for line in lines))
        make_key(place, "key@example.com")
        make_commit(place)
        self.check_refused(place, "is not the one that ./wqd --build proved and built here")
        digest, sources = hashlib.sha256(program).hexdigest(), sources_of(place)
        for said, refusal in (
            (f"program {digest}\nsources {'0' * 64}\n", "the sources are not those"),
            (f"program {digest}\nsources {sources}\ncommit abc-dirty\n", "changes that no commit has"),
        ):
            note.write_text(said)
            self.check_refused(place, refusal)
        note.write_text(f"program {digest}\nsources {sources}\ncommit abc\nkit none\n")
        self.check_made(place, note)

    @needs("dpkg-deb")
    def test_in_the_place_of_watchman(self) -> None:
        """What depends on Debian's watchman, such as python3-pywatchman, stays beside the package of the command."""
        ended = call(self.directory("home"), "package", "--debian", str(self.room / "made"))
        package = next(line for line in ended.output.decode().splitlines() if "wqd-watchman" in line)
        for field in ("Provides", "Conflicts", "Replaces"):
            said = built.call(["dpkg-deb", "--field", package, field]).output
            self.same(field, said, b"watchman\n")

    def check_refused(self, place: Path, reason: str) -> None:
        refused = release(place, self.room / "refused")
        self.check(reason, refused.status == 1 and reason.encode() in refused.errors, [f"{refused.errors!r}"])

    def check_made(self, place: Path, note: Path) -> None:
        made = [release(place, self.room / name) for name in ("first", "second")]
        self.same("a release", [ended.status for ended in made], [0, 0])
        names = sorted(path.name for path in (self.room / "first").iterdir())
        version = version_of(self.room)
        self.same("its files", names, sorted(name.format(version) for name in RELEASED))
        pairs = [
            ((self.room / "first" / name).read_bytes(), (self.room / "second" / name).read_bytes()) for name in names
        ]
        differ = [name for name, (one, two) in zip(names, pairs) if one != two]
        self.same("what is not the same each time", differ, ["SHA256SUMS.asc"])
        checked = subprocess.run(
            ["sha256sum", "--check", "--quiet", "SHA256SUMS"], cwd=self.room / "first", stdout=subprocess.PIPE
        )
        self.same("its checksums", (checked.returncode, checked.stdout), (0, b""))
        self.check_signed(place)
        self.check_sources(version)
        self.same("its note", (self.room / "first" / f"wqd-{version}.proof").read_text(), note.read_text())
        bill = json.loads((self.room / "first" / f"wqd-{version}.cdx.json").read_text())
        parts = {part["name"] for part in bill["components"]}
        self.check("the parts of the program", {"mio", "memchr", "serde_json"} <= parts, sorted(parts))

    def check_signed(self, place: Path) -> None:
        """The checksums are signed by the key that the publisher names; without a key nothing is."""
        sums = self.room / "first" / "SHA256SUMS"
        words = ["gpg", "--batch", "--verify", f"{sums}.asc", str(sums)]
        self.same("its signature", built.call(words, env=at_home(place)).status, 0)
        named = place / "contrib" / "publisher"
        named.write_text(named.read_text().replace("key: key@example.com", "key: none"))
        made = release(place, self.room / "unsigned")
        self.same("without a key", (made.status, (self.room / "unsigned" / "SHA256SUMS.asc").exists()), (0, False))

    def check_sources(self, version: str) -> None:
        """The sources have the program and its note where the commands look for them."""
        with tarfile.open(self.room / "first" / f"wqd-{version}-sources.tar.gz") as archive:
            archive.extractall(self.room / "sources")
        top = self.room / "sources" / f"wqd-{version}"
        program = top / "release" / "wqd"
        said = built.call([str(top / "wqd"), "--program"], env={"PATH": "/usr/bin:/bin", "HOME": str(self.room)})
        self.same("the program of the sources", said.output.decode(), f"{program}\n")
        self.check("it is the one of the release", program.read_bytes() == built.program_path().read_bytes())
        self.same("its mode", program.stat().st_mode & 0o777, 0o755)
        self.check("its note", (top / "release" / "wqd.proof").read_text().startswith("program "))

    def test_each_python(self) -> None:
        """Packages are the same, whichever Python makes them."""
        pythons = [path for path in sorted(Path.home().glob(".pyenv/versions/3.*/bin/python3")) if is_new(path)]
        pythons += [Path("/usr/bin/python3"), Path(sys.executable)]
        made = {}
        for number, python in enumerate(python for python in pythons if python.exists()):
            out = self.room / str(number)
            for kind in ("--debian", "--archive", "--adapters", "--containers"):
                words = [str(python), "-IB", str(built.TOP / "package"), kind, str(out)]
                environment = {**os.environ, "WQD": "/bin/true", "SOURCE_DATE_EPOCH": "1000000000"}
                self.same(f"{python} {kind}", built.call(words, env=environment).status, 0)
            made[str(python)] = {path.name: hashlib.sha256(path.read_bytes()).hexdigest() for path in out.iterdir()}
        first = next(iter(made.values()))
        self.same("a package for each tool", len(first), 11)
        for maker, sums in made.items():
            self.same(f"packages that {maker} makes otherwise", {n for n in first if sums.get(n) != first[n]}, set())

    def test_notices(self) -> None:
        """The notices are those of the kit, and each library that is MIT alone has its own. Kits of one logic differ in
        their names alone."""
        kit = notices.KIT
        if (kit / "KIT-ID").is_file():
            found, kept = notices.found_in(kit), notices.kept()
            self.check("contrib/libraries.json", found["libraries"] == kept["libraries"], ["contrib/notices.py"])
            self.same("the logic of the kit", found["kit"].split()[1:], kept["kit"].split()[1:])
        text = files.copyright_of(True).decode()
        for name in sorted(notices.named()):
            notice = notices.kept()["libraries"][name]
            self.check(f"the notice of {name}", f"Files: kit/{name}/*" in text or not notice["licence"])


def is_new(python: Path) -> bool:
    """Whether it is a Python of version 3.9 or later."""
    return int(python.parent.parent.name.split(".")[1]) >= 9


def unpacked(path: Path, room: Path) -> Path:
    """The place of the archive after the commands that its own README has for that."""
    top = room / "user" / ".local"
    top.parent.mkdir(exist_ok=True)
    says = subprocess.run(["tar", "-xzOf", str(path), "--wildcards", "*/share/doc/wqd/README"], stdout=subprocess.PIPE)
    commands = [line for line in says.stdout.decode().splitlines() if line.startswith("    ")]
    environment = {"PATH": "/usr/bin:/bin", "HOME": str(top.parent)}
    subprocess.run(["sh", "-e", "-c", "\n".join(commands)], cwd=path.parent, env=environment, check=True)
    return top


def release(place: Path, directory: Path) -> built.Ended:
    words: List[str] = [str(place / "package"), "--release", str(directory)]
    return built.call(words, env=at_home(place))


def at_home(place: Path) -> Dict[str, str]:
    """The environment of a publisher at home in a clone."""
    return {"PATH": "/usr/local/bin:/usr/bin:/bin", "HOME": str(place), "SOURCE_DATE_EPOCH": "1000000000"}


def make_key(place: Path, name: str) -> None:
    (place / ".gnupg").mkdir(mode=0o700)
    words = ["gpg", "--batch", "--quiet", "--passphrase", "", "--quick-gen-key", name, "default", "default", "never"]
    subprocess.run(words, env=at_home(place), stderr=subprocess.DEVNULL, check=True)


def make_commit(place: Path) -> None:
    (place / ".gitignore").write_text("out/\n.gnupg/\n.cache/\n")
    author = ["-c", "user.name=a", "-c", "user.email=a@example.com"]
    for words in (["init", "--quiet"], ["add", "--all"], [*author, "commit", "--quiet", "--message", "all"]):
        subprocess.run(["git", *words], cwd=place, env=at_home(place), check=True)
