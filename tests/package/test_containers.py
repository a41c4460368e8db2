"""A release has an image whose files other images copy, and a feature of dev containers."""

import gzip
import hashlib
import io
import json
import os
import tarfile
from pathlib import Path
from typing import Any, Dict

import built
from case import Case, needs
from installing import FILES, LIST, call, version_of

PREFIX = "usr/local"


class Containers(Case):
    def setUp(self) -> None:
        super().setUp()
        home = self.directory("home")
        self.version = version_of(home)
        out = self.room / "out"
        self.same("it is made", call(home, "package", "--containers", str(out)).status, 0)
        self.image = out / f"wqd-{self.version}-oci.tar"
        self.feature = out / "devcontainer-feature-wqd.tgz"

    def test_image(self) -> None:
        """Each part has the digest by which another names it, and the layer has the installed files, all of root."""
        parts = files_of(self.image.read_bytes())
        self.same("its layout", json.loads(parts["oci-layout"]), {"imageLayoutVersion": "1.0.0"})
        [entry] = json.loads(parts["index.json"])["manifests"]
        manifest = json.loads(self.blob(parts, entry))
        config = json.loads(self.blob(parts, manifest["config"]))
        [described] = manifest["layers"]
        layer = gzip.decompress(self.blob(parts, described))
        self.same("the layer, unpacked", config["rootfs"]["diff_ids"], [digest(layer)])
        self.same("its machine", (config["os"], config["architecture"]), ("linux", "amd64"))
        [loaded] = json.loads(parts["manifest.json"])
        found = [place(manifest["config"]["digest"]), [place(described["digest"])], [f"wqd:{self.version}"]]
        self.same("what docker loads", [loaded["Config"], loaded["Layers"], loaded["RepoTags"]], found)
        with tarfile.open(fileobj=io.BytesIO(layer)) as tar:
            modes = {it.name: it.mode for it in tar.getmembers() if it.isfile()}
            owners = {(it.uid, it.gid, it.uname, it.gname) for it in tar.getmembers()}
        expected = {f"./{PREFIX}/{path}": mode for path, mode in FILES.items() if path != LIST}
        self.same("its files", modes, expected)
        self.same("its owner", owners, {(0, 0, "root", "root")})

    def blob(self, parts: Dict[str, bytes], entry: Dict[str, Any]) -> bytes:
        data = parts[place(entry["digest"])]
        self.same(entry["mediaType"], (digest(data), len(data)), (entry["digest"], entry["size"]))
        return data

    @needs("skopeo", "umoci")
    def test_image_by_other_tools(self) -> None:
        """Tools of containers read the image in both of its forms, and unpack it."""
        for kind in ("oci-archive", "docker-archive"):
            ended = built.call(["skopeo", "inspect", "--config", f"{kind}:{self.image}"])
            labels = json.loads(ended.output)["config"]["Labels"] if ended.status == 0 else {}
            self.same(kind, labels.get("org.opencontainers.image.version"), self.version)
        copied, bundle = self.room / "copied", self.room / "bundle"
        words = ["skopeo", "copy", "--quiet", f"oci-archive:{self.image}", f"oci:{copied}:wqd"]
        self.same("it is copied", built.call(words).status, 0)
        words = ["umoci", "unpack", "--rootless", "--image", f"{copied}:wqd", str(bundle)]
        self.same("it is unpacked", built.call(words).status, 0)
        self.check_commands(bundle / "rootfs" / PREFIX)

    def test_feature(self) -> None:
        """Its script installs the commands below a prefix; without Python it says what is missing, and installs
        nothing."""
        place = self.directory("feature")
        with tarfile.open(self.feature) as tar:
            tar.extractall(place)
        said = json.loads((place / "devcontainer-feature.json").read_text())
        self.same("its version", (said["id"], said["version"]), ("wqd", self.version))
        prefix, tools = self.room / "prefix", self.directory("tools")
        ended = self.installed(place, prefix, os.environ["PATH"])
        self.same("it is installed", (ended.status, ended.output), (0, f"wqd {self.version}\n".encode()))
        self.check_commands(prefix)
        for name in ("dirname", "mkdir", "tar", "gzip"):
            (tools / name).symlink_to(f"/usr/bin/{name}")
        ended = self.installed(place, self.room / "nothing", str(tools))
        self.same("without Python", ended.status, 1)
        self.check("what is missing", b"no Python 3.9 or later" in ended.errors, [f"{ended.errors!r}"])
        self.check("nothing is installed", not (self.room / "nothing").exists())

    def installed(self, place: Path, prefix: Path, path: str) -> built.Ended:
        environment = {"PATH": path, "PREFIX": str(prefix)}
        return built.call(["/bin/sh", str(place / "install.sh")], env=environment)

    def check_commands(self, prefix: Path) -> None:
        for name in ("wqd", "wq"):
            said = built.call([str(prefix / "bin" / name), "--version"]).output.decode()
            self.check(f"{name} runs", said.startswith(f"{name} {self.version}\n"), [repr(said)])


def files_of(data: bytes) -> Dict[str, bytes]:
    with tarfile.open(fileobj=io.BytesIO(data)) as tar:
        opened = {it.name: tar.extractfile(it) for it in tar.getmembers()}
        return {name: file.read() for name, file in opened.items() if file is not None}


def digest(data: bytes) -> str:
    return f"sha256:{hashlib.sha256(data).hexdigest()}"


def place(digest: str) -> str:
    return f"blobs/{digest.replace(':', '/')}"
