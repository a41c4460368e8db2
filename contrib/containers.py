"""A release has an image whose files other images copy, and a feature of dev containers. Both
put the server and `wq` where the tools run, below /usr/local. No daemon is needed to make them."""

import hashlib
import json
import time
from pathlib import Path
from typing import Dict, List

import publisher
from files import TOP, File, compressed, files, version
from release import archive, plain_tar_of, seconds

PREFIX = Path("/usr/local")
CONFIG = "application/vnd.oci.image.config.v1+json"
LAYER = "application/vnd.oci.image.layer.v1.tar+gzip"
MANIFEST = "application/vnd.oci.image.manifest.v1+json"
INDEX = "application/vnd.oci.image.index.v1+json"
ABOUT = "The file watch server wqd and its command wq, for COPY --from: they need glibc, libgcc_s and Python 3.9."
FEATURE = TOP / "contrib" / "feature"


def packages() -> List[File]:
    return [image(), feature()]


def image() -> File:
    """An archive of an OCI image without a system: its one layer has the files of ./install. `docker load` reads it by
    its manifest.json, other tools by its index.json."""
    second = seconds()
    plain = plain_tar_of([File(f"usr/local/{it.path}", it.mode, it.data) for it in files(str(PREFIX))], second)
    layer = compressed(plain, second)
    config = as_json(config_of(plain, second))
    manifest = as_json(
        {
            "schemaVersion": 2,
            "mediaType": MANIFEST,
            "config": described(CONFIG, config),
            "layers": [described(LAYER, layer)],
        }
    )
    blobs = [config, layer, manifest]
    found = [File(place_of(it), 0o644, it) for it in blobs]
    found += [
        File("oci-layout", 0o644, as_json({"imageLayoutVersion": "1.0.0"})),
        File("index.json", 0o644, as_json(index_of(manifest))),
        File("manifest.json", 0o644, as_json(loaded_as(config, layer))),
    ]
    return File(f"wqd-{version()}-oci.tar", 0o644, plain_tar_of(found, second, front=""))


def config_of(plain: bytes, second: int) -> Dict[str, object]:
    """The image describes itself. It has no command, since it has no system that would run one."""
    made = time.strftime("%Y-%m-%dT%H:%M:%SZ", time.gmtime(second))
    return {
        "created": made,
        "architecture": "amd64",
        "os": "linux",
        "config": {"Labels": labels()},
        "rootfs": {"type": "layers", "diff_ids": [digest(plain)]},
        "history": [{"created": made, "comment": "the files of ./install"}],
    }


def labels() -> Dict[str, str]:
    home = publisher.fields()["home"]
    said = {"title": "wqd", "version": version(), "description": ABOUT, "licenses": "MIT OR Apache-2.0"}
    if home:
        said["url"] = home
    return {f"org.opencontainers.image.{name}": text for name, text in said.items()}


def index_of(manifest: bytes) -> Dict[str, object]:
    entry = described(MANIFEST, manifest)
    entry["platform"] = {"architecture": "amd64", "os": "linux"}
    entry["annotations"] = {
        "org.opencontainers.image.ref.name": version(),
        "io.containerd.image.name": f"docker.io/library/wqd:{version()}",
    }
    return {"schemaVersion": 2, "mediaType": INDEX, "manifests": [entry]}


def loaded_as(config: bytes, layer: bytes) -> List[Dict[str, object]]:
    """The list that `docker load` reads, and the name that it gives the image."""
    return [{"Config": place_of(config), "RepoTags": [f"wqd:{version()}"], "Layers": [place_of(layer)]}]


def described(kind: str, blob: bytes) -> Dict[str, object]:
    return {"mediaType": kind, "digest": digest(blob), "size": len(blob)}


def digest(blob: bytes) -> str:
    return f"sha256:{hashlib.sha256(blob).hexdigest()}"


def place_of(blob: bytes) -> str:
    return f"blobs/{digest(blob).replace(':', '/')}"


def as_json(value: object) -> bytes:
    return json.dumps(value, sort_keys=True, separators=(",", ":")).encode()


def feature() -> File:
    """The feature: what it is, a script that installs it in an image, and the archive that this unpacks."""
    said = json.loads((FEATURE / "devcontainer-feature.json").read_text(encoding="utf-8"))
    said["version"] = version()
    home = publisher.fields()["home"]
    if home:
        said["documentationURL"] = home
    found = [
        File("devcontainer-feature.json", 0o644, json.dumps(said, indent=2).encode() + b"\n"),
        File("install.sh", 0o755, (FEATURE / "install.sh").read_bytes()),
        File("wqd.tar.gz", 0o644, archive(PREFIX).data),
    ]
    return File("devcontainer-feature-wqd.tgz", 0o644, compressed(plain_tar_of(found, seconds(), front=""), seconds()))
