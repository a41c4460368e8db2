#!/usr/bin/env -S python3 -IB
"""The libraries of the Rattle kit that are inside the program, with their licences: contrib/libraries.json, from which
the notices and the list of parts (SBOM) of a package are made. `contrib/notices.py` writes that file anew, from the kit
on this machine."""

import hashlib
import json
import re
from pathlib import Path
from typing import Any, Dict, List, Set

TOP = Path(__file__).resolve().parent.parent
KEPT = TOP / "contrib" / "libraries.json"
KIT = Path("/opt/rattle")
# What a licence has in it, by its name for machines.
MARKS = {
    "MIT": "Permission is hereby granted, free of charge",
    "Apache-2.0": "Apache License",
    "BSL-1.0": "Boost Software License",
}
USE = re.compile(r"^\s*(?:pub )?use ([a-z_0-9]+)::", re.M)
COPYRIGHT = re.compile(r"^\s*(Copyright .*)$", re.M)
Library = Dict[str, Any]


def main() -> None:
    KEPT.write_text(json.dumps(found_in(KIT), indent=1, sort_keys=True) + "\n")
    print(KEPT)


def kept() -> Dict[str, Any]:
    found: Dict[str, Any] = json.loads(KEPT.read_text("utf-8"))
    missing = named() - set(found["libraries"])
    if missing:
        raise ValueError(f"{KEPT} lacks {', '.join(sorted(missing))} of crates.txt; contrib/notices.py writes it anew")
    return found


def named() -> Set[str]:
    """The libraries that crates.txt names for the program and for what it is made of."""
    lines = [line.split() for line in (TOP / "crates.txt").read_text().splitlines() if not line.startswith("#")]
    below = {words[0].rstrip(":"): words[1:] for words in lines}
    return closure(["wqd"], lambda name: below.get(name, [])) - set(below)


def closure(names: List[str], below: Any) -> Set[str]:
    found: Set[str] = set()
    left = list(names)
    while left:
        name = left.pop()
        if name not in found:
            found.add(name)
            left += below(name)
    return found


def found_in(kit: Path) -> Dict[str, Any]:
    """The libraries, and those that they use, as their sources say."""
    home = kit / "rattle"
    names = sorted(closure(sorted(named()), lambda name: uses(home, name)))
    identity = (kit / "KIT-ID").read_text().strip()
    return {"kit": identity, "libraries": {name: library(home, name) for name in names}}


def uses(home: Path, name: str) -> List[str]:
    src = home / name / "src"
    texts = [path.read_text("utf-8", "replace") for path in src.rglob("*.rt") if "tests" not in path.stem]
    others = {other for text in texts for other in USE.findall(text)} - {name}
    own = {path.stem for path in src.iterdir()} if src.is_dir() else set()
    return sorted(other for other in others - own if (home / other / "src").is_dir())


def library(home: Path, name: str) -> Library:
    """What a library uses, its licence, and the notices that each copy has to have. Of two licences that one may choose
    between, it is MIT."""
    paths = sorted((home / name).glob("LICENSE*"))
    texts = [path.read_text("utf-8") for path in paths]
    ids = [next((each for each, mark in MARKS.items() if mark in text), "other") for text in texts]
    is_choice = [path.name for path in paths] == ["LICENSE-APACHE", "LICENSE-MIT"]
    licence = "MIT OR Apache-2.0" if is_choice else " AND ".join(sorted(set(ids)))
    notices = [text for each, text in zip(ids, texts) if not is_choice or each == "MIT"]
    return {"uses": uses(home, name), "licence": licence, "notices": notices}


def paragraphs() -> str:
    """The paragraphs of a Debian copyright file about the libraries inside the program."""
    found = kept()["libraries"]
    licensed = {name: each for name, each in found.items() if each["licence"]}
    without = sorted(set(found) - set(licensed))
    written = [paragraph(name, each) for name, each in sorted(licensed.items())]
    comment = f"Comment: The kit states no licence for its own libraries: {', '.join(without)}.\n"
    return "\n".join(written) + "\n" + f"Files: kit/*\nCopyright: the authors of Rattle\nLicense: as-the-kit\n{comment}"


def paragraph(name: str, each: Library) -> str:
    text = "\n".join(each["notices"])
    owners = COPYRIGHT.findall(text) or [f"the authors of {name}"]
    licence = "Expat" if each["licence"].startswith("MIT") else each["licence"]
    holders = "\n           ".join(owners)
    return f"Files: kit/{name}/*\nCopyright: {holders}\nLicense: {licence}-of-{name}\n" + field(text) + "\n"


def field(text: str) -> str:
    """A text as such a paragraph has it, without its last newline."""
    return "\n".join(f" {line}" if line.strip() else " ." for line in text.rstrip().splitlines())


def apaches() -> List[str]:
    """The texts of the Apache License in these paragraphs, which Debian has elsewhere."""
    mark = MARKS["Apache-2.0"]
    return [field(text) for each in kept()["libraries"].values() for text in each["notices"] if mark in text]


def bill(version: str, program: bytes) -> bytes:
    """The parts of the program in the words of CycloneDX."""
    found = kept()
    reference = f"wqd@{version}"
    parts = [component(name, each, found["kit"]) for name, each in sorted(found["libraries"].items())]
    depends = [{"ref": name, "dependsOn": each["uses"]} for name, each in sorted(found["libraries"].items())]
    whole = {"type": "application", "bom-ref": reference, "name": "wqd", "version": version, "hashes": [sha(program)]}
    value = {
        "bomFormat": "CycloneDX",
        "specVersion": "1.5",
        "version": 1,
        "metadata": {"component": whole, "tools": [{"name": "rattle", "version": found["kit"]}]},
        "components": parts,
        "dependencies": [{"ref": reference, "dependsOn": sorted(named())}, *depends],
    }
    return (json.dumps(value, indent=1) + "\n").encode()


def component(name: str, each: Library, kit: str) -> Library:
    licences = [{"expression": each["licence"]}] if each["licence"] not in ("", "other") else []
    return {"type": "library", "bom-ref": name, "name": name, "version": kit.split()[0], "licenses": licences}


def sha(data: bytes) -> Dict[str, str]:
    return {"alg": "SHA-256", "content": hashlib.sha256(data).hexdigest()}


if __name__ == "__main__":
    main()
