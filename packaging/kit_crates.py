"""What of the kit is linked into the program and the library: its crates, with their versions and licences."""
import re
import sys
from pathlib import Path
from typing import NamedTuple

TOP = Path(__file__).resolve().parent.parent
sys.path.append(str(TOP / "scripts"))
from module import KIT, libraries

BUILT = ("x3d_share", "embed_c")
# The Rust crate that a port says it was made after, with its version.
PORT = re.compile(r"(?:crate `?|^)([\w-]+)`? (\d+\.\d+\.\d+)", re.M)
# Texts that stand in the kit's core, by the file that names their source: what is of whom, under which licence.
IN_CORE = (
    ("char/tables.rt", "Unicode, Inc.", "Unicode-3.0", "the tables of characters"),
    ("dec2flt/mod.rt", "the authors of fast-float2 0.2.4", "MIT", "numbers from decimal text"),
    ("str/two_way.rt", "the authors of memchr 2.8.3", "Unlicense", "the search for a text in a text"),
)


class Crate(NamedTuple):
    """A crate of the kit: the Rust crate that it is a port of, if any, its version, SPDX licence and licence texts."""

    name: str
    origin: str
    version: str
    licence: str
    texts: dict


def licence_of(texts):
    if not texts:
        return "NOASSERTION"
    whole = "\n".join(texts.values())
    found = [name for name, words in (("MIT", "Permission is hereby granted"), ("Apache-2.0", "Apache License")) if words in whole]
    if not found:
        sys.exit(f"copyright: an unknown licence in {list(texts)}")
    return " OR ".join(found)


def crate_of(name):
    folder = KIT / "rattle" / name
    texts = {file.name: file.read_text() for file in sorted(folder.glob("LICENSE*"))}
    page = folder / "README.md"
    port = PORT.search(page.read_text()) if texts and page.exists() else None
    if texts and not port:
        sys.exit(f"copyright: {page} names no version")
    return Crate(name, *(port.groups() if port else (name, "")), licence_of(texts), texts)


def linked():
    """The crates of the kit below the program and the library, by name."""
    names = {name for built in BUILT for name, (_, root) in libraries(built).items() if root.is_relative_to(KIT)}
    return [crate_of(name) for name in sorted(names)]


def kit_name():
    return (KIT / "KIT-ID").read_text().strip()
