"""Puts the program and the library into a tree, as `make install` and the packages have them."""
import gzip
import re
import shutil
import subprocess
from pathlib import Path
from typing import NamedTuple

HERE = Path(__file__).resolve().parent
TOP = HERE.parent
VERSION = (HERE / "version").read_text().strip()
ABI = re.search(r"^#define X3D_ABI (\d+)$", (TOP / "include/x3d.h").read_text(), re.M)[1]


class Places(NamedTuple):
    """A tree, the prefix of all in it, and the folder of libraries below that."""

    tree: Path
    prefix: str
    libraries: str

    def below(self, path):
        """A path below the prefix."""
        return self.tree / self.prefix.lstrip("/") / path

    def library(self, path):
        return self.below(self.libraries) / path


def put(source, target, mode=0o644):
    target.parent.mkdir(parents=True, exist_ok=True)
    shutil.copyfile(source, target)
    target.chmod(mode)


def write(content, target, mode=0o644):
    target.parent.mkdir(parents=True, exist_ok=True)
    target.write_bytes(content.encode() if isinstance(content, str) else content)
    target.chmod(mode)


def link(name, target):
    """Makes a link that leads to a name of its own folder."""
    target.parent.mkdir(parents=True, exist_ok=True)
    target.unlink(missing_ok=True)
    target.symlink_to(name)


def filled(template, **words):
    """A template's text with the words of its places."""
    return re.sub(r"@([A-Z_]+)@", lambda place: words[place[1]], (HERE / template).read_text())


def told(*words):
    return subprocess.run([str(word) for word in words], capture_output=True, check=True).stdout


def compressed(data):
    """The bytes as gzip has them, whenever they are compressed."""
    return gzip.compress(data, 9, mtime=0)


def stage_program(places, program, version, date, zsh):
    """The program, its man page, and its completions; those of zsh in this folder."""
    put(program, places.below("bin/x3d_share"), 0o755)
    page = told(HERE / "man_page", program, version, date)
    write(compressed(page), places.below("share/man/man1/x3d_share.1.gz"))
    write(told(HERE / "completions", "bash", program), places.below("share/bash-completion/completions/x3d_share"))
    write(told(HERE / "completions", "zsh", program), places.below(zsh) / "_x3d_share")


def stage_shared(places, folder):
    """The shared library by its version, and by its SONAME."""
    put(folder / "libx3d.so", places.library(f"libx3d.so.{VERSION}"))
    link(f"libx3d.so.{VERSION}", places.library(f"libx3d.so.{ABI}"))


def stage_development(places, folder):
    """What a program is compiled with."""
    put(folder / "libx3d.a", places.library("libx3d.a"))
    link(f"libx3d.so.{ABI}", places.library("libx3d.so"))
    put(TOP / "include/x3d.h", places.below("include/x3d.h"))
    words = {"PREFIX": places.prefix, "LIBDIR": places.libraries, "VERSION": VERSION, "ABI": ABI}
    words["MAJOR"], words["MINOR"] = VERSION.split(".")[:2]
    # From the folder of the CMake files up to the prefix.
    words["UP"] = "/".join([".."] * (len(Path(places.libraries).parts) + 2))
    write(filled("x3d.pc.in", **words), places.library("pkgconfig/x3d.pc"))
    for name in ("x3dConfig.cmake", "x3dConfigVersion.cmake"):
        write(filled(f"{name}.in", **words), places.library(f"cmake/x3d/{name}"))
