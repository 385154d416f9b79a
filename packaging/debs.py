"""The Debian packages."""
import hashlib
import os
import re
import tempfile
from pathlib import Path
from typing import NamedTuple

from stage import ABI, HERE, TOP, VERSION, Places, compressed, filled, put, told, write
from stage import stage_development, stage_program, stage_shared

LIBRARIES = "lib/x86_64-linux-gnu"
MAINTAINER = "The x3d_share authors <maintainers@users.noreply.kerzubna.example>"
# What of room/ no package has: its tests, pictures and measurements.
ROOM_TESTS = re.compile(r"test(_|s_).*\.py|(measure|browser|pictures)\.py|pictures/.*|deploy/.*")
DRAWING = ("picture", "case_files.py", "scene_faces.py", "scene_text.py", "scene_view.py", "trace_lanes.py", "wire.py")
C_EXAMPLES = ("door.c", "fields.c", "jobs.c", "share.c")
UNPROVED = " (unproved)"


class Release(NamedTuple):
    """What the packages are made of: the program, the folder of the library, whether each is proved, the time and the
    date of the commit, and the texts of copyright and gate.txt."""

    program: Path
    library: Path
    is_program_proved: bool
    is_library_proved: bool
    time: int
    date: str
    copyright: bytes
    gate: str

    def version(self, proved, mark):
        return VERSION if proved else VERSION + mark


def files_of(folder):
    """The files of a folder that git knows."""
    return told("git", "-C", folder, "ls-files").decode().split()


def copy(source, target, names):
    """Copies the files of a folder that are named."""
    for name in names:
        put(source / name, target / name, 0o755 if os.access(source / name, os.X_OK) else 0o644)


def tree_of_program(places, release):
    version = release.version(release.is_program_proved, "-unproved")
    stage_program(places, release.program, version, release.date, "share/zsh/vendor-completions")
    copy(TOP / "examples", places.below("share/doc/x3d-share/examples"), files_of(TOP / "examples"))
    write(release.gate, places.below("share/doc/x3d-share/gate.txt"))


def tree_of_shared(places, release):
    stage_shared(places, release.library)
    depends = f"libx3d {ABI} libx3d{ABI} (>= {release.version(release.is_library_proved, '~unproved')})\n"
    write(depends, places.tree / "DEBIAN/shlibs")
    write("activate-noawait ldconfig\n", places.tree / "DEBIAN/triggers")


def tree_of_development(places, release):
    stage_development(places, release.library)
    copy(TOP / "bindings/c", places.below("share/doc/libx3d-dev/examples"), C_EXAMPLES)
    put(TOP / "docs/EMBEDDING.md", places.below("share/doc/libx3d-dev/EMBEDDING.md"))


def tree_of_python(places, release):
    module = TOP / "bindings/python/x3d"
    copy(module, places.below("lib/python3/dist-packages/x3d"), files_of(module))
    for script in ("postinst", "prerm"):
        put(HERE / f"debian/python3-x3d.{script}", places.tree / "DEBIAN" / script, 0o755)


def tree_of_room(places, release):
    rooms = TOP / "examples/rooms"
    served = [name for name in files_of(TOP / "room") if not ROOM_TESTS.fullmatch(name)]
    copy(TOP / "room", places.below("share/x3d-room/room"), served)
    copy(TOP / "scripts", places.below("share/x3d-room/scripts"), DRAWING)
    copy(rooms, places.below("share/x3d-room/examples/rooms"), files_of(rooms))
    for command in ("x3d-room", "x3d-picture"):
        put(HERE / f"debian/{command}.sh", places.below(f"bin/{command}"), 0o755)


# Each package by the name of its control file: what it holds, and whether it goes by the program's proof or the library's.
PACKAGES = {
    "x3d-share": (tree_of_program, "is_program_proved"),
    "libx3d": (tree_of_shared, "is_library_proved"),
    "libx3d-dev": (tree_of_development, "is_library_proved"),
    "python3-x3d": (tree_of_python, "is_library_proved"),
    "x3d-room": (tree_of_room, "is_library_proved"),
}


def newest_libc(file):
    """The version of the C library that a binary needs."""
    found = re.findall(rb"GLIBC_(\d+)\.(\d+)", told("objdump", "-T", file))
    return ".".join(map(str, max((int(major), int(minor)) for major, minor in found)))


def settle(tree, time):
    """Gives all of a tree one time, and its folders one mode, so that the package has the same bytes each time."""
    for path in [*tree.rglob("*"), tree]:
        if path.is_dir() and not path.is_symlink():
            path.chmod(0o755)
        os.utime(path, (time, time), follow_symlinks=False)


def write_control(tree, name, words):
    inside = [path for path in sorted(tree.rglob("*")) if path.is_file() and not path.is_symlink()]
    inside = [path for path in inside if path.relative_to(tree).parts[0] != "DEBIAN"]
    sums = (f"{hashlib.md5(path.read_bytes()).hexdigest()}  {path.relative_to(tree)}\n" for path in inside)
    write("".join(sums), tree / "DEBIAN/md5sums")
    size = sum(-(-path.stat().st_size // 1024) for path in inside)
    control = filled(f"debian/{name}.control", **words)
    write(control.replace("\nSection:", f"\nInstalled-Size: {size}\nSection:"), tree / "DEBIAN/control")


def build_package(name, release, folder):
    """Makes one package in a folder, and says its file."""
    fill, proof = PACKAGES[name]
    version = release.version(getattr(release, proof), "~unproved")
    binary = release.program if proof == "is_program_proved" else release.library / "libx3d.so"
    words = {"VERSION": version, "MAINTAINER": MAINTAINER, "ABI": ABI, "LIBC": newest_libc(binary)}
    words["UNPROVED"] = "" if getattr(release, proof) else UNPROVED
    with tempfile.TemporaryDirectory() as work:
        places = Places(Path(work, "tree"), "/usr", LIBRARIES)
        fill(places, release)
        package = re.search(r"^Package: (.*)$", filled(f"debian/{name}.control", **words), re.M)[1]
        write(release.copyright, places.below(f"share/doc/{package}/copyright"))
        write(compressed((TOP / "CHANGELOG.md").read_bytes()), places.below(f"share/doc/{package}/changelog.gz"))
        write_control(places.tree, name, words)
        settle(places.tree, release.time)
        architecture = re.search(r"^Architecture: (.*)$", (HERE / f"debian/{name}.control").read_text(), re.M)[1]
        target = folder / f"{package}_{version}_{architecture}.deb"
        told("dpkg-deb", "--root-owner-group", "--threads-max=1", "-Zxz", "--build", places.tree, target)
    return target
