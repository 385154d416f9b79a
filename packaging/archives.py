"""The archives: the crate, the library beside it, the sources, and the wheel."""
import io
import os
import sys
import tarfile
from pathlib import Path

from stage import TOP, VERSION, Places, compressed, stage_development, stage_shared, told, write


def tar_of(files, links, time):
    """A tar of files, by their places, and of links, all by root and of one time."""
    out = io.BytesIO()
    with tarfile.open(fileobj=out, mode="w", format=tarfile.USTAR_FORMAT) as archive:
        for place, data in sorted({**files, **links}.items()):
            entry = tarfile.TarInfo(place)
            entry.mtime = time
            if place in links:
                entry.type, entry.linkname = tarfile.SYMTYPE, data
                archive.addfile(entry)
            else:
                entry.size = len(data)
                archive.addfile(entry, io.BytesIO(data))
    return out.getvalue()


def write_crate(release, folder):
    """The Rust crate, as cargo names and packs one."""
    version = release.version(release.is_library_proved, "-unproved")
    top = TOP / "bindings/rust"
    names = told("git", "-C", top, "ls-files").decode().split()
    files = {name: (top / name).read_bytes() for name in names if name != ".gitignore"}
    manifest = files["Cargo.toml"].decode()
    files["Cargo.toml"] = manifest.replace(f'version = "{VERSION}"', f'version = "{version}"', 1).encode()
    files |= {name: (TOP / name).read_bytes() for name in ("LICENSE-MIT", "LICENSE-APACHE")}
    placed = {f"x3d-{version}/{name}": data for name, data in files.items()}
    write(compressed(tar_of(placed, {}, release.time)), folder / f"x3d-{version}.crate")


def write_library(release, folder, work):
    """The library for any system with the C library: header, both libraries, files of pkg-config and CMake."""
    name = f"libx3d-{release.version(release.is_library_proved, '-unproved')}-x86_64-linux-gnu"
    places = Places(work / "library", "/", "lib")
    stage_shared(places, release.library)
    stage_development(places, release.library)
    write(release.copyright, places.below("copyright"))
    pc = places.library("pkgconfig/x3d.pc")
    pc.write_text(pc.read_text().replace("prefix=/\n", "prefix=${pcfiledir}/../..\n"))
    found = [path for path in places.tree.rglob("*") if path.is_symlink() or path.is_file()]
    named = {path: f"{name}/{path.relative_to(places.tree)}" for path in found}
    files = {named[path]: path.read_bytes() for path in found if not path.is_symlink()}
    links = {named[path]: os.readlink(path) for path in found if path.is_symlink()}
    write(compressed(tar_of(files, links, release.time)), folder / f"{name}.tar.gz")


def write_sources(folder):
    """The sources of the commit."""
    name = f"x3d_share-{VERSION}"
    sources = told("git", "-C", TOP, "archive", "--format=tar", f"--prefix={name}/", "HEAD")
    write(compressed(sources), folder / f"{name}.tar.gz")


def write_wheel(release, folder, work):
    """The wheel, by the project's own build backend."""
    sys.path.append(str(TOP / "bindings/python"))
    from wheel_of_folder import build_wheel

    write(release.copyright, work / "copyright")
    os.environ["X3D_SO"] = str(release.library / "libx3d.so")
    return build_wheel(folder, {"copyright": str(work / "copyright")})
