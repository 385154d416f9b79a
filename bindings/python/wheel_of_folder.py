"""Makes the wheel of this folder, so that `pip install .` needs nothing but Python: the package
`x3d`, and in it libx3d.so where there is one (that of X3D_SO, or of `make library`)."""

import base64
import ctypes
import hashlib
import os
import sysconfig
import time
import zipfile
from pathlib import Path

HERE = Path(__file__).resolve().parent
TOP = HERE.parents[1]
NAME = "x3d"
SUMMARY = "A shared X3D world inside another program"
LICENCES = ("LICENSE-MIT", "LICENSE-APACHE")


def library():
    """The shared object that goes into the wheel, if there is one."""
    places = [os.environ.get("X3D_SO", ""), HERE / "x3d/libx3d.so", TOP / "out/libx3d.so"]
    return next((Path(place) for place in places if place and Path(place).is_file()), None)


def version(shared):
    """The version of the library that goes into the wheel: a local one if it is not proved."""
    if not shared:
        return (TOP / "packaging/version").read_text().strip()
    answer = ctypes.CDLL(str(shared)).x3d_version
    answer.restype = ctypes.c_char_p
    return answer().decode().replace("-", "+")


def contents(copyright_file):
    """The wheel's name, the folder of what is said of it, and each other file: its place and its bytes."""
    shared = library()
    tag = f"py3-none-{sysconfig.get_platform().replace('-', '_').replace('.', '_')}" if shared else "py3-none-any"
    name = f"{NAME}-{version(shared)}"
    info = f"{name}.dist-info"
    files = {f"x3d/{path.name}": path.read_bytes() for path in sorted((HERE / "x3d").iterdir()) if path.suffix in (".py", ".typed")}
    if shared:
        files["x3d/libx3d.so"] = shared.read_bytes()
    files |= {f"{info}/{licence}": (TOP / licence).read_bytes() for licence in LICENCES}
    if copyright_file:
        files[f"{info}/copyright"] = Path(copyright_file).read_bytes()
    lines = ["Metadata-Version: 2.1", f"Name: {NAME}", f"Version: {version(shared)}", f"Summary: {SUMMARY}"]
    lines += ["License: MIT OR Apache-2.0", "Requires-Python: >=3.9"]
    lines += [f"License-File: {place.rpartition('/')[2]}" for place in files if place.startswith(info)]
    files[f"{info}/METADATA"] = "".join(f"{line}\n" for line in lines).encode()
    files[f"{info}/WHEEL"] = f"Wheel-Version: 1.0\nGenerator: wheel_of_folder\nRoot-Is-Purelib: {str(not shared).lower()}\nTag: {tag}\n".encode()
    return f"{name}-{tag}.whl", info, files


def digest(data):
    return base64.urlsafe_b64encode(hashlib.sha256(data).digest()).rstrip(b"=").decode()


def build_wheel(folder, config_settings=None, metadata_directory=None):
    """What pip calls: writes the wheel into a folder, and says its name. The setting `copyright` names a file of
    licences that goes into it; the variable SOURCE_DATE_EPOCH is the time of its files."""
    name, info, files = contents((config_settings or {}).get("copyright"))
    rows = [f"{place},sha256={digest(data)},{len(data)}" for place, data in files.items()]
    files[f"{info}/RECORD"] = "\n".join([*rows, f"{info}/RECORD,,", ""]).encode()
    when = time.gmtime(int(os.environ.get("SOURCE_DATE_EPOCH") or time.time()))[:6]
    with zipfile.ZipFile(Path(folder, name), "w") as wheel:
        for place, data in files.items():
            entry = zipfile.ZipInfo(place, when)
            entry.external_attr = 0o644 << 16
            wheel.writestr(entry, data, zipfile.ZIP_DEFLATED)
    return name
