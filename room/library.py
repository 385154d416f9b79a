"""The library's module `x3d`; and this checkout's scripts, of which `wire` and `scene_text` are wanted."""
import os
import sys
from pathlib import Path

TOP = Path(__file__).resolve().parent.parent
# The library is what X3D_SO names, or else what was built here, or else the system's.
for built in (TOP / "out/libx3d.so", TOP / "out/quick/libx3d.so"):
    if "X3D_SO" not in os.environ and built.exists():
        os.environ["X3D_SO"] = str(built)
sys.path[:0] = [str(TOP / "bindings/python"), str(TOP / "scripts")]
import scene_text
import wire
import x3d

# A room drops lines itself, and alike in all its worlds (seat.py, `forget`): their digests have the lines.
x3d.World.keep_lines = x3d.Viewer.keep_lines = True

# Where the library is as a package for windows, if it was built.
WASM = Path(os.environ.get("X3D_WASM", TOP / "out/wasm"))

__all__ = ["TOP", "WASM", "scene_text", "wire", "x3d"]
