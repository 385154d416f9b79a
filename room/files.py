"""The files of the page as they are sent: packed once, and once more where they changed."""
import functools
import gzip
import hashlib

SCRIPT, STYLE, BINARY = "text/javascript; charset=utf-8", "text/css; charset=utf-8", "application/wasm"


@functools.lru_cache(64)
def packed(path, stamp):
    """The tag and the packed bytes of a file, as it was at a time."""
    whole = path.read_bytes()
    return f'"{hashlib.sha256(whole).hexdigest()[:32]}"', gzip.compress(whole, 6, mtime=0)


class Files:
    """The page's own, three.js, and the library as a package for windows, if there is one (`wasm`)."""

    def __init__(self, page, three, wasm):
        self.kinds = {file.name: (file, SCRIPT) for file in sorted(page.glob("*.js"))}
        self.kinds["page.css"] = page / "page.css", STYLE
        self.kinds["three.js"] = three, SCRIPT
        if wasm:
            self.kinds |= {f"x3d/{file.name}": (file, SCRIPT) for file in sorted(wasm.glob("*.js"))}
            self.kinds["x3d/x3d.wasm"] = wasm / "x3d.wasm", BINARY

    def find(self, name):
        """The kind, the tag and the packed bytes of a file; none of what there isn't."""
        file, kind = self.kinds.get(name, (None, None))
        return file and (kind, *packed(file, file.stat().st_mtime_ns))
