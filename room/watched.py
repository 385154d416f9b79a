"""The file of a room's scene: what it was read as, and whether it is another one by now."""
import asyncio
from pathlib import Path

from explain import Unshown, read_part_of_file


class Watched:
    """A scene's file, which is there and has a scene, or Unshown is raised."""

    def __init__(self, path):
        self.file, self.fault, self.reading = Path(path), None, None
        # How the file was when it was read, and at the last look.
        self.seen = self.looked = self.stamp()
        self.part = read_part_of_file(self.file)

    def stamp(self):
        try:
            about = self.file.stat()
            return about.st_mtime_ns, about.st_size, about.st_ino
        except OSError:
            return None

    def look(self):
        """Looks whether the file is another one, which no one is just writing: it was the same at the last look. Then it is
        read, beside all else. What was read whole before isn't read by its part: what changed is at fault."""
        before, self.looked = self.looked, self.stamp()
        if self.looked != self.seen and self.looked == before and not self.reading:
            self.seen = self.looked
            words = read_part_of_file, self.file, not self.part.count
            self.reading = asyncio.get_running_loop().run_in_executor(None, *words)

    def is_read(self):
        """Whether what is being read is there now: a part, or a fault."""
        if not (self.reading and self.reading.done()):
            return False
        reading, self.reading = self.reading, None
        try:
            self.part, self.fault = reading.result(), None
        except Unshown as unshown:
            self.fault = unshown
        return True
