"""A chroot of Debian 12 to try packages in."""
import shutil
import subprocess
import sys
import tempfile
from pathlib import Path

MIRROR = "http://deb.debian.org/debian"
ENVIRONMENT = {"PATH": "/usr/sbin:/usr/bin:/sbin:/bin", "HOME": "/root", "LC_ALL": "C.UTF-8", "DEBIAN_FRONTEND": "noninteractive"}


class Chroot:
    """It is made at the beginning of a `with`, and removed at its end, with all that is mounted in it."""

    def __init__(self, folder):
        self.folder, self.mounts, self.started = Path(folder), [], []

    def __enter__(self):
        if self.folder.exists():
            sys.exit(f"test_dist: {self.folder} exists already")
        try:
            self.make()
        except BaseException:
            self.__exit__()
            raise
        return self

    def make(self):
        words = ["debootstrap", "--variant=minbase", "bookworm", self.folder, MIRROR]
        made = subprocess.run(words, capture_output=True, text=True)
        if made.returncode:
            sys.exit(f"test_dist: debootstrap failed: {made.stdout[-500:]}")
        shutil.copy("/etc/resolv.conf", self.folder / "etc/resolv.conf")
        self.mount("-t", "proc", "proc", at="proc")
        self.mount("-t", "devpts", "-o", "newinstance,ptmxmode=0666", "devpts", at="dev/pts")
        (self.folder / "dev/ptmx").unlink(missing_ok=True)
        (self.folder / "dev/ptmx").symlink_to("pts/ptmx")

    def __exit__(self, *_):
        for process in self.started:
            process.kill()
            process.wait()
        for place in reversed(self.mounts):
            subprocess.run(["umount", place], check=True)
        shutil.rmtree(self.folder, ignore_errors=True)

    def mount(self, *words, at):
        place = self.folder / at
        place.mkdir(parents=True, exist_ok=True)
        subprocess.run(["mount", *words, place], check=True)
        self.mounts.append(place)

    def run(self, command, given=b""):
        """Runs a line of sh in it."""
        words = ["chroot", self.folder, "/bin/sh", "-c", command]
        return subprocess.run(words, input=given, capture_output=True, env=ENVIRONMENT, timeout=600)

    def start(self, *words, given=b""):
        """Starts a command in it."""
        with tempfile.TemporaryFile() as file:
            file.write(given)
            file.seek(0)
            pipes = {"stdin": file, "stdout": subprocess.PIPE, "stderr": subprocess.PIPE}
            self.started.append(subprocess.Popen(["chroot", self.folder, *words], env=ENVIRONMENT, **pipes))
        return self.started[-1]
