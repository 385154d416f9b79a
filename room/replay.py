"""A run that is over, as it is shown: each window plays it for itself."""
import time
from pathlib import Path

from explain import Unshown, read_part_of_file, read_scene_file, scene_in
from library import TOP, wire, x3d
from world_log import Damaged, is_log, read_log
from record import Record
from room import VIEWERS
from service import AWAY, SPECTATORS, Service, Wrong
from store import SCENE, BadLine, Store, read_inputs
from viewpoints import orientations_of

STATUS = 15


def read_run(path, scenes=()):
    """The record of a job with inputs, of a world's log, or of a folder that a room was kept in. A log's scene is in one
    of these files, or beside it. Raises Unshown."""
    path = Path(path)
    try:
        whole = b"" if path.is_dir() else path.read_bytes()
        text, inputs, log = run_in(path) if path.is_dir() else logged(path, whole, scenes) if is_log(whole) else job(path, whole)
        record = Record(text, inputs, log)
    except OSError as fault:
        raise Unshown(path.name, 0, "", fault.strerror) from None
    except (BadLine, Damaged) as bad:
        raise Unshown(path.name, 0, "", str(bad)) from None
    except x3d.Fault as fault:
        raise Unshown(path.name, 0, "", f"an input is refused: {fault}") from None
    if not log:
        record.note(1, lambda who: (f"Viewer {who}", "#555555"))
    return record


def run_in(folder):
    """The scene, the inputs and the log of what was done of a folder."""
    text = read_scene_file(folder / SCENE)
    kept = Store(folder).load(text)
    if not kept:
        raise Unshown(folder.name, 0, "", "no run is kept here")
    return text, *kept[:2]


def job(path, whole):
    text = read_scene_file(path)
    return text, read_inputs(whole[: -len(text)].decode().removesuffix("scene\n")), ()


def logged(path, whole, scenes):
    """A log names its scene by its mark alone, which may be that of a file's part."""
    mark, inputs = read_log(whole)
    beside = [file for ending in ("job", "x3dv", "wrl") for file in path.parent.glob(f"*.{ending}")]
    files = [file for file in (*map(Path, scenes), *beside, *TOP.glob("examples/rooms/*.job")) if file.is_file()]
    for file in files:
        if wire.mark_of(scene_in(file.read_bytes())[0]) == mark:
            return read_scene_file(file), inputs, ()
    for text in map(text_of_part, files):
        if text and wire.mark_of(text) == mark:
            return text, inputs, ()
    raise Unshown(path.name, 0, "", "its scene isn't here: put the scene's file beside it")


def text_of_part(file):
    try:
        return read_part_of_file(file).text
    except Unshown:
        return None


class Replayed(Service):
    """A run by its name. Its windows have no seats."""

    def __init__(self, name, file, limits):
        self.open_windows(name, file, limits)
        self.record, self.room, self.store = read_run(file, limits.files), None, None
        self.orientations = orientations_of(self.record.text.decode())

    def turn(self, now, turn):
        for window in [*self.windows.values()]:
            if window.gone is None:
                self.news(window)
            elif time.monotonic() - window.gone > AWAY:
                self.dismiss(window)
        if turn % STATUS == 0:
            self.tell_all("status", {"replay": True, "viewers": [], "run": self.runs})

    def enter(self, address, outbox, body):
        if len(self.windows) >= VIEWERS + SPECTATORS:
            raise Wrong(409, "too many windows")
        window = self.newcomer(address, outbox, body)
        self.windows[window.token] = window
        return window

    def welcome(self, window):
        super().welcome(window)
        self.begin_replay(window)
        self.tell(window, "replay", window.player.status())

    def end_replay(self, window):
        """It ends with the window alone."""
        if window.token not in self.windows:
            super().end_replay(window)
