"""A room as it is served: its world, its windows, its record, and the file that it is made of."""
import asyncio
import functools
import itertools
import json
import sys
import time
from pathlib import Path

from channel import Channel
from parts import Part
from people import COLORS, NAME, Window, clean, same
from player import Player
from record import BOOT, Record
from room import VIEWERS, Room
from store import Store
from viewpoints import orientations_of
from watched import Watched

RATE, WAITING = 30, 300
# Turns between what is told of viewers, looks at the scene's file, and writes to the disk.
STATUS, LOOK, WRITE, SAVE = 6, 15, 30, 1800
# Seconds that a seat is kept for a window whose connection broke.
AWAY = 20
SPECTATORS = 64
# How a connection ends whose window has come in by another one.
ELSEWHERE = 4000
# How much of the log a window is sent when it comes in, and of what was left out of the scene's file.
SHOWN, LEFT = 200, 500

# Without blanks, since each event goes to each window.
ENCODED = json.JSONEncoder(separators=(",", ":")).encode
# The trace of an input is one text for all viewers, and is encoded once for all that tell it alike.
ENCODED_TEXT = functools.lru_cache(256)(ENCODED)


class Wrong(Exception):
    """A request that is refused: its status, and why."""

    def __init__(self, status, why):
        super().__init__(why)
        self.status, self.why = status, why


def message(kind, data):
    """What a window is sent."""
    if "trace" not in data:
        return ENCODED({"kind": kind, **data})
    rest = {name: part for name, part in data.items() if name != "trace"}
    return f'{{"kind":"{kind}","trace":{ENCODED_TEXT(data["trace"])},{ENCODED(rest)[1:]}'


class Service:
    """A room by its name. All of it runs in one thread, that of the server's loop."""

    def __init__(self, name, file, limits, folder=None):
        self.open_windows(name, file, limits)
        self.store = Store(Path(folder, name)) if folder else None
        self.watched = Watched(self.file)
        part = self.watched.part
        if part.count:
            print(f"room {name}: of {self.file.name} the part that is read is shown: {part.count}", file=sys.stderr, flush=True)
        self.open(part.text, self.store and self.store.load(part.text))

    def open_windows(self, name, file, limits):
        """A room without windows, and without a world so far."""
        self.name, self.file, self.limits = name, Path(file), limits
        self.windows, self.ids, self.watched, self.runs = {}, itertools.count(1), None, 1
        # Whether datagrams of windows wait to be carried; one download is written at a time.
        self.carries, self.writing = False, asyncio.Lock()

    def open(self, text, kept=None):
        """Opens the world of a scene, as it was kept or before any input."""
        record = Record(text, *(kept or ()))
        room = Room(text)
        if len(record.inputs):
            room.resume(record.inputs, record.save())
        self.room, self.record, self.orientations = room, record, orientations_of(text.decode())
        self.log_told = record.said
        if self.store:
            self.store.begin(record)

    # The clock.

    async def run(self):
        """The clock begins at the time of day, as X3D counts it, and never back. Where a turn fails the
        server ends, so that windows say that it is gone."""
        begun = max(time.time(), self.last() / 1e6 + 1) - time.monotonic()
        due, turn = time.monotonic(), 0
        while True:
            self.turn(int((begun + time.monotonic()) * 1e6), turn)
            due, turn = max(due + 1 / RATE, time.monotonic()), turn + 1
            await asyncio.sleep(max(0.002, due - time.monotonic()))

    def last(self):
        return self.record.inputs.time(len(self.record.inputs)) if len(self.record.inputs) else 0

    def turn(self, now, turn):
        """One turn of the room, and what windows are to be told."""
        self.room.turn(now)
        self.record.follow(self.room, self.person)
        self.renew()
        told = self.tell_log()
        for window in [*self.windows.values()]:
            if window.gone is not None:
                if time.monotonic() - window.gone > AWAY:
                    self.dismiss(window)
            elif news := self.news(window):
                self.tell(window, *news)
        self.record.forget_points()
        if turn % STATUS == 0:
            self.tell_all("status", {**self.room.status(), "channel": self.channel(), "run": self.runs})
        if turn % LOOK == 0:
            self.watched.look()
        if self.watched.is_read():
            self.show_file()
        if self.store and (turn % WRITE == 0 or told):
            self.store.append(self.record)
        if self.store and turn % SAVE == SAVE - 1 and self.windows:
            self.store.save(self.record)

    def renew(self):
        """Where no viewer runs here, who comes late joins by a snapshot of the record."""
        room, world = self.room, self.record.world
        if room.marks and room.marks[-1] > room.newest[0] and not room.near():
            room.renew(world.applied(), world.snapshot(BOOT))

    def news(self, window):
        """What a window has to be told of the world that it shows, if its viewer doesn't run there."""
        if window.player:
            news = window.player.turn(1_000_000 // RATE)
            if news:
                self.tell(window, *news)
                self.tell(window, "replay", window.player.status())
            return None
        if window.who is not None:
            return self.room.news(window.who)
        news = self.record.news(window.told)
        window.told = self.record.world.applied()
        return news

    def show_file(self):
        """Shows the scene's file once more where its scene is another one, or what is wrong with it."""
        text, fault = self.watched.part.text, self.watched.fault
        if fault:
            print(f"room {self.name}: {fault}", file=sys.stderr, flush=True)
        elif text != self.room.text:
            self.restart(text, f"{self.file.name} was changed: run {self.runs + 1}")
        for window in self.windows.values():
            self.tell_file(window)

    def tell_file(self, window):
        """Tells what is wrong with the scene's file, and what was left out of it."""
        fault, part = (self.watched.fault, self.watched.part) if self.watched else (None, Part(b""))
        self.tell(window, "fault", {"fault": fault and fault.told()})
        self.tell(window, "left", {"file": self.file.name, "count": part.count, "left": part.left[:LEFT]})

    def restart(self, text, why, by=None):
        """A new run, with the windows that there are in the seats that they have; why, and whose window began it."""
        channel = self.channel()
        self.open(text)
        self.runs += 1
        self.room.channel = Channel(channel["loss"], channel["repeat"], channel["reorder"])
        for window in self.windows.values():
            window.told = None
            self.end_replay(window)
            self.tell(window, "run", {"run": self.runs, "why": why, "orientations": self.orientations})
            if window.who is not None:
                self.room.take_seat(window.who, *self.held_by(window))
        self.record.say(-1, by.name if by else "", by.color if by else "", why)

    # Windows.

    def tell(self, window, kind, data):
        """Puts an event for a window; a window that doesn't read is cut off."""
        self.send(window, message(kind, data))

    def tell_all(self, kind, data):
        told = message(kind, data)
        for window in self.windows.values():
            self.send(window, told)

    def send(self, window, told):
        if window.gone is None and not window.outbox.put(told):
            window.gone = time.monotonic()

    def tell_people(self):
        self.tell_all("people", {"people": [each.person() for each in self.windows.values()]})

    def tell_log(self):
        """What was logged since the last turn goes to all windows; whether there was any."""
        new = self.record.said - self.log_told
        self.log_told = self.record.said
        if new > 0:
            self.tell_all("log", {"log": [each._asdict() for each in self.record.log[-new:]]})
        return new > 0

    def person(self, who):
        """The name and the color of a viewer."""
        for window in self.windows.values():
            if window.who == who:
                return window.name, window.color
        return f"Viewer {who}", COLORS[who % len(COLORS)]

    def channel(self):
        channel = self.room.channel
        return {"loss": channel.loss, "repeat": channel.repeat, "reorder": channel.reorder}

    def window_of(self, token):
        """The window of a token, if it is one."""
        return next((each for each in self.windows.values() if same(token, each.token)), None)

    def enter(self, address, outbox, body):
        """The window of who comes in: the one that it had, or a new one with a seat, or one that only watches."""
        window = self.window_of(body.get("token"))
        if window:
            window.outbox.close(ELSEWHERE)
            window.outbox, window.gone, window.told = outbox, None, None
            window.trainer = window.trainer or same(body.get("trainer"), self.limits.trainer)
            if window.who is not None:
                self.come_back(window, body)
            return window
        here = [each for each in self.windows.values() if each.address == address]
        if len(here) >= 2 * self.limits.each or len(self.windows) >= VIEWERS + SPECTATORS:
            raise Wrong(409, "the room is full")
        window = self.newcomer(address, outbox, body)
        seated = sum(each.who is not None for each in here)
        if seated < self.limits.each and not body.get("watch"):
            window.holds = self.may_hold(body)
            window.who = self.room.join(*self.held_by(window))
        self.windows[window.token] = window
        return window

    def may_hold(self, body):
        """Whether the window that comes in holds its viewer itself."""
        return self.limits.wasm is not None and body.get("holds") is True

    def held_by(self, window):
        """What a seat needs of a window that holds its viewer."""
        if not window.holds:
            return ()
        send = lambda datagram: window.outbox.carry(datagram)
        return send, functools.partial(self.tell, window), window.points.takes

    def come_back(self, window, body):
        """A window has a new connection: its seat goes on where its viewer does."""
        seat, window.holds = self.room.seats[window.who], self.may_hold(body)
        if window.holds != seat.far:
            self.room.leave(window.who)
            self.room.take_seat(window.who, *self.held_by(window))
        elif not seat.far:
            seat.told = None
        elif not seat.runs:
            seat.tell("stop", {})
        elif (body.get("life"), body.get("boot")) != (self.room.life, seat.boot):
            self.room.start(window.who)

    def receive(self, window, datagram):
        """A datagram of the viewer that a window holds. What comes too fast is lost."""
        if window.datagrams.takes():
            self.room.receive(window.who, datagram)
        if not self.carries:
            self.carries = True
            asyncio.get_running_loop().call_soon(self.carry)

    def carry(self):
        self.carries = False
        self.room.carry()

    def newcomer(self, address, outbox, body):
        """A window with its person."""
        window = Window(address, outbox)
        window.id = next(self.ids)
        window.name, window.color = self.name_for(window, body.get("name")), self.color(body.get("color"))
        window.trainer = same(body.get("trainer"), self.limits.trainer)
        return window

    def name_for(self, window, wished):
        """The name that is wished for, with a number where someone else here has it."""
        taken = {each.name for each in self.windows.values() if each is not window and each.gone is None}
        name = clean(wished) or window.name or f"Guest {window.id}"
        numbered = (f"{name[: NAME - 3]} {number}" for number in itertools.count(2))
        return next(each for each in itertools.chain([name], numbered) if each not in taken)

    def color(self, wished):
        """The color that is wished for, if no one here has it, or else one that is rare."""
        taken = [each.color for each in self.windows.values()]
        return wished if wished in COLORS and wished not in taken else min(COLORS, key=taken.count)

    def welcome(self, window):
        """What a window is sent first."""
        window.told = None
        self.tell(window, "you", {
            "id": window.id, "who": window.who, "token": window.token, "name": window.name, "color": window.color,
            "trainer": window.trainer, "room": self.name, "colors": COLORS, "run": self.runs,
            "orientations": self.orientations, "file": self.file.name,
            "place": self.limits.place and f"{self.limits.place}{self.name}/",
        })
        self.tell_file(window)
        self.tell(window, "log", {"log": [each._asdict() for each in self.record.log[-SHOWN:]], "whole": True})
        self.tell_people()

    def away(self, window, outbox, left):
        """A window's connection is over. Its seat is kept for a while, if it didn't say that it leaves."""
        if window.outbox is not outbox or window.token not in self.windows:
            return
        window.gone = time.monotonic()
        if left:
            self.dismiss(window)
        self.tell_people()

    def dismiss(self, window):
        """Frees the seat of a window."""
        del self.windows[window.token]
        self.end_replay(window)
        if window.who is not None:
            self.room.leave(window.who)
        self.tell_people()

    # Replay.

    def begin_replay(self, window):
        self.end_replay(window)
        window.player = Player(self.record)

    def end_replay(self, window):
        """The window shows the room as it is now."""
        if window.player:
            window.player.close()
            window.player, window.told = None, None
            if self.room and window.who in self.room.seats:
                self.room.seats[window.who].told = None

    def close(self):
        """Keeps the run as it is."""
        if self.store and len(self.record.inputs):
            self.store.save(self.record)
            self.store.close()
