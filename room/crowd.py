"""Windows without a browser that hold their viewers themselves, as page/own.js has it; and many of them in processes of
their own."""
import json
import multiprocessing
import threading
import time

from library import x3d
from seat import PIECES, digest_of, forget
from served import AT_BUTTON, LATER, Client

# Seconds of a turn.
TURN = 0.033
AIM = x3d.Aim(AT_BUTTON[:3], AT_BUTTON[3:])


class Holder:
    """What a window does that holds its viewer."""

    def __init__(self):
        self.viewer = self.saved = self.who = self.text = None
        self.boot, self.marks, self.stands, self.behind = 0, [], (0, None), False

    def told(self, kind, data):
        if kind == "mark":
            self.marks.append(data["n"])
        elif kind == "stop":
            self.viewer = None
        elif kind == "start":
            self.who, self.boot, self.text = data["who"], data["boot"], data["text"]
            self.viewer, self.behind = x3d.Viewer(self.text, self.who, 1 if self.saved else self.boot), False
            if self.saved:
                self.viewer.rewind(self.saved, self.boot)
            self.mark()

    def mark(self):
        forget(self.viewer)
        self.saved = self.viewer.snapshot()
        self.stands = self.viewer.applied(), digest_of(self.saved)

    def says(self):
        return [*self.viewer.resend()[:8], self.viewer.ask()] if self.viewer else []

    def take(self, datagram, next_boot):
        if not self.viewer:
            return
        if datagram[5] in PIECES:
            if self.behind and self.viewer.gather(datagram) == "Whole":
                self.viewer.join(next_boot())
                self.behind = False
                self.mark()
            return
        self.behind = self.viewer.take(datagram).kind == "Behind" or self.behind
        if self.viewer.applied() in self.marks:
            self.marks.remove(self.viewer.applied())
            self.mark()


class Windowed(Client):
    """A window of a server, without a browser, that holds its viewer."""

    def __init__(self, served, **given):
        self.holder, self.stands = Holder(), None
        super().__init__(served, holds=True, **given)

    def note(self, event):
        super().note(event)
        self.holder.told(event["kind"], event)

    def run(self, over, seconds=2 * LATER):
        """Lives until something is so: sends a turn's datagrams, and waits for what is answered."""
        begun = time.monotonic()
        while not over():
            now = time.monotonic()
            assert now - begun < seconds, self.events[-1]
            for datagram in self.holder.says():
                self.socket.send(datagram, 2)
            if self.holder.viewer and self.stands != self.holder.stands:
                self.stands = self.holder.stands
                told = self.status("stand", at=self.stands[0], digest=self.stands[1], waiting=0)
                assert told == 200 or not self.holder.viewer, told
            while not self.socket.datagrams and self.listen() not in ("status", "stop", "start"):
                pass
            time.sleep(max(0, now + TURN - time.monotonic()))
            while self.socket.has_more():
                self.listen()
            self.take()

    def listen(self):
        """Takes a message; the kind of an event."""
        text = self.socket.receive_any()
        if text is None:
            return None
        event = json.loads(text)
        self.note(event)
        return event["kind"]

    def take(self):
        """The viewer takes what came."""
        datagrams, self.socket.datagrams = self.socket.datagrams, []
        for datagram in datagrams:
            self.holder.take(datagram, lambda: self.ask("boot")["boot"])


def press(viewer):
    """Offers that the button of the door is pressed, and no longer."""
    for down in (False, True, False):
        viewer.offer(down, AIM)


class Crowd:
    """`count` windows in a few processes. Each tells that it is in, and when its door has moved, by the clock."""

    PROCESSES, SECONDS = 4, 600

    def __init__(self, served, count):
        self.count, self.told = count, multiprocessing.Queue()
        shares = [len(range(k, count, self.PROCESSES)) for k in range(self.PROCESSES)]
        process = lambda share: multiprocessing.Process(target=self.live, args=(served, share), daemon=True)
        self.processes = [process(share) for share in shares]

    def __enter__(self):
        for process in self.processes:
            process.start()
        for _ in range(self.count):
            self.told.get(timeout=self.SECONDS)
        return self

    def live(self, served, share):
        threads = [threading.Thread(target=self.watch, args=(served,)) for _ in range(share)]
        for thread in threads:
            thread.start()
        for thread in threads:
            thread.join()

    def watch(self, served):
        window, seen = Windowed(served), 0

        def moved():
            nonlocal seen
            viewer = window.holder.viewer
            first, seen = seen + 1, viewer.applied()
            return " Door.translation 0 0 0\n" not in (trace := viewer.trace(first)) and " Door.translation " in trace

        self.told.put(0)
        window.run(moved, self.SECONDS)
        self.told.put(time.time())
        window.run(lambda: False, self.SECONDS)

    def moved(self):
        """When the door had moved in each, by the clock."""
        return [self.told.get(timeout=self.SECONDS) for _ in range(self.count)]

    def __exit__(self, *_):
        # Asked to end they would wait for their threads.
        for process in self.processes:
            process.kill()
        for process in self.processes:
            process.join()
