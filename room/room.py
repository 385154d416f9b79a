"""A room: the host of a shared world, and a viewer for each window, here or in the window. All are the library's, here
by bindings/python; what stands here carries their datagrams, ticks the clock, and saves viewers."""
import functools
import itertools
import secrets
import time

from channel import Channel
from library import wire, x3d
from scene import Names
from seat import OFFER, PIECES as OF_PIECES, Far, Joining, Seat, input_in

VIEWERS = 64
# Viewers are saved, and their worlds compared, every CHECK turns: as many more for each GROWTH bytes.
CHECK, GROWTH = 90, 1 << 18
# How many inputs the host keeps below those that a late window lacks.
KEPT = 600
# How many offers a viewer sends in a turn, and pieces, unless all would then take ROUND turns.
OFFERS, PIECES, ROUND = 8, 64, 30
# How often a viewer asks in a turn, at most, as long as what comes shows that something was lost.
ASKS = 4
# What was just read or written for one viewer comes at once for the next.
RECENT = 1024


class Room:
    """All of it, in turns. A scene that is refused raises x3d.Refusal."""

    def __init__(self, text):
        self.text = text = text.encode() if isinstance(text, str) else text
        self.channel, self.full, self.life = Channel(), False, secrets.token_hex(4)
        # Boots go on above those of the last time that this world was run.
        self.seats, self.boots = {}, itertools.count(int(time.time()))
        # The numbers at which viewers are saved, and the turns until the next.
        self.marks, self.rest = [], CHECK
        # How many inputs there were when asks that wait were answered.
        self.answered = 0
        # Of each pointer that was numbered the boot and the number of its offer, until the record has it.
        self.offers = {}
        # It applies nothing: it knows the scene's names, and cuts snapshots into pieces.
        self.first = x3d.Viewer(text, 0, next(self.boots))
        self.newest, self.names = (0, self.first.snapshot()), Names(self.first)
        self.host = x3d.Host(text, VIEWERS)
        self.packet = functools.lru_cache(RECENT)(self.host.packet)
        self.read = functools.lru_cache(RECENT)(input_in)

    def resume(self, inputs, newest):
        """Has the host number the inputs of an earlier run again. `newest` is a number, and the snapshot there."""
        mark = wire.mark_of(self.text)
        for number in range(1, len(inputs) + 1):
            each, offer = inputs.offered_at(number)
            if each.point:
                self.host.take(wire.offer(mark, *offer, each.point))
            else:
                self.host.clock(each.time)
        # What viewers offer from now on is of later boots.
        last = max((boot for boot, _ in inputs.offered.values()), default=0)
        self.newest, self.boots = newest, itertools.count(max(int(time.time()), last + 1))
        self.host.drop_below(max(1, newest[0] + 1 - KEPT))

    def join(self, *window):
        """The number of a new window's seat, with a viewer that runs, here or in the window; none where the room is
        full. `window` is what `Far` is given, of a window that holds its viewer."""
        free = next((who for who in range(VIEWERS) if who not in self.seats), None)
        if free is not None:
            self.take_seat(free, *window)
        return free

    def take_seat(self, who, *window):
        """Takes a seat that is free, with a viewer that runs."""
        self.seats[who] = Far(who, *window) if window else Seat(who, self.names)
        try:
            self.start(who)
        except (x3d.Fault, MemoryError):
            self.leave(who)
            raise

    def start(self, who):
        """Starts a viewer: in its snapshot, if one was saved, or else at the beginning."""
        seat = self.seats[who]
        seat.start(self)
        if not seat.far:
            self.mark(seat)

    def kill(self, who):
        """Drops a viewer with all that it holds in memory. What it saved stays."""
        self.seats[who].stop()

    def leave(self, who):
        """Frees the seat of a window that is gone."""
        self.kill(who)
        del self.seats[who]
        self.channel.lost.pop(who, None)

    def running(self):
        return [seat for seat in self.seats.values() if seat.runs]

    def near(self):
        """The seats whose viewers run here."""
        return [seat for seat in self.running() if not seat.far]

    def mark(self, seat):
        """Saves a viewer that runs here."""
        self.renew(*seat.mark())

    def renew(self, number, snapshot):
        """There is a snapshot, in which others may join. The host drops inputs that no one lacks who does."""
        self.newest = max(self.newest, (number, snapshot), key=lambda saved: saved[0])
        joining = [each.joins.number for each in self.running() if each.joins]
        floor = min([self.newest[0], *joining]) + 1 - KEPT
        self.host.drop_below(max(self.host.floor(), floor))
        self.marks = [number for number in self.marks if number >= floor]

    def turn(self, time):
        """One turn: the clock is numbered, and datagrams go both ways. A world that nobody is in
        rests."""
        if not self.seats:
            return
        self.tick(time)
        for seat in self.near():
            for offer in seat.viewer.resend()[:OFFERS]:
                self.channel.send(seat.who, True, offer)
            self.send_pieces(seat)
        asking = self.near()
        for _ in range(ASKS):
            for seat in asking:
                seat.lacks = False
                self.channel.send(seat.who, True, seat.viewer.ask())
            self.carry()
            asking = [seat for seat in self.near() if seat.lacks]
        self.channel.pass_turn()

    def carry(self):
        """Delivers what arrives by now, and then what is answered."""
        for asks_wait in (True, False):
            for who, to_host, datagram in self.channel.arrived():
                self.deliver(who, to_host, datagram)
            if asks_wait and len(self.host) > self.answered:
                self.answer_waiting()

    def answer_waiting(self):
        """There are new inputs, for which asks of viewers in windows wait."""
        self.answered = len(self.host)
        for seat in self.running():
            if seat.far and seat.waits:
                datagram, seat.waits = seat.waits, None
                self.deliver(seat.who, True, datagram)

    def send_pieces(self, seat):
        """Some pieces of the snapshot by which a viewer joins."""
        if seat.joins:
            for piece in itertools.islice(seat.joins.pieces, seat.joins.batch):
                self.channel.send(seat.who, False, piece)

    def receive(self, who, datagram):
        """A window sends a datagram of its viewer. It is carried at the next turn, or by `carry` before."""
        seat = self.seats.get(who)
        if seat and seat.far and seat.runs and seat.speaks(datagram):
            self.channel.send(who, True, datagram)

    def tick(self, time):
        """Numbers the clock. Now and then viewers are to be saved at it; none has it yet."""
        try:
            self.rest -= 1
            number = self.host.clock(time)
            if self.rest <= 0:
                self.marks.append(number)
                self.tell_mark(number)
                self.rest = CHECK * (1 + len(self.newest[1]) // GROWTH)
        except x3d.Fault as fault:
            self.full = self.full or fault.name == "WorldFull"

    def tell_mark(self, number):
        """Windows that hold their viewers learn at which number worlds will be compared, before they have it."""
        for seat in self.seats.values():
            if seat.far:
                seat.tell("mark", {"n": number})

    def deliver(self, who, to_host, datagram):
        """Hands a datagram to the host, or to a viewer that runs. A refused one changes nothing."""
        seat = self.seats.get(who)
        if not seat or not seat.runs:
            return
        try:
            (self.to_host if to_host else self.to_far if seat.far else self.to_viewer)(seat, datagram)
        except x3d.Fault as fault:
            self.full = self.full or fault.name == "WorldFull"
            if fault.name in ("Memory", "Spoiled"):
                self.kill(who)

    def to_host(self, seat, datagram):
        """The host answers, with no input after the next mark: so each viewer stops there."""
        if seat.far and not seat.admits(datagram):
            return
        kind, first, count = self.host.take(datagram)
        if kind == "Numbered":
            self.offers[first] = OFFER.unpack_from(datagram, wire.HEAD.size)[1:]
        if seat.far:
            self.note_ask(seat, kind, first)
            seat.waits = datagram if kind == "Asked" and not count else None
        if kind == "Asked":
            stop = next((mark + 1 for mark in self.marks if mark >= first), first + count)
            packets = map(self.packet, range(first, min(first + count, stop)))
        else:
            packets = [self.host.floor_packet() if kind == "Below" else self.host.ack(seat.who)]
        for packet in packets:
            self.channel.send(seat.who, False, packet)

    def note_ask(self, seat, kind, first):
        """What a viewer in a window asks for says how far it is, and whether it needs a snapshot. It gets pieces as fast
        as it asks."""
        if kind == "Asked":
            seat.number, seat.joins = first - 1, None
        elif kind == "Below":
            if not seat.joins:
                self.give(seat)
            self.send_pieces(seat)

    def to_far(self, seat, datagram):
        seat.send(datagram)

    def to_viewer(self, seat, datagram):
        if datagram[5] in OF_PIECES:
            return self.gather(seat, datagram)
        taken = seat.viewer.take(datagram)
        seat.lacks = seat.lacks or taken.kind == "Kept"
        if taken.kind in ("Applied", "Kept") and (pointed := self.read(datagram)).point:
            seat.points.append(pointed)
        elif taken.kind == "Behind" and not seat.joins:
            self.give(seat)
        if self.marks and self.marks[-1] > seat.marked:
            number = seat.viewer.applied()
            if number > seat.marked and number in self.marks:
                self.mark(seat)

    def give(self, seat):
        """The newest snapshot is sent to this viewer, in pieces."""
        if not seat.far:
            seat.viewer.forget()
        number, snapshot = self.newest
        pieces = self.first.pieces(snapshot)
        batch = min(len(pieces), max(PIECES, len(pieces) // ROUND))
        seat.joins = Joining(number, itertools.cycle(pieces), batch)

    def gather(self, seat, piece):
        """A piece; once none is missing the viewer begins in the snapshot."""
        if not seat.joins:
            return
        kind = seat.viewer.gather(piece)
        if kind == "Other":
            seat.viewer.forget()
        elif kind == "Whole":
            seat.viewer.join(next(self.boots))
            seat.begin()
            self.mark(seat)

    def news(self, who):
        """What a window has to be told of its viewer, with its kind, if that runs here."""
        try:
            return self.seats[who].news() if self.seats[who].viewer else None
        except x3d.Fault:
            self.kill(who)
            return None

    def status(self):
        """What windows show: each viewer, and the last number at which those that run are equal."""
        found, lost = {}, self.channel.lost
        for seat in self.running():
            for number, digest in seat.digests.items():
                found.setdefault(number, []).append(digest)
        count = len(self.running())
        equal = [each for each in found if len(found[each]) == count and len(set(found[each])) == 1]
        viewers = [{**seat.status(), "lost": lost.get(who, 0)} for who, seat in self.seats.items()]
        return {
            "numbered": len(self.host),
            "full": self.full,
            "equal_at": max(equal, default=None),
            "different": any(len(set(digests)) > 1 for digests in found.values()),
            "viewers": sorted(viewers, key=lambda viewer: viewer["who"]),
        }
