"""What a window may ask of its room. Each command is given the room as it is served, the window, and a body of JSON."""
import re

from library import x3d
from people import COLORS
from player import SPEEDS
from service import Wrong

COORDINATE, OFFERS, DIGEST = 10**15, 64, re.compile(r"[0-9a-f]{16}")
SHARES = "loss", "repeat", "reorder"


def whole(value):
    return type(value) is int


def trainers(work):
    """A command that is the trainer's alone."""

    def checked(service, window, body):
        if not window.trainer:
            raise Wrong(403, "the trainer's alone")
        return work(service, window, body)

    return checked


def seat_of(service, window):
    """The seat of a window that has one."""
    if window.who is None:
        raise Wrong(409, "this window only watches")
    return service.room.seats[window.who]


def point(service, window, body):
    """Offers where the pointer is, and whether its button is down."""
    down, aim = body.get("down"), body.get("aim")
    if type(down) is not bool or not isinstance(aim, list) or len(aim) != 6:
        raise Wrong(400, "a pointer has down and six numbers")
    if not all(whole(part) and abs(part) <= COORDINATE for part in aim) or not any(aim[3:]):
        raise Wrong(400, "whole millionths, and a direction")
    seat = seat_of(service, window)
    if not seat.viewer:
        raise Wrong(409, "the viewer runs in the window" if seat.far and seat.runs else "the viewer isn't running")
    if seat.joins:
        # It will begin again in a snapshot, and what it offered by then is lost.
        raise Wrong(429, "the viewer is joining")
    if not window.points.takes():
        raise Wrong(429, "too many offers a second")
    try:
        seat.viewer.offer(down, x3d.Aim(aim[:3], aim[3:]))
    except x3d.Fault as fault:
        raise Wrong(429 if fault.name == "OfferFull" else 409, fault.name) from None


@trainers
def channel(service, window, body):
    """Sets what shares of datagrams are lost, repeated and reordered: those that are named."""
    named = {name: body[name] for name in SHARES if name in body}
    if not named:
        raise Wrong(400, "loss, repeat or reorder")
    if not all(type(share) in (int, float) and 0 <= share <= 0.9 for share in named.values()):
        raise Wrong(400, "shares from 0 to 0.9")
    for name, share in named.items():
        setattr(service.room.channel, name, share)
    return {"channel": service.channel()}


def name(service, window, body):
    """Sets the name and the color of the window's person."""
    window.name = service.name_for(window, body.get("name"))
    if body.get("color") in COLORS:
        window.color = body["color"]
    service.tell_people()
    return {"name": window.name, "color": window.color}


def hand(service, window, body):
    """Raises a hand, or puts it down."""
    if type(body.get("up")) is not bool:
        raise Wrong(400, "up is true or false")
    if body["up"] and not window.hand:
        service.record.say(-1, window.name, window.color, "raised a hand")
    window.hand = body["up"]
    service.tell_people()


@trainers
def kill(service, window, body):
    """Stops a viewer."""
    if not whole(body.get("who")) or body["who"] not in service.room.seats:
        raise Wrong(400, "no such viewer")
    name, _ = service.person(body["who"])
    service.record.say(-1, window.name, window.color, f"stopped the viewer of {name}")
    service.room.kill(body["who"])


def start(service, window, body):
    """Starts the viewer of this window again; the trainer starts each."""
    who = body.get("who", window.who)
    if who != window.who and not window.trainer:
        raise Wrong(403, "the trainer's alone")
    if not whole(who) or who not in service.room.seats:
        raise Wrong(400, "no such viewer")
    if service.room.seats[who].runs:
        raise Wrong(409, "the viewer is running")
    service.room.start(who)


@trainers
def reset(service, window, body):
    """Begins a new run of the scene, at its opening."""
    service.restart(service.room.text, f"began again: run {service.runs + 1}", window)


def replay(service, window, body):
    """Shows this window what happened: from an input on, at a speed; or the room as it is now."""
    if service.room and not window.trainer:
        raise Wrong(403, "the trainer's alone")
    if body.get("on") is False:
        service.end_replay(window)
        return {}
    number, playing, speed = body.get("n"), body.get("playing"), body.get("speed", 1)
    if number is not None and not (whole(number) and number >= 0) or speed not in SPEEDS:
        raise Wrong(400, "an input from 0 on, and a speed of 1, 4 or 16")
    if not window.player:
        service.begin_replay(window)
    if number is not None:
        window.player.seek(number)
    if type(playing) is bool:
        window.player.play(playing, speed)
    return window.player.status()


def far_seat_of(service, window):
    """The seat of a window whose viewer runs there."""
    seat = seat_of(service, window)
    if not (seat.far and seat.runs):
        raise Wrong(409, "no viewer runs in this window")
    return seat


def boot(service, window, body):
    """A boot for the window's viewer, which begins again."""
    return {"boot": far_seat_of(service, window).give_boot(service.room)}


def stand(service, window, body):
    """The window says how its viewer stands: offers that wait, and the digest of its world at a number."""
    number, digest, waiting = body.get("at"), body.get("digest"), body.get("waiting")
    if not (whole(waiting) and 0 <= waiting <= OFFERS and whole(number) and 0 <= number <= len(service.room.host)):
        raise Wrong(400, "at and waiting are whole numbers")
    if digest is not None and not (isinstance(digest, str) and DIGEST.fullmatch(digest)):
        raise Wrong(400, "a digest has sixteen digits")
    far_seat_of(service, window).stand(number, digest, waiting)


def fail(service, window, body):
    """The window's viewer ended there."""
    far_seat_of(service, window)
    service.room.kill(window.who)


COMMANDS = {each.__name__: each for each in (point, hand, start, replay, name, boot, stand, fail)}
COMMANDS |= {"channel": channel, "kill": kill, "reset": reset}
