"""Who is in a room: names, colors, tokens, roles and pace."""
import hmac
import secrets
import time

COLORS = (
    "#0b63a5", "#c4570b", "#00795b", "#8a3d85", "#6b6b12", "#b3263a", "#2f4b9c", "#7a5200",
    "#00708a", "#b0307a", "#3d7a1c", "#5a4ac0",
)
NAME = 24
# How many pointers a second a window may offer, how many other commands, and how many datagrams of its viewer.
PACE, COMMANDS, DATAGRAMS = 40, 20, 600


class Bucket:
    """Takes `rate` a second, and as many at once."""

    def __init__(self, rate):
        self.rate, self.left, self.paid = rate, rate, time.monotonic()

    def takes(self):
        now = time.monotonic()
        self.left, self.paid = min(self.rate, self.left + self.rate * (now - self.paid)), now
        if self.left < 1:
            return False
        self.left -= 1
        return True


def clean(name):
    """A name as it is shown: without what isn't printed or turns lines round, and not too long."""
    if not isinstance(name, str):
        return ""
    return "".join(letter for letter in name if letter.isprintable()).strip()[:NAME].strip()


class Window:
    """A window: its viewer's number, or none of one that only watches; its person; what it is to be sent; whether it
    holds its viewer itself."""

    def __init__(self, address, outbox):
        self.address, self.outbox, self.token = address, outbox, secrets.token_urlsafe(24)
        self.who, self.id, self.name, self.color, self.hand, self.trainer = None, 0, "", COLORS[0], False, False
        self.told, self.player, self.gone, self.holds = None, None, None, False
        self.points, self.commands, self.datagrams = Bucket(PACE), Bucket(COMMANDS), Bucket(DATAGRAMS)

    def person(self):
        """What others see of it."""
        return {
            "id": self.id, "who": self.who, "name": self.name, "color": self.color, "hand": self.hand,
            "trainer": self.trainer, "here": self.gone is None,
        }


def same(given, secret):
    """Whether a text is a secret, compared so that time tells nothing of it."""
    return isinstance(given, str) and hmac.compare_digest(given.encode(errors="replace"), secret.encode())
