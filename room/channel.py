"""The network of a room: it loses, repeats and reorders datagrams, and alters none."""
import random
from dataclasses import dataclass, field

# How many turns a datagram is held back, at most, where it is reordered.
HELD = 6


@dataclass
class Channel:
    """Carries datagrams. Each part is a share of them, from 0 to 1; `lost` counts by viewer."""

    loss: float = 0
    repeat: float = 0
    reorder: float = 0
    chance: random.Random = field(default_factory=random.Random)
    held: list = field(default_factory=list)
    lost: dict = field(default_factory=dict)

    def send(self, who, to_host, datagram):
        """Takes a datagram of a viewer for the host, or of the host or another viewer for it."""
        for _ in range(2 if self.happens(self.repeat) else 1):
            if self.happens(self.loss):
                self.lost[who] = self.lost.get(who, 0) + 1
                continue
            late = self.chance.randint(1, HELD) if self.happens(self.reorder) else 0
            self.held.append((late, who, to_host, datagram))

    def happens(self, share):
        return share and self.chance.random() < share

    def arrived(self):
        """What arrives by now."""
        now = [item for item in self.held if not item[0]]
        self.held = [item for item in self.held if item[0]]
        return [(who, to_host, datagram) for _, who, to_host, datagram in now]

    def pass_turn(self):
        """A turn is over: what was held back is nearer."""
        self.held = [(max(0, late - 1), *rest) for late, *rest in self.held]
