"""Ways between viewers and hosts on which datagrams are lost, in this process."""
import random
import selectors
import socket
import threading

import wire


def bound(port):
    end = socket.socket(socket.AF_INET, socket.SOCK_DGRAM)
    end.bind((wire.HERE, port))
    return end


class Losses:
    """Passes datagrams between viewers and hosts, and loses a share of them, in either direction."""

    def __init__(self, share, seed):
        self.share, self.chance, self.came, self.lost, self.ended = share, random.Random(seed), 0, 0, False
        self.ready, self.behind = selectors.DefaultSelector(), {}
        self.work = threading.Thread(target=self.serve, daemon=True)
        self.work.start()

    def __enter__(self):
        return self

    def __exit__(self, *_):
        self.ended = True
        self.work.join()

    def way(self, host):
        """The port at which a new way to the host at a port begins."""
        front = bound(0)
        self.ready.register(front, selectors.EVENT_READ, (None, host))
        return front.getsockname()[1]

    def pass_on(self, end, packet, to):
        self.came += 1
        if self.chance.random() < self.share:
            self.lost += 1
            return
        try:
            end.sendto(packet, to)
        except OSError:
            self.lost += 1

    def socket_behind(self, front, sender):
        """The socket by which the host sees who sends to this front."""
        if (front, sender) not in self.behind:
            end = bound(0)
            self.behind[front, sender] = end
            self.ready.register(end, selectors.EVENT_READ, ((front, sender), None))
        return self.behind[front, sender]

    def serve(self):
        while not self.ended:
            for key, _ in self.ready.select(0.05):
                packet, sender = key.fileobj.recvfrom(2048)
                back, host = key.data
                if back:
                    self.pass_on(back[0], packet, back[1])
                else:
                    self.pass_on(self.socket_behind(key.fileobj, sender), packet, (wire.HERE, host))
