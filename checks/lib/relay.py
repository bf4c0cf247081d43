# SPDX-License-Identifier: Apache-2.0 OR MIT
"""A relay between clients and a server, which cuts connections."""

import contextlib
import random
import socket
import struct
import threading
import time

from .server import SOON


class Relay:
    """Hands bytes on between clients and the server at the port `target`, and cuts each connection behind a random
    number of them.

    `rooms` are the most bytes of which a connection has some number, on the way there or back; of one that has None
    no number is too many. It hangs for one of the `pauses`, in seconds, before it is cut. `hosts` are the
    addresses from which the server sees it.
    """

    def __init__(self, seed, rooms=(300, 1000, 5000), pauses=(0,), hosts=None):
        self.random, self.target, self.carried, self.cuts = random.Random(seed), None, 0, 0
        self.rooms, self.pauses, self.hosts, self.open = rooms, pauses, hosts, set()
        self.listener = socket.create_server(("127.0.0.1", 0), backlog=64)
        self.port = self.listener.getsockname()[1]
        threading.Thread(target=self.listen, daemon=True).start()

    def listen(self):
        with contextlib.suppress(OSError):
            while True:
                near = self.listener.accept()[0]
                self.carried += 1
                most = self.random.choice(self.rooms)
                room = None if most is None else self.random.randrange(most)
                there = self.random.random() < 0.5
                threading.Thread(target=self.carry, args=(near, room, there, self.random.random() < 0.5),
                                 daemon=True).start()

    def carry(self, near, room, there, is_reset):
        """One connection, until so many bytes went the one way, or an end ends it; both ends are cut then."""
        source = (self.random.choice(self.hosts), 0) if self.hosts else None
        try:
            far = socket.create_connection(("127.0.0.1", self.target), timeout=SOON, source_address=source)
        except OSError:
            # The server is down; whoever asks again will not ask in vain all the time.
            time.sleep(0.02)
            near.close()
            return
        self.open.add((near, far))
        ways = ((near, far, room if there else None), (far, near, None if there else room))
        pumps = [threading.Thread(target=self.pump, args=way, daemon=True) for way in ways]
        for thread in pumps:
            thread.start()
        for thread in pumps:
            thread.join()
        self.open.discard((near, far))
        for end in (near, far):
            if is_reset:
                with contextlib.suppress(OSError):
                    end.setsockopt(socket.SOL_SOCKET, socket.SO_LINGER, struct.pack("ii", 1, 0))
            end.close()

    def pump(self, source, sink, room):
        """Hands bytes on, so many where that is told; then neither end is read any more."""
        with contextlib.suppress(OSError):
            while room != 0:
                piece = source.recv(65536)[:room]
                if not piece:
                    break
                sink.sendall(piece)
                room = None if room is None else room - len(piece)
            if room == 0:
                self.cuts += 1
                time.sleep(self.random.choice(self.pauses))
        for end in (source, sink):
            with contextlib.suppress(OSError):
                end.shutdown(socket.SHUT_RD)

    def cut(self):
        """Cuts every connection that there is."""
        for ends in list(self.open):
            self.cuts += 1
            for end in ends:
                with contextlib.suppress(OSError):
                    end.shutdown(socket.SHUT_RDWR)

    def close(self):
        """Takes no more connections, and cuts those that there are."""
        self.listener.close()
        self.cut()
