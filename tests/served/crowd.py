"""Clients that talk to a server on loopback all at once, from one thread, and what each of them met.

What a client does is a list of acts, each a pair of a name and a value:

    send BYTES      sends these bytes
    wait SECONDS    does nothing for so long
    all None        waits until each client of the crowd has begun: it is connected, and has done its acts up to its first wait
    after CLIENT    waits until that client is done
    half None       closes its sending side
    read HOW        reads to the end, or as many bytes as `HOW.most` says, at most `HOW.step` at a time and `HOW.rate` in a second
    look None       reads what is there, without waiting
    close None      closes the connection
    reset None      closes it by a reset
"""
import heapq
import itertools
import selectors
import socket
import struct
import time
from collections import deque, namedtuple

EACH = 20
"""The seconds that a client may take."""

EVENTS = {"read": selectors.EVENT_READ, "write": selectors.EVENT_WRITE}
Read = namedtuple("Read", "most step rate", defaults=(None, 1 << 16, None))
"""How a client reads."""


class Late(Exception):
    """A client took too long."""


class Gate:
    """What clients wait for until it is open."""

    def __init__(self):
        self.is_open, self.waiting = False, []

    def open(self):
        """Opens it, and returns the clients that waited."""
        waiting, self.waiting, self.is_open = self.waiting, [], True
        return waiting


class Client:
    """A client, what it is to do, and what it met.

    `found` are the bytes that it read. `end` is how it ended: "end" where the reply ended in order, "left" where the client closed the
    connection, "broken" where the server did so without an end, "late" where it took too long, "refused" where there was no connection.
    `begun` is when it connected, `asked` is before byte `length` of what it sent was sent, `heard` is after the first byte of the reply was
    read, `ended` when it was done; each is None where that never came. `first_gap` is how long it was silent before its first byte, `gap` how
    long at most between two bytes."""

    def __init__(self, acts, length=0, receive=None, delay=0):
        """`length` is how many bytes its request has, `receive` the bytes of its socket's buffer, where these aren't the system's, and `delay` the
        seconds after which it connects."""
        self.acts, self.length, self.receive, self.delay = acts, length, receive, delay
        self.found, self.sent, self.end, self.socket = bytearray(), 0, None, None
        self.begun = self.asked = self.heard = self.ended = None
        self.first_gap = self.gap = 0
        self.last = 0
        self.done = Gate()

    def talk(self, port, all_begun):
        """Does its acts, and yields what it waits for: "read", "write", a time, or a gate."""
        if self.delay:
            yield time.monotonic() + self.delay
        self.begun = self.last = time.monotonic()
        try:
            self.connect(port)
        except OSError:
            self.end = "refused"
            return
        try:
            for name, value in self.acts:
                if name in ("all", "after"):
                    gate = all_begun if name == "all" else value.done
                    while not gate.is_open:
                        yield gate
                else:
                    yield from getattr(self, name)(value)
        except OSError:
            self.end = "broken"
        except Late:
            self.end = "late"
        finally:
            self.socket.close()
            self.ended = time.monotonic()

    def connect(self, port):
        self.socket = socket.socket()
        if self.receive:
            self.socket.setsockopt(socket.SOL_SOCKET, socket.SO_RCVBUF, self.receive)
        self.socket.settimeout(EACH)
        self.socket.connect(("127.0.0.1", port))
        self.socket.setsockopt(socket.IPPROTO_TCP, socket.TCP_NODELAY, 1)
        self.socket.setblocking(False)

    def send(self, data):
        left = memoryview(data)
        while left:
            before = time.monotonic()
            if self.asked is None and self.sent + len(left) >= self.length:
                self.asked = before
            self.note_gap()
            try:
                count = self.socket.send(left)
            except BlockingIOError:
                yield "write"
                continue
            self.note_gap()
            self.sent, self.last, left = self.sent + count, before, left[count:]

    def note_gap(self):
        gap = time.monotonic() - self.last
        self.first_gap, self.gap = (self.first_gap, max(self.gap, gap)) if self.sent else (gap, self.gap)

    def wait(self, seconds):
        yield time.monotonic() + seconds

    def half(self, _):
        self.socket.shutdown(socket.SHUT_WR)
        yield from ()

    def read(self, how):
        while how.most is None or len(self.found) < how.most:
            try:
                piece = self.socket.recv(how.step if how.most is None else min(how.step, how.most - len(self.found)))
            except BlockingIOError:
                yield "read"
                continue
            if not piece:
                self.end = "end"
                return
            self.heard = self.heard or time.monotonic()
            self.found += piece
            if how.rate:
                yield self.heard + len(self.found) / how.rate

    def look(self, _):
        try:
            piece = self.socket.recv(1 << 16)
            self.found += piece
            self.end = self.end if piece else "end"
        except BlockingIOError:
            pass
        yield from ()

    def close(self, _):
        self.end = self.end or "left"
        self.socket.close()
        yield from ()

    def reset(self, _):
        self.socket.setsockopt(socket.SOL_SOCKET, socket.SO_LINGER, struct.pack("ii", 1, 0))
        yield from self.close(None)


class Crowd:
    """The clients that talk at once, and what each of those that aren't done waits for."""

    def __init__(self, clients, port):
        self.all_begun, self.ready, self.times, self.number = Gate(), deque(), [], itertools.count()
        self.talks = {client: client.talk(port, self.all_begun) for client in clients}
        self.waits = {}

    def run(self, seconds=EACH):
        """Runs them until each is done, or has taken so many seconds."""
        end = time.monotonic() + seconds
        with selectors.EpollSelector() as self.selector:
            for talker in list(self.talks):
                self.go_on(talker)
            self.ready += self.all_begun.open()
            while self.talks and time.monotonic() < end:
                self.turn(end)
            for item in list(self.talks):
                self.go_on(item, Late())

    def turn(self, end):
        """Lets each client go on that can."""
        if not self.ready:
            first = self.times[0][0] if self.times else end
            for key, _ in self.selector.select(max(0, min(first, end) - time.monotonic())):
                self.ready.append(key.data)
        now = time.monotonic()
        while self.times and self.times[0][0] <= now:
            self.ready.append(heapq.heappop(self.times)[2])
        for talker in self.take_ready():
            self.go_on(talker)

    def take_ready(self):
        ready, self.ready = self.ready, deque()
        return [item for item in ready if item in self.talks]

    def go_on(self, client, error=None):
        """Lets a client go on to what it waits for next."""
        talk, before = self.talks[client], self.waits.pop(client, None)
        if before in EVENTS:
            # (before the client may close it)
            self.selector.unregister(client.socket)
        try:
            wait = talk.throw(error) if error else next(talk)
        except StopIteration:
            del self.talks[client]
            self.ready += client.done.open()
            return
        self.waits[client] = wait
        if wait in EVENTS:
            self.selector.register(client.socket, EVENTS[wait], client)
        elif isinstance(wait, Gate):
            wait.waiting.append(client)
        else:
            heapq.heappush(self.times, (wait, next(self.number), client))


def talk(clients, port, seconds=EACH):
    """Has these clients talk at once, begun one after another in this order, until each is done."""
    Crowd(clients, port).run(seconds)
