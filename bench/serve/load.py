"""Loads of a server on loopback, each bounded in count and time. Each connection carries one request."""
import contextlib
import multiprocessing
import os
import select
import socket
import time
from concurrent.futures import ProcessPoolExecutor

from http_client import connect, exchange

TIMEOUT = 30
"""The seconds after which a client gives up."""


def times_of(port, requests, count, lengths):
    """Returns the seconds that so many requests take, one after another, each from connecting to the end of the reply, in ascending order.
    `lengths` are those of the replies that are due."""
    times = []
    for at in range(count):
        begin, request = time.perf_counter(), requests[at % len(requests)]
        found = exchange(port, request, TIMEOUT, 1 << 20)
        times.append(time.perf_counter() - begin)
        assert len(found) == lengths[request], found[:200]
    return sorted(times)


# ---- requests from many clients at once


def ask_again(port, requests, lengths, clients, begin, seconds, most):
    """Has so many clients ask again and again, from one thread. Returns how many replies came in the time, at most so many."""
    poll, open_ones, count, at = select.epoll(), {}, 0, 0
    time.sleep(max(0, begin - time.time()))
    end = time.perf_counter() + seconds

    def start(at):
        client, request = connect(port, TIMEOUT), requests[at % len(requests)]
        client.send(request)
        poll.register(client.fileno(), select.EPOLLIN)
        open_ones[client.fileno()] = [client, request, 0]

    for at in range(clients):
        start(at)
    while count < most and time.perf_counter() < end:
        for handle, _ in poll.poll(1):
            one = open_ones[handle]
            size = take(one[0])
            one[2] += abs(size)
            if size > 0:
                continue
            assert one[2] == lengths[one[1]], f"{one[2]} bytes came, and {lengths[one[1]]} are due"
            # (a closed socket leaves the poll by itself)
            one[0].close()
            del open_ones[handle]
            count, at = count + 1, at + 1
            start(at)
    for client, _, _ in open_ones.values():
        client.close()
    poll.close()
    return count


def take(client):
    """Reads what is there. Returns how many bytes that are: positive if more may come, else the number is negated."""
    size = 0
    try:
        while piece := client.recv(1 << 16, socket.MSG_DONTWAIT if size else 0):
            size += len(piece)
    except BlockingIOError:
        return size
    return -size


def rate(port, requests, lengths, clients, seconds, most=200_000):
    """Returns how many requests a second are answered to so many clients at once, of up to three processes."""
    parts = min(clients, 3, max(1, (os.cpu_count() or 1) - 1))
    shares = [clients // parts + (at < clients % parts) for at in range(parts)]
    with ProcessPoolExecutor(parts, multiprocessing.get_context("fork")) as pool:
        begin = time.time() + 0.3
        work = [pool.submit(ask_again, port, requests, lengths, share, begin, seconds, most // parts) for share in shares]
        return sum(job.result() for job in work) / seconds


# ---- clients that hold connections


@contextlib.contextmanager
def beside(call, *words):
    """Runs a load in a process of its own until the block ends. The load is told by a pipe when it is to stop, and tells when it is ready."""
    mine, its = multiprocessing.Pipe()
    process = multiprocessing.get_context("fork").Process(target=call, args=(its, *words), daemon=True)
    process.start()
    try:
        if not mine.poll(2 * TIMEOUT):
            raise TimeoutError("a load isn't ready in time")
        mine.recv()
        yield
    finally:
        with contextlib.suppress(OSError):
            mine.send(None)
        process.join(TIMEOUT)
        process.kill()


def send_slowly(pipe, port, clients):
    """Has so many clients send a byte a second, for 100 seconds at most."""
    rest = b"GET /query?query=ASK%7B%7D HTTP/1.1\r\nHost: e\r\nA: " + b"a" * 100
    held = [connect(port, TIMEOUT) for _ in range(clients)]
    for at in range(100):
        for client in held:
            client.send(rest[at : at + 1])
        if not at:
            pipe.send(None)
        if pipe.poll(1):
            break


def read_nothing(pipe, port, clients, request):
    """Has so many clients ask, and read nothing of the replies, for 100 seconds at most. It is ready once each reply has begun."""
    held = [connect(port, TIMEOUT, 4096) for _ in range(clients)]
    for client in held:
        client.sendall(request)
    for client in held:
        client.recv(1, socket.MSG_PEEK)
    pipe.send(None)
    pipe.poll(100)


def hold(pipe, port, clients, sent=b""):
    """Has so many clients send these bytes and then nothing, for 100 seconds at most."""
    held = [connect(port, TIMEOUT) for _ in range(clients)]
    for client in held:
        client.sendall(sent)
    pipe.send(None)
    pipe.poll(100)


def after_silence(port, request, length, silent):
    """Returns the seconds that a request takes, whose client connects after so many that send nothing."""
    held = []
    try:
        for _ in range(silent):
            client = socket.socket()
            client.setblocking(False)
            # (where the queue is full the connection isn't made at once)
            client.connect_ex(("127.0.0.1", port))
            held.append(client)
        begin = time.perf_counter()
        found = exchange(port, request, TIMEOUT, 1 << 20)
        assert len(found) == length, found[:200]
        return time.perf_counter() - begin
    finally:
        for client in held:
            client.close()
