"""The program as a server on loopback: how it is started, what it says, and how it ends."""
import contextlib
import random
import re
import socket
import subprocess
import threading
import time
from collections import namedtuple


class ServerError(Exception):
    """The server doesn't listen, or doesn't end as it is due."""


def free_port():
    """Returns a port that nobody listens on. It is below those that the system gives to clients, of which one may be taken at any time."""
    for _ in range(1000):
        with socket.socket() as listener, contextlib.suppress(OSError):
            listener.bind(("127.0.0.1", random.SystemRandom().randrange(10_000, 32_000)))
            return listener.getsockname()[1]
    raise ServerError("no port is free")


def command(program, port, data, words=()):
    """Returns the command that serves a file on a port, with these words of the command line besides."""
    return [program, "serve", "--port", str(port), "--data", data, *map(str, words)]


def listening_line(port):
    """Returns the line that a server prints once it listens."""
    return f"listening on 127.0.0.1:{port}\n"


def refusal_line(port):
    """Returns the line that a server prints where it can't listen."""
    return f"cannot listen on {port}\n"


def said(room, name):
    with open(f"{room}/{name}", encoding="utf-8", errors="replace") as file:
        return file.read()


class Server:
    """A running server, its port, and the folder that has what it is given and what it says."""

    def __init__(self, program, port, room):
        self.program, self.port, self.room = program, port, room

    def said(self):
        return (said(self.room, "out") + said(self.room, "err"))[:1000]

    def errors(self):
        """Returns the lines of standard error."""
        return said(self.room, "err").splitlines()

    def check_end(self, seconds, dropped=0, status=0):
        """Waits until it ends, by itself with status 0, or by a signal with the status that is named. If connections were dropped because
        the table was full, standard error has a line of the first, and where it ends by itself a last one with how many. For `dropped` None
        stands for any number.

        # Errors

        ServerError where it doesn't end so."""
        try:
            self.program.wait(seconds)
        except subprocess.TimeoutExpired:
            raise ServerError("it doesn't end") from None
        if self.program.returncode != status or said(self.room, "out").count("\n") != 1:
            raise ServerError(f"it ends with status {self.program.returncode} and says: {self.said()!r}")
        lines = self.errors()
        count = 1 if status else 2
        is_told = len(lines) == count and (status or not dropped or str(dropped) in re.findall(r"\d+", lines[-1]))
        if not (is_told if dropped else not lines or dropped is None and is_told):
            what = "as many as there were" if dropped is None else dropped
            raise ServerError(f"{what} connections were dropped because the table was full, and it says: {self.said()!r}")

    def wait_until_said(self, end):
        """Waits until it has said a line, has ended, or the time is up. Returns what it said."""
        while self.program.poll() is None and not said(self.room, "out").endswith("\n") and time.monotonic() < end:
            time.sleep(0.01)
        return said(self.room, "out")

    def stop(self):
        self.program.kill()
        # (a wait without a limit may never end where a signal has cut off an earlier one)
        with contextlib.suppress(subprocess.TimeoutExpired):
            self.program.wait(5)


def start(words, port, room, **how):
    """Starts a server by its command, and returns it. What it says goes into the files `out` and `err` of the folder."""
    with open(f"{room}/out", "wb") as out, open(f"{room}/err", "wb") as err:
        return Server(subprocess.Popen(words, stdin=subprocess.DEVNULL, stdout=out, stderr=err, **how), port, room)


@contextlib.contextmanager
def serving(program, room, words, seconds, **how):
    """Serves room/data.nq with these words of the command line besides, and gives the server once it says that it listens."""
    end = time.monotonic() + seconds
    for _ in range(3):
        # (a port that was free a moment ago)
        port = free_port()
        server = start(command(program, port, f"{room}/data.nq", words), port, room, **how)
        try:
            line = server.wait_until_said(end)
            # (another program may have taken the port meanwhile)
            if line == refusal_line(port):
                continue
            if line != listening_line(port):
                raise ServerError(f"nothing listens; the program says: {server.said()!r}")
            yield server
            return
        finally:
            server.stop()
    raise ServerError(f"nothing listens; the program says: {server.said()!r}")


class Session(namedtuple("Session", "status first rest errors replies")):
    """A server from its start to its end: its status, its first line and what it prints after it, what stands on standard error, and what its
    clients were answered, or None where it didn't listen."""


def session(words, port, clients, seconds, env):
    """Starts a server by its command, has clients talk once it listens (`clients(port)`), and waits for its end. It is killed after so many
    seconds."""
    how = {"env": env, "stdin": subprocess.DEVNULL, "stdout": subprocess.PIPE, "stderr": subprocess.PIPE}
    with subprocess.Popen(words, **how) as program:
        watch = threading.Timer(seconds, program.kill)
        watch.start()
        try:
            first = program.stdout.readline().decode()
            replies = clients(port) if first == listening_line(port) else None
            # (it writes little, so neither is ever full)
            rest, errors = program.stdout.read().decode(), program.stderr.read()
            program.wait(seconds)
        finally:
            watch.cancel()
            program.kill()
    return Session(program.returncode, first, rest, errors, replies)
