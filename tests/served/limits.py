"""Rounds with few places and short times: which connections the program drops and when, and which it doesn't.

Each round has a program of its own and a few clients, whose times are compared with what is promised. A busy machine only makes things later,
so the bounds above are wide: a second in which the program may look at its connections, and SLACK.
"""
import multiprocessing
import os
import re
import resource
import signal
import socket
import subprocess

from answers import Wrong
from crowd import EACH, Client, Read, talk
from due import Exactly
from http_client import DUMP, RESULTS, get_query, reply
from json_results import boolean_text
from messages import dumped
from server import ServerError, command, refusal_line, serving
from trees import Term, iri, lines_of

SLACK, TICK = 3, 1
PATIENCE = 1
"""How many times as long a client may wait as on a machine that isn't slow. `be_patient` sets it."""
ASK = get_query("ASK{}")
TRUE = Exactly(reply(200, RESULTS, boolean_text(True)))
SMALL = frozenset({(None, iri("a"), iri("p"), iri("b"))})
LARGE = frozenset((iri("big"), iri(str(at)), iri("p"), Term("literal", f"{at:03}-" * 100_000)) for at in range(60))
"""Quads of 24 MB."""
CUT = len(ASK) - 1


def be_patient(times):
    global PATIENCE
    PATIENCE = times


def sound(**how):
    return Client([("send", ASK), ("read", Read())], **how)


def silent(**how):
    """Returns a client that sends nothing until it is dropped."""
    return Client([("read", Read())], **how)


def stalled(**how):
    """Returns a client that sends all but the last byte, and nothing more until it is dropped."""
    return Client([("send", ASK[:CUT]), ("read", Read())], **how)


def slow(pause, count):
    """Returns a client that sends so many bytes one by one, with these pauses, and then the rest."""
    acts = [act for at in range(count) for act in (("send", ASK[at : at + 1]), ("wait", pause))]
    return Client([*acts, ("send", ASK[count:]), ("read", Read())])


def took(client):
    return client.ended - client.begun


def check(truth, what):
    if not truth:
        raise Wrong(what)


def check_answered(client, most=EACH, due=TRUE):
    check(client.end == "end", f"a reply is due, and the connection is {client.end} after {took(client):.2f} s and {len(client.found)} bytes")
    due.check(bytes(client.found))
    check(took(client) <= most * PATIENCE, f"the reply took {took(client):.2f} s, and {most * PATIENCE} are allowed")


def check_dropped(client, least, most):
    """Checks that a client was dropped so many seconds after it connected."""
    is_dropped = client.end in ("end", "broken") and not client.found
    check(is_dropped, f"it is due to be dropped, but it is {client.end}, and is answered {bytes(client.found[:60])!r}")
    check(least <= took(client) <= most * PATIENCE, f"it is dropped after {took(client):.2f} s, and {least} to {most * PATIENCE} are due")


# ---- the rounds: the words of the command line, the data, and what makes the clients and the checks of each


def times_round():
    """Limits of time. There are places for all."""
    idle, request = 1, 2
    # (of 24 MB, at 8 MB a second)
    last = idle + TICK + SLACK
    lively, endless = slow(0.075, 20), slow(0.2, 40)
    reader = Client([("send", DUMP), ("read", Read(rate=8_000_000))])
    deaf = Client([("send", DUMP), ("wait", last + 1), ("read", Read())], receive=4096)
    clients = [(silent(), "a silent one"), (stalled(), "one within its request")]
    checks = [(item, lambda value: check_dropped(value, 0.9 * idle, last), what) for item, what in clients]
    checks += [
        (lively, lambda value: check_answered(value), "a lively one that takes longer than --idle"),
        (endless, lambda value: check_dropped(value, 0.9 * request, request + TICK + SLACK + 0.2), "a lively one that takes longer than --request"),
        (reader, lambda value: check_slow_reader(value, request), "one that reads its reply for longer than --request"),
        (deaf, lambda value: check_cut(value), "one that doesn't read its reply"),
    ]
    checks += [(sound(delay=at / 4), lambda value: check_answered(value, 3), "a sound one") for at in range(16)]
    return ["--at-once", 24, "--idle", idle, "--request", request], LARGE, checks, 0


def check_slow_reader(client, request):
    check_answered(client, due=dumped(LARGE))
    check(took(client) > request, f"this shows nothing: it took {took(client):.2f} s")


def check_cut(client):
    whole = dumped(LARGE).due
    found = bytes(client.found)
    check(whole.startswith(found) and len(found) < len(whole), f"a front of its reply is due, and {len(found)} bytes of {len(whole)} came")


def silent_round():
    """Silent ones have all places, and nobody waits until a sound one comes."""
    wait, last = 0.6, sound(delay=0.6)
    checks = [(silent(), lambda value: check_dropped(value, 0.9 * wait, wait + 3), "a silent one") for _ in range(4)]
    return ["--at-once", 4], SMALL, [*checks, (last, lambda value: check_answered(value, 3), "a sound one that waits")], 4


def crowd_round():
    """Again and again many silent ones come before a sound one."""
    checks = []
    for at in range(4):
        last = sound(delay=at + 0.05)
        crowd = [Client([("after", last), ("look", None), ("close", None)], delay=at) for _ in range(50)]
        checks += [(item, lambda value: check(not value.found and value.end != "late", "a silent one is answered"), "a silent one") for item in crowd]
        checks.append((last, lambda value: check_answered(value, 3), "a sound one after 50 silent ones"))
    return ["--at-once", 4], SMALL, checks, None


def stalled_round():
    """All places are taken by those that stop within their requests."""
    checks = [(stalled(), lambda value: check_dropped(value, 1.8, 3.5), "one that stops within its request") for _ in range(4)]
    return ["--at-once", 4], SMALL, [*checks, (sound(delay=0.2), lambda value: check_answered(value, 3.3), "a sound one that waits")], 4


def mixed_round():
    """Silent ones are dropped before those that stopped a second ago."""
    late = [Client([("send", ASK[:CUT]), ("wait", 1.2), ("send", ASK[CUT:]), ("read", Read())]) for _ in range(2)]
    checks = [(item, lambda value: check_answered(value, 4), "one that goes on after 1.2 s") for item in late]
    checks += [(silent(), lambda value: check_dropped(value, 0.04, 3), "a silent one") for _ in range(2)]
    return ["--at-once", 4], SMALL, [*checks, (sound(delay=0.2), lambda value: check_answered(value, 3), "a sound one that waits")], 2


def lively_round():
    """All places are taken by slow ones that send a byte now and then, and somebody waits: none is dropped."""
    checks = [(slow(0.3, 10), lambda value: check_answered(value), "a slow one") for _ in range(4)]
    # (one that has its reply may be dropped before it has closed the connection)
    return ["--at-once", 4], SMALL, [*checks, (sound(delay=0.2), lambda value: check_answered(value), "a sound one that waits")], None


def writing_round():
    """All places are taken by those that don't read their replies for a while, and somebody waits: none is dropped."""
    deaf = lambda: Client([("send", DUMP), ("wait", 3), ("read", Read(step=1 << 20))], receive=4096)
    checks = [(deaf(), lambda value: check_answered(value, due=dumped(LARGE)), "one that reads its reply late") for _ in range(4)]
    return ["--at-once", 4], LARGE, [*checks, (sound(delay=0.2), lambda value: check_answered(value), "a sound one that waits")], None


def descriptors_round():
    """There are fewer descriptors than connections: those that wait are accepted as others end."""
    crowd = [Client([("send", ASK[:CUT]), ("all", None), ("wait", 0.1), ("send", ASK[CUT:]), ("read", Read())]) for _ in range(40)]
    # (one that has its reply may be dropped before it has closed the connection)
    return [], SMALL, [(item, lambda value: check_answered(value), "one of 40") for item in crowd], None


def silent_descriptors_round(count):
    """Silent ones have all descriptors, of which there are fewer than places, and many more of them come before a sound one."""
    last = sound(delay=0.1)
    crowd = [Client([("after", last), ("look", None), ("close", None)]) for _ in range(count)]
    checks = [(item, lambda value: check(not value.found and value.end != "late", "a silent one is answered"), "a silent one") for item in crowd]
    return [], SMALL, [*checks, (last, lambda value: check_answered(value, 3), f"a sound one after {count} silent ones")], None


ROUNDS = {
    "limits of time": times_round,
    "silent ones in all places": silent_round,
    "crowds of silent ones": crowd_round,
    "stalled ones in all places": stalled_round,
    "silent and stalled ones": mixed_round,
    "slow ones in all places": lively_round,
    "unread replies in all places": writing_round,
    "16 descriptors": descriptors_round,
    "silent ones that have 32 descriptors": lambda: silent_descriptors_round(80),
    "silent ones that have 8 descriptors": lambda: silent_descriptors_round(20),
}
DESCRIPTORS = {name: int(number) for name in ROUNDS for number in re.findall(r"([0-9]+) descriptors", name)}
"""How many descriptors the program of a round may have, where its name says so. Six aren't for connections."""


class Tried:
    """How a round went: how many checks it has, how many passed, and what is to be told."""

    def __init__(self, name):
        self.name, self.tried, self.passed, self.told = name, 1, 0, []

    def check(self, call, what):
        try:
            call()
            self.passed += 1
        except (Wrong, ServerError) as wrong:
            self.told.append(f"{self.name}: {what}: {wrong}")


def try_round(tally, made, program, room, seconds_left):
    """Tries a round: each of its connections and the program's end."""
    words, quads, checks, dropped = made()
    tally.tried += len(checks)
    put_data(room, quads)
    most = DESCRIPTORS.get(tally.name)
    how = {"preexec_fn": lambda: resource.setrlimit(resource.RLIMIT_NOFILE, (most, most))} if most else {}
    with serving(program, room, ["--requests", len(checks), *words], seconds_left(EACH), **how) as server:
        talk([client for client, _, _ in checks], server.port, seconds_left(EACH))
        for client, look, what in checks:
            tally.check(lambda: look(client), what)
        tally.check(lambda: server.check_end(seconds_left(EACH), dropped), "the program's end")


def put_data(room, quads):
    os.mkdir(room)
    with open(f"{room}/data.nq", "w", encoding="utf-8") as file:
        file.write(lines_of(quads))


def try_endless(tally, program, room, seconds_left):
    """Without a count the program serves until a signal ends it, which it doesn't catch."""
    put_data(room, SMALL)
    crowd, clients = [silent() for _ in range(4)], [sound(delay=0.1 + at / 20) for at in range(20)]
    tally.tried += len(clients)
    with serving(program, room, ["--at-once", 4], seconds_left(EACH)) as server:
        talk(crowd + clients, server.port, seconds_left(EACH))
        for client in clients:
            tally.check(lambda: check_answered(client), "a sound one")
        server.program.send_signal(signal.SIGTERM)
        tally.check(lambda: server.check_end(seconds_left(EACH), len(crowd), -signal.SIGTERM), "the program's end")


def try_taken(tally, program, room, seconds_left):
    """A port that another program has can't be listened on."""
    put_data(room, SMALL)
    with Taken() as port:
        words = command(program, port, f"{room}/data.nq", ["--requests", 1])
        ran = subprocess.run(words, stdin=subprocess.DEVNULL, capture_output=True, timeout=seconds_left(EACH))
    found = ran.returncode, ran.stdout.decode(errors="replace")
    tally.check(lambda: check(found == (1, refusal_line(port)), f"it ends so: {found}"), "the program's end")


class Taken:
    """A port that is listened on here."""

    def __enter__(self):
        self.socket = socket.socket()
        self.socket.bind(("127.0.0.1", 0))
        self.socket.listen()
        return self.socket.getsockname()[1]

    def __exit__(self, *_):
        self.socket.close()


def attempt(pipe, tally, call, room):
    """Tries a round in a process of its own, and sends how it went."""
    try:
        call(tally, room)
    except (ServerError, subprocess.TimeoutExpired) as wrong:
        tally.told.append(f"{tally.name}: {wrong}")
    pipe.send((tally.tried, tally.passed, tally.told))


def try_all(program, room, seconds_left, only=""):
    """Tries all rounds side by side whose names hold a text, and tells what is wrong. Returns how many checks passed, and how many there were."""
    calls = {name: (lambda value, room, made=made: try_round(value, made, program, room, seconds_left)) for name, made in ROUNDS.items()}
    calls["no count of connections"] = lambda value, room: try_endless(value, program, room, seconds_left)
    calls["a port that is taken"] = lambda value, room: try_taken(value, program, room, seconds_left)
    context, pipes, passed, tried = multiprocessing.get_context("fork"), {}, 0, 0
    for name, call in calls.items():
        if only in name:
            pipes[name], its = context.Pipe(False)
            context.Process(target=attempt, args=(its, Tried(name), call, f"{room}/{name}"), daemon=True).start()
    for name, pipe in pipes.items():
        result = pipe.recv() if pipe.poll(seconds_left(3 * EACH)) else (1, 0, [f"{name}: no end in time"])
        tried, passed = tried + result[0], passed + result[1]
        for line in result[2]:
            print(f"storm: FAILED: {line}", flush=True)
    return passed, tried
