"""What the benchmarks share: the program and a peer, the data, runs of the program, requests over loopback, and comparisons of both."""
import contextlib
import functools
import http.client
import importlib.machinery
import importlib.util
import os
import shutil
import statistics
import subprocess
import sys
import time
from collections import Counter, namedtuple

ROOT = os.path.dirname(os.path.dirname(os.path.realpath(__file__)))
sys.path[:0] = [f"{ROOT}/scripts", f"{ROOT}/tests"]
sys.dont_write_bytecode = True
from http_client import NTRIPLES, RESULTS, connect, pieces, post, read_all  # noqa: E402
from json_results import answer_of as answer_of_json  # noqa: E402
from program import asked  # noqa: E402
from server import command, free_port, listening_line  # noqa: E402

MB = 1_000_000
PAST_ALL = 100 * MB
"""An OFFSET past the end of every answer here: with it a query is evaluated, and no row is written."""

Cost = namedtuple("Cost", "clock busy memory")
"""What a run took: the seconds of the clock and of the processor, and the most bytes of memory."""
Reply = namedtuple("Reply", "head body first whole")
"""The reply of a request, with the milliseconds from connecting to its first byte and to its end."""


@functools.lru_cache(None)
def program_to_run():
    """Returns where the program stands that is measured: the one that ./quads runs, unless BENCH_PROGRAM names another."""
    return asked(ROOT, os.environ.get("BENCH_PROGRAM"))


def fetched(peer):
    """Returns where a peer stands, or None: what bench/fetch-peers fetched, else the one of the system."""
    found = f"{os.environ.get('PEERS', f'{ROOT}/.out/peers')}/{peer}/{peer}.sh"
    return found if os.access(found, os.X_OK) else shutil.which(peer)


def script(name):
    """Returns the module bench/NAME/run."""
    loader = importlib.machinery.SourceFileLoader(name, f"{ROOT}/bench/{name}/run")
    module = importlib.util.module_from_spec(importlib.util.spec_from_loader(name, loader))
    loader.exec_module(module)
    return module


# ---- data


def quads(subjects, graphs=0):
    """Yields ten statements a subject, the same for each call: in the default graph, or in so many named ones.

    p0 is a class, of 50; p1 and p2 another subject; p3 the next subject, in chains of 50; p4 another subject, and a second one where p5 is
    missing; p5 an integer, missing for three in ten; p6 an integer below 1,000; p7 the subject's number; p8 an integer below 1,000,000;
    p9 the number's last two digits.
    """
    x = 88172645463325252

    def below(bound):
        nonlocal x
        x ^= (x << 13) & 0xFFFFFFFFFFFFFFFF
        x ^= x >> 7
        x ^= (x << 17) & 0xFFFFFFFFFFFFFFFF
        return (x >> 11) % bound

    def subject(number):
        return f"<http://ex/s{number}>"

    def integer(number):
        return f'"{number}"^^<http://www.w3.org/2001/XMLSchema#integer>'

    for n in range(subjects):
        graph = f" <http://ex/g{n % graphs}>" if graphs else ""
        made = [(0, f"<http://ex/c{n % 50}>"), (1, subject(below(subjects))), (2, subject(below(subjects)))]
        made.append((3, subject(n + 1) if n % 50 != 49 and n + 1 < subjects else "<http://ex/end>"))
        other = below(subjects)
        made.append((4, subject(other)))
        made.append((4, subject((other + 1) % subjects)) if below(10) < 3 else (5, integer(below(1000))))
        made += [(6, integer(below(1000))), (7, integer(n)), (8, integer(below(1_000_000))), (9, integer(n % 100))]
        yield "".join(f"{subject(n)} <http://ex/p{p}> {o}{graph} .\n" for p, o in made)


def put(path, parts):
    """Writes a file of these texts, and returns its path."""
    with open(path, "w", encoding="utf-8") as file:
        file.writelines(parts)
    return path


# ---- runs


def run(words, out=subprocess.DEVNULL):
    """Returns what a command costs, which must succeed."""
    begin = time.perf_counter()
    child = subprocess.Popen(words, stdin=subprocess.DEVNULL, stdout=out)
    _, status, used = os.wait4(child.pid, 0)
    child.returncode = os.waitstatus_to_exitcode(status)
    if child.returncode:
        sys.exit(f"{words[0]} ended with {child.returncode}")
    return Cost(time.perf_counter() - begin, used.ru_utime + used.ru_stime, 1024 * used.ru_maxrss)


# ---- requests


FIELDS = f"Accept: {RESULTS}, {NTRIPLES}", "Connection: close"
"""The header fields that ask both programs for the same forms, and for the end of the connection."""
TIMEOUT = 600
"""The seconds after which a client gives up."""


def query(text):
    return post("query", text, None, *FIELDS)


def update(text):
    return post("update", text, None, *FIELDS)


class Running:
    """A program that serves on loopback: `program` is it, and `port` where it listens. `ready` are the milliseconds until it did."""

    def __exit__(self, *_):
        self.program.kill()
        if self.program.stdout:
            self.program.stdout.close()
        self.program.wait()

    def ask(self, request):
        """Returns the reply of a request over a connection of its own. Its body is put together where it came in chunks."""
        parts, first, begin = [], 0, time.perf_counter()
        with connect(self.port, TIMEOUT) as connection:
            connection.sendall(request)
            for piece in pieces(connection, 1 << 20):
                first = first or 1000 * (time.perf_counter() - begin)
                parts.append(piece)
        whole = 1000 * (time.perf_counter() - begin)
        head, _, body = b"".join(parts).partition(b"\r\n\r\n")
        head = head.decode()
        return Reply(head, joined(body) if "transfer-encoding: chunked" in head.lower() else body, first, whole)

    def dump(self):
        """Returns how many quads the program holds, and a sum over them that doesn't depend on their order."""
        connection = http.client.HTTPConnection("127.0.0.1", self.port, timeout=TIMEOUT)
        connection.request("GET", self.DUMP, headers={"Accept": "application/n-quads"})
        reply, count, total, rest = connection.getresponse(), 0, 0, b""
        if reply.status != 200:
            sys.exit(f"{self.NAME} doesn't tell its quads: {reply.status}")
        while piece := reply.read(1 << 20):
            *lines, rest = (rest + piece).split(b"\n")
            count, total = count + len(lines), (total + sum(map(hash, lines))) % (1 << 64)
        connection.close()
        return count, total

    def status(self, name):
        """Returns a number of bytes that the system tells of the program."""
        with open(f"/proc/{self.program.pid}/status", encoding="utf-8") as file:
            return 1024 * next(int(line.split()[1]) for line in file if line.startswith(name))

    def memory(self):
        """Returns the most bytes of memory that the program has held."""
        return self.status("VmHWM")

    def resident(self):
        """Returns the bytes of memory that the program holds."""
        return self.status("VmRSS")

    def busy(self):
        """Returns the seconds of processor time that the program has taken, of all its threads, once they all wait."""
        # (the time of a thread that runs isn't counted yet)
        for _ in range(10_000):
            if all(self.waits(item) for item in os.listdir(f"/proc/{self.program.pid}/task")):
                break
            time.sleep(0.0001)
        # (the clock of a process by its number, as clock_getcpuclockid(3) makes it)
        return time.clock_gettime(~self.program.pid << 3 | 2)

    def waits(self, thread):
        """Returns whether a thread waits, or is gone."""
        try:
            with open(f"/proc/{self.program.pid}/task/{thread}/stat", encoding="utf-8") as file:
                return file.read().rpartition(") ")[2][0] not in "RD"
        except OSError:
            return True


def joined(body):
    """Returns what the chunks of a body hold."""
    parts, at = [], 0
    while True:
        end = body.index(b"\r\n", at)
        size = int(body[at:end].partition(b";")[0], 16)
        if not size:
            return b"".join(parts)
        parts.append(body[end + 2 : end + 2 + size])
        at = end + 2 + size + 2


class Server(Running):
    """The program as it serves a file, until the block ends."""

    NAME, DUMP = "Vinnakush", "/data"

    def __init__(self, file):
        self.file = file

    def __enter__(self):
        self.port = free_port()
        begin = time.perf_counter()
        # (it ends by itself once it has served so many)
        words = command(program_to_run(), self.port, self.file, ["--requests", 4294967295])
        self.program = subprocess.Popen(words, stdin=subprocess.DEVNULL, stdout=subprocess.PIPE)
        said = self.program.stdout.readline()
        self.ready = 1000 * (time.perf_counter() - begin)
        if said.decode() != listening_line(self.port):
            self.__exit__()
            sys.exit(f"the program doesn't listen: {said.decode().strip()}")
        return self


class Oxigraph(Running):
    """Oxigraph with the quads of a file in memory, until the block ends."""

    NAME, DUMP = "Oxigraph", "/store"

    def __init__(self, file):
        self.file = file

    @staticmethod
    def path():
        """Returns where Oxigraph stands, or None: what bench/fetch-peers fetched, else the one of the system."""
        return fetched("oxigraph")

    def __enter__(self):
        self.port = free_port()
        words = [self.path(), "serve", "--bind", f"127.0.0.1:{self.port}"]
        begin = time.perf_counter()
        self.program = subprocess.Popen(words, stdin=subprocess.DEVNULL, stdout=subprocess.DEVNULL, stderr=subprocess.DEVNULL)
        try:
            self.wait_until_ready(begin + 120)
            self.put()
        except BaseException:
            self.__exit__()
            raise
        self.ready = 1000 * (time.perf_counter() - begin)
        return self

    def wait_until_ready(self, end):
        while True:
            try:
                return connect(self.port, 1).close()
            except OSError:
                if self.program.poll() is not None or time.perf_counter() > end:
                    sys.exit("Oxigraph doesn't listen")
                time.sleep(0.01)

    def put(self):
        """Puts the quads of the file into the store, without a transaction, which takes Oxigraph less time and memory."""
        head = "POST /store?no_transaction HTTP/1.1\r\nHost: e\r\nContent-Type: application/n-quads\r\nConnection: close\r\n"
        with open(self.file, "rb") as data, connect(self.port, TIMEOUT) as connection:
            connection.sendall(f"{head}Content-Length: {os.path.getsize(self.file)}\r\n\r\n".encode())
            connection.sendfile(data)
            found = read_all(connection)
        if not found.startswith(b"HTTP/1.1 20"):
            sys.exit(f"Oxigraph doesn't take the data: {found[:200]!r}")


def kinds():
    """Returns the servers that are measured: the program, and Oxigraph where it is here."""
    return [Server] + [Oxigraph] * (Oxigraph.path() is not None)


@contextlib.contextmanager
def serving(file):
    """Yields the servers, each over the quads of a file."""
    with contextlib.ExitStack() as held:
        yield [held.enter_context(kind(file)) for kind in kinds()]


# ---- comparisons


Line = namedtuple("Line", "name text kind", defaults=("bag",))
"""A query and its name. The answers must agree as bags, or in their order too where the kind is "list". Of the kind "some" are those whose slice
may take any solutions: then both answers have as many, and each has solutions of the other's whole answer alone."""
Figure = namedtuple("Figure", "name rows differs least")
"""Of a line how many solutions it has (or the line of its refusal), what differs (or ""), and the least milliseconds of each server (None where
it refused)."""
TOO_MANY = "500 F8 too many rows"
LONGEST = 60
"""A line isn't asked again once it has taken so many seconds."""


def answer_of(reply):
    """Returns what a reply says: the solutions of a SELECT, the truth of an ASK, or the triples of a CONSTRUCT, each as a list."""
    if RESULTS not in reply.head:
        return sorted({*reply.body.decode().splitlines()})
    answer = answer_of_json(reply.body)
    return [answer] if isinstance(answer, bool) else [solution_of(item) for item in answer]


def solution_of(row):
    """Returns a solution: the bound variables with their terms."""
    # (a server may leave xsd:string out)
    string = "http://www.w3.org/2001/XMLSchema#string"
    datatypes = {name: value.get("datatype", string) if value["type"] == "literal" else "" for name, value in row.items()}
    return frozenset((name, value["type"], value["value"], datatypes[name], value.get("xml:lang", "")) for name, value in row.items())


def fault_of(reply):
    """Returns the status and the line of a refusal, or "" where the request was answered."""
    status = reply.head.partition(" ")[2][:3]
    return "" if status in ("200", "204") else f"{status} {reply.body[:60].decode(errors='replace').strip()}"


def written(cell):
    """Returns a term as a query writes it."""
    _, kind, value, datatype, tag = cell
    if kind == "uri":
        return f"<{value}>"
    text = '"' + value.replace("\\", "\\\\").replace('"', '\\"').replace("\n", "\\n").replace("\r", "\\r") + '"'
    return f"{text}@{tag}" if tag else f"{text}^^<{datatype}>"


def has(server, text, solutions):
    """Returns whether a server finds these solutions of a query whose slice is left out. None of them has a blank node."""
    names = sorted({cell[0] for solution in solutions for cell in solution})
    cells = [{cell[0]: written(cell) for cell in solution} for solution in solutions]
    rows = " ".join(f"({' '.join(row.get(name, 'UNDEF') for name in names)})" for row in cells)
    whole = text.partition(" LIMIT ")[0].partition(" OFFSET ")[0]
    reply = server.ask(query(f"{whole} VALUES ({' '.join(f'?{name}' for name in names)}) {{ {rows} }}"))
    return not fault_of(reply) and not Counter(solutions) - Counter(answer_of(reply))


def difference(line, servers, replies):
    """Returns how many solutions an answer has, and what the answers of two servers differ in."""
    answers = [answer_of(reply) for reply in replies]
    first, last = answers[0], answers[-1]
    rows = str(first[0]).lower() if first in ([True], [False]) else len(first)
    if len(first) != len(last):
        return rows, f"{len(first)} and {len(last)} solutions"
    if line.kind == "some":
        same = all(has(server, line.text, answer) for server, answer in zip(servers, reversed(answers)))
    else:
        same = first == last if line.kind == "list" else Counter(first) == Counter(last)
    return rows, "" if same else "other solutions"


def by_clock(server, request):
    """Returns a reply, and the milliseconds from connecting to its end."""
    reply = server.ask(request)
    return reply, reply.whole


def by_processor(server, request):
    """Returns a reply, and the milliseconds of processor time that the server takes for it."""
    before = server.busy()
    reply = server.ask(request)
    return reply, 1000 * (server.busy() - before)


def turns_of(servers, requests, runs, timed=by_clock, among=None):
    """Returns of each request the first reply of each server, and of each turn the milliseconds of each request by each server. There are so many
    turns: ten times as many where one of the requests, or one of the first `among`, takes less than a millisecond."""
    replies, turns, least, end = [], [], [], time.perf_counter() + LONGEST
    for at in range(10 * runs):
        if at and (time.perf_counter() > end or at >= runs and min(map(min, least[:among])) >= 1):
            break
        new = [[timed(server, request) for server in servers] for request in requests]
        replies = replies or [[reply for reply, _ in each] for each in new]
        turns.append([[taken for _, taken in each] for each in new])
        least = [[*map(min, *each)] for each in zip(least, turns[-1])] if at else turns[-1]
    return replies, turns


def least_of(servers, requests, *how):
    """Returns of each request the first reply of each server, and the least milliseconds. How they are taken turns_of() says."""
    replies, turns = turns_of(servers, requests, *how)
    return [*zip(replies, least_times(turns))]


def least_times(turns):
    """Returns of each request the least milliseconds of each server."""
    return [[min(times) for times in zip(*each)] for each in zip(*turns)]


def compared(lines, servers, *how):
    """Yields the figure of each line. How times are taken turns_of() says."""
    for line in lines:
        [found] = least_of(servers, [query(line.text)], *how)
        yield figure_of(line, servers, *found)


def compared_less(lines, servers, *how):
    """Yields the figure of each line, and by how many milliseconds each server takes longer than for `ASK {}`. This is asked in each turn too, as
    a machine is faster at times; the median of the differences counts."""
    for line in lines:
        replies, turns = turns_of(servers, [query(line.text), query("ASK {}")], *how, among=1)
        less = [statistics.median(whole[at] - nothing[at] for whole, nothing in turns) for at in range(len(servers))]
        yield figure_of(line, servers, replies[0], least_times(turns)[0]), less


def figure_of(line, servers, replies, least):
    faults = [fault_of(reply) for reply in replies]
    least = [None if fault else item for fault, item in zip(faults, least)]
    return Figure(line.name, *(refusal(faults) if any(faults) else difference(line, servers, replies)), least)


def refusal(faults):
    """Returns the refusal, and that it is a difference; but for that of too many rows, which is a limit that is documented."""
    said = "; ".join(filter(None, faults))
    return said, "" if {*faults} <= {"", TOO_MANY} else said


def told(figure):
    """Returns a line for a reader: the name, how many solutions there are, and the least times, with the ratio of the peer's to the program's."""
    shown = [f"{duration:.2f}" if duration is not None else "-" for duration in figure.least]
    if len(shown) > 1 and None not in figure.least:
        shown.append(f"{figure.least[1] / figure.least[0]:.2f}")
    return f"{figure.name}: {figure.rows}: {', '.join(shown)}{figure.differs and ', differs: ' + figure.differs}"
