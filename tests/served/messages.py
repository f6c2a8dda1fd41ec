"""Random connections: sound requests, and requests that are refused or none, each with what is due.

What makes a connection of a sound request is given a call that makes one: what it is called, the request, and what it means. `sound` is one,
for texts of few forms; those of all forms are in `forms.py`."""
import functools

from answers import blanks
from connection import Connection
from crowd import Read
from due import NOTHING, REFUSED, Exactly, Lawful, Line, Meaning, Statements, carried, deleted, inserted
from http_client import DUMP, FORM, NQUADS, fault, fixed, post, reply
from texts import FAULTS, Spelling, ask, by_graph, random_bytes, random_quads, random_query, random_update
from trees import Term, iri, lines_of

FIELDS = ["Accept: */*", "User-Agent: storm/1.0 (é)", "X-Empty:", "Content-Language: en", "Accept-Encoding: gzip, deflate", "Cookie: query=ASK%7B%7D"]


def escaped(rng, text):
    """Returns a form's value that stands for these bytes."""
    often = rng.choice((0, 0.3, 1))
    return "".join(
        chr(byte)
        if chr(byte).isascii() and (chr(byte).isalnum() or chr(byte) in "*-._") and rng.random() >= often
        else "+"
        if byte == 32 and rng.random() < 0.5
        else f"%{byte:{rng.choice(('02X', '02x'))}}"
        for byte in text
    )


def random_form(rng, name, text):
    """Returns a form with one pair of that name, and perhaps others that mean nothing."""
    pairs = [f"{name}={escaped(rng, text)}", *rng.sample(("x=1", "queries=2", "=", "", "query-=", "timeout=%ff"), rng.randint(0, 2))]
    rng.shuffle(pairs)
    return "&".join(pairs)


class Request:
    """A request in parts, which can be spoilt before it is written."""

    def __init__(self, rng, resource, text):
        """It is a sound one: a GET, or a POST of a form or of the text itself."""
        self.rng, self.version, self.fields, self.body = rng, "HTTP/1.1", rng.sample(FIELDS, rng.randint(0, 3)), b""
        text = text.encode() if isinstance(text, str) else text
        self.method, self.target, form = "GET", f"/{resource}", random_form(rng, resource, text)
        if resource == "query" and len(form) < 14000 and rng.random() < 0.4:
            self.target += "?" + form
            return
        self.method = "POST"
        self.target += rng.choice(("", "", "?", "?x=1"))
        media, self.body = (FORM, form.encode()) if rng.random() < 0.4 else (f"application/sparql-{resource}", text)
        self.put("Content-Type", rng.choice((media, media.title(), f" {media} ; charset=utf-8")))
        self.put("Content-Length", rng.choice(("", "", "000")) + str(len(self.body)))

    def put(self, name, value):
        self.fields.append(f"{self.rng.choice((name, name.lower(), name.upper()))}:{self.rng.choice((' ', '', '  '))}{value}")

    def without(self, name):
        self.fields = [field for field in self.fields if not field.lower().startswith(name.lower() + ":")]
        return self

    def head(self):
        """Returns the head, with its Host unless there is one."""
        fields = [*self.fields]
        if self.version == "HTTP/1.1" and not any(field.lower().startswith("host:") for field in fields):
            fields.append(self.rng.choice(("Host: e", "host: 127.0.0.1", "HOST:")))
        self.rng.shuffle(fields)
        end = self.rng.choice(("\r\n", "\r\n", "\n"))
        return (self.rng.choice(("", "", "", "\r\n", "\n\n")) + end.join([f"{self.method} {self.target} {self.version}", *fields, "", ""])).encode()

    def written(self):
        return self.head() + self.body


def sound(rng):
    """Returns what a sound request is called, the request, and what it means."""
    if rng.random() < 0.45:
        text, meaning = random_update(rng)
        return "an update", Request(rng, "update", text), meaning
    text, meaning = random_query(rng)
    return "a query", Request(rng, "query", text), meaning


@functools.lru_cache(32)
def dumped(quads):
    """Returns the reply that is the whole dataset."""
    return Statements(NQUADS, [quads]) if blanks(quads) else Exactly(reply(200, NQUADS, lines_of(quads)))


def dump():
    return Connection("the dataset", DUMP, Meaning(lambda quads: (dumped(quads), quads), has_fronts=True))


def answered(rng, sound):
    """A sound request, perhaps with more bytes after it, which nobody reads. Some read the reply slowly."""
    kind, request, meaning = sound(rng)
    if rng.random() < 0.1:
        request.version = "HTTP/1.0"
    more, whole = rng.choice((b"", b"", b"", b"\r\n", b"GET /data HTTP/1.1\r\n", random_bytes(rng, 300))), request.written()
    connection = Connection(kind, whole + more, meaning, rng.choice(("stay", "stay", "half")), len(whole))
    if rng.random() < 0.1:
        connection.read, connection.receive = Read(step=rng.choice((1, 7, 500)), rate=rng.choice((None, 20_000))), rng.choice((None, 4096))
    return connection


def small(rng, is_update):
    """An update of a single quad, or an ASK for it."""
    subject, text = rng.choice("abc"), rng.choice("xy")
    triple = iri(subject), iri("q"), Term("literal", text)
    quads, words = frozenset({(None, *triple)}), f'<http://e/{subject}> <http://e/q> "{text}"'
    if not is_update:
        return Connection("a small query", Request(rng, "query", f"ASK {{ {words} }}").written(), Meaning(ask([(None, [triple])]), has_fronts=True))
    word = rng.choice(("INSERT", "DELETE"))
    operation = (inserted if word == "INSERT" else deleted)(quads)
    meaning = Meaning(lambda value: (Exactly(reply(204)), carried([operation], value)), writes=True, has_fronts=True)
    return Connection("a small update", Request(rng, "update", f"{word} DATA {{ {words} }}").written(), meaning)


def left(rng, sound):
    """A sound request whose client closes or resets the connection once it is sent, and reads no reply."""
    kind, request, meaning = sound(rng)
    return Connection(f"{kind} that nobody waits for", request.written(), meaning, rng.choice(("close", "reset")))


def left_within(rng, sound):
    """A sound request whose client leaves within the reply, or when the reply was there for a while."""
    kind, request, meaning = sound(rng)
    connection = Connection(f"{kind} whose client leaves", request.written(), meaning, "front" if meaning.has_fronts and rng.random() < 0.6 else "deaf")
    connection.most, connection.leaves = rng.choice((1, 12, 40, 60)), rng.choice(("close", "reset"))
    return connection if connection.how == "front" else connection.hold(len(connection.sent), ("wait", rng.choice((0.01, 0.1))))


def silent(rng, sound):
    """A client that sends nothing for a while, and then leaves, or makes a sound request."""
    pause = ("wait", rng.choice((0.01, 0.04, 0.1, 0.2)))
    if rng.random() < 0.5:
        return answered(rng, sound).hold(0, pause)
    connection = Connection("silence", b"", Meaning(NOTHING), "silent").hold(0, pause)
    connection.leaves = rng.choice(("close", "reset"))
    return connection


def unfinished(rng, sound):
    """A sound request that lacks its end; it has no reply, and changes nothing."""
    kind, request, _ = sound(rng)
    whole = request.written()
    end = rng.choice((rng.randrange(len(whole)), len(whole) - 1))
    return Connection(f"{kind} without its end", whole[:end], Meaning(NOTHING), rng.choice(("half", "half", "close", "reset")))


def faulty(rng):
    """A request with a text that has a fault."""
    resource, text, line = rng.choice(FAULTS)
    return Connection("a faulty text", Request(rng, resource, text).written(), Meaning(Exactly(fault(line))))


def cut_text(rng):
    """An update that is cut within the braces of its only operation: its text, or by a length that is too short."""
    spelling, quads = Spelling(rng), random_quads(rng, 5)
    spelling.gaps = (" ",)
    text = spelling.text([*spelling.prologue(), "INSERT", "DATA", "{", *spelling.blocks(by_graph(quads)), "}"]).rstrip().encode()
    end = rng.randrange(text.index(b"{") + 1, len(text))
    is_text = text[:end].decode(errors="ignore").encode() == text[:end]
    request = Request(rng, "update", text[:end])
    sent = request.written()
    if request.body == text[:end]:
        # (the bytes after the length are no part of the request)
        sent += rng.choice((b"", text[end:]))
    elif not is_text:
        # (a form's value that isn't UTF-8 is read with U+FFFD in its place)
        is_text = True
    return Connection("an update cut within its braces", sent, Meaning(Line(r"F1 syntax at \d+") if is_text else Exactly(fixed(400))))


def noise(rng):
    """A body of noise: bytes that aren't UTF-8, a form without the pair, or characters that are no text of SPARQL."""
    resource, kind = rng.choice(("query", "update")), rng.choice(("bytes", "form", "characters"))
    request = Request(rng, resource, "").without("Content-Type").without("Content-Length")
    request.method, request.target, due = "POST", f"/{resource}", Exactly(fixed(400))
    media = f"application/sparql-{resource}"
    if kind == "characters":
        request.body, due = ")" + "".join(rng.choices("{}()[]<>\"'\\.,;?$^&|!=*/+-_:@#% \n\tabe109é源\x00\x7f", k=rng.randint(0, 300))), Line(r"F1 syntax at \d+|F4 left out: \S+|F6 too large at \d+")
        request.body = request.body.encode()
    else:
        request.body = random_bytes(rng, rng.choice((1, 50, 5000))) + b"\xff"
        media = FORM if kind == "form" else media
    request.put("Content-Type", media)
    request.put("Content-Length", str(len(request.body)))
    return Connection(f"noise for {kind}", request.written(), Meaning(due))


def changed(rng, text):
    """Returns the bytes with some of them put in, taken away or replaced."""
    text = bytearray(text)
    for _ in range(rng.choice((1, 1, 2, 4))):
        at = rng.randrange(len(text) + 1)
        text[at : at + rng.choice((0, 1, 1, 3))] = rng.choice((b"", random_bytes(rng, 1), rng.choice(b"{}()[]<>\"'\\.,;?*/+-| \n").to_bytes(1, "big")))
    return bytes(text)


def changed_query(rng):
    """A query some of whose bytes are others: whatever it is now, it changes nothing, and has some reply of a query."""
    text, _ = random_query(rng)
    text = changed(rng, text.encode())
    request = Request(rng, "query", text)
    is_text = text.decode(errors="ignore").encode() == text
    due = Exactly(fixed(400)) if not is_text and request.body == text else Lawful()
    return Connection("a changed query", request.written(), Meaning(due))


def changed_head(rng):
    """A GET some of whose bytes are others, which may have lost its end: no such bytes are an update."""
    request = Request(rng, "query", random_query(rng)[0])
    request.method, request.target = "GET", request.target if "?" in request.target else "/query?query=ASK%7B%7D"
    sent = changed(rng, request.without("Content-Length").head())
    return Connection("a changed head", sent, Meaning(Lawful({b"", *REFUSED})), "half")


def refused_request(rng, sound):
    """A sound request with one part that is refused, by the first of the checks that it doesn't pass."""
    kind, request, _ = sound(rng)
    resource = "update" if kind.startswith("an update") else "query"
    is_post = request.method == "POST"
    allow = "POST" if resource == "update" else "GET, POST"

    def elsewhere():
        request.target = rng.choice(("/", "/quer", "/query/", "/Query", "//query", "*", "/data/?query=ASK%7B%7D", "http://e/query"))
        return fixed(404)

    def method():
        if rng.random() < 0.3:
            request.target = "/data"
            request.method = rng.choice(("POST", "HEAD", "DELETE", "get"))
            return fixed(405, "GET")
        request.method = rng.choice(("PUT", "HEAD", "DELETE", "PATCH", "OPTIONS", "post", "get", "TRACE", "X") + (("GET",) if resource == "update" else ()))
        return fixed(405, allow)

    def no_host():
        request.fields += ["Host: e"] * 2
        return fixed(400)

    def no_length():
        if rng.random() < 0.5:
            request.put("Transfer-Encoding", "chunked")
        else:
            request.without("Content-Length")
        return fixed(411)

    def bad_length():
        length = len(request.body)
        if rng.random() < 0.3:
            request.put("Content-Length", str(length))
            return fixed(400)
        request.without("Content-Length").put("Content-Length", rng.choice(("", f"+{length}", "-1", f"{length}.0", f"0x{length:x}", f"{length},{length}", f"{length} {length}", "²")))
        return fixed(400)

    def long_body():
        request.without("Content-Length").put("Content-Length", rng.choice(("4194305", "0004194305", "99999999999999999999", "18446744073709551616", "9" * 400)))
        return fixed(413)

    def other_media():
        if rng.random() < 0.3:
            request.put("Content-Type", FORM)
        else:
            other = "application/sparql-" + ("query" if resource == "update" else "update")
            request.without("Content-Type")
            if rng.random() < 0.8:
                request.put("Content-Type", rng.choice((other, "text/plain", "", ";", "application/sparql", f"x{FORM}", f"{FORM} x")))
        return fixed(415)

    def many_fields():
        request.fields += [f"X-{number}: {number}" for number in range(64)]
        return fixed(400)

    def long_head():
        request.fields.append("X: " + "a" * rng.choice((16384, 20000, 40000)))
        return fixed(431)

    ways = [elsewhere, method, no_host, many_fields, long_head] + [no_length, bad_length, long_body, other_media] * is_post
    way = rng.choice(ways)
    due = way()
    return Connection(f"{kind}, refused for {way.__name__.replace('_', ' ')}", request.written(), Meaning(Exactly(due)))


def refused_parameters(rng):
    """A request whose parameters choose graphs, or hold no text, or two."""
    resource = rng.choice(("query", "update"))
    text = "ASK {}" if resource == "query" else "CLEAR ALL"
    graph = rng.choice(("default-graph-uri", "named-graph-uri", "using-graph-uri", "using-named-graph-uri", "default%2Dgraph%2duri"))
    pairs = [f"{resource}={escaped(rng, text.encode())}"]
    pairs = rng.choice(([*pairs, f"{graph}=http%3A%2F%2Fe%2Fg"], [*pairs, graph], [*pairs, *pairs], [*pairs, resource], [], ["x=1"], [f"{resource.upper()}=CLEAR+ALL"]))
    rng.shuffle(pairs)
    request = Request(rng, resource, text).without("Content-Type").without("Content-Length")
    request.method, request.body = "POST", "&".join(pairs).encode()
    if resource == "query" and rng.random() < 0.5:
        request.method, request.target, request.body = "GET", "/query?" + "&".join(pairs), b""
    else:
        request.put("Content-Type", FORM)
        request.put("Content-Length", str(len(request.body)))
    return Connection("parameters that are refused", request.written(), Meaning(Exactly(fixed(400))))


HEADS = [
    b"GET\r\n\r\n",
    b"GET /query\r\n\r\n",
    b"GET /data HTTP/2.0\r\nHost: e\r\n\r\n",
    b"GET /data HTTP/1.1 x\r\nHost: e\r\n\r\n",
    b"GET /data HTTP/1.1\r\nHost e\r\n\r\n",
    b"GET /data HTTP/1.1\r\nHost : e\r\n\r\n",
    b"GET /data HTTP/1.1\r\n: e\r\n\r\n",
    b"GET /data HTTP/1.1\r\nHost: e\r\n x: y\r\n\r\n",
    b"GET /data HTTP/1.1\r\nHost: \x00\r\n\r\n",
    b"GET /da\x00ta HTTP/1.1\r\nHost: e\r\n\r\n",
    b"G\xc3\x89T /data HTTP/1.1\r\nHost: e\r\n\r\n",
    b"GET /data HTTP/1.1\r\nH\xc3\xb6st: e\r\n\r\n",
    b"GET /data HTTP/1.1\r\n\r\n",
    b" GET /data HTTP/1.1\r\nHost: e\r\n\r\n",
    b"SELECT * { ?s ?p ?o }\r\n\r\n",
]
"""Heads that are none (RFC 9112, 2 to 5), and one of HTTP/1.1 without a Host."""


def no_head(rng):
    """Bytes that are no head; or too many before its end; or too few."""
    kind, due, how = rng.choice(("grammar", "noise", "noise without an end", "nothing")), fixed(400), "stay"
    sent = rng.choice(HEADS)
    if kind == "noise":
        sent = b"\x01" + random_bytes(rng, rng.choice((10, 1000, 10000))) + b"\r\n\r\n"
    if kind == "noise without an end":
        sent = b"\x01" + random_bytes(rng, 20000).replace(b"\n", b"n")
        due = fixed(431)
    if kind == "nothing":
        sent, due, how = rng.choice((b"", b"\r\n\r\n\r\n", b"\n" * 100, b"GET")), b"", rng.choice(("half", "close", "reset"))
    return Connection(f"no head: {kind}", sent, Meaning(Exactly(due)), how)


def longest(rng):
    """An update whose body has the greatest length that there is: what stands after its operations is a comment."""
    text, meaning = random_update(rng)
    body = text.encode() + b"#"
    body += b"a" * (4194304 - len(body))
    return Connection("an update of 4,194,304 bytes", post("update", body), meaning)


KINDS = [
    (answered, 44),
    (unfinished, 9),
    (left, 5),
    (left_within, 6),
    (silent, 5),
    (refused_request, 10),
    (faulty, 4),
    (cut_text, 3),
    (noise, 4),
    (changed_query, 5),
    (changed_head, 4),
    (refused_parameters, 3),
    (no_head, 4),
]
"""What makes connections, and how often: the first of a sound request, by a call that makes one."""
SOUND = {answered, unfinished, left, left_within, silent, refused_request}


def random_connection(rng, sound=sound):
    make = rng.choices(*zip(*KINDS))[0]
    return make(rng, sound) if make in SOUND else make(rng)
