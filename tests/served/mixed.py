"""Mixed requests over quads whose answers are known: what the clients of the soak do, and what is due.

The base are quads that no update touches. Each client has subjects of its own, which no other one changes: so it knows what it has stored, and
the reply of each of its requests. All terms that are ever stored are those of the base, since a store keeps each term that it has known.
"""
import re
from collections import Counter

from crowd import Client, Read
from due import NOTHING, Exactly, Lawful, Rows, Wrong, parts_of
from http_client import DUMP, NQUADS, NTRIPLES, RESULTS, fault, fixed, get_query, post, post_form, reply
from json_results import binding, boolean_text, results_text
from trees import INTEGER, Term, iri, lines_of

NODES, CHAIN = 400, 20
"""How many nodes the base has, and how many stand in a chain."""
OWN, VALUES, OWN_GRAPHS = 16, 8, 2
"""How many subjects, values and graphs a client has of its own."""
FIRST = 150
"""How many quads, some of them the same, a client has stored in the beginning: about as many as later on."""
PREFIX = "PREFIX : <http://e/> "
TRUE, FALSE = (reply(200, RESULTS, boolean_text(item)) for item in (True, False))


def number(n):
    return Term("literal", str(n), INTEGER)


def name(n):
    return Term("literal", f"node {n}", "", "en")


# ---- what is stored


def base_quads(clients):
    """Returns the quads that stay, of so many clients."""
    quads = []
    for n in range(NODES):
        node = iri(f"n{n}")
        quads += [(None, node, iri("value"), number(n)), (None, node, iri("name"), name(n)), (iri(f"g{n % 4}"), node, iri("in"), iri(f"m{n % 5}"))]
        quads += [(None, node, iri("next"), iri(f"n{n + 1}"))] if n % CHAIN < CHAIN - 1 else []
        quads += [(None, node, iri("odd"), Term("literal", "yes"))] if n % 2 else []
    quads += [(None, iri("big"), iri("text"), Term("literal", f"{n:03}-" * 25_000)) for n in range(10)]
    quads += [(None, iri("all"), iri("values"), iri(f"v{n}")) for n in range(VALUES)] + [(None, iri("all"), iri("values"), iri("has"))]
    for c in range(clients):
        quads += [(None, iri(f"c{c}"), iri("owns"), iri(f"c{c}n{n}")) for n in range(OWN)]
        quads += [(None, iri(f"c{c}"), iri("graphs"), iri(f"c{c}g{n}")) for n in range(OWN_GRAPHS)]
    return frozenset(quads)


def own_quad(rng, client):
    """Returns one of the quads that the client may store."""
    graph = rng.choice((None, iri(f"c{client}g0"), iri(f"c{client}g1")))
    return graph, iri(f"c{client}n{rng.randrange(OWN)}"), iri("has"), iri(f"v{rng.randrange(VALUES)}")


def line_of(quad):
    return lines_of([quad])[:-1].encode()


# ---- what is due


def row(**terms):
    return binding(terms)


class InOrder:
    """Solutions are due in this order."""

    def __init__(self, names, rows):
        self.check = Exactly(reply(200, RESULTS, results_text(names, rows))).check


class Described:
    """Triples are due, of which each blank node stands in one line."""

    def __init__(self, lines):
        self.lines = Counter(lines)

    def check(self, found):
        status, media, body = parts_of(found)
        blanks, lines = re.findall(r"_:b\d+", body), body.splitlines()
        if (status, media) != (200, NTRIPLES) or len(blanks) != len({*blanks}) or lines != sorted(lines):
            raise Wrong("triples in order are due, each with a blank node of its own")
        if Counter(re.sub(r"_:b\d+", "_:b", line) for line in lines) != self.lines:
            raise Wrong(f"{sum(self.lines.values())} triples are due")


class Dumped:
    """The base, the client's own quads, and quads that other clients may have stored are due."""

    def __init__(self, base, own, prefix):
        self.base, self.own, self.prefix = base, own, prefix

    def check(self, found):
        status, media, body = parts_of(found)
        lines = body.encode().split(b"\n")
        some = {*lines[:-1]}
        if (status, media, lines[-1]) != (200, NQUADS, b"") or len(some) != len(lines) - 1 or lines[:-1] != sorted(lines[:-1]):
            raise Wrong("lines of quads are due, in order, each once")
        others = some - self.base
        if len(some) - len(others) != len(self.base):
            raise Wrong("a quad of the base is missing")
        if {other for other in others if other.startswith(self.prefix)} != self.own:
            raise Wrong("the client's own quads aren't those that it stored")
        if not all(re.fullmatch(rb"<http://e/c\d+n\d+> <http://e/has> <http://e/v\d>( <http://e/c\d+g\d>)? \.", other) for other in others):
            raise Wrong("a quad is there that nobody stored")


def bag(names, rows):
    return Rows(names, rows, len(rows))


def base_queries():
    """Returns queries of all forms over the base, each with what is due."""
    node = [iri(f"n{n}") for n in range(NODES)]
    after = lambda n: range(n + 1, n - n % CHAIN + CHAIN)
    third = [n for n in range(NODES) if n % 5 == 3]
    yes = Term("literal", "yes")
    return [
        ("SELECT ?v { :n7 :value ?v }", bag(["v"], [row(v=number(7))])),
        (
            "SELECT ?x ?v ?w { GRAPH ?g { ?x :in :m3 } ?x :value ?v ; :name ?w }",
            bag(["x", "v", "w"], [row(x=node[n], v=number(n), w=name(n)) for n in third]),
        ),
        ("SELECT ?y { :n43 :next+ ?y }", bag(["y"], [row(y=node[n]) for n in after(43)])),
        ("SELECT ?y { :n43 :next* ?y }", bag(["y"], [row(y=node[n]) for n in range(43, 60)])),
        ("SELECT ?y { :n43 (:next/:next|^:next)? ?y }", bag(["y"], [row(y=node[n]) for n in (42, 43, 45)])),
        ("SELECT ?y { :none :next* ?y }", bag(["y"], [row(y=iri("none"))])),
        (
            "SELECT ?x ?o { VALUES ?x { :n1 :n2 :n3 } OPTIONAL { ?x :odd ?o } }",
            bag(["x", "o"], [row(x=node[1], o=yes), row(x=node[2]), row(x=node[3], o=yes)]),
        ),
        ("SELECT ?x { ?x :value ?v MINUS { ?x :odd ?o } }", bag(["x"], [row(x=node[n]) for n in range(0, NODES, 2)])),
        (
            "SELECT ?x { { ?x :value 5 } UNION { ?x :value 6 } UNION { ?x :odd ?o } }",
            bag(["x"], [row(x=item) for item in [node[5], node[6], *node[1::2]]]),
        ),
        ("SELECT ?g { GRAPH ?g { :n6 :in ?m } }", bag(["g"], [row(g=iri("g2"))])),
        ("SELECT DISTINCT ?m { GRAPH ?g { ?x :in ?m } }", bag(["m"], [row(m=iri(f"m{n}")) for n in range(5)])),
        (
            "SELECT ?x ?w { ?x :value ?v FILTER(?v < 9 && ?v != 4) BIND(?v * 2 AS ?w) } ORDER BY DESC(?v)",
            InOrder(["x", "w"], [row(x=node[n], w=number(2 * n)) for n in (8, 7, 6, 5, 3, 2, 1, 0)]),
        ),
        ("SELECT ?v { ?x :value ?v } ORDER BY ?v OFFSET 100 LIMIT 3", InOrder(["v"], [row(v=number(n)) for n in (100, 101, 102)])),
        ("SELECT (STRLEN(?w) AS ?n) { :n100 :name ?w }", bag(["n"], [row(n=number(8))])),
        ("SELECT ?x { ?x :value ?v } LIMIT 5", Rows(["x"], 5 * [row(x=item) for item in node], 5)),
        ("ASK { ?x :next :n8 ; :odd ?o }", Exactly(TRUE)),
        ("ASK { ?x :next ?x }", Exactly(FALSE)),
        ("CONSTRUCT { ?y :before ?x } WHERE { ?x :next ?y }", Exactly(construct_of(node))),
        ("CONSTRUCT { [] :of ?x } WHERE { ?x :odd ?o }", Described(f"_:b <http://e/of> <http://e/n{n}> ." for n in range(1, NODES, 2))),
        ("SELECT * { ?x :value ?v . ?x :name ?w }", bag(["x", "v", "w"], [row(x=node[n], v=number(n), w=name(n)) for n in range(NODES)])),
        ("SELECT ?t { :big :text ?t }", bag(["t"], [row(t=Term("literal", f"{n:03}-" * 25_000)) for n in range(10)])),
    ]


def construct_of(node):
    triples = [(node[n + 1], iri("before"), node[n]) for n in range(NODES - 1) if n % CHAIN < CHAIN - 1]
    return reply(200, NTRIPLES, lines_of(triples))


FAULTY = [
    ("SELECT * WHERE { ?s ?p }", "F1 syntax at 44"),
    ("SELECT * { ?s e:p ?o }", "F2 undeclared prefix at 35"),
    ("SELECT * { ?s <p> ?o }", "F3 relative IRI at 35"),
    ("SELECT (COUNT(*) AS ?n) { ?s ?p ?o }", "F4 left out: COUNT"),
    ("SELECT (1 AS ?x) { ?x ?p ?o }", "F5 scope"),
    ("SELECT * " + "{" * 65 + "}" * 65, "F6 too large at 94"),
]
"""Queries that are refused, after the prefix, and their faults."""
BAD = [
    (b"GET /no HTTP/1.1\r\nHost: e\r\n\r\n", fixed(404)),
    (b"GET /update HTTP/1.1\r\nHost: e\r\n\r\n", fixed(405, "POST")),
    (b"PUT /data HTTP/1.1\r\nHost: e\r\n\r\n", fixed(405, "GET")),
    (b"POST /query HTTP/1.1\r\nHost: e\r\n\r\n", fixed(411)),
    (b"POST /query HTTP/1.1\r\nHost: e\r\nContent-Type: text/turtle\r\nContent-Length: 1\r\n\r\n.", fixed(415)),
    (b"POST /update HTTP/1.1\r\nHost: e\r\nContent-Type: application/sparql-update\r\nContent-Length: 4194305\r\n\r\n", fixed(413)),
    (b"GET /query HTTP/1.1\r\nHost: e\r\nX: " + b"x" * 16_384, fixed(431)),
    (b"GET /query HTTP/1.1\r\n\r\n", fixed(400)),
    (b"\x00\xff\x00 no head at all\r\n\r\n", fixed(400)),
]
"""Requests that are refused for their heads, and their replies."""
TOO_MANY = "SELECT * { ?a :value ?x . ?b :value ?y . ?c :value ?z }"
"""A query with too many rows, which takes the memory of a million."""


# ---- what clients do


def posted(resource, text, is_form):
    return (post_form if is_form else post)(resource, text)


def queried(rng, text):
    text = PREFIX + text
    return get_query(text) if len(text) < 4000 and rng.random() < 0.5 else posted("query", text, rng.random() < 0.5)


class Exchange:
    """What a client sends, how, and what is due: of a client that leaves, a front of that or nothing."""

    def __init__(self, kind, sent, due):
        self.kind, self.sent, self.due, self.how, self.receive, self.read, self.pauses = kind, sent, due, "stay", None, Read(), {}

    def hamper(self, rng):
        """Makes the client slow, or closes its sending side, or has it leave."""
        choice = rng.random()
        if choice < 0.10:
            places = sorted({rng.randrange(len(self.sent)) for _ in range(4)})
            self.pauses = {place: rng.choice((0.001, 0.05, 0.3)) for place in places}
        elif choice < 0.16:
            self.how = "half"
        elif choice < 0.20:
            self.receive, self.read = 4096, Read(rate=rng.choice((1_000_000, 4_000_000)))
        elif choice < 0.23:
            self.how, self.read = "front", Read(most=rng.choice((1, 60, 5000)))
        elif choice < 0.25:
            self.how, self.pauses = "late", {len(self.sent): rng.choice((0.01, 0.5))}
        return self

    def leave(self, rng):
        """Has the client leave in the middle of its request."""
        self.sent, self.how, self.due = self.sent[: rng.randrange(len(self.sent))], rng.choice(("half", "close", "reset")), NOTHING
        return self

    def client(self):
        """Returns its client."""
        acts, begin = [], 0
        for place in sorted({*self.pauses, len(self.sent)}):
            acts += [("send", self.sent[begin:place])] if place > begin else []
            acts += [("wait", self.pauses[place])] if place in self.pauses else []
            begin = place
        reads = [("read", self.read)]
        last = {"stay": reads, "half": [("half", None), *reads], "front": [*reads, ("reset", None)], "late": [("reset", None)]}
        acts += last.get(self.how) or [(self.how, None)]
        return Client(acts, len(self.sent), self.receive)

    def check(self, client):
        """Checks what its client met.

        # Errors

        Wrong where that isn't due."""
        found = bytes(client.found)
        if self.how in ("close", "reset", "late") or self.how == "front" and client.end == "left":
            if client.end != "left" or len(found) > (self.read.most or 0):
                raise Wrong(f"the connection is {client.end} after {len(found)} bytes")
            if hasattr(self.due, "check_front"):
                self.due.check_front(found)
        elif client.end != "end":
            raise Wrong(f"the connection is {client.end} after {len(found)} bytes")
        else:
            self.due.check(found)


class Owner:
    """What a client has stored, and the requests that it makes."""

    def __init__(self, number, rng, base, queries):
        self.number, self.rng, self.queries = number, rng, queries
        self.base = base
        """The lines of the quads that stay."""
        self.states = [frozenset(own_quad(rng, number) for _ in range(FIRST))]
        """What it may have stored: one set, unless it left before the reply of an update."""

    @property
    def stored(self):
        return self.states[0]

    def graph(self, n):
        return iri(f"c{self.number}g{n}")

    def exchange(self):
        """Returns the next exchange. What it stores is taken as stored."""
        choice = self.rng.random()
        if choice < 0.40:
            text, due = self.rng.choice(self.queries)
            return Exchange("a query", queried(self.rng, text), due).hamper(self.rng)
        if choice < 0.55:
            return self.own_query().hamper(self.rng)
        if choice < 0.56:
            return self.dump().hamper(self.rng)
        if choice < 0.62:
            text, line = self.rng.choice(FAULTY)
            return Exchange("a faulty query", queried(self.rng, text), Exactly(fault(line))).hamper(self.rng)
        if choice < 0.66:
            sent, due = self.rng.choice(BAD)
            return Exchange("a bad request", sent, Exactly(due))
        if choice < 0.69:
            return self.refused_update()
        if choice < 0.72:
            exchange = self.update()[0] if self.rng.random() < 0.5 else self.own_query()
            return exchange.leave(self.rng)
        update, after = self.update()
        self.states = [after]
        if self.rng.random() < 0.1:
            update.pauses = {self.rng.randrange(len(update.sent)): self.rng.choice((0.001, 0.3))}
        update.how = "half" if self.rng.random() < 0.1 else "stay"
        return update

    def parting(self):
        """Returns an update whose reply the client doesn't read: it may be carried out or not."""
        update, after = self.update()
        update.how = self.rng.choice(("close", "reset"))
        self.states = [self.stored, after]
        return update

    def settle(self, lines):
        """Takes what is stored from the lines of the dataset.

        # Errors

        Wrong where that can't be."""
        prefix = f"<http://e/c{self.number}n".encode()
        own = {line for line in lines if line.startswith(prefix)}
        fits = [state for state in self.states if {*map(line_of, state)} == own]
        if not fits:
            raise Wrong(f"client {self.number} stored {[*map(len, self.states)]} quads, and there are {len(own)}, or others")
        self.states = [fits[0]]

    def own_query(self):
        rows = [row(s=s, v=v) for graph, s, _, v in self.stored if graph is None]
        text = f"SELECT ?s ?v {{ :c{self.number} :owns ?s . ?s :has ?v }}"
        if self.rng.random() < 0.5:
            rows = [row(g=graph, s=s, v=v) for graph, s, _, v in self.stored if graph]
            text = f"SELECT ?g ?s ?v {{ :c{self.number} :graphs ?g . GRAPH ?g {{ ?s :has ?v }} }}"
        return Exchange("a query of its own", queried(self.rng, text), bag(["s", "v"] if "?g ?s" not in text else ["g", "s", "v"], rows))

    def dump(self):
        due = Dumped(self.base, {*map(line_of, self.stored)}, f"<http://e/c{self.number}n".encode())
        return Exchange("the dataset", DUMP, due)

    @staticmethod
    def whole():
        """Returns the exchange that reads the dataset, of which nothing is compared yet."""
        return Exchange("the dataset", DUMP, Lawful())

    def refused_update(self):
        fresh = self.rng.randrange(1 << 60)
        text, line = self.rng.choice((
            (f"INSERT DATA {{ :c{self.number}n0 :has :fresh{fresh} , \"fresh {fresh}\" }} ; MOVE :none{fresh} TO DEFAULT", "F7 no such graph"),
            (f"INSERT DATA {{ :c{self.number}n0 :has :fresh{fresh} }} ; CREATE GRAPH :g1", "F7 graph exists"),
            (
                f"DELETE {{ ?s :has ?v }} INSERT {{ ?s :at {fresh} }} WHERE {{ :c{self.number} :owns ?s . ?s :has ?v }} ; COPY :none TO :g1",
                "F7 no such graph",
            ),
            (f"INSERT DATA {{ ?s :has :fresh{fresh} }}", "F5 scope"),
        ))  # fmt: skip
        return Exchange("a refused update", posted("update", PREFIX + text, self.rng.random() < 0.5), Exactly(fault(line)))

    def update(self):
        """Returns the exchange of an update, and what it makes of what is stored."""
        text, after = self.rng.choice((self.data, self.data, self.modify, self.whole_graph))()
        due = reply(204) if after is not None else fault("F7 no such graph")
        sent = posted("update", PREFIX + text, self.rng.random() < 0.5)
        return Exchange("an update", sent, Exactly(due)), self.stored if after is None else after

    def data(self):
        word = self.rng.choice(("INSERT", "DELETE"))
        quads = {own_quad(self.rng, self.number) for _ in range(self.rng.choice((1, 5, 60)))}
        blocks = [(f"GRAPH <{quad[0].text}> {{ %s }}" if quad[0] else "%s . ") % " ".join(f"<{term.text}>" for term in quad[1:]) for quad in quads]
        return f"{word} DATA {{ {' '.join(blocks)} }}", self.stored | quads if word == "INSERT" else self.stored - quads

    def modify(self):
        old, new = self.rng.sample(range(VALUES), 2)
        hit = {item for item in self.stored if item[0] is None and item[3] == iri(f"v{old}")}
        text = f"DELETE {{ ?s :has :v{old} }} INSERT {{ ?s :has :v{new} }} WHERE {{ :c{self.number} :owns ?s . ?s :has :v{old} }}"
        return text, self.stored - hit | {(*item[:3], iri(f"v{new}")) for item in hit}

    def whole_graph(self):
        at = self.rng.randrange(2)
        source, target = self.graph(at), self.graph(1 - at)
        inside = {item for item in self.stored if item[0] == source}
        word = self.rng.choice(("CLEAR", "DROP", "ADD", "COPY", "MOVE"))
        if word in ("CLEAR", "DROP"):
            return f"{word} GRAPH <{source.text}>", self.stored - inside
        if not inside:
            return f"{word} <{source.text}> TO <{target.text}>", None
        rest = self.stored if word == "ADD" else {item for item in self.stored if item[0] != target}
        after = rest | {(target, *item[1:]) for item in inside}
        return f"{word} <{source.text}> TO <{target.text}>", frozenset(after - inside if word == "MOVE" else after)


def lines_stored(found):
    """Returns the lines of a reply that is the dataset.

    # Errors

    Wrong where it isn't such a reply."""
    status, media, body = parts_of(found)
    if (status, media) != (200, NQUADS):
        raise Wrong("the dataset is due")
    return {*body.encode().split(b"\n")[:-1]}
