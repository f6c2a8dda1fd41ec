"""Texts for tests/fuzz: those of all cases, random sentences of the grammar, and random changes of both."""
import glob
import importlib.util
import os
import re
import sys
from collections import defaultdict
from importlib.machinery import SourceFileLoader

from generated import Generator, numbered, random_quads
from messages import random_connection
from model import Dataset
from nquads import read_quads
from reader import Fault
from texts import random_query, random_update
from trees import iri, lines_of, text_of, update_text

TOP = os.path.dirname(os.path.dirname(os.path.abspath(__file__)))
LONGEST = 3000
"""The most bytes of a case's text that is used."""
PIECE = re.compile(r'"(?:[^"\\\n]|\\.)*"|<[^<>\s]*>|_:\w+|[?$@]?\w+|\s+|&&|\|\||.', re.S)
"""What a change takes for a token: a little more or less than the grammar's."""
WORDS = (
    "SELECT CONSTRUCT ASK WHERE PREFIX DISTINCT REDUCED ORDER BY ASC DESC LIMIT OFFSET VALUES UNDEF OPTIONAL MINUS UNION GRAPH FILTER BIND AS a IN NOT"
    " true FALSE BOUND IF COALESCE sameTerm isIRI isNumeric STR LANG DATATYPE LANGMATCHES STRLEN CONTAINS CONCAT INSERT DELETE DATA WITH CLEAR DROP"
    " CREATE SILENT ADD COPY MOVE TO DEFAULT NAMED ALL COUNT EXISTS BASE FROM REGEX { } ( ) [ ] . , ; * / + - | || ^ ^^ ? ! != = < > <= >= && ?x ?y $z"
    " _:b0 _:n [] : :a :p x:y <> <a> <http://e/a> <http://e/p> <http://e/\\u0041> 0 1 -1 +1 01 1.5 1e3 .5 1. 9223372036854775808 'a' \"a\"@en"
    " \"a\"^^:t '''a''' \"\"\"a\n\"b\"\"\" '\\u0041' \"\\x\" # @en @ \\ ` $ 170141183460469231731687303715884105728 ^:p !(:p|^:p) (:p/:q)* :p+ :p? "
    "!:p _: ?? é 源 \u00b7 \U0001d11e \ufeff \u2028 join piece end 1 2 00 ff"
).split(" ")
BYTES = [
    b"\xff", b"\xc0\x80", b"\xed\xa0\x80", b"\xf4\x90\x80\x80", b"\xe2\x82", b"\x00", b"\xef\xbb\xbf", b"\x7f", *map(bytes, zip(b"\r\n\\'\" #<"))
]  # fmt: skip
"""Bytes that are put in, of which some are no UTF-8."""
PAIRS = [("{", "}"), ("(", ")"), ("[", "]"), ("[ :p ", "]"), ("{ OPTIONAL ", "}"), ("!", ""), ("- ", ""), ("^", ""), ("(:p/", ")"), ("IF(", ",1,2)"), ("<", ">")]


def load(name):
    """Returns a script of this folder as a module."""
    loader = SourceFileLoader(name.replace("-", "_"), f"{TOP}/tests/{name}")
    module = importlib.util.module_from_spec(importlib.util.spec_from_loader(loader.name, loader))
    sys.modules[loader.name] = module
    loader.exec_module(module)
    return module


class Corpus:
    """The texts of all cases, by their kind: `query`, `update`, `data`, `script` and `request`; each with up to three of its case's quads. `due` has,
    of queries, updates and N-Quads, the kind, the text and the line of the fault that is due, or none."""

    def __init__(self):
        cases, self.texts, self.due = load("run-cases"), defaultdict(list), []
        for path in sorted(glob.glob(f"{TOP}/tests/cases/*.cases")):
            for case in cases.cases_of(path):
                if not isinstance(case, str):
                    self.put(case)
        self.texts = {kind: [*dict.fromkeys(value)] for kind, value in self.texts.items()}

    def put(self, case):
        for kind in ("query", "update", "data", "script"):
            text = case.file(kind)
            if kind in case.sections and len(text) <= (LONGEST if kind != "script" else 10 * LONGEST):
                self.texts[kind].append((text, first_quads(case)))
        kind = next((item for item in ("query", "update", "check") if item in case.sections), None)
        is_of_text = case.due != "fault" or re.match("F[1-6] " if kind != "check" else "N", case.words)
        if kind and case.due != "fronts" and "args" not in case.sections and is_of_text:
            text = case.file("data" if kind == "check" else kind)
            self.due += [(kind, text, case.words if case.due == "fault" else None)] * (len(text) <= LONGEST)
        if "script" in case.sections:
            sent = defaultdict(bytes)
            for id, piece in re.findall(rb"^piece (\d+) ((?:[0-9a-fA-F]{2})*)$", case.file("script"), re.M):
                sent[id] += bytes.fromhex(piece.decode())
            self.texts["request"] += [(value, first_quads(case)) for value in sent.values() if value and len(value) <= 10 * LONGEST]

    def some(self, rng, kind):
        return rng.choice(self.texts[kind])


def first_quads(case):
    """Returns the first three quads of a case's data, which an update can store."""
    data = b"".join(case.file("data").splitlines(True)[:10])
    try:
        return storable(read_quads(data)[:3])
    except Fault:
        return ()


def storable(quads):
    """Returns quads that an update can store: no graph's name is a blank node (SPARQL 1.1 Query, 19.8, rule 52)."""
    return tuple(numbered([(graph and (graph if graph.kind == "uri" else iri("g")), *triple) for graph, *triple in quads]))


# ---- sentences of the grammar


def sentence(rng, kind, quads, is_union):
    """Returns the bytes of a random text that is lawful, mostly."""
    if kind == "data":
        return lines_of(random_quads(rng)).encode()
    if kind == "request":
        return random_connection(rng).sent
    if kind == "script":
        return script(rng, [random_connection(rng).sent for _ in range(rng.choice((1, 1, 2, 3)))])
    if kind == "query" and rng.random() < 0.01:
        return wide(rng)
    if rng.random() < 0.4:
        return (random_query if kind == "query" else random_update)(rng)[0].encode()
    generator = Generator(rng, Dataset(quads, is_union))
    return (text_of(generator.query()) if kind == "query" else update_text(generator.update())).encode()


def wide(rng):
    """Returns a query with up to 3 ** 14 solutions over three quads, which takes much time or memory."""
    count = rng.choice((4, 6, 7, 8, 9, 10, 11, 12, 14))
    where = rng.choice(("{ %s }", "{ { %s } }", "{ OPTIONAL { %s } }", "{ %s FILTER(?s0 != ?o1) }", "{ { %s } UNION { ?x ?y ?z } }"))
    triples = where % " . ".join(f"?s{number} ?p{number} ?o{number}" for number in range(count))
    head = rng.choice(("SELECT * ", "SELECT DISTINCT ?s1 ", "ASK ", "CONSTRUCT { ?s0 ?p0 ?o1 } WHERE ", "SELECT (CONCAT(STR(?s0), STR(?o1)) AS ?c) "))
    return (head + triples + rng.choice(("", "", " LIMIT 10", " ORDER BY ?o1", " OFFSET 100000"))).encode()


def script(rng, sent):
    """Returns the bytes of a script in which connections send these bytes, each cut into pieces, which alternate."""
    lines = []
    for at, item in enumerate(sent):
        item = item[:4000]
        cuts = sorted({0, len(item), *(rng.randrange(len(item) + 1) for _ in range(rng.choice((0, 0, 1, 4))))})
        parts = [f"piece {at} {item[a:b].hex()}" for a, b in zip(cuts, cuts[1:])]
        lines.append([f"join {at}", *parts, *[f"end {at}"] * (rng.random() < 0.5)])
    mixed = []
    while lines:
        one = rng.choice(lines)
        mixed.append(one.pop(0))
        lines = [line for line in lines if line]
    return "\n".join(mixed).encode() + b"\n" * (rng.random() < 0.8)


def quads_for(rng):
    """Returns up to three quads, over which a text is evaluated."""
    return storable(random_quads(rng)[: rng.choice((0, 1, 2, 3, 3, 3, 3, 3))])


# ---- changes


def changed(rng, text, other):
    """Returns the bytes of a text after one random change, which may take something of another text."""
    change, is_of_bytes = rng.choices(*zip(*CHANGES))[0]
    if is_of_bytes:
        return change(rng, text)
    words = PIECE.findall(text.decode("utf-8", "surrogateescape"))
    change(rng, words, PIECE.findall(other.decode("utf-8", "surrogateescape")) or [" "])
    return "".join(words).encode("utf-8", "surrogateescape")


def span(rng, words, most=6):
    """Returns the ends of a short run of words."""
    begin = rng.randrange(len(words) + 1)
    return begin, min(len(words), begin + rng.choice((1, 1, 1, 2, 3, most)))


def drop(rng, words, _):
    begin, end = span(rng, words)
    del words[begin:end]


def double(rng, words, _):
    begin, end = span(rng, words)
    words[end:end] = words[begin:end]


def exchange(rng, words, _):
    if words:
        one, other = rng.randrange(len(words)), rng.randrange(len(words))
        words[one], words[other] = words[other], words[one]


def replace(rng, words, others):
    begin, end = span(rng, words, 2)
    words[begin:end] = [rng.choice(others)]


def put(rng, words, _):
    begin, _ = span(rng, words)
    words[begin:begin] = [" ", rng.choice(WORDS), " "]


def splice(rng, words, others):
    begin, end = span(rng, words, rng.choice((0, 6, 40)))
    first, last = span(rng, others, rng.choice((6, 40)))
    words[begin:end] = others[first:last]


def nest(rng, words, _):
    begin, end = span(rng, words, 20)
    depth = rng.choice((1, 2, 5, 63, 64, 65, 66, rng.choice((255, 256, 257, 1000))))
    opening, closing = rng.choice(PAIRS)
    words[end:end] = [closing * (depth if rng.random() < 0.9 else depth - 1)]
    words[begin:begin] = [opening * depth]


def repeat(rng, words, _):
    begin, end = span(rng, words, 8)
    words[end:end] = words[begin:end] * rng.choice((1, 2, 3, 10, 127, 254, 255, 256, 257))


def lengthen(rng, words, _):
    begin, _ = span(rng, words)
    letter, many = rng.choice(("a", "1", "é", "\\u0041", ".", "-", "'", "源", " ", "#", "\n", ":", "_", "%41")), rng.choice((10, 100, 300, 1500))
    words[begin:begin] = [letter * many]


def flip(rng, text):
    if not text:
        return b"\x00"
    copy, at = bytearray(text), rng.randrange(len(text))
    copy[at] = copy[at] ^ 1 << rng.randrange(8) if rng.random() < 0.6 else rng.randrange(256)
    return bytes(copy)


def insert(rng, text):
    at = rng.randrange(len(text) + 1)
    return text[:at] + rng.choice(BYTES) + text[at:]


def cut(rng, text):
    at = rng.randrange(len(text) + 1)
    return text[:at] if rng.random() < 0.8 else text[at:]


CHANGES = [
    ((drop, False), 12), ((double, False), 8), ((exchange, False), 8), ((replace, False), 12), ((put, False), 12), ((splice, False), 10),
    ((nest, False), 3), ((repeat, False), 2), ((lengthen, False), 2), ((flip, True), 8), ((insert, True), 6), ((cut, True), 5),
]  # fmt: skip
"""The changes, whether each is of bytes, and how often it is made."""


def large(rng, text):
    """Returns a text in which a run of words stands very often, or one word is very long."""
    words = PIECE.findall(text.decode("utf-8", "surrogateescape")) or ["a"]
    begin, end = span(rng, words, 30)
    more = words[begin:end] or ["("]
    if rng.random() < 0.3:
        more = [rng.choice(("a", "1", "é", "\\u0041", "%41", "-", "_:", "#", "\n", "\\"))]
    most = rng.choice((20_000, 60_000, 300_000))
    words[end:end] = more * (most // len("".join(more)) + 1)
    return "".join(words).encode("utf-8", "surrogateescape")


def random_text(rng, corpus, kind, is_union):
    """Returns the bytes of a random text, and up to three quads, over which it is evaluated."""
    is_case = rng.random() < 0.5
    if is_case:
        text, quads = corpus.some(rng, kind)
    else:
        quads = quads_for(rng)
        text = sentence(rng, kind, quads, is_union)
    if rng.random() < (0.2 if is_case else 0.45):
        return text, quads
    for _ in range(rng.choice((1, 1, 1, 2, 2, 3, 5, 9))):
        if len(text) > 100_000:
            break
        text = changed(rng, text, corpus.some(rng, kind)[0])
    return large(rng, text) if rng.random() < 0.004 else text, quads
