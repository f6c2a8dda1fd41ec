"""Random texts of SPARQL, each with what it means for the model."""
import re

from due import GRAPHS, LITERALS, PREDICATES, SUBJECTS, Exactly, Meaning, Solutions, Statements, carried, deleted, group_of, inserted, quads_of
from due import solutions, variables_of
from http_client import NTRIPLES, RESULTS, fault, reply
from json_results import boolean_text
from model import Lists, Refused, instances
from trees import XSD, Clear, Create, Modify, Term, Transfer


class Spelling:
    """How a text spells its terms and the space between its tokens."""

    def __init__(self, rng):
        self.rng, self.is_short, self.gaps = rng, rng.random() < 0.5, rng.choice(((" ",), (" ", "\n", "\t  "), (" ", "\r\n", " # a comment }\n")))

    def prologue(self):
        return ["PREFIX", ":", "<http://e/>", "PREFIX", "xsd:", f"<{XSD}>"] if self.is_short else []

    def name(self, text):
        if self.is_short and text.startswith("http://e/"):
            return ":" + text[len("http://e/"):]
        return "xsd:" + text[len(XSD):] if self.is_short and text.startswith(XSD) else f"<{text}>"

    def string(self, text):
        quote = self.rng.choice(('"', "'", '"""', "'''"))
        text = text.replace("\\", "\\\\").replace(quote[0], "\\" + quote[0])
        if len(quote) == 1 or self.rng.random() < 0.5:
            text = text.replace("\n", "\\n").replace("\r", "\\r")
        if self.rng.random() < 0.3:
            text = "".join(char if char < "\x7f" else f"\\U{ord(char):08X}" for char in text.replace("\t", "\\t"))
        return quote + text + quote

    def term(self, term):
        if term.kind == "var":
            return self.rng.choice("??$") + term.text
        if term.kind == "uri":
            return self.name(term.text)
        if term.datatype and re.fullmatch(r"[+-]?\d+|true", term.text) and self.rng.random() < 0.7:
            return term.text
        return self.string(term.text) + (f"@{term.tag}" if term.tag else f"^^{self.name(term.datatype)}" if term.datatype else "")

    def keyword(self, word):
        return word if self.rng.random() < 0.8 else word.lower()

    def triples(self, triples):
        """Returns the tokens of the triples, with `;` and `,` where they fit."""
        tokens, last = [], (None, None)
        for subject, predicate, object in triples:
            terms = [self.term(item) for item in (subject, predicate, object)]
            same = 0 if not tokens or self.rng.random() < 0.3 else 2 if last == (subject, predicate) else int(last[0] == subject)
            tokens += ([["."], [";"], [","]][same] if tokens else []) + terms[same:]
            last = subject, predicate
        return tokens + (["."] if tokens and self.rng.random() < 0.5 else [])

    def blocks(self, elements):
        """Returns the tokens of (graph, triples), one after another."""
        tokens = []
        for graph, triples in elements:
            inner = self.triples(triples)
            # (two runs of triples beside one another have a full stop between them)
            if not graph:
                tokens += (["."] if tokens and tokens[-1] not in ("}", ".") else []) + inner
            else:
                tokens += [self.keyword("GRAPH"), self.term(graph), "{", *inner, "}"]
        return tokens

    def text(self, tokens):
        return "".join(token + self.rng.choice(self.gaps) for token in tokens)


def random_bytes(rng, count):
    return bytes(rng.choices(range(256), k=count))


def random_quads(rng, most):
    places = (None, *GRAPHS), SUBJECTS, PREDICATES, SUBJECTS + LITERALS
    # (a list, since the order of a set isn't the same in each run)
    return [tuple(map(rng.choice, places)) for _ in range(rng.randint(0, most))]


def by_graph(quads):
    graphs = dict.fromkeys(quad[0] for quad in quads)
    return [(graph, sorted(quad[1:] for quad in quads if quad[0] == graph)) for graph in graphs]


def random_modify(rng, spelling):
    """Returns the tokens of an operation with a pattern of one triple, and its tree."""
    word = spelling.keyword
    form = rng.choice(("DELETE WHERE", "DELETE", "DELETE", "INSERT", "both"))
    pattern = random_elements(rng, 1, 1)
    if form == "DELETE WHERE":
        return [word("DELETE"), word("WHERE"), "{", *spelling.blocks(pattern), "}"], Modify(form, None, quads_of(pattern), None, None)
    graph = rng.choice((None, None, None, *GRAPHS))
    delete, insert = (random_template(rng) if form in (item, "both") else None for item in ("DELETE", "INSERT"))
    tokens = [word("WITH"), spelling.term(graph)] if graph else []
    for name, entry in (("DELETE", delete), ("INSERT", insert)):
        tokens += [word(name), "{", *spelling.blocks(entry), "}"] if entry is not None else []
    tokens += [word("WHERE"), "{", *spelling.blocks(pattern), "}"]
    return tokens, Modify("MODIFY", graph, delete and quads_of(delete), insert and quads_of(insert), group_of(pattern))


def random_operation(rng, spelling):
    """Returns an operation's tokens, and its tree."""
    word = spelling.keyword
    form = rng.choices(("INSERT", "DELETE", "CLEAR", "CREATE", "MOVE", "MODIFY"), (9, 7, 1, 1, 3, 5))[0]
    if form == "MODIFY":
        return random_modify(rng, spelling)
    if form in ("INSERT", "DELETE"):
        quads = random_quads(rng, 6)
        tokens = [word(form), word("DATA"), "{", *spelling.blocks(by_graph(quads)), "}"]
        return tokens, (inserted if form == "INSERT" else deleted)(quads)
    silent = [word("SILENT")] if rng.random() < 0.5 else []
    graph = rng.choice(GRAPHS)
    if form == "CREATE":
        return [word(form), *silent, word("GRAPH"), spelling.term(graph)], Create(graph, bool(silent))
    if form == "CLEAR":
        target = rng.choices(("ALL", "NAMED", "DEFAULT", graph), (1, 2, 4, 8))[0]
        said = [word("GRAPH"), spelling.term(graph)] if target is graph else [word(target)]
        return [word(rng.choice(("CLEAR", "DROP"))), *silent, *said], Clear("CLEAR", target, bool(silent))
    form, ends = rng.choice(("ADD", "COPY", "MOVE")), [rng.choice((None, *GRAPHS)) for _ in "st"]
    said = [[word("DEFAULT")] if end is None else [word("GRAPH")] * (rng.random() < 0.5) + [spelling.term(end)] for end in ends]
    return [word(form), *silent, *said[0], word("TO"), *said[1]], Transfer(form, *ends, bool(silent))


def random_update(rng):
    """Returns a text, and what it means."""
    spelling, tokens, operations = Spelling(rng), [], []
    for _ in range(rng.choice((1, 1, 1, 2, 3, 5))):
        more, operation = random_operation(rng, spelling)
        tokens += ([";"] if tokens else []) + more
        operations.append(operation)

    def due(quads):
        try:
            return Exactly(reply(204)), carried(operations, quads)
        except Refused as error:
            return Exactly(fault(str(error))), quads

    return spelling.text(spelling.prologue() + tokens), Meaning(due, writes=True, has_fronts=True)


def random_word(rng, terms, often):
    """Returns a variable as often as told, or one of the terms."""
    return Term("var", rng.choice("sopx")) if rng.random() < often else rng.choice(terms)


def random_elements(rng, count, first):
    """Returns so many (graph, triples), of which the first has so many triples, and the others have one."""
    elements = []
    for _ in range(count):
        graph = rng.choice((None, None, *GRAPHS[:2], Term("var", "g"), Term("var", "s")))
        triples = [
            (random_word(rng, SUBJECTS, 0.7), random_word(rng, PREDICATES, 0.4), random_word(rng, SUBJECTS + LITERALS, 0.7))
            for _ in range(1 if elements else first)
        ]
        elements.append((graph, triples))
    return elements


def random_template(rng):
    """Returns (graph, triples) of an update's template."""
    graph = rng.choice((None, None, None, *GRAPHS[:2], Term("var", "g")))
    return [(graph, [(random_word(rng, SUBJECTS, 0.8), random_word(rng, PREDICATES, 0.4), random_word(rng, SUBJECTS + LITERALS, 0.8))])]


def ask(elements):
    def due(quads):
        return Exactly(reply(200, RESULTS, boolean_text(solutions(elements, quads)))), quads

    return due


def select(elements, names, is_distinct, limit):
    def due(quads):
        rows = [frozenset((item, row[item]) for item in names if item in row) for row in solutions(elements, quads)]
        return Solutions(names, Lists([[*{*rows}] if is_distinct else rows], 0, limit)), quads

    return due


def construct(elements, template):
    def due(quads):
        made = instances(template, solutions(elements, quads))
        return Statements(NTRIPLES, [made]), quads

    return due


def random_query(rng):
    """Returns a text, and what it means."""
    spelling, elements = Spelling(rng), random_elements(rng, rng.choice((1, 1, 2)), rng.choice((1, 1, 2)))
    word, group = spelling.keyword, ["{", *spelling.blocks(elements), "}"]
    where = [word("WHERE")] * (rng.random() < 0.5) + group
    form = rng.choices(("SELECT", "ASK", "CONSTRUCT"), (4, 2, 2))[0]
    if form == "ASK":
        return spelling.text(spelling.prologue() + [word(form), *where]), Meaning(ask(elements), has_fronts=True)
    if form == "CONSTRUCT":
        template = [(random_word(rng, SUBJECTS, 0.8), random_word(rng, PREDICATES, 0.3), random_word(rng, LITERALS, 0.8)) for _ in range(rng.choice((0, 1, 2)))]
        tokens = [word(form), "{", *spelling.triples(template), "}", word("WHERE"), *group]
        return spelling.text(spelling.prologue() + tokens), Meaning(construct(elements, template), has_fronts=True)
    names, is_distinct, limit = variables_of(elements), rng.random() < 0.3, rng.choice((1 << 60, 1 << 60, 0, 3))
    said = ["*"]
    if rng.random() < 0.5:
        names = rng.sample("sopxgz", rng.randint(1, 4))
        said = [spelling.term(Term("var", item)) for item in names]
    tokens = [word(form), *[word("DISTINCT")] * is_distinct, *said, *where]
    tokens += [word("LIMIT"), str(limit)] if limit < 1 << 60 else []
    return spelling.text(spelling.prologue() + tokens), Meaning(select(elements, names, is_distinct, limit))


FAULTS = [
    ("query", "SELECT * WHERE { ?s ?p }", "F1 syntax at 23"),
    ("query", "SELECT { ?s ?p ?o }", "F1 syntax at 7"),
    ("query", "", "F1 syntax at 0"),
    ("query", "ASK { ?s ?p 'open }", "F1 syntax at 12"),
    ("query", "ASK { ?s ?p <open }", "F1 syntax at 12"),
    ("query", "ASK { x:a ?p ?o }", "F2 undeclared prefix at 6"),
    ("query", "ASK { <a> ?p ?o }", "F3 relative IRI at 6"),
    ("query", "SELECT (COUNT(*) AS ?n) { ?s ?p ?o }", "F4 left out: COUNT"),
    ("query", "ASK { ?s ?p 1.5 }", "F4 left out: 1.5"),
    ("query", "SELECT (1 AS ?s) { ?s ?p ?o }", "F5 scope"),
    ("query", "ASK " + 65 * "{", "F6 too large at 68"),
    ("query", "ASK " + 65 * "{" + 65 * "}", "F6 too large at 68"),
    ("update", "INSERT DATA { ?s <http://e/p> 1 }", "F5 scope"),
    ("update", "DELETE DATA { [] <http://e/p> 1 }", "F5 scope"),
    ("update", "INSERT DATA { <http://e/a> <http://e/p> x:y }", "F2 undeclared prefix at 40"),
    ("update", "CLEAR ALL ; LOAD <http://e/a>", "F4 left out: LOAD"),
    ("update", "CLEAR ALL ; CLEAR ALL CLEAR ALL", "F1 syntax at 22"),
]
"""Resource, text and fault, by the places of their first wrong bytes."""
assert "CLEAR ALL ; CLEAR ALL CLEAR ALL"[22:27] == "CLEAR" and "INSERT DATA { <http://e/a> <http://e/p> x:y }"[40:43] == "x:y"
