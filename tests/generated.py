"""Random datasets, queries and updates for the model. Terms come from a small pool, variables are few, and triples of patterns are made of triples
of the data, so that solutions are found and meet."""
from functools import lru_cache

from scope import in_scope
from trees import BOOLEAN, INTEGER, Alternative, Bind, Call, Clear, Closure, Create, Filter, Graph, Group, Inverse, Minus, Modify, Negated
from trees import Optional, Sequence, Term, Transfer, Triples, Union, Values, iri, query, var

NODES, PREDICATES, GRAPHS = [iri(item) for item in "abc"], [iri(item) for item in "pq"], [iri(item) for item in "gha"]
BLANKS = [Term("bnode", item) for item in ("b0", "b1")]
INTEGERS = [Term("literal", item, INTEGER) for item in ("1", "01", "+1", "0", "-1", "x")]
BOOLEANS = [Term("literal", item, BOOLEAN) for item in ("true", "1", "false", "0", "x")]
STRINGS = [Term("literal", item) for item in ("", "a", "b", "1")] + [Term("literal", "a", "", item) for item in ("en", "en-gb")]
LITERALS = [*INTEGERS, *BOOLEANS, *STRINGS, Term("literal", "a", "http://e/t"), Term("literal", str(2**127), INTEGER)]
LARGE = [Term("literal", str(item), INTEGER) for item in (2**63 - 1, 2**127 - 1, -(2**127), 2**127)]
KINDS = {
    "integer": (lambda term: term.datatype == INTEGER, INTEGERS + LARGE),
    "boolean": (lambda term: term.datatype == BOOLEAN, BOOLEANS),
    "string": (lambda term: term.kind == "literal" and not term.datatype, STRINGS),
}
"""By the name of a kind, which terms are of it, and constants."""
LANGUAGES = [Term("literal", item) for item in ("en", "EN-GB", "*", "")]
NAMES = "xyzw"
OTHER_NAMES = "st"
"""The variables of some groups in a MINUS or an OPTIONAL, which share none with those outside."""
MOST_QUADS = 12


def random_quads(rng):
    """Returns quads in the order of their file, in which blank nodes are numbered by their first places, as the program numbers them."""
    subjects = rng.sample(NODES + BLANKS, 3)
    # (of three integers the first are equal; so are the first two booleans)
    kinds = [INTEGERS[:2], INTEGERS[:3], INTEGERS[:2], INTEGERS[:3], INTEGERS[:4], INTEGERS[1:], BOOLEANS[:2], BOOLEANS, STRINGS[:3], STRINGS[3:]]
    kin = rng.choice(kinds + [rng.sample(LITERALS, 5)] * 3)
    objects = subjects + 3 * kin + rng.sample(LITERALS, rng.randint(0, 2))
    graphs = [None] * rng.choice((1, 2, 6)) + rng.sample([*GRAPHS, BLANKS[0]], 2)
    draw = lambda: (rng.choice(graphs), rng.choice(subjects), rng.choice(PREDICATES * 3 + NODES[:1]), rng.choice(objects))
    return numbered(dict.fromkeys(draw() for _ in range(max(rng.randint(0, MOST_QUADS) for _ in "ab"))))


def numbered(quads):
    """Returns the quads with blank nodes numbered by their first places in the lines `subject predicate object graph`."""
    places = {}
    for graph, *triple in quads:
        for entry in (*triple, graph):
            if entry and entry.kind == "bnode":
                places.setdefault(entry, Term("bnode", f"b{len(places)}"))
    return [tuple(places.get(item, item) for item in quad) for quad in quads]


@lru_cache(None)
def like(term):
    """Returns the literals of its datatype, some of which have its value."""
    return [literal for literal in LITERALS if literal.kind == term.kind and literal.datatype == term.datatype]


@lru_cache(8)
def in_order(quads):
    """Returns the quads of a set in an order that is the same each time."""
    return sorted(quads, key=str)


class Generator:
    """Makes random trees over a dataset.

    `active` are the triples of the graph in which a pattern is made, and `meant` has a term for each variable that was used: a triple of the graph
    becomes one of a pattern by variables that mean its terms, mostly."""

    def __init__(self, rng, data):
        self.rng, self.names, self.meant, self.labels = rng, NAMES, {}, 0
        self.quads, self.is_loose = in_order(data.quads), self.often(0.5)
        self.active = self.triples_in(None) if not data.is_union else [item[1:] for item in self.quads if item[0]]
        self.terms = [item for quad in self.quads for item in quad[1::2] if item.kind != "bnode"] + NODES + LITERALS

    def often(self, chance):
        return self.rng.random() < chance

    def triples_in(self, graph):
        return [quad[1:] for quad in self.quads if quad[0] == graph]

    def var(self):
        """Returns a variable that was used, mostly."""
        known = sorted(self.meant)
        return var(self.rng.choice(known if known and self.often(0.85) else self.names))

    def var_for(self, term):
        """Returns a variable that means the term, mostly."""
        same, free = [item for item in self.names if self.is_near(self.meant.get(item), term)], [item for item in self.names if item not in self.meant]
        if self.often(0.1) or not same and not free:
            return self.var()
        name = self.rng.choice(same if same and (not free or self.often(0.6)) else free)
        self.meant.setdefault(name, term)
        return var(name)

    def is_near(self, meant, term):
        """Returns whether a variable that means one term will do for the other. In some queries a literal of the same datatype does."""
        return meant == term or self.is_loose and meant in like(term)

    # ---- triples and paths

    def end(self, term, label):
        """Returns a subject or object of a pattern in the place of a term."""
        kind = self.rng.random()
        if kind < 0.78 or term.kind == "bnode" and kind < 0.92:
            return self.var_for(term)
        if kind < 0.83 or term.kind == "bnode":
            return var(label)
        return term if kind < 0.97 else self.rng.choice(self.terms)

    def path(self, verb, depth):
        """Returns a path, which a triple with this predicate often matches."""
        if depth == 0 or self.often(0.2):
            return verb if self.often(0.85) else self.negated()
        kind = self.rng.choice("^|/?*+*+")
        if kind == "^":
            return Inverse(self.path(verb, depth - 1))
        if kind in "|/":
            paths = [self.path(verb, depth - 1), self.path(self.rng.choice(PREDICATES), depth - 1)]
            return (Alternative if kind == "|" else Sequence)(*self.rng.sample(paths, 2))
        return Closure(self.path(verb, depth - 1), kind)

    def negated(self):
        return Negated(*(tuple(self.rng.sample(PREDICATES, self.rng.choice((0, 1, 1, 2)))) for _ in "fi"))

    def path_triple(self, sign):
        """Returns a triple with a path of the form that has this sign (9.1); many of them match a triple of the graph."""
        subject, verb, object = self.rng.choice(self.active or [(NODES[0], PREDICATES[0], self.rng.choice(self.terms))])
        self.labels += 1
        ends = [self.end(term, f"_:n{self.labels}") for term in (subject, object)]
        if sign == "!":
            return ends[0], self.negated(), ends[1]
        part = self.path(verb, 1)
        if sign == "^":
            return ends[1], Inverse(part), ends[0]
        if sign in "|/":
            path = (Alternative if sign == "|" else Sequence)(part, self.path(self.rng.choice(PREDICATES), 1))
        else:
            path = Closure(part, sign)
        return ends[0], path, ends[1]

    def verb(self, term):
        kind = self.rng.random()
        return self.var_for(term) if kind < 0.15 else self.path(term, self.rng.choice((1, 2, 2, 3))) if kind < 0.38 else term

    def triples(self, most=3):
        self.labels += 1
        label = "_:n" if self.often(0.03) else f"_:n{self.labels}"
        made = []
        for _ in range(self.rng.randint(1, self.rng.randint(1, most))):
            meant = {*self.meant.values()}
            is_known = lambda term: term in meant or self.is_loose and not meant.isdisjoint(like(term))
            known = [item for item in self.active if is_known(item[0]) or is_known(item[2])]
            some = known if known and self.often(0.6) else self.active or [(NODES[0], PREDICATES[0], self.rng.choice(self.terms))]
            subject, verb, object = self.rng.choice(some)
            verb = self.verb(verb)
            if not isinstance(verb, Term) and self.often(0.15):
                # (a path of length zero leads from any term to itself)
                subject = self.rng.choice(self.terms)
            made.append((self.end(subject, label), verb, self.end(object, label)))
        return Triples(tuple(made))

    # ---- expressions

    def constant(self):
        return self.rng.choice(self.terms + LITERALS + LARGE)

    def of(self, kind, depth):
        """Returns an expression that has a value of a kind, mostly."""
        if self.often(0.12):
            return self.value(depth)
        if depth > 0 and self.often(0.35):
            return {"integer": self.number, "string": self.string, "boolean": self.condition}[kind](depth - 1)
        fits, constants = KINDS[kind]
        known = [var(name) for name, item in sorted(self.meant.items()) if fits(item)]
        return self.rng.choice(known * 4 + constants)

    def number(self, depth):
        if self.often(0.25):
            return Call("STRLEN", (self.of("string", depth),))
        args = tuple(self.of("integer", depth) for _ in range(1 if self.often(0.2) else 2))
        return Call(self.rng.choice("+-*" if len(args) == 2 else "+-"), args)

    def string(self, depth):
        name = self.rng.choice(("STR", "LANG", "CONCAT", "CONCAT"))
        if name == "STR":
            return Call(name, (self.value(depth),))
        return Call(name, tuple(self.of("string", depth) for _ in range(1 if name == "LANG" else self.rng.randint(0, 3))))

    def value(self, depth):
        """Returns an expression for a term."""
        kind = self.rng.random()
        if depth <= 0 or kind < 0.3:
            return self.var() if self.often(0.75) else self.constant()
        if kind < 0.65:
            return self.rng.choice((self.number, self.string))(depth - 1)
        if kind < 0.75:
            return Call("IF", (self.condition(depth - 1), self.value(depth - 1), self.value(depth - 1)))
        if kind < 0.8:
            return Call("DATATYPE", (self.value(0),))
        if kind < 0.88:
            return Call("COALESCE", tuple(self.value(depth - 1) for _ in range(self.rng.randint(0, 3))))
        return self.condition(depth - 1)

    def condition(self, depth):
        """Returns an expression for a boolean, mostly."""
        rng, kind = self.rng, self.rng.random()
        if depth <= 0 and kind < 0.4 or kind < 0.08:
            return Call("BOUND", (self.var(),)) if self.often(0.4) else self.value(0)
        if kind < 0.5:
            name = rng.choice(("=", "!=", "<", ">", "<=", ">=", "=", "!=", "sameTerm"))
            common = rng.choice(("integer", "integer", "boolean", "string"))
            args = [self.var(), self.value(0)] if self.often(0.3) else [self.of(common, depth - 1) for _ in "xy"]
            return Call(name, tuple(args))
        if kind < 0.68:
            args = [self.condition(depth - 1) for _ in range(rng.choice((1, 2, 2)))]
            return Call("!" if len(args) == 1 else rng.choice(("||", "&&")), tuple(args))
        if kind < 0.76:
            return Call(rng.choice(("IN", "NOT IN")), (self.var(), *(self.value(0) for _ in range(rng.randint(0, 3)))))
        if kind < 0.86:
            return Call(rng.choice(("isIRI", "isURI", "isBlank", "isLiteral", "isNumeric")), (self.value(0),))
        if kind < 0.90:
            return Call("LANGMATCHES", (Call("LANG", (self.of("string", 0),)), rng.choice(LANGUAGES)))
        return Call(rng.choice(("CONTAINS", "STRSTARTS", "STRENDS")), (self.of("string", 1), self.of("string", 0)))

    # ---- groups

    def table(self):
        """Returns inline data, whose rows often have what the variables mean."""
        names = self.rng.sample(self.names, self.rng.choice((0, 1, 1, 1, 1, 2, 2, 2))) if not self.often(0.01) else ["x", "x"]
        meant = {name: [item] * 8 + like(item) for name, item in self.meant.items() if item.kind != "bnode"}
        cell = lambda name: None if self.often(0.2) else self.rng.choice(meant.get(name, []) + self.terms)
        return Values(tuple(map(var, names)), tuple(tuple(map(cell, names)) for _ in range(self.rng.choice((0, 1, 2, 2, 3, 4)))))

    def bind(self):
        name = self.rng.choice(sorted({*"uvw"} - {*self.meant}) or "u") if self.often(0.93) else self.rng.choice(NAMES)
        value = self.value(2)
        self.meant.setdefault(name, self.constant())
        return Bind(value, var(name))

    def graph(self, depth):
        """Returns a GRAPH, mostly of a graph that is stored, with a group that is made over it."""
        stored = [fromkey for fromkey in dict.fromkeys(quad[0] for quad in self.quads) if fromkey]
        graph, active = self.rng.choice(stored or GRAPHS) if self.often(0.85) else self.rng.choice(GRAPHS), self.active
        name = var(self.rng.choice("gggg" + self.names[:1])) if self.often(0.5) or graph.kind == "bnode" else graph
        self.active = self.triples_in(graph)
        # (in a graph that isn't there, what needs no triples has no solution either)
        inner = self.group(depth) if self.active or self.often(0.3) else Group((self.table(), self.bind())[: self.rng.randint(0, 2)])
        self.active = active
        if name.kind == "var" and self.often(0.2):
            # (the variable isn't bound yet where the group's FILTER is evaluated)
            is_bound = Call("BOUND", (name,))
            inner = Group((*inner.elements, Filter(self.rng.choice((is_bound, Call("!", (is_bound,)), Call("=", (name, name)))))))
        return Graph(name, inner)

    def side(self, depth, is_apart):
        """Returns the group of an OPTIONAL or a MINUS, which may have only variables of its own. Often it has a condition, also on a variable
        outside."""
        before, names = self.meant, self.names
        self.names, self.meant = (OTHER_NAMES, {}) if is_apart else (names, dict(before))
        inner = self.group(depth)
        self.meant = {**self.meant, **before}
        outside = sorted({*before} - in_scope(inner))
        more = [self.link(self.rng.choice(outside))] if outside and self.often(0.75) else [self.condition(2)] if self.often(0.3) else []
        self.names = names
        return Group(inner.elements + tuple(map(Filter, more)))

    def link(self, name):
        """Returns a condition on a variable, which is true for what it means, mostly."""
        meant, call = self.meant[name], self.rng.choice(("BOUND", "BOUND", "=", "=", "=", "!=", "<=", ">", "||"))
        if call == "||":
            return Call("||", (self.condition(1), self.link(name)))
        other = self.var() if meant.kind == "bnode" or call != "=" or self.often(0.2) else meant
        return Call(call, (var(name),) if call == "BOUND" else (var(name), other))

    def element(self, depth):
        flat = (("triples", 8), ("filter", 4), ("bind", 3), ("table", 3))
        nested = (("optional", 8), ("minus", 5), ("union", 4), ("graph", 5), ("group", 3)) if depth else ()
        kind = self.rng.choices(*zip(*flat, *nested))[0]
        if kind in ("optional", "minus"):
            return Optional(self.side(depth - 1, self.often(0.1))) if kind == "optional" else Minus(self.side(depth - 1, self.often(0.5)))
        if kind == "union":
            return Union(tuple(self.group(depth - 1) for _ in range(self.rng.choice((2, 2, 3)))))
        if kind == "filter":
            return Filter(self.condition(3))
        return {"graph": self.graph, "group": self.group}[kind](depth - 1) if kind in ("graph", "group") else getattr(self, kind)()

    def group(self, depth):
        """Returns a group, which mostly begins with triples."""
        first = [self.graph(depth - 1) if depth and (not self.active or self.often(0.1)) else self.triples()] if self.often(0.85) else []
        return Group((*first, *(self.element(depth) for _ in range(self.rng.choice((0, 1, 1, 2, 3) if depth else (0, 0, 0, 1, 1))))))

    # ---- queries

    def last(self, where):
        """Returns what stands at the end of a WHERE, where most of it is seen in the answer."""
        if self.often(0.2):
            yield Minus(self.side(0, self.often(0.6))) if self.often(0.5) else Optional(self.side(0, False))
        if self.often(0.25) and "u" not in in_scope(where):
            yield Bind(self.value(3), var("u"))
        if self.often(0.2):
            yield Filter(self.condition(3))

    def modifiers(self):
        literals = [name for name, item in sorted(self.meant.items()) if item.kind == "literal"]
        key = lambda: self.value(2) if self.often(0.25) else var(self.rng.choice(literals)) if literals and self.often(0.6) else self.var()
        order = tuple((key(), self.often(0.4)) for _ in range(self.rng.choice((0, 0, 1, 1, 2))))
        limit = self.rng.choice((None, None, None, None, None, None, 0, 1, 2, 2, 5, 5))
        offset, values = self.rng.choice((0, 0, 0, 0, 0, 1, 1, 3)), self.table() if self.often(0.08) else None
        return {"order": order, "limit": limit, "offset": offset, "values": values}

    def items(self, where):
        if self.often(0.5):
            return None
        names = sorted(in_scope(where)) * 3 + [*NAMES, "g"]
        items = [var(self.rng.choice(names)) for _ in range(self.rng.randint(1, 4))]
        for name in "ij" if self.often(0.5) else "":
            items.insert(self.rng.randint(0, len(items)), (self.value(2), var(name)))
        return tuple(items)

    def template(self):
        """Returns the triples of a CONSTRUCT, some of which are unlawful or have a blank node."""
        word = lambda others: self.var() if self.often(0.7) else self.rng.choice(others)
        make = lambda: (word([*NODES, var("_:t"), var("_:s")]), word(PREDICATES * 3), word([*NODES, var("_:t"), *LITERALS[:3]]))
        return tuple(make() for _ in range(self.rng.choice((1, 1, 2, 3))))

    def query(self):
        if self.often(0.02):
            triples = tuple(triple for triple in self.triples().triples if isinstance(triple[1], Term))
            return query("CONSTRUCT", triples, Group((Triples(triples),)), **self.modifiers())
        where, kind = self.group(self.rng.choice((0, 1, 1, 2, 2, 3))), self.rng.random()
        where = Group((*where.elements, *self.last(where)))
        if kind < 0.08:
            return query("ASK", None, where, **self.modifiers())
        if kind < 0.18:
            return query("CONSTRUCT", self.template(), where, **self.modifiers())
        return query("SELECT", self.items(where), where, distinct=self.rng.choice(("", "", "", "DISTINCT", "REDUCED")), **self.modifiers())

    # ---- updates

    def block(self, word, graphs):
        """Returns a template of quads, whose graphs are among these."""
        make = lambda: (self.rng.choice(graphs), word(NODES * 2), word(PREDICATES), word(NODES + LITERALS))
        return tuple(make() for _ in range(self.rng.choice((1, 1, 2, 3))))

    def data_block(self, labels):
        """Returns quads without variables, of which some are stored."""
        self.labels += 1
        fresh = [var(f"_:{label}{self.labels if self.often(0.95) else ''}") for label in labels] + [var("x")] * self.often(0.03)
        word = lambda others: self.rng.choice(others if others == PREDICATES else [*others, *fresh])
        stored = [quad for quad in self.quads if not any(term and term.kind == "bnode" for term in quad)]
        return self.block(word, [None, None, *GRAPHS]) + tuple(self.rng.sample(stored, min(len(stored), self.rng.choice((0, 1, 1, 2)))))

    def modify(self):
        """Returns a DELETE/INSERT with a pattern."""
        graph, active = self.rng.choice((None, None, *GRAPHS)), self.active
        self.active = self.triples_in(graph) if graph else active
        where = self.group(self.rng.choice((0, 1, 1, 2)))
        self.active = active
        word = lambda others: self.var() if self.often(0.75) else self.rng.choice(others)
        gone = lambda others: var("_:t") if others != PREDICATES and self.often(0.01) else word(others)
        fresh = lambda others: word(others if others == PREDICATES else [*others, var("_:t"), var("_:s")])
        graphs = [None, None, None, *GRAPHS[:2], var(self.rng.choice("gx"))]
        form = self.rng.choice(("DELETE", "INSERT", "both"))
        delete, insert = (self.block(item, graphs) if form in (name, "both") else None for name, item in (("DELETE", gone), ("INSERT", fresh)))
        return Modify("MODIFY", graph, delete, insert, where)

    def delete_where(self):
        """Returns a DELETE WHERE, which has no paths and no blank nodes."""
        quads = self.rng.sample(self.quads, min(len(self.quads), self.rng.choice((1, 1, 2))))
        end = lambda term: self.var_for(term) if term.kind == "bnode" or self.often(0.7) else term
        made = tuple((graph and end(graph), end(subject), verb, end(object)) for graph, subject, verb, object in quads)
        return Modify("DELETE WHERE", None, made, None, None)

    def operation(self):
        kind = self.rng.choices(("insert", "delete", "where", "modify", "clear", "create", "transfer"), (4, 3, 3, 10, 2, 1, 3))[0]
        graph, silent = self.rng.choice(GRAPHS), self.often(0.5)
        if kind in ("insert", "delete"):
            quads = self.data_block("ab" if kind == "insert" else "")
            return Modify("INSERT DATA", None, None, quads, None) if kind == "insert" else Modify("DELETE DATA", None, quads, None, None)
        if kind == "clear":
            return Clear(self.rng.choice(("CLEAR", "DROP")), self.rng.choice(("DEFAULT", "NAMED", "ALL", graph, graph, graph)), silent)
        if kind == "create":
            return Create(graph, silent)
        if kind == "transfer":
            ends = [self.rng.choice((None, *GRAPHS)) for _ in "st"]
            return Transfer(self.rng.choice(("ADD", "COPY", "MOVE")), *ends, silent)
        return self.modify() if kind == "modify" else self.delete_where()

    def update(self):
        return tuple(self.operation() for _ in range(self.rng.choice((1, 1, 1, 1, 2, 3))))
