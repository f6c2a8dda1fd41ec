"""Requests of all forms of queries and updates: random trees over quads, each with what is due by the model."""
import itertools
from collections import Counter
from dataclasses import is_dataclass, replace
from operator import is_

from connection import Connection
from due import Exactly, Lawful, Meaning, Solutions, Statements, carried, dataset_of
from generated import Generator
from generated import random_quads as few_quads
from http_client import NTRIPLES, RESULTS, fault, reply
from json_results import boolean_text
from messages import Request, sound
from model import Refused, TooLarge, ask, bound_joins, construct, select
from scope import breaks_scope, labels
from texts import random_quads
from trees import Alternative, Bind, Call, Clear, Closure, Filter, Graph, Group, Inverse, Minus, Modify, Negated, Optional, Query, Sequence, Term
from trees import Triples, Union, Values, iri, is_hidden, query, text_of, update_text, var

FEW, MANY = 4_000, 60_000
"""How many pairs of solutions a join of the model may look at: of requests that are made, and of replies that are looked at, since updates may
have had another order than they were made in."""
MOST_QUADS = 50
"""How many quads an update may leave, in the order in which the requests were made."""


# ---- what is due


def answer(tree, quads):
    """Returns the reply that is due for a query: any where the model can't say in time."""
    if breaks_scope(tree):
        return Exactly(fault("F5 scope"))
    data = dataset_of(quads)
    try:
        if tree.form == "ASK":
            return Exactly(reply(200, RESULTS, boolean_text(ask(tree, data))))
        return Statements(NTRIPLES, construct(tree, data)) if tree.form == "CONSTRUCT" else Solutions(*select(tree, data))
    except TooLarge:
        return Lawful()


def query_meaning(tree):
    return Meaning(lambda quads: (answer(tree, quads), quads), has_fronts=tree.form == "ASK")


def update_meaning(tree, name):
    """Returns what an update means, whose blank nodes have names that begin with this one."""

    def due(quads):
        if breaks_scope(tree):
            return Exactly(fault("F5 scope")), quads
        try:
            return Exactly(reply(204)), carried(tree, quads, name)
        except Refused as error:
            return Exactly(fault(str(error))), quads

    return Meaning(due, writes=True, has_fronts=True)


# ---- queries that tell whether a form is evaluated as it should be


def changed(tree, change):
    """Returns a tree with each of its nodes as the call has it; one that is None is left out of its tuple. What stays as it is isn't copied."""
    if isinstance(tree, Term):
        return tree
    if isinstance(tree, tuple):
        new = [changed(part, change) for part in tree]
        is_same = all(map(is_, new, tree))
        return tree if is_same else tuple(new for new, old in zip(new, tree) if new is not None or old is None)
    if not is_dataclass(tree):
        return tree
    old = vars(tree)
    new = {name: changed(part, change) for name, part in old.items()}
    return change(tree if all(map(is_, new.values(), old.values())) else type(tree)(**new))


def kinds_of(tree):
    """Yields the kinds of a tree's nodes, each as often as there are such nodes."""
    if isinstance(tree, tuple) and not isinstance(tree, Term):
        for part in tree:
            yield from kinds_of(part)
    elif is_dataclass(tree):
        yield type(tree)
        yield from kinds_of(tuple(vars(tree).values()))


def left_out(kind):
    return of_kind(kind, lambda value: None)


def of_kind(kind, call):
    return kind, lambda value: call(value) if isinstance(value, kind) else value


MINUS = left_out(Minus)
DISTINCT = of_kind(Query, lambda value: replace(value, distinct=""))
NEW_LABELS = of_kind(
    Query, lambda value: replace(value, items=tuple((iri("a") if is_label(s) else s, v, o) for s, v, o in value.items)) if made(value) else value
)
SIGNS = {
    of_kind(Closure, lambda value: Closure(value.path, "?")): "*",
    of_kind(Closure, lambda value: Closure(value.path, "+")): "*",
    of_kind(Negated, lambda value: Negated(value.forward, ())): "!",
    of_kind(Inverse, lambda value: value.path): "^",
    of_kind(Alternative, lambda value: value.second): "|",
    of_kind(Sequence, lambda value: value.second): "/",
}
"""The changes of paths, each with the sign of a path that it changes."""
CHANGES = [
    MINUS,
    *map(left_out, (Optional, Filter, Bind, Values)),
    of_kind(Union, lambda value: Union(value.groups[:1])),
    of_kind(Values, lambda value: Values(value.names, value.rows[:1])),
    of_kind(Graph, lambda value: value.group),
    *SIGNS,
    of_kind(Query, lambda value: replace(value, order=tuple((key, not is_down) for key, is_down in value.order))),
    DISTINCT,
    of_kind(Query, lambda value: replace(value, offset=0, limit=None)),
    of_kind(Triples, lambda value: Triples(tuple((s, v, iri("a") if is_label(o) else o) for s, v, o in value.triples))),
    NEW_LABELS,
]
"""What a tree becomes where a form is left out or is another one, each with the kind of node that it changes. A query whose answer isn't the same
then tells something of that form."""
TREES, FORMS = 8, 4
"""How many queries are made at most to find one that tells something of a form, and of how many of its forms each is tried."""


def is_label(term):
    return isinstance(term, Term) and term.kind == "var" and is_hidden(term.text)


def made(tree):
    """Returns whether a query makes statements with blank nodes."""
    return tree.form == "CONSTRUCT" and labels(tree.items)


def said(due):
    """Returns an answer's list of solutions or its statements, as values to compare."""
    if isinstance(due, Solutions):
        return due.names, [sorted(map(sorted, tied)) for tied in due.lists.classes], due.lists.offset, due.lists.limit
    return [sorted(item, key=str) for item in due.sets] if isinstance(due, Statements) else getattr(due, "due", None)


def answered(tree, quads):
    """Returns what the answer of a query says, or None where it has none, or the model can't say in time."""
    due = None if breaks_scope(tree) else answer(tree, quads)
    return None if isinstance(due, Lawful) else said(due)


def told_by(tree, quads, changes):
    """Returns the first of these changes with which a query has another answer, or None."""
    own = answered(tree, quads)
    for change in changes if own is not None else ():
        other = changed(tree, change[1])
        if other != tree and not breaks_scope(other) and own != said(answer(other, quads)):
            return change
    return None


# ---- random requests


def first_quads(rng):
    """Returns quads for the beginning, some of which have blank nodes."""
    named = lambda value: Term("bnode", "f" + value.text) if value and value.kind == "bnode" else value
    return frozenset(random_quads(rng, 12)) | {tuple(map(named, quad)) for quad in few_quads(rng)}


class Forms:
    """Makes the sound requests of a round: most of them of all forms, over the quads that are stored if they are carried out in this order."""

    def __init__(self, rng, quads, is_union):
        self.rng, self.quads, self.is_union, self.number, self.told = rng, quads, is_union, 0, Counter()
        bound_joins(FEW)

    def sound(self, rng):
        """Returns what a sound request is called, the request, and what it means."""
        if rng.random() < 0.3:
            return sound(rng)
        return self.update() if rng.random() < 0.3 else self.query()

    def generator(self):
        return Generator(self.rng, dataset_of(self.quads))

    def query(self):
        """Most queries tell something of a form: of those that a tree has, one of which few queries have told so far."""
        for left in itertools.count(TREES, -1):
            tree = self.tree(self.few(CHANGES)[0])
            kinds = {*kinds_of(tree)}
            told = told_by(tree, self.quads, self.few(change for change in CHANGES if change[0] in kinds)[:FORMS])
            if told is not None:
                self.told[told] += 1
            if told is not None or left <= 1 and not isinstance(answer(tree, self.quads), Lawful):
                return "a query of all forms", Request(self.rng, "query", text_of(tree)), query_meaning(tree)

    def few(self, changes):
        """Returns the changes, first those of which the fewest queries have told so far."""
        return sorted(changes, key=lambda change: (self.told[change], self.rng.random()))

    def tree(self, change):
        """Returns a query that has the form of a change more often than most: a MINUS at its end, since most take away nothing; a path of the form in
        front; DISTINCT; a CONSTRUCT for blank nodes that are made."""
        generator = self.generator()
        tree = generator.query()
        if change in SIGNS:
            tree = replace(tree, where=Group((Triples((generator.path_triple(SIGNS[change]),)), *tree.where.elements)))
        if change == DISTINCT and tree.form == "SELECT":
            tree = replace(tree, distinct="DISTINCT")
        if change == MINUS:
            tree = replace(tree, where=Group((*tree.where.elements, Minus(generator.side(0, self.rng.random() < 0.3)))))
        if change == NEW_LABELS and tree.form == "SELECT":
            tree = replace(tree, form="CONSTRUCT", items=(*generator.template(), (var("_:t"), iri("p"), generator.var())), distinct="")
        return tree

    def update(self):
        while True:
            tree = self.generator().update()
            self.number += 1
            meaning = update_meaning(tree, f"u{self.number}")
            try:
                _, after = meaning.due(self.quads)
            except TooLarge:
                continue
            if len(after) <= MOST_QUADS:
                self.quads = after
                return "an update of all forms", Request(self.rng, "update", update_text(tree)), meaning

    def renewal(self):
        """Returns the connection of an update that puts other quads in the place of all."""
        self.number += 1
        # (no graph's name is a blank node in a text: 19.8, rule 52)
        quads = sorted((quad for quad in first_quads(self.rng) if not quad[0] or quad[0].kind == "uri"), key=str)
        self.quads = frozenset(quads)
        labelled = lambda value: var("_:" + value.text) if value and value.kind == "bnode" else value
        tree = Clear("CLEAR", "ALL", False), Modify("INSERT DATA", None, None, tuple(tuple(map(labelled, quad)) for quad in quads), None)
        connection = Connection(
            "an update of all quads",
            Request(self.rng, "update", update_text(tree)).written(),
            update_meaning(tree, f"u{self.number}"),
        )
        connection.is_renewal = True
        return connection


# ---- large replies

BIG = [(iri("big"), iri(str(at)), iri("p"), Term("literal", f"{at:03}-" * 100_000)) for at in range(25)]
"""Quads of 10 MB, which no update of their round changes."""


def big_trees():
    """Returns queries of all forms whose answers have up to 10 MB."""
    g, s, o, n = map(var, "gson")
    inside = lambda verb: Group((Triples(((s, verb, o),)),))
    named = lambda name: Group((Triples(((iri(name), iri("p"), o),)),))
    whole = Graph(g, inside(iri("p")))
    where = lambda *more: Group((whole, *more))
    length = Call("STRLEN", (o,))
    is_late = Call(">=", (o, Term("literal", "012")))
    names = Values((s,), tuple((iri(str(at)),) for at in (3, 7, 7, 24)))
    return [
        query("SELECT", None, where()),
        query("SELECT", (o, s), where(), order=((s, True),)),
        query("SELECT", (o,), where(), order=((o, True),), offset=3, limit=20),
        query("SELECT", (o,), Group((Union((where(), where())),)), distinct="DISTINCT"),
        query("SELECT", (s, o, n), where(Optional(Group((Triples(((s, iri("none"), n),)),))), Filter(is_late))),
        query("SELECT", (o, n), where(Bind(length, n))),
        query("SELECT", (o,), where(Minus(Group((Graph(g, named("7")),))))),
        query("SELECT", (s, o), where(names)),
        query("SELECT", (s, o), Group((Graph(g, inside(Sequence(iri("p"), Closure(iri("none"), "?")))),))),
        query("CONSTRUCT", ((s, iri("q"), o),), where()),
        query("CONSTRUCT", ((var("_:t"), iri("of"), o), (var("_:t"), iri("in"), s)), where(Filter(is_late))),
    ]


def big_queries(rng):
    """Returns connections of queries with large replies."""
    return [Connection("a large query", Request(rng, "query", text_of(item)).written(), query_meaning(item)) for item in big_trees()]
