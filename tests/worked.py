"""Worked cases for the model: datasets, trees and answers, each worked out by hand from the standard's text, or taken from its test suites.

Terms are in short (`notation.py`); besides, ?x is a variable, and _:b0 is in data a blank node, and in patterns one with a label. A row is
`x=:a y=5`. What follows a name in brackets is where it comes from.
"""
from itertools import permutations

from answers import allows, are_same
from model import Dataset, Lists, ask, construct, ordered, select, updated
from notation import term
from scope import breaks_scope
from trees import Alternative, Bind, Call, Clear, Closure, Create, Filter, Graph, Group, Inverse, Minus, Modify, Negated
from trees import Optional, Sequence, Term, Transfer, Triples, Union, Values, iri, lines_of, query, var


def word(text):
    """Returns the term of a word in short."""
    if text[0] in "?_":
        return var(text[1:] if text[0] == "?" else text)
    return term(text)


def words(text):
    return tuple(map(word, text.split()))


def quads(text):
    """Returns the quads of lines `subject predicate object graph`, of which the last may be missing."""
    rows = [[Term("bnode", item.text[2:]) if item.kind == "var" else item for item in words(line)] for line in text.split(" . ") if line]
    return [(row[3] if len(row) > 3 else None, *row[:3]) for row in rows]


def t(text):
    """Returns the triples of a text."""
    return Triples(tuple(map(words, text.split(" . "))))


def block(text):
    """Returns a template of quads, without graphs."""
    return tuple((None, *triple) for triple in t(text).triples)


def path(subject, verb, object):
    return Triples(((word(subject), verb, word(object)),))


def g(*elements):
    return Group(elements)


def call(name, *args):
    return Call(name, tuple(word(arg) if isinstance(arg, str) else arg for arg in args))


def where(condition):
    return Filter(condition)


def star(*elements, **more):
    return query("SELECT", None, g(*elements), **more)


def pick(names, *elements, **more):
    return query("SELECT", words(names), g(*elements), **more)


def computed(expression):
    """The query of an expression's value: `SELECT (EXPRESSION AS ?v) {}`."""
    return query("SELECT", ((expression, var("v")),), g())


def construction(template, *elements):
    return query("CONSTRUCT", t(template).triples, g(*elements))


def graph(name, *elements):
    return Graph(word(name), g(*elements))


def table(names, *rows):
    return Values(words(names), tuple(tuple(None if part == "UNDEF" else word(part) for part in row.split()) for row in rows))


def modify(delete, insert, *elements, graph=None):
    return [Modify("MODIFY", graph and word(graph), delete and block(delete), insert and block(insert), g(*elements))]


def by(expression, is_down=False):
    return ((word(expression) if isinstance(expression, str) else expression, is_down),)


P, Q = iri("p"), iri("q")
BIG, MOST = "9223372036854775807", str(2**127 - 1)
NODES = ":a :p :b . :a :p :c"
TWO = ":a :p :b . :c :q :d"
OPTIONALS = ":x1 :p 1 . :x2 :p 2 . :x3 :q 3 . :x3 :q 4"
CLIQUE = " . ".join(f":A{a} :P :A{b}" for a, b in permutations(range(3), 2))
ORDERS = " . ".join(f":r{at} :k :k" for at in range(1, 7)) + ' . :r2 :v _:b0 . :r3 :v :i . :r4 :v 10 . :r5 :v 9 . :r6 :v "10"'
GRAPHS = ":a :p :b :g . :a :p :b :h . :c :p :d"
BY_V = (t("?s :k :k"), Optional(g(t("?s :v ?v"))))
COMPUTED = [
    ("IN finds a value behind an error (17.4.1.9)", call("IN", "1", "2", '"a"', "1"), "v=true"),
    ("IN errs where no value is equal (17.4.1.9)", call("IN", "1", "2", '"a"'), ""),
    ("IN () is false (17.4.1.9)", call("IN", "?z"), "v=false"),
    ("= goes by value (17.3)", call("=", '"01"^^xsd:integer', "1"), "v=true"),
    ("sameTerm goes by form (17.4.1.8)", call("sameTerm", '"01"^^xsd:integer', "1"), "v=false"),
    ("! of an ill-formed integer (17.2.2)", call("!", '"abc"^^xsd:integer'), "v=true"),
    ("LANGMATCHES looks over case (17.4.3.13)", call("LANGMATCHES", '"en-us"', '"EN"'), "v=true"),
    ("STRLEN counts characters (17.4.3.2)", call("STRLEN", '"é"'), "v=1"),
    ("CONCAT keeps a tag that all have (17.4.3.12)", call("CONCAT", '"a"@en', '"b"@en'), 'v="ab"@en'),
    ("IF of the empty string (17.4.1.2)", call("IF", '""', "1", "2"), "v=2"),
    ("1 - 6 (17.3)", call("-", "1", call("*", "2", "3")), "v=-5"),
    ("a sum of 64 bits and more (own)", call("+", BIG, "1"), "v=9223372036854775808"),
    ("a sum of more than 128 bits (own)", call("+", MOST, "1"), ""),
    ("true || error (17.2)", call("||", "true", "?z"), "v=true"),
    ("error && false (17.2)", call("&&", "?z", "false"), "v=false"),
    ("error || false (17.2)", call("||", "?z", "false"), ""),
    ("other literals aren't comparable (17.4.1.7)", call("=", '"a"@en', '"b"@en'), ""),
    ("an IRI isn't a literal (17.4.1.7)", call("!=", ":a", '"a"'), "v=true"),
    ("COALESCE passes over errors (17.4.1.3)", call("COALESCE", "?z", call("+", "1", '"a"'), "2"), "v=2"),
]
"""Expressions, and the one solution that they give: empty for an error."""
ROWS = [
    ("the empty group (18.2.2.6)", "", star(), [""]),
    ("no such graph (18.6)", "", star(graph(":g")), []),
    ("a blank node counts (18.3.1)", NODES, pick("?x", t("?x :p _:n")), ["x=:a", "x=:a"]),
    ("DISTINCT (18.2.5)", NODES, pick("?x", t("?x :p _:n"), distinct="DISTINCT"), ["x=:a"]),
    ("MINUS shares no variable (8.3.1)", TWO, star(t("?x :p ?y"), Minus(g(t("?z :p ?w")))), ["x=:a y=:b"]),
    ("MINUS shares none that is bound (8.3.1)", TWO, pick("?x", t("?x :p ?y"), Optional(g(t("?x :q ?z"))), Minus(g(t("?w :q ?z")))), ["x=:a"]),
    ("zero steps aren't from what VALUES has (18.4)", ":a :p :b", star(table("?x", ":none"), path("?x", Closure(P, "*"), "?y")), []),
    ("zero steps from a term (18.4)", ":a :p :b", star(path(":none", Closure(P, "*"), "?y")), ["y=:none"]),
    ("a cycle (18.4)", ":a :p :b . :b :p :a", star(path("?x", Closure(P, "+"), "?y")), ["x=:a y=:a", "x=:a y=:b", "x=:b y=:a", "x=:b y=:b"]),
    ("OPTIONAL's condition sees the left (18.2.2.6)", ":a :p 1 . :a :q :b",
     star(t("?x :p ?v"), Optional(g(t("?x :q ?w"), where(call("=", "?v", "1"))))), ["x=:a v=1 w=:b"]),
    ("a group in OPTIONAL doesn't (18.2.2.6)", ":a :p 1 . :a :q :b",
     star(t("?x :p ?v"), Optional(g(g(t("?x :q ?w"), where(call("=", "?v", "1")))))), ["x=:a v=1"]),
    ("an error in || (17.2)", ":a :p :n . :a :q :m . :b :p :n",
     pick("?s", t("?s :p ?x"), Optional(g(t("?s :q ?y"))), where(call("||", call("<", "?x", "5"), call("BOUND", "?y")))), ["s=:a"]),
    ("an error in BIND (10.1)", "", star(Bind(call("+", MOST, "1"), var("v"))), [""]),
    ("an error in FILTER (17.2)", "", star(where(call(">", call("+", MOST, "1"), "0"))), []),
    ("GRAPH binds its variable (13.3)", ":a :p :b :g", star(graph("?g", t("?x :p ?y"))), ["g=:g x=:a y=:b"]),
    ("GRAPH binds it after FILTER (18.6)", ":a :p :b :g", star(graph("?g", t("?x :p ?y"), where(call("BOUND", "?g")))), []),
    ("named graphs aren't the default graph (13.1)", ":a :p :b :g", star(t("?x :p ?y")), []),
    ("UNDEF joins with all (10.2)", ":a :p :b", star(table("?x ?y", ":a UNDEF", "UNDEF :b"), t("?x :p ?y")), ["x=:a y=:b"] * 2),
    ("UNION adds counts (18.5)", ":a :p :b", star(Union((g(t("?x :p ?y")), g(t("?x ?z :b"))))), ["x=:a y=:b", "x=:a z=:p"]),
    ("a negated set with both parts (9.1)", ":a :p :b . :b :q :a", star(path(":a", Negated((P,), (P,)), "?y")), ["y=:b"]),
    ("| adds counts (18.4)", ":a :p :b . :b :q :a", star(path(":a", Alternative(P, Inverse(Q)), "?y")), ["y=:b"] * 2),
    ("? between one variable (18.4)", ":a :p :b . :b :q :a", star(path("?x", Closure(Sequence(P, Q), "?"), "?x")), ["x=:a", "x=:b"]),
    ("a closure in a closure (18.4)", ":a :p :b . :b :q :a", star(path(":a", Closure(Closure(Alternative(P, Q), "*"), "*"), "?y")), ["y=:a", "y=:b"]),
    ("the suite's pp37", CLIQUE, star(path(":A0", Closure(Closure(iri("P"), "*"), "*"), "?X")), ["X=:A0", "X=:A1", "X=:A2"]),
    ("the suite's pp31", ":a :p1 :b . :b :p4 :c . :a :p2 :d . :d :p3 :c . :a :p1 :e",
     star(path(":a", Sequence(Alternative(iri("p1"), iri("p2")), Alternative(iri("p3"), iri("p4"))), "?t")), ["t=:c"] * 2),
    ("the suite's bind10", ":s4 :p 4", star(Bind(word("4"), var("z")), g(t("?s :p ?v"), where(call("=", "?v", "?z")))), []),
    ("the suite's nested-opt-2", OPTIONALS,
     star(t(":x1 :p ?v"), Optional(g(t(":x3 :q ?w"))), Optional(g(t(":x3 :q ?w . :x2 :p ?v")))), ["v=1 w=4", "v=1 w=3"]),
    ("the suite's opt-filter-2", OPTIONALS,
     star(t("?x :p ?v"), Optional(g(t("?y :q ?w"), where(call("=", "?v", "2")), where(call("=", "?w", "3"))))), ["x=:x2 v=2 y=:x3 w=3", "x=:x1 v=1"]),
    ("a join goes by terms (18.3)", ':a :p 1 . :b :q "01"^^xsd:integer', star(t("?x :p ?v . ?y :q ?v")), []),
    ("a variable that OPTIONAL leaves unbound (18.5)", ":a :p :b . :c :p :d . :a :q 7",
     star(t("?x :p ?y"), Optional(g(t("?x :q ?v"))), where(call("!", call("BOUND", "?v")))), ["x=:c y=:d"]),
    ("an inner OPTIONAL is evaluated by itself (18.6)", ":b :p :z . :c :q :b",
     star(table("?x", ":a"), g(t("?y :p ?z"), Optional(g(t("?x :q ?y"))))), []),
    ("a trailing VALUES (10.2.2)", NODES, pick("?y", t("?x :p ?y"), values=table("?y", ":c")), ["y=:c"]),
]  # fmt: skip
"""Datasets, queries, and the bags of their solutions."""
ORDERED = [
    ("kinds of terms (15.1)", ORDERS, pick("?s", *BY_V, order=by("?v")),
     "s=:r1 s=:r2 s=:r3 s=:r5 s=:r4 s=:r6", "s=:r1 s=:r2 s=:r3 s=:r4 s=:r5 s=:r6"),
    ("DESC (15.1)", ORDERS, pick("?s", *BY_V, order=by("?v", True)), "s=:r6 s=:r4 s=:r5 s=:r3 s=:r2 s=:r1", "s=:r1 s=:r2 s=:r3 s=:r5 s=:r4 s=:r6"),
    ("DISTINCT before the slice (18.2.5)", "",
     pick("?x", table("?x ?y", "1 1", "2 2", "1 3", "3 4"), distinct="DISTINCT", order=by("?y"), limit=2, offset=1),
     "x=2 x=3", "x=2 x=1"),
    ("LIMIT 0 (15.5)", "", pick("?x", table("?x", "1"), limit=0), "", "x=1"),
    ("ties are free (15.1)", "", pick("?x", table("?x", "1", "01"), order=by("?x")), "x=01 x=1", "x=1 x=1"),
    ("any two of three (15.5)", "", pick("?x", table("?x", "1", "2", "3"), limit=2), "x=3 x=1", "x=3 x=3"),
    ("no more than there are (15.4)", "", pick("?x", table("?x", "1", "2", "3"), offset=1), "x=3 x=1", "x=3"),
]
"""Datasets, queries, a list that is an answer, and one that isn't; in each solution one variable is bound."""
UNIONS = [
    ("the union of named graphs, each triple once (13.1)", GRAPHS, star(t("?x :p ?y")), ["x=:a y=:b"]),
    ("GRAPH in it (13.3)", GRAPHS, pick("?x", graph("?g", t("?x :p ?y"))), ["x=:a"] * 2),
    ("its nodes (18.4)", GRAPHS, star(path("?x", Closure(P, "*"), "?y")), ["x=:a y=:a", "x=:a y=:b", "x=:b y=:b"]),
]
CONSTRUCTS = [
    ("a literal is no subject (16.2)", ":a :p :b . :a :p 1", construction("?o :q ?s", t("?s :p ?o")), ":b :q :a"),
    ("a blank node for each solution (16.2.1)", "_:b0 :p :b", construction("_:m :q ?s", t("?s :p ?o")), "_:n0m :q _:b0"),
    ("a variable that isn't bound (16.2)", ":a :p :b", construction("?s :q ?z . ?s :r :c", t("?s :p ?o")), ":a :r :c"),
]
"""Datasets, queries and the triples due, where the template's _:m is _:n0m for the first solution."""
UPDATES = [
    ("what is deleted may be inserted (3.1.3)", ":a :p :b", modify("?s ?p ?o", "?s ?p ?o", t("?s ?p ?o")), ":a :p :b"),
    ("WITH (3.1.3)", ":a :p :b . :a :p :b :g", modify("?s :p ?o", None, t("?s :p ?o"), graph=":g"), ":a :p :b"),
    ("MOVE (3.2.4)", ":a :p :b . :c :p :d :g", [Transfer("MOVE", None, iri("g"), False)], ":a :p :b :g"),
    ("COPY (3.2.3)", ":a :p :b . :c :p :d :g", [Transfer("COPY", iri("g"), None, False)], ":c :p :d . :c :p :d :g"),
    ("ADD (3.2.5)", ":a :p :b . :c :p :d :g", [Transfer("ADD", iri("g"), None, False)], ":a :p :b . :c :p :d . :c :p :d :g"),
    ("a silent COPY of no graph (3.2.3)", ":a :p :b", [Transfer("COPY", iri("none"), None, True)], ":a :p :b"),
    ("CLEAR NAMED (3.1.5)", GRAPHS, [Clear("CLEAR", "NAMED", False)], ":c :p :d"),
    ("DELETE WHERE (3.1.3.3)", NODES, [Modify("DELETE WHERE", None, block("?x :p :b"), None, None)], ":a :p :c"),
    ("a later operation sees an earlier one (2.2)", "", [
        Modify("INSERT DATA", None, None, block(":a :p :b"), None), *modify(None, "?o :p ?s", t("?s :p ?o"))], ":a :p :b . :b :p :a"),
    ("CREATE of a graph that is there (3.2.1)", GRAPHS, [Create(iri("g"), True)], GRAPHS),
]  # fmt: skip
"""Datasets, operations and the datasets after them."""
SCOPE = [
    ("BIND of a variable in scope (18.2.1)", star(t("?x :p ?y"), Bind(word("1"), var("y"))), True),
    ("BIND of a variable of a later part (18.2.1)", star(Bind(word("1"), var("y")), t("?x :p ?y")), False),
    ("a variable of FILTER alone (18.2.1)", star(where(call("BOUND", "?y")), Bind(word("1"), var("y"))), False),
    ("a variable of MINUS alone (18.2.1)", star(Minus(g(t("?x :p ?y"))), Bind(word("1"), var("y"))), False),
    ("AS of a variable in scope (18.2.1)", query("SELECT", ((word("1"), var("x")),), g(t("?x :p ?y"))), True),
    ("a label in two patterns (5.1.1)", star(t("_:a :p ?x"), Optional(g(t("_:a :q ?y")))), True),
    ("a blank node in DELETE DATA (Update 3.1.2)", (Modify("DELETE DATA", None, block("_:x :p :b"), None, None),), True),
    ("a variable in INSERT DATA (Update 3.1.1)", (Modify("INSERT DATA", None, None, block("?x :p :b"), None),), True),
    ("a label in two INSERT DATA (19.6)", (Modify("INSERT DATA", None, None, block("_:x :p :b"), None),) * 2, True),
    ("a label in two WHEREs (5.1.1)", (*modify(None, ":a :q ?x", t("_:x :p ?x")), *modify(None, ":a :r ?x", t("_:x :p ?x"))), True),
    ("a label in a template and in WHERE (16.2.1)", tuple(modify(None, "_:x :q ?x", t("_:x :p ?x"))), False),
    ("a label before and after a FILTER (5.1.1)", star(t("_:a :p ?x"), where(word("true")), t("_:a :q ?y")), False),
]
"""Queries and updates, and whether they break a rule of scope."""


SAME = [
    ("other names", "_:a :p _:b . _:b :p :c", "_:y :p :c . _:x :p _:y", True),
    ("one node for two", "_:a :p :c . _:b :p :d", "_:x :p :c . _:x :p :d", False),
    ("two nodes for one", "_:a :p _:a", "_:x :p _:y", False),
    ("a ring of four, and two of two", "_:a :p _:b . _:b :p _:c . _:c :p _:d . _:d :p _:a", "_:a :p _:b . _:b :p _:a . _:c :p _:d . _:d :p _:c", False),
    ("a ring of four, begun elsewhere", "_:a :p _:b . _:b :p _:c . _:c :p _:d . _:d :p _:a", "_:z :p _:w . _:w :p _:y . _:y :p _:x . _:x :p _:z", True),
    ("an IRI in the place of a node", "_:a :p :b", ":a :p :b", False),
    ("a row more", "_:a :p :b . _:c :p :b", "_:a :p :b", False),
    ("a row twice", "_:a :p :b . _:a :p :b . _:c :p :b", "_:a :p :b . _:c :p :b . _:c :p :b", True),
    ("a row twice, of the other node", "_:a :p :b . _:a :p :b . _:c :p :d", "_:a :p :b . _:c :p :d . _:c :p :d", False),
    ("nodes told apart by their neighbours", "_:a :p _:b . _:b :p :c . _:d :p _:a", "_:b :p _:d . _:d :p :c . _:a :p _:b", True),
]
"""Bags of triples, and whether they are the same up to the names of blank nodes (RDF 1.1 Concepts, 3.6)."""
SLICES = [
    ("a slice", ["x=_:a y=:c", "x=_:b y=:d"], 0, 1, ["x=_:z y=:d"], True),
    ("a slice with a row that isn't one", ["x=_:a y=:c", "x=_:b y=:d"], 0, 1, ["x=_:z y=:e"], False),
    ("a slice in which a node is another one", ["x=_:a y=_:a", "x=_:b y=_:b"], 0, 1, ["x=_:z y=_:w"], False),
    ("all rows, whose nodes belong together", ["x=_:a y=:c", "x=_:a y=:d"], 0, None, ["x=_:z y=:d", "x=_:w y=:c"], False),
    ("all rows", ["x=_:a y=:c", "x=_:a y=:d"], 0, None, ["x=_:z y=:d", "x=_:z y=:c"], True),
]
"""Solutions in any order, OFFSET and LIMIT, a list of solutions, and whether it is due, up to the names of blank nodes."""
CLASSES = [
    ("nodes without numbers", ["x=_:n y=2", "x=_:m y=1", "x=:a y=0"], [["x=_:n y=2", "x=_:m y=1"], ["x=:a y=0"]]),
    ("one node without a number", ["x=_:n y=2", "x=_:n y=1"], [["x=_:n y=1"], ["x=_:n y=2"]]),
    ("nodes with numbers", ["x=_:b2 y=1", "x=_:b10 y=0"], [["x=_:b2 y=1"], ["x=_:b10 y=0"]]),
]
"""Solutions, and their classes by ORDER BY ?x ?y (15.1)."""


def term_rows(texts):
    """Returns rows in which a word with a label is a blank node."""
    node = lambda value: Term("bnode", value.text[2:]) if value.text[:2] == "_:" else value
    return [frozenset((name, node(term)) for name, term in row) for row in rows_of(texts)]


def unlike():
    """Returns the names of the cases in which answers are compared wrongly, and how many cases there are."""
    triples = lambda text: [quad[1:] for quad in quads(text)]
    wrong = [name for name, one, other, due in SAME if are_same(triples(one), triples(other)) != due]
    for name, rows, offset, limit, found, due in SLICES:
        wrong += [name] * (allows(Lists([term_rows(rows)], offset, limit), term_rows(found)) != due)
    order = (var("x"), False), (var("y"), False)
    for name, rows, due in CLASSES:
        found = [[*map(frozenset, map(dict.items, tied))] for tied in ordered([*map(dict, term_rows(rows))], order)]
        wrong += [name] * ([*map(set, found)] != [{*term_rows(tied)} for tied in due])
    return wrong, len(SAME) + len(SLICES) + len(CLASSES)


def rows_of(texts):
    return [frozenset((name, word(item)) for name, item in (pair.split("=", 1) for pair in text.split())) for text in texts]


def triples_of(text):
    return {quad[1:] for quad in quads(text)}


def failed():
    """Returns the names of the cases in which the model isn't right, and how many cases there are."""
    rows = ROWS + [(name, "", computed(item), [row]) for name, item, row in COMPUTED]
    wrong = [name for name, data, item, due in rows if not select(item, Dataset(quads(data)))[1].allows(rows_of(due))]
    wrong += [name for name, data, item, due in UNIONS if not select(item, Dataset(quads(data), True))[1].allows(rows_of(due))]
    for name, data, entry, *lists in ORDERED:
        lists = [select(entry, Dataset(quads(data)))[1].allows(rows_of(rows.split())) for rows in lists]
        wrong += [name] * (lists != [True, False])
    for name, data, each, due in CONSTRUCTS:
        wrong += [name] * (construct(each, Dataset(quads(data))) != [triples_of(due)])
    wrong += [name for name, data, item, due in UPDATES if lines_of(updated(item, Dataset(quads(data)))) != lines_of(quads(due))]
    wrong += [name for name, item, due in SCOPE if breaks_scope(item) != due]
    wrong += [] if ask(query("ASK", None, g(t("?x :p ?y"))), Dataset(quads(NODES))) else ["ASK (16.3)"]
    more, count = unlike()
    return wrong + more, sum(map(len, (rows, UNIONS, ORDERED, CONSTRUCTS, UPDATES, SCOPE))) + 1 + count


def asked():
    """Returns the requests of the cases: for each its name, its dataset in short, whether the default graph is the union, and the tree."""
    found = [(name, data, False, item) for name, data, item, *_ in ROWS + ORDERED + CONSTRUCTS]
    found += [(name, "", False, computed(item)) for name, item, _ in COMPUTED] + [(name, data, True, item) for name, data, item, _ in UNIONS]
    return found + [(name, data, False, tuple(item)) for name, data, item, _ in UPDATES] + [(name, "", False, item) for name, item, _ in SCOPE]
