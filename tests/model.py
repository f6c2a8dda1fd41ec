"""What queries and updates mean: a plain evaluator over lists, written from the standards and not from the program's code.

A query or an update is a tree (`trees.py`), and a dataset a set of quads. `select`, `ask` and `construct` give all that an answer may be, `updated`
the dataset after an update. Each operator is evaluated on whole lists, inside out, by its definition, so that nothing here is quick.

Sections are those of SPARQL 1.1 Query, where no other standard is named. "(own)" marks what this store's profile narrows, or where it takes one
of several readings.
"""
import itertools
import re
from collections import Counter, namedtuple
from functools import lru_cache
from math import comb, inf, prod
from operator import ge, gt, le, lt

from scope import in_scope, is_hidden, labels, parts, pattern_of
from trees import BOOLEAN, INTEGER, PATHS, XSD, Alternative, Bind, Call, Clear, Create, Filter, Graph, Group, Inverse, Minus, Modify, Negated
from trees import Optional, Sequence, Term, Triples, Union, text_of

STRING, TAGGED = XSD + "string", "http://www.w3.org/1999/02/22-rdf-syntax-ns#langString"

# ---- terms with a value (17.1)


@lru_cache(None)
def integer(term):
    """Returns the value of an integer; None for another term, an ill-formed one, or one that signed 128 bits don't hold (own)."""
    is_formed = term.datatype == INTEGER and re.fullmatch(r"[+-]?[0-9]+", term.text)
    return int(term.text) if is_formed and is_in_range(int(term.text)) else None


def is_in_range(number):
    return -(2**127) <= number < 2**127


def boolean(term):
    """Returns the value of a boolean; None for another term or an ill-formed one."""
    return {"true": True, "1": True, "false": False, "0": False}.get(term.text) if term.datatype == BOOLEAN else None


def string(term):
    """Returns the value of an xsd:string; None for another term."""
    return term.text if term.kind == "literal" and not term.datatype and not term.tag else None


# ---- solutions: maps from the names of variables to terms (18.1.8, 18.3)


class TooLarge(Exception):
    """An evaluation has more steps than a test has time for."""


MOST = inf
"""The most pairs of solutions that one join looks at. `bound_joins` sets it."""


def bound_joins(most):
    global MOST
    MOST = most


def compatible(one, other):
    """18.3: each variable that both bind has the same term."""
    return all(other.get(name, term) == term for name, term in one.items())


def join(left, right):
    """18.5, Join: the merges of compatible solutions, each as often as there are such pairs."""
    if len(left) * len(right) > MOST:
        raise TooLarge
    return [{**one, **other} for one in left for other in right if compatible(one, other)]


def left_join(left, right, conditions):
    """18.5, LeftJoin: the joined solutions for which the condition is true, and each left one that has none."""
    found = []
    for one in left:
        found += [item for item in join([one], right) if all_true(conditions, item)] or [one]
    return found


def minus(left, right):
    """18.5, Minus: each left solution for which no right one is compatible and shares a variable."""
    return [one for one in left if not any(one.keys() & other.keys() and compatible(one, other) for other in right)]


def extend(solutions, name, expression):
    """18.5, Extend: with the value, or the solution as it is where the expression is an error."""
    return [{**item, **bound_to(name, expression, item)} for item in solutions]


def bound_to(name, expression, solution):
    try:
        return {name.text: value(expression, solution)}
    except ExpressionError:
        return {}


def all_true(conditions, solution):
    """18.5, Filter: the effective boolean value of the conjunction is true; an error isn't."""
    return all(truth(condition, solution) is True for condition in conditions)


# ---- evaluation of patterns over a dataset (18.2.2, 18.5, 18.6)


class Dataset:
    """A set of quads (graph, subject, predicate, object), whose graph is None for the default graph (RDF 1.1 Concepts, 4). Where `is_union`, the
    default graph of queries is the union of the named graphs, each triple once (own; 13.1 leaves it open)."""

    def __init__(self, quads, is_union=False):
        self.quads, self.is_union = frozenset(quads), is_union

    def names(self):
        """The names of graphs, each of which holds a quad (own: there is no empty named graph)."""
        return {quad[0] for quad in self.quads} - {None}

    def graph(self, name):
        return {quad[1:] for quad in self.quads if quad[0] == name}

    def default(self):
        return {quad[1:] for quad in self.quads if quad[0]} if self.is_union else self.graph(None)


def group_solutions(group, data, graph):
    """18.2.2.2 and 18.2.2.7: the FILTERs of a group are about the whole group."""
    return [item for item in unfiltered(group, data, graph) if all_true(conditions(group), item)]


def conditions(group):
    return [element.condition for element in group.elements if isinstance(element, Filter)]


def unfiltered(group, data, graph):
    """18.2.2.6: each part is put to what stands before it, beginning with the one empty solution."""
    found = [{}]
    for part in parts(group):
        if isinstance(part, Optional):
            found = left_join(found, unfiltered(part.group, data, graph), conditions(part.group))
        elif isinstance(part, Minus):
            found = minus(found, group_solutions(part.group, data, graph))
        elif isinstance(part, Bind):
            found = extend(found, part.name, part.value)
        else:
            found = join(found, alone(part, data, graph))
    return found


def alone(part, data, graph):
    """Returns the solutions of a part that is joined to what stands before."""
    if isinstance(part, Triples):
        return run_solutions(part.triples, graph)
    if isinstance(part, Group):
        return group_solutions(part, data, graph)
    if isinstance(part, Union):
        return [found for inner in part.groups for found in group_solutions(inner, data, graph)]
    return graph_solutions(part, data) if isinstance(part, Graph) else row_solutions(part)


def row_solutions(values):
    """10.2, 18.2.2.6: a solution for each row, without what is UNDEF."""
    return [{name.text: term for name, term in zip(values.names, row) if term} for row in values.rows]


def graph_solutions(pattern, data):
    """18.6, Graph: the pattern in the named graph; for a variable the union over the names, each joined with the variable bound to it."""
    if pattern.name.kind == "uri":
        return group_solutions(pattern.group, data, data.graph(pattern.name)) if pattern.name in data.names() else []
    return [found for name in data.names() for found in join(group_solutions(pattern.group, data, data.graph(name)), [{pattern.name.text: name}])]


def run_solutions(triples, graph):
    """18.3.1: the maps that put each triple into the graph, joined with the solutions of the paths. What blank nodes are mapped to is left out of
    the solutions, and counts."""
    found = [{}]
    for subject, verb, object in triples:
        is_path = isinstance(verb, PATHS)
        found = join(found, path_solutions(subject, verb, object, graph) if is_path else maps((subject, verb, object), graph))
    return [{name: term for name, term in item.items() if not is_hidden(name)} for item in found]


def maps(words, rows):
    """Returns each map of the variables that makes one of the rows of the words."""
    found = []
    for row in rows:
        mapping = {}
        if all((mapping.setdefault(word.text, term) if word.kind == "var" else word) == term for word, term in zip(words, row)):
            found.append(mapping)
    return found


# ---- property paths (9, 18.4)


def path_solutions(subject, path, object, graph):
    ends = [None if item.kind == "var" else item for item in (subject, object)]
    return maps((subject, object), pairs(path, graph, *ends))


def pairs(path, graph, left, right):
    """18.4: the list of pairs that a path leads from and to. An end is a term, or None where it is a variable. (Own: a closure evaluates its path
    from each term that it has reached, and a sequence its second path from any term.)"""
    if isinstance(path, Term):
        found = [(s, o) for s, p, o in graph if p == path]
    elif isinstance(path, Negated):
        found = negated_pairs(path, graph)
    elif isinstance(path, Inverse):
        found = [(y, x) for x, y in pairs(path.path, graph, right, left)]
    elif isinstance(path, Alternative):
        found = pairs(path.first, graph, left, right) + pairs(path.second, graph, left, right)
    elif isinstance(path, Sequence):
        second = pairs(path.second, graph, None, right)
        found = [(x, z) for x, y in pairs(path.first, graph, left, None) for middle, z in second if y == middle]
    else:
        found = closure_pairs(path, graph, left, right)
    if len(found) > MOST:
        raise TooLarge
    return [(x, y) for x, y in found if left in (None, x) and right in (None, y)]


def negated_pairs(path, graph):
    """9.1: triples by an IRI that isn't named, and reversed triples by one that isn't named behind `^`; `!()` is the first of these."""
    forward = [(s, o) for s, p, o in graph if p not in path.forward] if path.forward or not path.inverse else []
    return forward + ([(o, s) for s, p, o in graph if p not in path.inverse] if path.inverse else [])


def closure_pairs(path, graph, left, right):
    """18.4, ZeroOrOnePath, ZeroOrMorePath and OneOrMorePath: each pair once. A path of length zero leads from any term that is an end to itself,
    and between variables from the terms that stand as subject or object in the graph."""
    nodes = {item for s, _, o in graph for item in (s, o)}
    starts = {left} if left else nodes | {right} if right else nodes
    found = []
    for start in starts:
        reached = step(path.path, graph, start) if path.mark == "?" else walk(path.path, graph, start)
        found += [(start, item) for item in (reached if path.mark == "+" else reached | {start})]
    return found


def step(path, graph, start):
    return {item for _, item in pairs(path, graph, start, None)}


def walk(path, graph, start):
    """Returns the terms that one step or more lead to."""
    reached, last = set(), {start}
    while last:
        last = set().union(*(step(path, graph, item) for item in last)) - reached
        reached |= last
    return reached


# ---- expressions (17)


class ExpressionError(Exception):
    """An expression has no value."""


def value(expression, solution):
    """Returns the value of an expression: a term.

    # Errors

    ExpressionError where it has none: an unbound variable is such an error (17.2)."""
    if isinstance(expression, Term):
        term = solution.get(expression.text) if expression.kind == "var" else expression
        if term is None:
            raise ExpressionError
        return term
    if expression.name in FORMS:
        return FORMS[expression.name](expression.args, solution)
    return FUNCTIONS[expression.name](*(value(arg, solution) for arg in expression.args))


def effective(term):
    """17.2.2: the effective boolean value."""
    if term.datatype == BOOLEAN:
        return boolean(term) is True
    if term.datatype == INTEGER:
        return bool(re.fullmatch(r"[+-]?[0-9]+", term.text)) and int(term.text) != 0
    if term.kind == "literal" and not term.datatype:
        return term.text != ""
    raise ExpressionError


def truth(expression, solution):
    """Returns the effective boolean value of an expression, or None for an error."""
    try:
        return effective(value(expression, solution))
    except ExpressionError:
        return None


def truth_of(is_true):
    return Term("literal", "true" if is_true else "false", BOOLEAN)


def whole(term):
    found = integer(term)
    if found is None:
        raise ExpressionError
    return found


def number(found):
    """The integer of an operator's result, unless 128 bits don't hold it (own)."""
    if not is_in_range(found):
        raise ExpressionError
    return Term("literal", str(found), INTEGER)


def any_of(truths):
    """17.2, the table of `||`: true beats an error, and an error beats false."""
    if True not in truths and None in truths:
        raise ExpressionError
    return True in truths


def disjunction(args, solution):
    return truth_of(any_of([truth(arg, solution) for arg in args]))


def conjunction(args, solution):
    """17.2, the table of `&&`: false beats an error, and an error beats true."""
    return truth_of(not any_of([None if item is None else not item for item in (truth(arg, solution) for arg in args)]))


def among(args, solution):
    """17.4.1.9: `x IN (a, ..)` is `(x = a) || ..`, and false for an empty list."""
    return truth_of(any_of([truth(Call("=", (args[0], arg)), solution) for arg in args[1:]]))


def not_among(args, solution):
    """17.4.1.10."""
    return truth_of(among(args, solution).text == "false")


def choice(args, solution):
    """17.4.1.2, IF."""
    is_true = truth(args[0], solution)
    if is_true is None:
        raise ExpressionError
    return value(args[1] if is_true else args[2], solution)


def coalesce(args, solution):
    """17.4.1.3: the first argument that isn't an error."""
    for argument in args:
        try:
            return value(argument, solution)
        except ExpressionError:
            continue
    raise ExpressionError


def equal(one, other):
    """17.4.1.7, RDFterm-equal, and `=` of 17.3: by value where both have one of a kind; two other literals that aren't the same are an error."""
    for kind in (integer, boolean, string):
        if kind(one) is not None and kind(other) is not None:
            return kind(one) == kind(other)
    if one != other and one.kind == other.kind == "literal":
        raise ExpressionError
    return one == other


def comparison(relation):
    """17.3: `<` and the like, of two integers, booleans (false first) or xsd:strings (by code points)."""

    def compared(one, other):
        for kind in (integer, boolean, string):
            if kind(one) is not None and kind(other) is not None:
                return truth_of(relation(kind(one), kind(other)))
        raise ExpressionError

    return compared


def literal(term):
    if term.kind != "literal":
        raise ExpressionError
    return term


def text(term):
    """A string literal: an xsd:string or a tagged one (17.4.3.1.1)."""
    if literal(term).datatype:
        raise ExpressionError
    return term


def plain(term):
    if text(term).tag:
        raise ExpressionError
    return term.text


def str_of(term):
    """17.4.2.5; a blank node has none."""
    return Term("literal", term.text if term.kind == "uri" else literal(term).text)


def datatype_of(term):
    """17.4.2.7."""
    return Term("uri", literal(term).datatype or (TAGGED if term.tag else STRING))


def arguments(one, other):
    """17.4.3.1.2: two strings are compatible arguments where the second has no tag, or both have the same."""
    if text(other).tag not in ("", text(one).tag):
        raise ExpressionError
    return one.text, other.text


def concat(*args):
    """17.4.3.12: with the tag that all have, if they have one."""
    tags = {text(arg).tag for arg in args}
    return Term("literal", "".join(arg.text for arg in args), "", tags.pop() if len(tags) == 1 else "")


def language_matches(tag, span):
    """17.4.3.13; RFC 4647, 3.3.1. ASCII case is looked over."""
    tag, span = (plain(item).encode().lower() for item in (tag, span))
    return truth_of(tag != b"" if span == b"*" else tag == span or span != b"" and tag.startswith(span + b"-"))


FORMS = {
    "BOUND": lambda args, solution: truth_of(args[0].text in solution),
    "IF": choice,
    "COALESCE": coalesce,
    "||": disjunction,
    "&&": conjunction,
    "IN": among,
    "NOT IN": not_among,
}
"""What sees its arguments unevaluated."""
FUNCTIONS = {
    "!": lambda x: truth_of(not effective(x)),
    "=": lambda x, y: truth_of(equal(x, y)),
    "!=": lambda x, y: truth_of(not equal(x, y)),
    **{name: comparison(entry) for name, entry in (("<", lt), (">", gt), ("<=", le), (">=", ge))},
    "+": lambda x, y=None: number(whole(x) if y is None else whole(x) + whole(y)),
    "-": lambda x, y=None: number(-whole(x) if y is None else whole(x) - whole(y)),
    "*": lambda x, y: number(whole(x) * whole(y)),
    "sameTerm": lambda x, y: truth_of(x == y),
    **dict.fromkeys(("isIRI", "isURI"), lambda x: truth_of(x.kind == "uri")),
    "isBlank": lambda x: truth_of(x.kind == "bnode"),
    "isLiteral": lambda x: truth_of(x.kind == "literal"),
    "isNumeric": lambda x: truth_of(integer(x) is not None),
    "STR": str_of,
    "LANG": lambda x: Term("literal", literal(x).tag),
    "DATATYPE": datatype_of,
    "LANGMATCHES": language_matches,
    "STRLEN": lambda x: number(len(text(x).text)),
    "CONTAINS": lambda x, y: truth_of((lambda a, b: b in a)(*arguments(x, y))),
    "STRSTARTS": lambda x, y: truth_of((lambda a, b: a.startswith(b))(*arguments(x, y))),
    "STRENDS": lambda x, y: truth_of((lambda a, b: a.endswith(b))(*arguments(x, y))),
    "CONCAT": concat,
}


# ---- answers (15, 16, 18.2.4, 18.2.5)


class Lists(namedtuple("Lists", "classes offset limit")):
    """All lists that a sequence of solutions may be: a slice of the classes one after another, where each class is a bag in any order."""

    def spans(self):
        """Returns each class that the slice meets, with the places of the slice, from 0, that it fills."""
        found, place, end = [], -self.offset, inf if self.limit is None else self.limit
        for tied in self.classes:
            found.append((tied, max(place, 0), min(place + len(tied), end)))
            place += len(tied)
        return [item for item in found if item[1] < item[2]]

    def allows(self, rows):
        """Returns whether a list is one of these."""
        spans = self.spans()
        fits = all(not Counter(rows[begin:end]) - Counter(item) for item, begin, end in spans)
        return fits and len(rows) == (spans[-1][2] if spans else 0)

    def bags(self, most=200):
        """Returns each bag that the slice may hold."""
        if prod(comb(len(item), end - begin) for item, begin, end in self.spans()) > most:
            raise TooLarge
        chosen = [itertools.combinations(item, end - begin) for item, begin, end in self.spans()]
        return [[*itertools.chain(*item)] for item in itertools.product(*chosen)]


def rank(expression, solution):
    """15.1: the place of an expression's value in an order. Blank nodes by number, if they have one, and literals by kind and value (own)."""
    try:
        term = value(expression, solution)
    except ExpressionError:
        return (0,)
    if term.kind == "bnode":
        return (1, int(term.text[1:])) if re.fullmatch(r"b\d+", term.text) else (1,)
    if term.kind == "uri":
        return 2, term.text
    for place, kind in enumerate((boolean, integer, string), 3):
        if kind(term) is not None:
            return place, kind(term)
    return 6, datatype_of(term).text, term.text, term.tag


def ordered(solutions, order):
    """15.1: the classes of solutions of which any may come first, in the order of the keys: those with equal keys, and those whose keys are blank
    nodes of which one has no number."""
    if not order:
        return [solutions] if solutions else []
    (key, is_down), *rest = order
    ranks = [rank(key, item) for item in solutions]
    known = [item[:1] if item[0] == 1 and (1,) in ranks else item for item in ranks]
    keyed = sorted(zip(known, solutions), key=lambda entry: entry[0], reverse=is_down)
    found = []
    for place, tied in itertools.groupby(keyed, key=lambda entry: entry[0]):
        tied = [item for _, item in tied]
        is_open = place == (1,) and len({value(key, item) for item in tied}) > 1
        found += [tied] if is_open else ordered(tied, rest)
    return found


def where_solutions(query, data):
    """18.2.4.3: WHERE, joined with the trailing VALUES."""
    found = group_solutions(query.where, data, data.default())
    return join(found, row_solutions(query.values)) if query.values else found


def select_names(query):
    """Returns the names of a SELECT's variables, each once; `*` lists those in scope by their first places in the text (16.1.1; own: the order)."""
    if query.items is not None:
        return list(dict.fromkeys(item.text if isinstance(item, Term) else item[1].text for item in query.items))
    names = in_scope(query.where) | (in_scope(query.values) if query.values else set())
    return [fromkey for fromkey in dict.fromkeys(re.findall(r"\?(\w+)", text_of(query))) if fromkey in names]


def select(query, data):
    """18.2.4.4, 18.2.5: expressions, ORDER BY, projection, DISTINCT, OFFSET and LIMIT. Returns the names, and all lists of solutions, each the set
    of its pairs (name, term), that may be the answer."""
    found, names = where_solutions(query, data), select_names(query)
    for item in query.items or ():
        found = found if isinstance(item, Term) else extend(found, item[1], item[0])
    projected = [[frozenset((name, entry[name]) for name in names if name in entry) for entry in tied] for tied in ordered(found, query.order)]
    if query.distinct == "DISTINCT":
        before = [set().union(*projected[:at]) for at in range(len(projected))]
        projected = [[*dict.fromkeys(entry for entry in tied if entry not in seen)] for tied, seen in zip(projected, before)]
    return names, Lists(projected, query.offset, query.limit)


def ask(query, data):
    """16.3."""
    return bool(where_solutions(query, data))


def construct(query, data):
    """16.2: the triples that may be the answer, over each bag of solutions that the slice may hold, blank nodes of the template up to renaming."""
    solutions = [[frozenset(item.items()) for item in tied] for tied in ordered(where_solutions(query, data), query.order)]
    return [instances(query.items, map(dict, bag)) for bag in Lists(solutions, query.offset, query.limit).bags()]


def instances(template, solutions, name=""):
    """16.2, 16.2.1; Update 3.1.3: the triples or quads (graph first) that a template gives, each once, without those with an unbound variable or a
    term at an unlawful place. A blank node of the template is another one for each solution, named for both; solutions are numbered in some order of
    their own, so that the names are the same each time."""
    found = set()
    for at, solution in enumerate(sorted(solutions, key=lambda entry: sorted(entry.items()))):
        fresh = {label: Term("bnode", f"{name}n{at}{label[2:]}") for label in labels(template)}
        for words in template:
            terms = tuple({**solution, **fresh}.get(item.text) if item and item.kind == "var" else item for item in words)
            if is_lawful(terms) and all(term or not word for word, term in zip(words, terms)):
                found.add(terms)
    return found


def is_lawful(terms):
    """RDF 1.1 Concepts, 3.1, 4: the predicate is an IRI, and neither subject nor graph a literal."""
    *front, predicate, _ = terms
    return (not predicate or predicate.kind == "uri") and all(not item or item.kind != "literal" for item in front)


# ---- updates (SPARQL 1.1 Update, 3 and 4)


class Refused(Exception):
    """An operation can't be carried out; its words are the fault's line."""


def updated(operations, data):
    """Update 2.2, 3: the quads after the operations, each of which sees what those before it left.

    # Errors

    Refused where one of them can't be carried out; then none of them has an effect."""
    for at, operation in enumerate(operations):
        by = {Modify: modified, Clear: cleared, Create: created}.get(type(operation), transferred)
        data = Dataset(by(operation, data, str(at)), data.is_union)
    return data.quads


def modified(operation, data, name):
    """Update 3.1.1 to 3.1.3: WHERE is evaluated once; all deletions come before all insertions. The graph of WITH is the default graph of WHERE and
    of the templates. DATA forms have the one empty solution."""
    where = pattern_of(operation.delete) if operation.form == "DELETE WHERE" else operation.where or Group(())
    solutions = group_solutions(where, data, data.graph(operation.graph) if operation.graph else data.default())
    less, more = ([(graph or operation.graph, *triple) for graph, *triple in quads or ()] for quads in (operation.delete, operation.insert))
    return data.quads - instances(less, solutions) | instances(more, solutions, name)


def cleared(operation, data, _):
    """Update 3.1.5, 3.2.2: CLEAR and DROP, which always succeed here, since a graph that isn't there is an empty one (own)."""
    goes = {"ALL": lambda graph: True, "NAMED": lambda graph: graph, "DEFAULT": lambda graph: not graph}
    return {quad for quad in data.quads if not goes.get(operation.target, lambda graph: graph == operation.target)(quad[0])}


def created(operation, data, _):
    """Update 3.2.1: nothing is stored of an empty graph (own)."""
    if operation.graph in data.names() and not operation.silent:
        raise Refused("F7 graph exists")
    return data.quads


def transferred(operation, data, _):
    """Update 3.2.3 to 3.2.5. ADD leaves the target's quads; COPY and MOVE don't, and MOVE takes the source's away. The default graph is always
    there; a graph onto itself is left as it is."""
    if operation.source and operation.source not in data.names():
        if operation.silent:
            return data.quads
        raise Refused("F7 no such graph")
    if operation.source == operation.target:
        return data.quads
    emptied = {"ADD": (), "COPY": (operation.target,), "MOVE": (operation.source, operation.target)}[operation.word]
    return {quad for quad in data.quads if quad[0] not in emptied} | {(operation.target, *triple) for triple in data.graph(operation.source)}
