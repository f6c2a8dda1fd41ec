"""Laws of the SPARQL algebra: random pairs of patterns that have the same bag of solutions over every dataset.

Each law names what makes it one. Sections are those of SPARQL 1.1 Query, where no other standard is named; operators are those of 18.5 on bags. An
expression sees a solution's bindings alone (17.3), so a filter may be put where each variable that it names has the same binding, or none in both
places: that is so for a variable that is certain on the one side, and for one that isn't possible on the other.

No pattern here has a blank node, so that a basic graph pattern is the join of its triples (18.3.1).
"""
import itertools

from scope import in_scope
from trees import BOOLEAN, INTEGER, Alternative, Bind, Call, Closure, Filter, Graph, Group, Inverse, Minus, Negated, Optional, Sequence, Term
from trees import Triples, Union, Values, iri, var

GRAPHS = [iri(f"g{number}") for number in range(4)]
CLASSES, DEEP = 10, 20
"""How many classes there are, and how long the chains by p3 are."""
OBJECTS = ("p1", "p2", "p3", "p4")
"""The predicates whose objects are subjects too."""
LITERALS = ("p5", "p6", "p7", "p8", "p9")


def integer(number):
    return Term("literal", str(number), INTEGER)


# ---- data


def data_lines(rng, count):
    """Yields the lines of about ten quads for each of so many subjects.

    p0 is a class; p1 and p2 another subject; p3 the next one in a chain; p4 none, one or two subjects; p5 an integer, missing for three in ten; p6 an
    integer below 20, in one of two forms; p7 one of few strings, some tagged; p8 a term of any kind; p9 the subject's number. One subject in ten is
    a blank node. The quads of half of the subjects are in the default graph, the others in a named one, and one triple in ten is in another graph
    too."""
    names = [f"_:n{index}" if rng.random() < 0.1 else f"<http://e/s{index}>" for index in range(count)]
    number = lambda form: f'"{form}"^^<{INTEGER}>'
    for at, name in enumerate(names):
        some = lambda: rng.choice(names)
        pairs = [(0, f"<http://e/c{rng.randrange(CLASSES)}>"), (1, some()), (2, some()), (9, number(at))]
        pairs += [(3, names[at + 1] if at % DEEP != DEEP - 1 and at + 1 < count else "<http://e/end>")]
        pairs += [(4, some()) for _ in range(rng.choice((0, 1, 1, 2)))]
        pairs += [(5, number(rng.randrange(100)))] if rng.random() < 0.7 else []
        pairs += [(6, number(rng.choice(("", "", "0")) + str(rng.randrange(20))))]
        pairs += [(7, f'"{rng.choice("abcdé")}"' + rng.choice(("", "", "@en", "@en-gb")))]
        mixed = f'"{rng.choice(("true", "0"))}"^^<{BOOLEAN}>', '"x"', '"5"^^<http://e/t>', f'"y"^^<{INTEGER}>'
        pairs += [(8, rng.choice((number(rng.randrange(10)), some(), *mixed)))]
        home = rng.choice(("", "", "", *(f" <http://e/g{graph}>" for graph in (0, 1)))) if rng.random() < 0.9 else f" <http://e/g{rng.randrange(4)}>"
        for verb, object in pairs:
            yield f"{name} <http://e/p{verb}> {object}{home} .\n"
            if rng.random() < 0.1:
                yield f"{name} <http://e/p{verb}> {object}{rng.choice(('', ' <http://e/g0>', ' <http://e/g3>'))} .\n"


# ---- variables


def certain(element):
    """Returns the names of the variables that are bound in every solution of a group or an element."""
    if isinstance(element, Group):
        return set().union(*map(certain, element.elements))
    if isinstance(element, Union):
        return set.intersection(*map(certain, element.groups))
    if isinstance(element, Graph):
        return certain(element.group) | ({element.name.text} if element.name.kind == "var" else set())
    if isinstance(element, Values):
        return {name.text for at, name in enumerate(element.names) if all(row[at] for row in element.rows)}
    return in_scope(element) if isinstance(element, Triples) else set()


def named_by(expression):
    """Returns the names of the variables of an expression."""
    return set().union(*map(named_by, expression.args)) if isinstance(expression, Call) else {expression.text} if expression.kind == "var" else set()


def may_move(condition, kept, other):
    """Returns whether an expression has the same value on a solution of `kept` and on its merge with one of `other`."""
    return named_by(condition) <= certain(kept) | (named_by(condition) - in_scope(other))


def group(*elements):
    return Group(elements)


class Laws:
    """Makes patterns over the data of so many subjects, and pairs of them. `verbs` has by a variable the predicate whose object it was made for."""

    def __init__(self, rng, count, is_union):
        self.rng, self.count, self.is_union, self.numbers, self.verbs = rng, count, is_union, itertools.count(), {}

    def often(self, chance):
        return self.rng.random() < chance

    def fresh(self):
        return var(f"v{next(self.numbers)}")

    # ---- patterns

    def subject(self):
        return iri(f"s{self.rng.randrange(self.count)}")

    def predicate(self, names=OBJECTS + LITERALS):
        return iri(self.rng.choice(names))

    def constant(self):
        one, other = self.rng.randrange(30), self.rng.choice("abcdé")
        return self.rng.choice((integer(one), Term("literal", other), Term("literal", other, "", "en"), self.subject(), iri(f"c{one % CLASSES}")))

    def triples(self, subject, most=2):
        """Returns triples that have this subject, of which some end in a subject that has others."""
        found = []
        for _ in range(self.rng.randint(1, most)):
            verb, object = self.predicate(), self.fresh()
            found.append((subject, verb, object))
            self.verbs[object.text] = verb.text[-2:]
            if verb.text[-2:] in OBJECTS and self.often(0.3):
                found.append((object, self.predicate(LITERALS), self.fresh()))
                self.verbs[found[-1][2].text] = found[-1][1].text[-2:]
        return tuple(found)

    def anchored(self, subject):
        """Returns triples with few solutions: a subject of one class, or with one integer."""
        anchor = (iri("p0"), iri(f"c{self.rng.randrange(CLASSES)}")) if self.often(0.6) else (iri("p6"), integer(self.rng.randrange(20)))
        found = [(subject, *anchor), *self.triples(subject)]
        self.rng.shuffle(found)
        return Triples(tuple(found))

    def first(self):
        """Returns an element that a pattern begins with, of which each solution binds the first variable that it returns."""
        subject, kind = self.fresh(), self.rng.random()
        if kind < 0.15:
            return subject, Triples(self.triples(subject))
        if kind < 0.7:
            return subject, self.anchored(subject)
        if kind < 0.85:
            return subject, Union((group(self.anchored(subject)), group(self.anchored(subject))))
        return subject, Graph(self.rng.choice(GRAPHS) if self.often(0.5) else self.fresh(), group(self.anchored(subject)))

    def next(self, name, is_plain=False):
        """Returns an element that shares a variable, and binds it in each solution."""
        kind = 0 if is_plain else self.rng.random()
        triples = lambda most=2: Triples(self.triples(name, most))
        if kind < 0.5:
            return triples()
        if kind < 0.65:
            return Union((group(triples(1)), group(triples(1))))
        if kind < 0.75:
            return Graph(self.rng.choice(GRAPHS) if self.often(0.5) else self.fresh(), group(triples(1)))
        if kind < 0.85:
            more = triples(1)
            return group(more, Filter(self.condition(sorted(in_scope(more)))))
        if kind < 0.93:
            # (of the objects some are subjects)
            return Triples(((self.fresh(), self.predicate(OBJECTS), name),))
        return Values((name,), tuple((self.subject(),) for _ in range(self.rng.randint(1, 300))))

    def shared(self, *elements):
        """Returns a variable that is bound in each solution of the elements."""
        return var(self.rng.choice(sorted(set().union(*map(certain, elements)))))

    def pair(self):
        """Returns two elements that are joined by a variable, which is bound in each solution of both."""
        name, one = self.first()
        return one, self.next(name)

    def condition(self, names, depth=2):
        """Returns a condition on some of these variables. Some are errors on some solutions."""
        rng, name = self.rng, var(self.rng.choice([*names]))
        kind = rng.random()
        if depth and kind < 0.35:
            args = tuple(self.condition(names, depth - 1) for _ in range(rng.choice((1, 2, 2))))
            return Call("!" if len(args) == 1 else rng.choice(("&&", "||")), args)
        if kind < 0.55:
            return Call(rng.choice(("<", ">", "<=", ">=", "!=")), (name, self.near(name) if self.often(0.8) else self.constant()))
        if kind < 0.65:
            return Call(rng.choice(("=", "!=", "!=", "sameTerm")), (name, self.near(name) if self.often(0.5) else var(rng.choice([*names]))))
        if kind < 0.75:
            return Call(rng.choice(("IN", "NOT IN")), (name, *(self.constant() for _ in range(rng.randint(1, 4)))))
        if kind < 0.85:
            return Call(rng.choice(("isIRI", "isBlank", "isLiteral", "isNumeric", "BOUND")), (name,))
        text = Call("STR", (name,))
        return rng.choice((
            Call("STRSTARTS", (text, Term("literal", f"http://e/s{rng.randrange(10)}"))), Call("CONTAINS", (name, Term("literal", "b"))),
            Call("=", (Call("LANG", (name,)), Term("literal", "en"))), Call(">", (Call("STRLEN", (text,)), integer(rng.randrange(14)))),
            Call("=", (Call("+", (name, integer(1))), integer(rng.randrange(20)))),
        ))  # fmt: skip

    def near(self, name):
        """Returns a constant of the kind that a variable has."""
        verb = self.verbs.get(name.text)
        if verb in ("p5", "p6", "p9"):
            return integer(self.rng.randrange({"p5": 100, "p6": 20, "p9": self.count}[verb]))
        return Term("literal", self.rng.choice("abcdé")) if verb in ("p7", "p8") else self.subject()

    def value(self, names):
        """Returns an expression that is an error on some solutions."""
        name = var(self.rng.choice([*names]))
        text = Call("STR", (name,))
        return self.rng.choice((
            Call("+", (name, integer(1))), Call("IF", (self.condition(names, 1), name, integer(0))), name, self.condition(names, 1), text,
            Call("COALESCE", (Call("*", (name, integer(2))), text)), Call("CONCAT", (text, Term("literal", "!"))),
        ))  # fmt: skip

    def moved(self, kept, other):
        """Returns a condition that has the same value on a solution of `kept` and on its merge with one of `other`."""
        while True:
            found = self.condition(sorted(in_scope(kept)))
            if may_move(found, kept, other):
                return found

    # ---- joins (18.5, Join: the merges of compatible solutions, which depend on no order)

    def join_order(self):
        """Join is commutative."""
        one, other = self.pair()
        return group(one, other), group(other, one)

    def join_of_three(self):
        """Join is commutative and associative."""
        one, other = self.pair()
        more = [one, other, self.next(self.shared(one, other))]
        mixed = self.rng.sample(more, 3)
        return group(*more), group(mixed[0], group(*mixed[1:]))

    def triples_order(self):
        """18.3.1: a basic graph pattern is a set of triples."""
        name = self.fresh()
        triples = self.anchored(name).triples + self.triples(name, 3)
        return group(Triples(triples)), group(Triples(tuple(self.rng.sample(triples, len(triples)))))

    def triples_in_braces(self):
        """18.3.1: without blank nodes a basic graph pattern is the join of its parts."""
        name = self.fresh()
        triples = self.anchored(name).triples + self.triples(name, 3)
        at = self.rng.randrange(1, len(triples))
        return group(Triples(triples)), group(group(Triples(triples[:at])), group(Triples(triples[at:])))

    def braces(self):
        """18.2.2.6: a group is evaluated from left to right, so what stands first may stand in braces, unless a filter is there."""
        elements = self.elements()
        at = self.rng.randrange(1, len(elements) + 1)
        return group(*elements), group(group(*elements[:at]), *elements[at:])

    def elements(self):
        """Returns the elements of a group, without filters."""
        name, one = self.first()
        found = [one]
        for _ in range(self.rng.randint(1, 3)):
            name = self.shared(*found) if self.often(0.5) else name
            more = self.next(name)
            kind = self.rng.random()
            if kind < 0.2 and not isinstance(found[-1], Bind):
                more = Bind(self.value(sorted(in_scope(Group(tuple(found))))), self.fresh())
            elif kind < 0.5:
                more = Optional(group(more))
            elif kind < 0.65:
                more = Minus(group(more, Filter(self.condition(sorted(in_scope(more))))))
            found.append(more)
        return found

    # ---- filters (18.5, Filter: the solutions on which a condition is true; an error isn't)

    def filter_split(self):
        """17.2: a conjunction is true exactly where both of its sides are."""
        elements = self.elements()
        names = sorted(in_scope(Group(tuple(elements))))
        one, other = self.condition(names), self.condition(names)
        return group(*elements, Filter(Call("&&", (one, other)))), group(Filter(other), *elements, Filter(one))

    def filter_of_or(self):
        """17.2: the negation of a disjunction is true exactly where the negations of both sides are."""
        elements = self.elements()
        names = sorted(in_scope(Group(tuple(elements))))
        one, other = self.condition(names), self.condition(names)
        negated = Filter(Call("!", (Call("||", (one, other)),)))
        return group(*elements, negated), group(*elements, Filter(Call("!", (one,))), Filter(Call("!", (other,))))

    def filter_into_join(self):
        """Filter(c, Join(A, B)) = Join(Filter(c, A), B) where c has the same value on a solution of A and on its merges."""
        one, other = self.pair() if self.often(0.7) else reversed(self.pair())
        condition = Filter(self.moved(one, other))
        return group(one, other, condition), group(group(one, condition), other)

    def filter_before_optional(self):
        """The same for LeftJoin, which merges too, or leaves the solution as it is."""
        one, other = self.pair()
        condition = Filter(self.moved(one, other))
        return group(one, Optional(group(other)), condition), group(group(one, condition), Optional(group(other)))

    def filter_before_minus(self):
        """Minus leaves solutions as they are."""
        one, other = self.pair()
        condition = Filter(self.condition(sorted(in_scope(one))))
        return group(one, Minus(group(other)), condition), group(group(one, condition), Minus(group(other)))

    def filter_over_union(self):
        """Union is the sum of two bags, and Filter looks at each solution by itself."""
        one, other = self.pair()
        condition = Filter(self.condition(sorted(in_scope(one) | in_scope(other))))
        return group(Union((group(one), group(other))), condition), Union((group(one, condition), group(other, condition)))

    def filter_by_bind(self):
        """18.5, Extend leaves a new variable unbound where the expression is an error, and a filter on it isn't true there (17.2.2)."""
        elements = self.elements()
        condition, name = self.condition(sorted(in_scope(Group(tuple(elements))))), self.fresh()
        return group(*elements, Filter(condition)), group(*elements, Bind(condition, name), Filter(name))

    def filter_by_term(self):
        """18.3.1: where a variable of a basic graph pattern is one term, that term may stand in its place."""
        name = self.fresh()
        triples = self.anchored(name).triples
        at = self.rng.choice([object for _, verb, object in triples if object.kind == "var"])
        term = self.constant()
        placed = tuple(tuple(term if item == at else item for item in triple) for triple in triples)
        return group(Triples(triples), Filter(Call("sameTerm", (at, term)))), group(Triples(placed), Bind(term, at))

    # ---- UNION (18.5, Union: the sum of two bags)

    def union_order(self):
        """Union is commutative."""
        one, other = self.pair()
        more = self.first()[1]
        return group(Union((group(one, other), group(more)))), group(Union((group(more), group(one, other))))

    def union_of_joins(self):
        """Join distributes over Union."""
        one, other = self.pair()
        more = self.next(self.shared(one))
        return group(one, Union((group(other), group(more)))), Union((group(one, other), group(one, more)))

    def union_of_optionals(self):
        """LeftJoin looks at each solution of its left side by itself."""
        name, one = self.first()
        # (what shares no variable with the optional part would be joined with all of it)
        other, more = self.next(name), self.anchored(name)
        sides = [group(item, Optional(group(other))) for item in (one, more)]
        return group(Union((group(one), group(more))), Optional(group(other))), Union(tuple(sides))

    def union_of_minus(self):
        """Minus looks at each solution of its left side by itself."""
        (one, other), more = self.pair(), self.first()[1]
        sides = [group(item, Minus(group(other))) for item in (one, more)]
        return group(Union((group(one), group(more))), Minus(group(other))), Union(tuple(sides))

    # ---- OPTIONAL and MINUS (18.5, LeftJoin and Minus)

    def optional_by_union(self):
        """LeftJoin(A, B, true) is the sum of Join(A, B) and of the solutions of A that no solution of B is compatible with. The latter are
        Minus(A, B) where a variable is bound in each solution of both."""
        one, other = self.pair()
        return group(one, Optional(group(group(other)))), Union((group(one, group(other)), group(one, Minus(group(other)))))

    def optional_bound(self):
        """Where B binds a variable in each solution that A never has, the solutions with it are those of Join(A, B)."""
        one, other = self.pair()
        own = certain(other) - in_scope(one)
        if not own:
            return self.optional_bound()
        bound = Call("BOUND", (var(self.rng.choice(sorted(own))),))
        if self.often(0.5):
            return group(one, Optional(group(other)), Filter(bound)), group(one, other)
        return group(one, Optional(group(other)), Filter(Call("!", (bound,)))), group(one, Minus(group(other)))

    def optional_filter(self):
        """LeftJoin(A, B, c) = LeftJoin(A, Filter(c, B), true) where c has the same value on a solution of B and on its merges."""
        one, other = self.pair()
        condition = Filter(self.moved(other, one))
        return group(one, Optional(group(other, condition))), group(one, Optional(group(group(other, condition))))

    def optional_order(self):
        """(A leftjoin B) leftjoin C = (A leftjoin C) leftjoin B where B and C share only variables that each solution of A binds."""
        one, other = self.pair()
        more = self.next(self.shared(one))
        if not in_scope(other) & in_scope(more) <= certain(one):
            return self.optional_order()
        sides = [Optional(group(item, Filter(self.condition(sorted(in_scope(item)))))) for item in (other, more)]
        if any(not may_move(side.group.elements[1].condition, Group((one, side.group.elements[0])), rest) for side, rest in zip(sides, (more, other))):
            return self.optional_order()
        return group(one, *sides), group(one, *reversed(sides))

    def minus_order(self):
        """Whether Minus keeps a solution depends on nothing but it and the right side."""
        one, other = self.pair()
        sides = [Minus(group(other)), Minus(group(self.next(self.shared(one))))]
        return group(one, *sides), group(one, *reversed(sides))

    def minus_union(self):
        """A solution is kept by two right sides exactly where it is kept by their union."""
        one, other = self.pair()
        more = self.next(self.shared(one))
        return group(one, Minus(group(other)), Minus(group(more))), group(one, Minus(group(Union((group(other), group(more))))))

    def minus_apart(self):
        """Minus keeps a solution that shares no variable with the right side."""
        one, other = self.first()[1], self.first()[1]
        return group(one, Minus(group(other))), group(one)

    # ---- paths (9.1, 18.4)

    def path(self, depth=1):
        kind = self.rng.random()
        if not depth or kind < 0.4:
            return self.predicate(OBJECTS)
        if kind < 0.6:
            return Inverse(self.path(depth - 1))
        return (Alternative if kind < 0.8 else Sequence)(self.path(depth - 1), self.path(depth - 1))

    def path_rewritten(self, path, rewritten):
        """Returns the pair in which a path is rewritten to other elements, beside triples that leave few solutions."""
        left, right = self.fresh(), self.fresh()
        anchor = self.anchored(left)
        return group(anchor, Triples(((left, path, right),))), group(anchor, *rewritten(left, right))

    def path_sequence(self):
        """A sequence is a join by a variable that isn't shown."""
        one, other, middle = self.path(), self.path(), self.fresh()
        return self.path_rewritten(Sequence(one, other), lambda x, y: [Triples(((x, one, middle), (middle, other, y)))])

    def path_alternative(self):
        """An alternative is a union."""
        one, other = self.path(), self.path()
        return self.path_rewritten(Alternative(one, other), lambda x, y: [Union(tuple(group(Triples(((x, item, y),))) for item in (one, other)))])

    def path_inverse(self):
        """An inverse exchanges the ends, and turns a sequence round."""
        one, other = self.path(), self.path()
        if self.often(0.5):
            return self.path_rewritten(Inverse(one), lambda x, y: [Triples(((y, one, x),))])
        return self.path_rewritten(Inverse(Sequence(one, other)), lambda x, y: [Triples(((x, Sequence(Inverse(other), Inverse(one)), y),))])

    def path_negated(self):
        """A negated property set has the triples by other predicates, and reversed ones where it names an inverse."""
        names, verb = tuple(iri(item) for item in self.rng.sample(OBJECTS + LITERALS, 2)), self.fresh()
        others = Filter(Call("NOT IN", (verb, *names)))
        if self.often(0.5):
            return self.path_rewritten(Negated(names, ()), lambda x, y: [group(Triples(((x, verb, y),)), others)])
        return self.path_rewritten(Negated((), names), lambda x, y: [group(Triples(((y, verb, x),)), others)])

    def path_closures(self):
        """A closure gives each pair once, so closures of closures are one, from any end (18.4; own for nested ones)."""
        step, (one, other) = self.path(), self.rng.choice(("*?", "?*", "**", "*+", "+*", "++", "+?", "?+", "??"))
        mark = {"++": "+", "??": "?"}.get(one + other, "*")
        start, right = self.rng.choice((self.subject(), iri("none"), iri("end"))), self.fresh()
        ends = (start, right) if self.often(0.6) else (right, start)
        made = lambda path: group(Triples(((ends[0], path, ends[1]),)))
        return made(Closure(Closure(step, one), other)), made(Closure(step, mark))

    def path_closure_of_either(self):
        """A walk of any steps by one of two paths is one of walks by each."""
        one, other, start, right = self.predicate(OBJECTS), self.predicate(OBJECTS), self.subject(), self.fresh()
        made = lambda path: group(Triples(((start, path, right),)))
        return made(Closure(Alternative(one, other), "*")), made(Closure(Sequence(Closure(one, "*"), Closure(other, "*")), "*"))

    # ---- VALUES and BIND (10)

    def values_by_binds(self):
        """A row of VALUES is the one solution of BINDs of its terms, and the rows are a union."""
        name, one = self.first()
        names = (name, self.fresh()) if self.often(0.5) else (name,)
        cell = lambda entry: None if self.often(0.15) else self.subject() if entry == name else self.constant()
        rows = tuple(tuple(map(cell, names)) for _ in range(self.rng.randint(2, 30)))
        binds = lambda row: Group(tuple(Bind(term, item) for item, term in zip(names, row) if term))
        return group(one, Values(names, rows)), group(one, Union(tuple(map(binds, rows))))

    def values_by_filter(self):
        """A join with different IRIs keeps the solutions whose variable, which each binds, is one of them (17.4.1.9)."""
        name, one = self.first()
        terms = [self.subject() for _ in range(300)] if self.often(0.5) else [iri(f"s{number}") for number in range(self.rng.randrange(self.count))]
        terms = list(dict.fromkeys(terms)) or [iri("s0")]
        return group(one, Values((name,), tuple((term,) for term in terms))), group(one, Filter(Call("IN", (name, *terms))))

    def bind_later(self):
        """Extend may be put after a join with what doesn't have its variable, where its expression has the same value there."""
        one, other = self.pair()
        bind = Bind(self.value(sorted(in_scope(one))), self.fresh())
        if not may_move(bind.value, one, other):
            return self.bind_later()
        return group(one, bind, other), group(one, other, bind)

    # ---- GRAPH (18.6)

    def graph_variable(self):
        """A variable graph is the union over the graphs' names, each joined with the variable bound to it."""
        name, inner = self.fresh(), self.inner()
        each = [group(Graph(graph, inner), Values((name,), ((graph,),))) for graph in GRAPHS]
        return group(Graph(name, inner)), Union(tuple(each))

    def inner(self):
        name = self.fresh()
        more = Optional(group(self.next(name, True))) if self.often(0.4) else self.next(name, True)
        return group(self.anchored(name), more)

    def graph_split(self):
        """Solutions of two patterns in one graph are joined inside or outside of GRAPH alike, since the graph's name is bound on both sides."""
        subject = self.fresh()
        one, other, name = self.anchored(subject), self.next(subject, True), self.rng.choice(GRAPHS) if self.often(0.5) else self.fresh()
        return group(Graph(name, group(one, other))), group(Graph(name, group(other)), Graph(name, group(one)))

    # ---- where a pair stands: each operator has the same bag for the same bags

    def placed(self, pair):
        """Puts both patterns of a pair at the same place of a larger one. Returns them with the names of the variables that are compared."""
        left, right = (item if isinstance(item, Group) else group(item) for item in pair)
        names = sorted(in_scope(left) & in_scope(right))
        shared, kind = sorted(certain(left) & certain(right) & {*names}), self.rng.random()
        name = var(self.rng.choice(shared)) if shared else None
        if kind < 0.5 or not name:
            return left, right, names
        if kind < 0.6:
            more = self.next(name)
            return group(more, left), group(more, right), sorted({*names} | in_scope(more))
        if kind < 0.7:
            more = self.first()[1]
            return group(Union((left, group(more)))), group(Union((right, group(more)))), sorted({*names} | in_scope(more))
        if kind < 0.8:
            more = self.anchored(name)
            return group(more, Optional(group(left))), group(more, Optional(group(right))), sorted({*names} | in_scope(more))
        if kind < 0.88:
            more = self.anchored(name)
            return group(more, Minus(group(left))), group(more, Minus(group(right))), sorted(in_scope(more))
        if kind < 0.94:
            condition = Filter(self.condition(names))
            return group(left, condition), group(right, condition), names
        graph = self.rng.choice(GRAPHS)
        return group(Graph(graph, left)), group(Graph(graph, right)), names


PAIRS = [
    Laws.join_order, Laws.join_of_three, Laws.triples_order, Laws.triples_in_braces, Laws.braces, Laws.braces, Laws.filter_split, Laws.filter_of_or,
    Laws.filter_into_join, Laws.filter_into_join, Laws.filter_before_optional, Laws.filter_before_minus, Laws.filter_over_union, Laws.filter_by_bind,
    Laws.filter_by_term, Laws.union_order, Laws.union_of_joins, Laws.union_of_optionals, Laws.union_of_minus, Laws.optional_by_union,
    Laws.optional_by_union, Laws.optional_bound, Laws.optional_filter, Laws.optional_order, Laws.minus_order, Laws.minus_union, Laws.minus_apart,
    Laws.path_sequence, Laws.path_alternative, Laws.path_inverse, Laws.path_negated, Laws.path_closures, Laws.path_closure_of_either,
    Laws.values_by_binds, Laws.values_by_filter, Laws.bind_later, Laws.graph_variable, Laws.graph_split,
]  # fmt: skip
