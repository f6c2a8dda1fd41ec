"""Whether answers are due: how solutions and statements are compared where blank nodes may have other names (RDF 1.1 Concepts, 3.6; SPARQL 1.1
Query, 15)."""
import itertools
from collections import Counter, defaultdict

from model import TooLarge
from trees import Term, nquads_of


class Wrong(Exception):
    """What isn't as it is due."""


# ---- rows of terms that differ in the names of blank nodes


def row_text(row):
    return f"({' '.join(f'?{name}={nquads_of(term)}' for name, term in sorted(row))})"


def is_blank(term):
    return isinstance(term, Term) and term.kind == "bnode"


def blanks(rows):
    return {item for row in rows for item in row if is_blank(item)}


def are_same(some, others):
    """Returns whether two bags of rows are the same where blank nodes may have other names, one for one."""
    some, others = Counter(some), Counter(others)
    bound = [{row: count for row, count in item.items() if any(map(is_blank, row))} for item in (some, others)]
    if some - Counter(bound[0]) != others - Counter(bound[1]) or len(blanks(bound[0])) != len(blanks(bound[1])):
        return False
    return are_alike(*bound, dict.fromkeys(blanks(bound[0]), 0), dict.fromkeys(blanks(bound[1]), 0))


def coloured(rows, colours):
    """Returns the bag of rows with the colours of blank nodes in their places."""
    found = Counter()
    for row, count in rows.items():
        found[tuple(colours.get(item, item) for item in row), count] += 1
    return found


def refined(rows, colours):
    """Returns for each blank node its colour, and where it stands among which others."""
    places = {colour: Counter() for colour in colours}
    for row, count in rows.items():
        for node in {*filter(is_blank, row)}:
            places[node][tuple(("here",) if item == node else ("node", colours[item]) if is_blank(item) else item for item in row), count] += 1
    return {item: (colours[item], frozenset(some.items())) for item, some in places.items()}


def parts_of(rows, colours):
    """Returns the rows of each set of blank nodes that stand in rows with one another, as bags. A node whose colour no other has is no link."""
    shared = {colour for colour, size in Counter(colours.values()).items() if size > 1}
    above = {node: node for node, colour in colours.items() if colour in shared}

    def top(node):
        while above[node] != node:
            above[node] = node = above[above[node]]
        return node

    linked = [(row, [item for item in row if item in above]) for row in rows]
    for _, nodes in linked:
        for node in nodes[1:]:
            above[top(node)] = top(nodes[0])
    parts = defaultdict(dict)
    for row, nodes in linked:
        if nodes:
            parts[top(nodes[0])][row] = rows[row]
    return [*parts.values()]


def are_parts_alike(some, others, colours, other_colours):
    """Returns whether each of the parts is like one of the others, one for one."""
    left = defaultdict(list)
    for part in others:
        left[frozenset(coloured(part, other_colours).items())].append(part)
    for part in some:
        tried = left[frozenset(coloured(part, colours).items())]
        own = {node: colours[node] for node in blanks(part)}
        at = next((at for at, item in enumerate(tried) if are_alike(part, item, own, {node: other_colours[node] for node in blanks(item)})), None)
        if at is None:
            return False
        del tried[at]
    return True


def are_alike(some, others, colours, other_colours):
    """Returns whether blank nodes can be mapped one for one, each to one with its colour, so that one bag of rows becomes the other."""
    while True:
        pair = refined(some, colours), refined(others, other_colours)
        numbers = {}
        for entry in itertools.chain(pair[0].values(), pair[1].values()):
            numbers.setdefault(entry, len(numbers))
        pair = [{node: numbers[value] for node, value in side.items()} for side in pair]
        if Counter(pair[0].values()) != Counter(pair[1].values()):
            return False
        is_done = len(numbers) == len({*colours.values()})
        colours, other_colours = pair
        if is_done:
            break
    if coloured(some, colours) != coloured(others, other_colours):
        return False
    size, colour = min(((size, item) for item, size in Counter(colours.values()).items() if size > 1), default=(1, None))
    if size == 1:
        return True
    parts, other_parts = parts_of(some, colours), parts_of(others, other_colours)
    if len(parts) != len(other_parts):
        return False
    if len(parts) > 1:
        return are_parts_alike(parts, other_parts, colours, other_colours)
    node = next(item for item in colours if colours[item] == colour)
    tried = [item for item in other_colours if other_colours[item] == colour]
    return any(are_alike(some, others, {**colours, node: -1}, {**other_colours, item: -1}) for item in tried)


def blurred(row):
    """Returns a row with its blank nodes numbered by their first places in it."""
    numbers = {}
    return tuple(Term("bnode", str(numbers.setdefault(item, len(numbers)))) if is_blank(item) else item for item in row)


def pairs_row(row):
    """Returns a solution as a row: the names and the terms, in the order of the names."""
    return tuple(item for pair in sorted(row) for item in pair)


def allows(lists, rows):
    """Returns whether a list of solutions is one of those that the model gives, where blank nodes may have other names. Of a slice, which may hold
    some of the solutions, each is compared by itself."""
    spans, rows = lists.spans(), [*map(pairs_row, rows)]
    if len(rows) != (spans[-1][2] if spans else 0):
        return False
    is_whole = all(end - begin == len(tied) for tied, begin, end in spans)
    classes = [(begin, end, [*map(pairs_row, tied)]) for tied, begin, end in spans]
    if is_whole:
        due = [(str(begin), *row) for begin, _, tied in classes for row in tied]
        return are_same([(str(begin), *row) for begin, end, _ in classes for row in rows[begin:end]], due)
    return all(not Counter(map(blurred, rows[begin:end])) - Counter(map(blurred, tied)) for begin, end, tied in classes)


# ---- statements whose new blank nodes may have other names, and whose old ones have theirs


def canonical(found, old):
    """Returns a value that is the same for two sets of statements exactly where they are the same but for the names of blank nodes that aren't old.

    # Errors

    TooLarge where more than six such nodes hang together."""
    new = {item: {term for term in item if term and term.kind == "bnode" and term not in old} for item in found}
    known, forms = frozenset(item for item in found if not new[item]), Counter()
    left = {item for item in found if new[item]}
    while left:
        part, names = set(), set(new[next(iter(left))])
        while more := {item for item in left if new[item] & names}:
            part, left, names = part | more, left - more, names.union(*(new[item] for item in more))
        if len(names) > 6:
            raise TooLarge
        forms[min(renamed(part, order) for order in itertools.permutations(names))] += 1
    return known, frozenset(forms.items())


def renamed(part, order):
    numbers = {item: Term("new", str(at)) for at, item in enumerate(order)}
    return tuple(sorted(tuple(numbers.get(item, item) or ("",) for item in statement) for statement in part))


def spelt(form):
    """Returns quads with this canonical form, of which each new blank node has a number of its own."""
    known, parts = form
    found, first = [*known], 1000
    for part, times in sorted(parts, key=str):
        for _ in range(times):
            named = lambda term: Term("bnode", f"b{first + int(term.text)}") if term[0] == "new" else term if term[0] else None
            found += [tuple(map(named, statement)) for statement in part]
            first += 10
    return sorted(found, key=str)
