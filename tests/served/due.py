"""The replies that are due: what requests mean for a set of quads, by the model of SPARQL in `model.py`."""
import functools
import re
from collections import Counter

from answers import Wrong, allows, are_same, blanks, row_text
from http_client import NQUADS, NTRIPLES, RESULTS, TEXT, fixed, reply
from json_results import bindings_of, solutions_of
from model import Dataset, group_solutions, updated
from nquads import statements
from trees import XSD, Graph, Group, Modify, Term, Triples, iri, lines_of

UNION = False
"""Whether queries see the union of the named graphs as the default graph. `see_union` sets it."""


def see_union(is_union):
    global UNION
    UNION = is_union


# ---- terms

SUBJECTS = [iri(item) for item in "abcd"]
PREDICATES = [iri(item) for item in "pqr"]
LITERALS = [
    *(Term("literal", item) for item in ("", "x", "Zoë", 'a "quoted" \\ word', "two\nlines\r\n", "tab\there", "𝄞 or 100% & +1?", "it's")),
    *(Term("literal", "a", "", item) for item in ("en", "en-gb")),
    Term("literal", "源氏物語", "", "ja"),
    *(Term("literal", item, XSD + "integer") for item in ("5", "05", "-7")),
    Term("literal", "true", XSD + "boolean"),
    Term("literal", "x", "http://e/t"),
]
GRAPHS = [iri(item) for item in "gh"] + [iri("a")]


# ---- what patterns, templates and updates give over a set of quads (graph, subject, predicate, object), whose graph is None for the default graph


def dataset_of(quads):
    return Dataset(quads, UNION)


def carried(operations, quads, name=""):
    """Returns the quads after an update. The blank nodes that it makes have names that begin with this one, and no other's.

    # Errors

    Refused where an operation can't be carried out; its words are the fault's line."""
    after = updated(operations, dataset_of(quads))
    fresh = {blank: Term("bnode", f"{name}.{blank.text}") for blank in blanks(after) - blanks(quads)}
    return frozenset(tuple(fresh.get(item, item) for item in quad) for quad in after) if fresh else frozenset(after)


def inserted(quads):
    return Modify("INSERT DATA", None, None, tuple(quads), None)


def deleted(quads):
    return Modify("DELETE DATA", None, tuple(quads), None, None)


def group_of(elements):
    """Returns the group of (graph, triples), where the graph is None, an IRI or a variable."""
    return Group(tuple(Graph(graph, Group((Triples(tuple(triples)),))) if graph else Triples(tuple(triples)) for graph, triples in elements))


def quads_of(elements):
    """Returns the quads of a template's (graph, triples)."""
    return tuple((graph, *triple) for graph, triples in elements for triple in triples)


def solutions(elements, quads):
    """Returns the bag of solutions of a group."""
    data = dataset_of(quads)
    return group_solutions(group_of(elements), data, data.default())


def variables_of(elements):
    """Returns the names of the variables, each once, in the order in which they first appear."""
    words = [word for graph, triples in elements for word in (graph, *(item for triple in triples for item in triple))]
    return list(dict.fromkeys(item.text for item in words if item and item.kind == "var"))


# ---- replies

TEXT_FAULT = r"(F1 syntax|F2 undeclared prefix|F3 relative IRI|F6 too large) at \d+|F4 left out: \S+|F5 scope"
REFUSED = {fixed(item) for item in (400, 404, 411, 413, 415, 431)} | {fixed(405, item) for item in ("GET, POST", "POST", "GET")}
"""The replies that refuse a request for its head."""


def parts_of(found):
    """Returns a reply's status, media type and body, where it is one with a body."""
    front, _, body = found.partition(b"\r\n\r\n")
    named = re.fullmatch(rb"HTTP/1\.1 (200|400|500) [^\r\n]*\r\nConnection: close\r\nContent-Type: ([^\r\n]*)\r\nContent-Length: (\d+)", front)
    try:
        status, media, body = int(named[1]), named[2].decode(), body.decode()
    except (TypeError, ValueError):
        raise Wrong("this is no reply with a body") from None
    if reply(status, media, body) != found:
        raise Wrong("a reply's front or length isn't its own")
    return status, media, body


class Exactly:
    """Those bytes are due."""

    def __init__(self, due):
        self.due = due

    def check(self, found):
        if found != self.due:
            raise Wrong(f"this is due: {shown(self.due)}")

    def check_front(self, found):
        """Checks what a client read that left before the end."""
        if not self.due.startswith(found):
            raise Wrong(f"a front of this is due: {shown(self.due)}")


class Line:
    """A fault's line of this form is due."""

    def __init__(self, form):
        self.form = form

    def check(self, found):
        status, media, body = parts_of(found)
        if (status, media) != (400, TEXT) or not re.fullmatch(f"(?:{self.form})\n", body):
            raise Wrong(f"status 400 and a line like {self.form} are due")


class Rows:
    """Solutions are due: the bag of these rows, or for a SELECT with a LIMIT so many of them."""

    def __init__(self, names, rows, count):
        self.names, self.rows, self.count = names, Counter(rows), count

    def check(self, found):
        status, media, body = parts_of(found)
        rows = bindings_of(body, self.names)
        if status != 200 or media != RESULTS or len(rows) != self.count or Counter(rows) - self.rows:
            raise Wrong(f"{self.count} of these solutions are due: {[*self.rows.elements()][:20]}")


@functools.lru_cache(8)
def read_solutions(body, names):
    return solutions_of(body, [*names])


@functools.lru_cache(8)
def read_statements(body, count):
    return statements(body, count)


class Solutions:
    """Solutions are due that the model allows, where blank nodes may have other names."""

    def __init__(self, names, lists):
        self.names, self.lists = tuple(names), lists

    def check(self, found):
        status, media, body = parts_of(found)
        if (status, media) != (200, RESULTS) or not allows(self.lists, read_solutions(body, self.names)):
            told = ["{" + ", ".join(row_text(item)[:200] for item in tied[:20]) + "}" for tied in self.lists.classes[:20]]
            slice = f"offset {self.lists.offset}, limit {self.lists.limit}"
            raise Wrong(f"the variables {self.names}, {slice}, of these solutions are due, with ties in braces: {' '.join(told)}")


class Statements:
    """One of these sets of triples or quads is due, where blank nodes may have other names."""

    def __init__(self, media, sets):
        self.media, self.sets = media, sets

    def check(self, found):
        status, media, body = parts_of(found)
        if (status, media) != (200, self.media):
            raise Wrong("statements are due")
        rows = read_statements(body, 4 if self.media == NQUADS else 3)
        if not any(are_same(rows, item) for item in self.sets):
            raise Wrong(f"these are due, or the like of {len(self.sets)} such sets: {lines_of(self.sets[0])[:3000]}")

    def check_front(self, found):
        """Checks what a client read that left before the end: it tells little, since the names of blank nodes aren't known."""
        head = reply(200, self.media, "").rpartition(b" ")[0]
        if not (head.startswith(found) or found.startswith(head)):
            raise Wrong(f"a front of a reply with {self.media} is due")


class Lawful:
    """Some reply is due that a query may have, or one of these others."""

    def __init__(self, others=()):
        self.others = others

    def check(self, found):
        if found in self.others:
            return
        status, media, body = parts_of(found)
        if status == 200:
            form = {RESULTS: r"\{.*\}", NTRIPLES: r"([<_].* \.\n)*", NQUADS: r"([<_].* \.\n)*"}.get(media, "")
        else:
            form = f"({TEXT_FAULT if status == 400 else 'F8 too many rows'})\n"
        if not re.fullmatch(form, body) or status != 200 and media != TEXT:
            raise Wrong("no reply of a query is so")


NOTHING = Exactly(b"")


class Meaning:
    """What a request means: for each dataset the reply that is due, and the dataset after it."""

    def __init__(self, due, writes=False, has_fronts=False):
        """`due` is a reply of any dataset, or what gives a reply and a dataset for one, which is another one only where it `writes`. It
        `has_fronts` if each of its replies is one row of bytes, so that a front of it can be told."""
        self.always = due if hasattr(due, "check") else None
        self.due = (lambda quads: (due, quads)) if self.always else due
        self.writes, self.has_fronts = writes, has_fronts


def shown(data, most=2000):
    return repr(bytes(data)) if len(data) <= most else f"{bytes(data[:most])!r} and {len(data) - most} bytes more"
