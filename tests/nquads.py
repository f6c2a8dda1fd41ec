"""What is due for a text of N-Quads (RDF 1.1 N-Quads, 2 to 4): its quads, or the line of its fault; and the statements that the program writes."""
import re

from answers import Wrong
from reader import BASE, CHARS, CLASSES, ECHAR, FORBIDDEN, IRI_CHAR, RDF, SCHEME, UCHAR, Fault, unescaped
from trees import XSD, Term, lines_of

TOKENS = {
    "iri": f"<(?:{IRI_CHAR}|{UCHAR})*>",
    "string": rf'"(?:[^"\\\n\r]|{ECHAR}|{UCHAR})*"',
    "tag": CLASSES["LANGTAG"].pattern,
    "blank": f"_:[{BASE}_:0-9](?:[{CHARS}:.]*[{CHARS}:])?",
    "mark": r"\^\^|\.",
}
TOKEN = re.compile("|".join(f"(?P<{name}>{form})" for name, form in TOKENS.items()))
GAP = re.compile(r"(?:[ \t]+|#[^\r\n]*)*")
FRONTS = re.compile(rf'<(?:{IRI_CHAR}|{UCHAR})*(?!{UCHAR})\\|"(?:[^"\\\n\r]|{ECHAR}|{UCHAR})*(?!{ECHAR}|{UCHAR})\\')
"""What stands before a place where an escape is due and none begins."""
FAULTS = {1: "utf8", 2: "token", 3: "shape", 4: "iri", 5: "escape", 6: "literal"}
FITS = {
    "iri": ("start", "predicate", "object", "literal", "graph or end"),
    "blank": ("start", "object", "literal", "graph or end"),
    "string": ("object",),
    "tag": ("literal",),
    "^^": ("literal",),
    ".": ("literal", "graph or end", "end"),
}
"""By a token or its kind, the places of a statement that it may have."""
NEXT = {"start": "predicate", "predicate": "object", "object": "graph or end", "literal": "end", "graph or end": "end"}
"""By the place of an IRI or a blank node, the next one."""


class Reader:
    """Reads the statements of a text. Blank nodes are numbered by their first places, unless their labels are kept."""

    def __init__(self, text, keeps_labels=False):
        self.text, self.keeps_labels, self.numbers, self.quads, self.terms, self.at = text, keeps_labels, {}, [], [], "start"

    def refuse(self, number, place):
        raise Fault(f"N{number} {FAULTS[number]} at line {1 + self.text.count(chr(10), 0, place)}")

    def read(self):
        text, place = self.text, 0
        while (place := GAP.match(text, place).end()) < len(text):
            if text[place] in "\r\n":
                self.end_line(place)
                place += 1
            else:
                place = self.token(place)
        self.end_line(place)
        return self.quads

    def end_line(self, place):
        if self.at not in ("start", "done"):
            self.refuse(3, place)
        self.at = "start"

    def token(self, place):
        """Gives the token at a place its place in the statement, and returns where it ends."""
        found = TOKEN.match(self.text, place)
        if not found:
            self.refuse(5 if FRONTS.match(self.text, place) else 2, place)
        kind, text = found.lastgroup, found[0]
        if kind == "iri":
            text = unescaped(text[1:-1])
            if FORBIDDEN.search(text) or not SCHEME.match(text):
                self.refuse(4, place)
        if kind == "iri" and self.at == "datatype":
            self.put_datatype(text, place)
        elif self.at not in FITS[text if kind == "mark" else kind]:
            self.refuse(3, place)
        elif text == "." and kind == "mark":
            self.end_statement()
        else:
            self.put(kind, text)
        return found.end()

    def put(self, kind, text):
        at = self.at
        if kind == "mark":
            self.at = "datatype"
        elif kind == "tag":
            self.terms.append(Term("literal", self.terms.pop().text, "", text[1:].lower()))
            self.at = "graph or end"
        elif kind == "string":
            self.terms.append(Term("literal", unescaped(text[1:-1])))
            self.at = "literal"
        else:
            self.terms.append(Term("uri", text) if kind == "iri" else Term("bnode", self.label(text)))
            self.at = NEXT[at]

    def label(self, text):
        return text[2:] if self.keeps_labels else self.numbers.setdefault(text, f"b{len(self.numbers)}")

    def put_datatype(self, text, place):
        if text == RDF + "langString":
            self.refuse(6, place)
        self.terms.append(Term("literal", self.terms.pop().text, "" if text == XSD + "string" else text))
        self.at = "graph or end"

    def end_statement(self):
        subject, predicate, object, *graph = self.terms
        self.quads.append((*(graph or [None]), subject, predicate, object))
        self.terms, self.at = [], "done"


def read_quads(data):
    """Returns the quads (graph first) of the bytes of N-Quads, blank nodes numbered by their first places.

    # Errors

    Fault, with the line that is due."""
    try:
        text = data.decode()
    except UnicodeDecodeError as error:
        raise Fault(f"N1 utf8 at line {1 + data.count(10, 0, error.start)}") from None
    return Reader(text).read()


def statements(body, count):
    """Returns the set of statements that the program writes as N-Triples or N-Quads, as tuples with so many terms, the graph first where it is one of
    four. Blank nodes have their labels.

    # Errors

    Wrong where they aren't ascending lines in their written form, each once."""
    try:
        found = {*Reader(body, keeps_labels=True).read()}
        is_written = lines_of(found) == body
    except (Fault, UnicodeEncodeError) as fault:
        raise Wrong(f"these aren't statements: {fault}") from None
    is_labelled = all(re.fullmatch(r"b\d+", term.text) for quad in found for term in quad if term and term.kind == "bnode")
    if count == 3 and any(graph for graph, *_ in found) or not is_labelled or not is_written:
        raise Wrong("these aren't statements in their written form")
    return {quad[-count:] for quad in found}
