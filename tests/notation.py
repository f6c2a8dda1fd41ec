"""Terms in short, as cases and tests write them: a row is a line of terms with white space between.

:a is <http://e/a>, and so on with xsd:a and rdf:a; 5 and true are an xsd:integer and an xsd:boolean with this form; further forms are <iri>, _:b0,
"a", "a"@en, "a"^^:t, and `-` for a variable that isn't bound. Escapes in strings are those of N-Quads (RDF 1.1 N-Quads, 3.2), and \\xNN is a byte.
"""
import re

from answers import Wrong
from trees import XSD, Term, nquads_of

NAMES = {"": "http://e/", "xsd": XSD, "rdf": "http://www.w3.org/1999/02/22-rdf-syntax-ns#"}
IRI = r"<[^<>\s]*>|(?:xsd|rdf)?:\S*"
TERM = re.compile(
    rf'(?P<iri>{IRI})|_:(?P<label>\S+)|(?P<bare>[+-]?\d+|true|false)|(?P<none>-)'
    rf'|"(?P<form>(?:[^"\\]|\\.)*)"(?:@(?P<tag>\S+)|\^\^(?P<type>{IRI}))?'
)
LETTERS = dict(zip("tbnrf\"'\\", "\t\b\n\r\f\"'\\"))
SPACE = re.compile(r"[ \t]*")
ESCAPE = re.compile(r"""\\(?:([tbnrf"'\\])|x([0-9A-Fa-f]{2})|u([0-9A-Fa-f]{4})|U([0-9A-Fa-f]{8})|)""")


def decoded(text):
    """Returns the text with each escape replaced by what it stands for; a byte above 127 is a surrogate until it is written."""

    def meant(escape):
        letter, byte, short, long = escape.groups()
        if byte:
            return bytes.fromhex(byte).decode("utf-8", "surrogateescape")
        if not letter and not short and not long:
            raise Wrong(f"no escape begins here: {text[escape.start():][:20]}")
        return LETTERS[letter] if letter else chr(int(short or long, 16))

    return ESCAPE.sub(meant, text)


def iri_of(word):
    prefix, _, local = word.partition(":")
    return word[1:-1] if word.startswith("<") else NAMES[prefix] + local


def match_at(text, place=0):
    """Returns the match of the term that begins at a place of a line.

    # Errors

    Wrong where none does."""
    found = TERM.match(text, place)
    if not found or text[found.end() :][:1].strip(" \t"):
        raise Wrong(f"no term begins here: {text[place : place + 60]}")
    return found


def meaning_of(found):
    """Returns the term of a match, or None for a variable that isn't bound."""
    if found["none"]:
        return None
    if found["iri"]:
        return Term("uri", iri_of(found["iri"]))
    if found["label"]:
        return Term("bnode", found["label"])
    if found["bare"]:
        return Term("literal", found["bare"], XSD + ("boolean" if found["bare"].isalpha() else "integer"))
    datatype = iri_of(found["type"]) if found["type"] else ""
    return Term("literal", decoded(found["form"]), "" if datatype == XSD + "string" else datatype, found["tag"] or "")


def term(word):
    """Returns the term of a word."""
    found = match_at(word)
    if found.end() != len(word):
        raise Wrong(f"this is more than a term: {word}")
    return meaning_of(found)


def rows_of(text):
    """Returns the rows of a text, in short or with the full stop of N-Quads after them."""
    rows = []
    for line in filter(None, (part.strip(" \t") for part in text.split("\n"))):
        terms, place, line = [], 0, "" if line == "()" else re.sub(r"[ \t]+\.$", "", line)
        while place < len(line):
            found = match_at(line, place)
            terms.append(meaning_of(found))
            place = SPACE.match(line, found.end()).end()
        rows.append(tuple(terms))
    return rows


def nquads(text):
    """Returns the N-Quads of rows `subject predicate object graph`, of which the last may be missing, in their order."""
    return "".join(" ".join(map(nquads_of, row)) + " .\n" for row in rows_of(text))
