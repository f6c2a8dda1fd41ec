"""What is due for a text: the tokens and the tree of a query or an update, or the line of its fault. (`nquads.py` reads N-Quads.)

This reads texts as the profile's grammar says, by descent over a list of tokens, and shares nothing with the program. Sections are those of SPARQL
1.1 Query, where no other standard is named; "(own)" marks what this store's profile narrows.
"""
import itertools
import re

from scope import breaks_scope
from trees import BOOLEAN, INTEGER, XSD, Alternative, Bind, Call, Clear, Closure, Create, Filter, Graph, Group, Inverse, Minus, Modify, Negated
from trees import Optional, Query, Sequence, Term, Transfer, Triples, Union, Values, var

RDF = "http://www.w3.org/1999/02/22-rdf-syntax-ns#"
MOST, DEEPEST = 256, 64
"""The most elements of a group and operands of a chain, and the most brackets open at once (own)."""


class Fault(Exception):
    """A text is refused; its words are the fault's line."""


# ---- tokens (19.8, rules 139 to 173)

BASE = (
    "A-Za-z\u00c0-\u00d6\u00d8-\u00f6\u00f8-\u02ff\u0370-\u037d\u037f-\u1fff\u200c-\u200d\u2070-\u218f\u2c00-\u2fef\u3001-\ud7ff\uf900-\ufdcf"
    "\ufdf0-\ufffd\U00010000-\U000effff"
)
MORE = "\u00b7\u0300-\u036f\u203f-\u2040"
CHARS = f"{BASE}_0-9{MORE}\\-"
UCHAR = r"\\(?:u(?![dD][89a-fA-F])[0-9A-Fa-f]{4}|U(?:0000(?![dD][89a-fA-F])|000[1-9a-fA-F]|0010)[0-9A-Fa-f]{4})"
ECHAR = r"\\[tbnrf\"'\\]"
IRI_CHAR = r"[^\x00-\x20<>\"{}|^`\\]"
ESCAPED = r"(?:%[0-9A-Fa-f]{2}|\\[_~.\-!$&'()*+,;=/?#@%])"
NAMESPACE = f"(?:[{BASE}](?:[{CHARS}.]*[{CHARS}])?)?:"
CLASSES = {
    "IRIREF": f"<(?:{IRI_CHAR}|{UCHAR})*>",
    "NAME": f"{NAMESPACE}(?:[{BASE}_:0-9]|{ESCAPED})(?:(?:[{CHARS}.:]|{ESCAPED})*(?:[{CHARS}:]|{ESCAPED}))?",
    "NAMESPACE": NAMESPACE,
    "BLANK": f"_:[{BASE}_0-9](?:[{CHARS}.]*[{CHARS}])?",
    "VAR": f"[?$][{BASE}_0-9][{BASE}_0-9{MORE}]*",
    "INTEGER": "[0-9]+",
    "SIGNED": "[+-][0-9]+",
    "DECIMAL": r"[+-]?[0-9]*\.[0-9]+",
    "DOUBLE": r"[+-]?(?:[0-9]+\.[0-9]*|\.?[0-9]+)[eE][+-]?[0-9]+",
    "STRING": "|".join(
        [f"{quote}{{3}}(?:{quote}{{0,2}}(?:[^{quote}\\\\]|{ECHAR}|{UCHAR}))*{quote}{{3}}" for quote in "'\""]
        + [f"{quote}(?:[^{quote}\\\\\n\r]|{ECHAR}|{UCHAR})*{quote}" for quote in "'\""]
    ),
    "LANGTAG": "@[A-Za-z]+(?:-[A-Za-z0-9]+)*",
    "WORD": "[A-Za-z][A-Za-z0-9_]*",
    "MARK": r"\|\||&&|\^\^|[!<>]=|[{}()\[\].,;*/+\-|^?!=<>]",
}
CLASSES = {name: re.compile(item) for name, item in CLASSES.items()}
STARTS = {
    "<": ("IRIREF", "MARK"), "_": ("BLANK",), ":": ("NAME", "NAMESPACE"), "?": ("VAR", "MARK"), "$": ("VAR",), "@": ("LANGTAG",),
    "'": ("STRING",), '"': ("STRING",), ".": ("DECIMAL", "DOUBLE", "MARK"),
    **dict.fromkeys("+-", ("SIGNED", "DECIMAL", "DOUBLE", "MARK")), **dict.fromkeys("0123456789", ("INTEGER", "DECIMAL", "DOUBLE")),
    **dict.fromkeys("|&^!>{}()[],;*/=", ("MARK",)),
}  # fmt: skip
"""By the first character of a token, the classes that it may be of. All others are a name's or a word's."""
GAP = re.compile(r"(?:[ \t\r\n]+|#[^\r\n]*)*")
LEFT_OUT = set(
    "BASE DESCRIBE FROM USING SERVICE LOAD GROUP HAVING EXISTS COUNT SUM MIN MAX AVG SAMPLE GROUP_CONCAT SEPARATOR REGEX REPLACE SUBSTR STRBEFORE"
    " STRAFTER UCASE LCASE ENCODE_FOR_URI ABS ROUND CEIL FLOOR RAND NOW YEAR MONTH DAY HOURS MINUTES SECONDS TIMEZONE TZ UUID STRUUID MD5 SHA1"
    " SHA256 SHA384 SHA512 IRI URI BNODE STRDT STRLANG".split()
)
"""Words of SPARQL that the profile leaves out (own)."""
FORBIDDEN = re.compile(r"[\x00-\x20<>\"{}|^`\\]")
SCHEME = re.compile(r"[A-Za-z][A-Za-z0-9+.\-]*:")
LETTERS = dict(zip("tbnrf\"'\\", "\t\b\n\r\f\"'\\"))


def unescaped(text):
    """Returns a text with each UCHAR and ECHAR replaced by its character (19.2, 19.7)."""
    if "\\" not in text:
        return text
    meant = lambda entry: LETTERS[entry[1]] if entry[1] in LETTERS else chr(int(entry[0][2:], 16))
    return re.sub(r"\\(?:u[0-9A-Fa-f]{4}|U[0-9A-Fa-f]{8}|(.))", meant, text)


def token_at(text, place):
    """Returns the class and the end of the longest token that begins there, or None."""
    found = None
    for name in STARTS.get(text[place], ("NAME", "NAMESPACE", "WORD")):
        match = CLASSES[name].match(text, place)
        if match and (found is None or match.end() > found[1]):
            if name != "IRIREF" or "\\" not in match[0] or not FORBIDDEN.search(unescaped(match[0][1:-1])):
                found = name, match.end()
    return found


def tokens_of(text):
    """Returns the tokens: for each its class, its place and its text.

    # Errors

    Fault, F1, where no token begins."""
    found, place = [], GAP.match(text).end()
    while place < len(text):
        token = token_at(text, place)
        if token is None:
            raise Fault(f"F1 syntax at {bytes_before(text, place)}")
        found.append((token[0], place, text[place : token[1]]))
        place = GAP.match(text, token[1]).end()
    return found


def bytes_before(text, place):
    return len(text[:place].encode())


def check_tokens(text, tokens):
    """Looks for faults of the whole list: what is left out, and too many open brackets (own).

    # Errors

    Fault."""
    for name, _, word in tokens:
        if name in ("DECIMAL", "DOUBLE") or name == "WORD" and word.upper() in LEFT_OUT:
            raise Fault(f"F4 left out: {word}")
    open_now = 0
    for name, place, mark in tokens:
        if name == "MARK" and mark in "{([":
            open_now += 1
            if open_now > DEEPEST:
                raise Fault(f"F6 too large at {bytes_before(text, place)}")
        elif name == "MARK" and mark in "})]":
            open_now = max(0, open_now - 1)


# ---- the grammar (19.8, rules 1 to 138)

CALLS = {
    **dict.fromkeys("STR LANG DATATYPE STRLEN isIRI isURI isBlank isLiteral isNumeric".split(), 1),
    **dict.fromkeys("LANGMATCHES CONTAINS STRSTARTS STRENDS sameTerm".split(), 2), "IF": 3, "COALESCE": None, "CONCAT": None, "BOUND": 0,
}  # fmt: skip
"""How many arguments a call has; None for a list, and 0 for one variable."""
NAMES = {item.upper(): item for item in CALLS}
RELATIONS = ("=", "!=", "<", ">", "<=", ">=")


class Parser:
    """Reads a list of tokens by descent. Each method reads one rule, from the present token on."""

    def __init__(self, text, tokens):
        self.text, self.tokens, self.at = text, [*tokens, ("END", len(text), "")], 0
        self.prefixes, self.faults, self.fresh, self.breaks, self.has_empty_graph = {}, [], itertools.count(), False, False

    # ---- tokens

    def refuse(self):
        raise Fault(f"F1 syntax at {bytes_before(self.text, self.tokens[self.at][1])}")

    def is_mark(self, *marks):
        name, _, text = self.tokens[self.at]
        return name == "MARK" and text in marks

    def is_word(self, *words):
        name, _, text = self.tokens[self.at]
        return name == "WORD" and text.upper() in words

    def is_class(self, *names):
        return self.tokens[self.at][0] in names

    def take(self):
        self.at += 1
        return self.tokens[self.at - 1][2]

    def mark(self, mark):
        return self.take() if self.is_mark(mark) else self.refuse()

    def word(self, *words):
        return self.take().upper() if self.is_word(*words) else self.refuse()

    def has_mark(self, mark):
        return bool(self.is_mark(mark) and self.take())

    def has_word(self, word):
        return bool(self.is_word(word) and self.take())

    def counted(self, count):
        """Notes that an element or operand begins, so many before it."""
        if count == MOST:
            self.faults.append((self.tokens[self.at][1], 6))

    # ---- names and terms

    def prologue(self):
        while self.has_word("PREFIX"):
            if not self.is_class("NAMESPACE"):
                self.refuse()
            name = self.take()
            if not self.is_class("IRIREF"):
                self.refuse()
            self.prefixes[name[:-1]] = self.iri().text

    def is_iri(self):
        return self.is_class("IRIREF", "NAME", "NAMESPACE")

    def iri(self):
        """Reads an IRI, and notes its fault: F2 before F3."""
        if not self.is_iri():
            self.refuse()
        place, text = self.tokens[self.at][1], self.take()
        if text[0] == "<":
            text = unescaped(text[1:-1])
            if not SCHEME.match(text):
                self.faults.append((place, 3))
            return Term("uri", text)
        prefix, _, local = text.partition(":")
        if prefix not in self.prefixes:
            self.faults.append((place, 2))
            return Term("uri", "")
        return Term("uri", self.prefixes[prefix] + re.sub(r"\\(.)", r"\1", local))

    def variable(self):
        return var(self.take()[1:]) if self.is_class("VAR") else self.refuse()

    def is_literal(self):
        return self.is_class("STRING", "INTEGER", "SIGNED") or self.is_word("TRUE", "FALSE")

    def literal(self):
        if not self.is_literal():
            self.refuse()
        if self.is_class("INTEGER", "SIGNED"):
            return Term("literal", self.take(), INTEGER)
        if self.is_class("WORD"):
            return Term("literal", self.take().lower(), BOOLEAN)
        text = self.take()
        quotes = 3 if text[:3] in ('"""', "'''") and len(text) >= 6 else 1
        form = unescaped(text[quotes:-quotes])
        if self.is_class("LANGTAG"):
            return Term("literal", form, "", self.take()[1:].lower())
        if not self.has_mark("^^"):
            return Term("literal", form)
        datatype = self.iri().text
        self.breaks = self.breaks or datatype == RDF + "langString"
        return Term("literal", form, "" if datatype == XSD + "string" else datatype)

    def hidden(self):
        return var(f"_:[{next(self.fresh)}]")

    # ---- triples

    def is_node(self):
        return self.is_class("VAR", "BLANK") or self.is_iri() or self.is_literal() or self.is_mark("[")

    def node(self, is_plain, found):
        """Reads a node, whose own triples are put to those found. Returns it, and whether it needs no more properties."""
        if self.has_mark("["):
            blank = self.hidden()
            if self.has_mark("]"):
                return blank, False
            self.properties(blank, is_plain, found)
            self.mark("]")
            return blank, True
        if self.is_class("VAR"):
            return self.variable(), False
        if self.is_class("BLANK"):
            return var(self.take()), False
        return (self.iri() if self.is_iri() else self.literal()), False

    def is_verb(self, is_plain):
        is_a = self.is_class("WORD") and self.tokens[self.at][2] == "a"
        return self.is_class("VAR") or self.is_iri() or is_a or not is_plain and self.is_mark("^", "!", "(")

    def name(self):
        """Reads an IRI or the word `a`."""
        if self.is_class("WORD") and self.tokens[self.at][2] == "a":
            self.take()
            return Term("uri", RDF + "type")
        return self.iri()

    def properties(self, subject, is_plain, found):
        if not self.is_verb(is_plain):
            self.refuse()
        while self.is_verb(is_plain):
            verb = self.variable() if self.is_class("VAR") else self.name() if is_plain else self.path()
            more = True
            while more:
                if not self.is_node():
                    self.refuse()
                # (the triple stands before those of its object, as in the text)
                place = len(found)
                object, _ = self.node(is_plain, found)
                found.insert(place, (subject, verb, object))
                more = self.has_mark(",")
            if not self.has_mark(";"):
                return
            while self.has_mark(";"):
                pass

    def triples(self, is_plain):
        """Reads a block of triples, in a template without paths."""
        found = []
        while True:
            subject, is_whole = self.node(is_plain, found)
            if not is_whole or self.is_verb(is_plain):
                self.properties(subject, is_plain, found)
            if not self.has_mark(".") or not self.is_node():
                return tuple(found)

    def template(self):
        return self.triples(True) if self.is_node() else ()

    # ---- paths (rules 88 to 96)

    def chain(self, mark, operand, make):
        self.counted(0)
        found, count = operand(), 1
        while self.has_mark(mark):
            self.counted(count)
            found, count = make(found, operand()), count + 1
        return found

    def path(self):
        return self.chain("|", lambda: self.chain("/", self.path_element, Sequence), Alternative)

    def path_element(self):
        is_inverse = self.has_mark("^")
        if self.has_mark("("):
            found = self.path()
            self.mark(")")
        else:
            found = self.negated() if self.has_mark("!") else self.name()
        if self.is_mark("?", "*", "+"):
            found = Closure(found, self.take())
        return Inverse(found) if is_inverse else found

    def negated(self):
        ways = {False: [], True: []}
        one = lambda: ways[self.has_mark("^")].append(self.name())
        if self.has_mark("("):
            if not self.is_mark(")"):
                self.chain("|", one, lambda *_: None)
            self.mark(")")
        else:
            one()
        return Negated(tuple(ways[False]), tuple(ways[True]))

    # ---- expressions (rules 110 to 124)

    def operands(self, name, operand):
        args = [operand()]
        while self.has_mark(name):
            self.counted(len(args))
            args.append(operand())
        return args[0] if len(args) == 1 else Call(name, tuple(args))

    def expression(self):
        return self.operands("||", lambda: self.operands("&&", self.relation))

    def relation(self):
        left = self.sum()
        if self.is_mark(*RELATIONS):
            return Call(self.take(), (left, self.sum()))
        if self.is_word("NOT", "IN"):
            is_not = self.has_word("NOT")
            self.word("IN")
            return Call("NOT IN" if is_not else "IN", (left, *self.list()))
        return left

    def sum(self):
        found, count = self.product(self.unary), 1
        while self.is_mark("+", "-") or self.is_class("SIGNED"):
            if self.is_class("SIGNED"):
                self.counted(count)
                found = Call("+", (found, self.product(self.literal)))
            else:
                mark = self.take()
                self.counted(count)
                found = Call(mark, (found, self.product(self.unary)))
            count += 1
        return found

    def product(self, first):
        found, count = first(), 1
        while self.has_mark("*"):
            self.counted(count)
            found, count = Call("*", (found, self.unary())), count + 1
        return found

    def unary(self):
        return Call(self.take(), (self.atom(),)) if self.is_mark("!", "+", "-") else self.atom()

    def atom(self):
        if self.is_mark("("):
            return self.bracketed()
        if self.is_word(*NAMES):
            return self.call()
        return self.variable() if self.is_class("VAR") else self.iri() if self.is_iri() else self.literal()

    def bracketed(self):
        self.mark("(")
        found = self.expression()
        self.mark(")")
        return found

    def list(self):
        self.mark("(")
        found = [] if self.is_mark(")") else [self.expression()]
        while found and self.has_mark(","):
            found.append(self.expression())
        self.mark(")")
        return found

    def call(self):
        name = NAMES[self.take().upper()]
        count = CALLS[name]
        if count is None:
            return Call(name, tuple(self.list()))
        self.mark("(")
        args = [self.variable() if count == 0 else self.expression()]
        while len(args) < count:
            self.mark(",")
            args.append(self.expression())
        self.mark(")")
        return Call(name, tuple(args))

    def constraint(self):
        if not self.is_mark("(") and not self.is_word(*NAMES):
            self.refuse()
        return self.bracketed() if self.is_mark("(") else self.call()

    # ---- groups (rules 53 to 68)

    def group(self):
        self.mark("{")
        found, is_after = [], True
        while not self.is_mark("}"):
            self.counted(len(found))
            if is_after and self.is_node():
                found.append(Triples(self.triples(False)))
                is_after = False
            else:
                found.append(self.element())
                self.has_mark(".")
                is_after = True
        self.take()
        return Group(tuple(found))

    def element(self):
        if self.is_mark("{"):
            groups = [self.group()]
            while self.has_word("UNION"):
                self.counted(len(groups))
                groups.append(self.group())
            return groups[0] if len(groups) == 1 else Union(tuple(groups))
        word = self.word("OPTIONAL", "MINUS", "GRAPH", "FILTER", "BIND", "VALUES")
        if word == "GRAPH":
            name = self.variable() if self.is_class("VAR") else self.iri()
            return Graph(name, self.group())
        if word == "BIND":
            return Bind(*self.named())
        if word == "FILTER":
            return Filter(self.constraint())
        return self.values() if word == "VALUES" else {"OPTIONAL": Optional, "MINUS": Minus}[word](self.group())

    def named(self):
        """Reads an expression with the variable that names it."""
        self.mark("(")
        value = self.expression()
        self.word("AS")
        name = self.variable()
        self.mark(")")
        return value, name

    def values(self):
        if self.is_class("VAR"):
            names, rows = (self.variable(),), []
            self.mark("{")
            while not self.is_mark("}"):
                rows.append((self.value(),))
            self.take()
            return Values(names, tuple(rows))
        self.mark("(")
        names = self.several(self.variable, ")")
        self.mark("{")
        rows = self.several(self.row, "}")
        self.breaks = self.breaks or any(len(item) != len(names) for item in rows)
        return Values(names, rows)

    def several(self, one, end):
        found = []
        while not self.has_mark(end):
            found.append(one())
        return tuple(found)

    def row(self):
        self.mark("(")
        return self.several(self.value, ")")

    def value(self):
        if self.has_word("UNDEF"):
            return None
        return self.iri() if self.is_iri() else self.literal()

    # ---- queries (rules 2 to 28)

    def query(self):
        self.prologue()
        form, items, distinct, is_short = self.word("SELECT", "CONSTRUCT", "ASK"), None, "", False
        if form == "SELECT":
            distinct = self.take().upper() if self.is_word("DISTINCT", "REDUCED") else ""
            items = self.items()
        if form == "CONSTRUCT" and self.is_mark("{"):
            self.take()
            items = self.template()
            self.mark("}")
        elif form == "CONSTRUCT":
            self.word("WHERE")
            self.mark("{")
            items, is_short = self.template(), True
            self.mark("}")
        if is_short:
            where = Group((Triples(items),) if items else ())
        else:
            self.has_word("WHERE")
            where = self.group()
        order, offset, limit = self.modifiers()
        values = self.values() if self.has_word("VALUES") else None
        if not self.is_class("END"):
            self.refuse()
        return Query(form, items, where, distinct, order, offset, limit, values)

    def items(self):
        if self.has_mark("*"):
            return None
        found = []
        while self.is_class("VAR") or self.is_mark("(") or not found:
            found.append(self.named() if self.is_mark("(") else self.variable())
        return tuple(found)

    def modifiers(self):
        order, counts = [], {}
        if self.has_word("ORDER"):
            self.word("BY")
            order.append(self.key())
            while self.is_word("ASC", "DESC", *NAMES) or self.is_mark("(") or self.is_class("VAR"):
                order.append(self.key())
        while len(counts) < 2 and self.is_word(*({"LIMIT", "OFFSET"} - {*counts})):
            name = self.take().upper()
            counts[name] = int(self.take()) if self.is_class("INTEGER") else self.refuse()
        return tuple(order), counts.get("OFFSET", 0), counts.get("LIMIT")

    def key(self):
        if self.is_word("ASC", "DESC"):
            is_down = self.take().upper() == "DESC"
            return self.bracketed(), is_down
        return (self.variable() if self.is_class("VAR") else self.constraint()), False

    # ---- updates (rules 29 to 52)

    def update(self):
        found = []
        self.prologue()
        while not self.is_class("END"):
            found.append(self.operation())
            if not self.has_mark(";"):
                break
            self.prologue()
        if not self.is_class("END"):
            self.refuse()
        return tuple(found)

    def operation(self):
        word = self.word("INSERT", "DELETE", "WITH", "CLEAR", "DROP", "CREATE", "ADD", "MOVE", "COPY")
        if word in ("INSERT", "DELETE", "WITH"):
            return self.modify(word)
        silent = self.has_word("SILENT")
        if word == "CREATE":
            self.word("GRAPH")
            return Create(self.iri(), silent)
        if word in ("CLEAR", "DROP"):
            target = self.word("GRAPH", "DEFAULT", "NAMED", "ALL")
            return Clear(word, self.iri() if target == "GRAPH" else target, silent)
        source = self.end()
        self.word("TO")
        return Transfer(word, source, self.end(), silent)

    def end(self):
        if self.has_word("DEFAULT"):
            return None
        self.has_word("GRAPH")
        return self.iri()

    def modify(self, word):
        if word != "WITH" and self.is_word("DATA"):
            self.take()
            quads = self.quads(is_data=True)
            return Modify(f"{word} DATA", None, quads if word == "DELETE" else None, quads if word == "INSERT" else None, None)
        if word == "DELETE" and self.has_word("WHERE"):
            return Modify("DELETE WHERE", None, self.quads(is_pattern=True), None, None)
        graph, delete, insert = None, None, None
        if word == "WITH":
            graph, word = self.iri(), None
            word = self.word("DELETE", "INSERT")
        if word == "DELETE":
            delete = self.quads()
            word = "INSERT" if self.has_word("INSERT") else None
        if word == "INSERT":
            insert = self.quads()
        self.word("WHERE")
        return Modify("MODIFY", graph, delete, insert, self.group())

    def quads(self, is_pattern=False, is_data=False):
        """Reads a template of quads; the one of a DELETE WHERE counts as a group."""
        self.mark("{")
        found, elements, is_after = [], 0, True
        while not self.is_mark("}"):
            if is_pattern:
                self.counted(elements)
            elements += 1
            if is_after and self.is_node():
                found += [(None, *item) for item in self.template()]
                is_after = False
                continue
            self.word("GRAPH")
            graph = self.variable() if self.is_class("VAR") else self.iri()
            self.mark("{")
            inner = self.template()
            self.mark("}")
            self.has_empty_graph = self.has_empty_graph or not inner
            self.breaks = self.breaks or is_data and graph.kind == "var"
            found += [(graph, *item) for item in inner]
            self.has_mark(".")
            is_after = True
        self.take()
        return tuple(found)


KINDS = {2: "F2 undeclared prefix", 3: "F3 relative IRI", 6: "F6 too large"}


def read(kind, text):
    """Returns the tree of a query or an update, and whether the model can evaluate it as it is.

    # Errors

    Fault, with the line that is due."""
    tokens = tokens_of(text)
    check_tokens(text, tokens)
    parser = Parser(text, tokens)
    tree = parser.query() if kind == "query" else parser.update()
    if parser.faults:
        place, number = min(parser.faults)
        raise Fault(f"{KINDS[number]} at {bytes_before(text, place)}")
    if parser.breaks or breaks_scope(tree):
        raise Fault("F5 scope")
    # (the model knows a DELETE WHERE by its quads, which don't show a graph without any)
    return tree, not parser.has_empty_graph


def variables_of(text):
    """Returns the names of the variables of a text, each once, in the order of their first places."""
    return [*dict.fromkeys(item[1:] for name, _, item in tokens_of(text) if name == "VAR")]
