"""Terms, the trees of queries and updates, and how each is written. Sections are those of SPARQL 1.1 Query, where no other standard is named."""
import json
import re
from collections import namedtuple
from dataclasses import make_dataclass
from functools import lru_cache

# ---- terms (RDF 1.1 Concepts, 3), and their written forms

XSD = "http://www.w3.org/2001/XMLSchema#"
INTEGER, BOOLEAN = XSD + "integer", XSD + "boolean"

Term = namedtuple("Term", "kind text datatype tag", defaults=("", ""))
"""An IRI (`uri`), a blank node (`bnode`), a literal (without datatype where it is tagged or an xsd:string), or in a query a variable (`var`). A
variable whose text begins with `_:` is a blank node of a pattern or a template: it has a label, and can't be named elsewhere (4.1.4)."""


def iri(name):
    return Term("uri", "http://e/" + name)


def var(name):
    return Term("var", name)


def is_hidden(name):
    return name.startswith("_:")


@lru_cache(4096)
def nquads_of(term):
    if term.kind != "literal":
        return f"<{term.text}>" if term.kind == "uri" else f"_:{term.text}"
    form = term.text.replace("\\", "\\\\").replace('"', '\\"').replace("\n", "\\n").replace("\r", "\\r")
    return f'"{form}"' + (f"@{term.tag}" if term.tag else f"^^<{term.datatype}>" if term.datatype else "")


def lines_of(statements):
    """Returns the written form: the lines of quads (graph, subject, predicate, object), or of triples, ascending, each once."""
    lines = {" ".join(nquads_of(item) for item in (*quad[-3:], *filter(None, quad[:-3]))) + " .\n" for quad in statements}
    return "".join(sorted(lines, key=str.encode))


def json_of(term):
    more = {"xml:lang": term.tag} if term.tag else {"datatype": term.datatype} if term.datatype else {}
    return {"type": term.kind, "value": term.text, **more}


def compact(value):
    return json.dumps(value, sort_keys=True, separators=(",", ":"), ensure_ascii=False)


# ---- the trees of queries and updates


def node(said):
    """Returns a class of values with these fields. Two are equal if their classes and fields are."""
    name, *fields = said.split()
    return make_dataclass(name, fields, frozen=True, namespace={"__module__": __name__})


Call = node("Call name args")
"""An operator or a function, by its name in the text; of IN and NOT IN the first argument stands on the left."""

Inverse, Alternative, Sequence = node("Inverse path"), node("Alternative first second"), node("Sequence first second")
Closure = node("Closure path mark")
"""A path with the mark `?`, `*` or `+`."""
Negated = node("Negated forward inverse")
"""A negated property set: IRIs, and those behind `^`."""
PATHS = (Inverse, Alternative, Sequence, Closure, Negated)

Group = node("Group elements")
Triples = node("Triples triples")
"""Triples (subject, verb, object) of terms; a verb may be a path too."""
Filter, Bind = node("Filter condition"), node("Bind value name")
Optional, Minus, Union, Graph = node("Optional group"), node("Minus group"), node("Union groups"), node("Graph name group")
Values = node("Values names rows")
"""Inline data: variables, and rows with a term or None (UNDEF) for each."""

Query = node("Query form items where distinct order offset limit values")
"""A query. `items` are, of a SELECT, variables and pairs (expression, variable), or None for `*`; of a CONSTRUCT the triples of its template.
`distinct` is a word or empty, `order` has pairs (expression, whether it descends); `limit` and `values` may be None."""

Modify = node("Modify form graph delete insert where")
"""An update of quads (graph, subject, predicate, object), by its form: `INSERT DATA`, `DELETE DATA`, `DELETE WHERE`, or `MODIFY` for the one with
all parts. `graph` is that of WITH, or None; a template that isn't there is None."""
Clear, Create, Transfer = node("Clear word target silent"), node("Create graph silent"), node("Transfer word source target silent")
"""Operations on graphs: CLEAR or DROP, whose target is an IRI, `DEFAULT`, `NAMED` or `ALL`; CREATE; ADD, COPY or MOVE, between IRIs or None for
the default graph."""


def query(form, items, where, distinct="", order=(), offset=0, limit=None, values=None):
    return Query(form, items, where, distinct, order, offset, limit, values)


# ---- a tree as text (19)


def term_text(term):
    if term.kind == "var":
        return term.text if is_hidden(term.text) else "?" + term.text
    if term.kind == "uri":
        return ":" + term.text[9:] if re.fullmatch(r"http://e/\w+", term.text) else f"<{term.text}>"
    if term.datatype == INTEGER and re.fullmatch(r"[+-]?[0-9]+", term.text) or term.datatype == BOOLEAN and term.text in ("true", "false"):
        return term.text
    return nquads_of(term)


def path_text(path):
    """Returns the text of a path, in brackets unless it is an IRI (19.8, rules 88 to 96)."""
    if isinstance(path, Term):
        return term_text(path)
    if isinstance(path, Negated):
        return f"!({'|'.join([*map(term_text, path.forward), *('^' + term_text(term) for term in path.inverse)])})"
    if isinstance(path, Inverse):
        return f"(^{path_text(path.path)})"
    if isinstance(path, Closure):
        return f"({path_text(path.path)}{path.mark})"
    return f"({path_text(path.first)}{'|' if isinstance(path, Alternative) else '/'}{path_text(path.second)})"


def expression_text(expression):
    """Returns the text of an expression, with each operator in brackets (19.8, rules 110 to 121)."""
    if isinstance(expression, Term):
        return term_text(expression)
    args = [*map(expression_text, expression.args)]
    if expression.name in ("IN", "NOT IN"):
        return f"({args[0]} {expression.name} ({', '.join(args[1:])}))"
    if expression.name[0].isalpha():
        return f"{expression.name}({', '.join(args)})"
    return f"({expression.name} {args[0]})" if len(args) == 1 else f"({args[0]} {expression.name} {args[1]})"


def triples_text(triples):
    return " ".join(f"{term_text(s)} {path_text(v)} {term_text(o)} ." for s, v, o in triples)


def values_text(values):
    rows = (" ".join(term_text(term) if term else "UNDEF" for term in row) for row in values.rows)
    return f"VALUES ({' '.join(map(term_text, values.names))}) {{ {' '.join(f'({row})' for row in rows)} }}"


def element_text(element):
    """Returns the text of a group or an element of one (19.8, rules 53 to 68)."""
    if isinstance(element, Group):
        return f"{{ {' '.join(map(element_text, element.elements))} }}"
    if isinstance(element, Triples):
        return triples_text(element.triples)
    if isinstance(element, Filter):
        return f"FILTER({expression_text(element.condition)})"
    if isinstance(element, Bind):
        return f"BIND({expression_text(element.value)} AS {term_text(element.name)})"
    if isinstance(element, Values):
        return values_text(element)
    if isinstance(element, Union):
        return " UNION ".join(map(element_text, element.groups))
    word = f"GRAPH {term_text(element.name)}" if isinstance(element, Graph) else type(element).__name__.upper()
    return f"{word} {element_text(element.group)}"


def head_text(query):
    """Returns the text before the word WHERE; a CONSTRUCT whose pattern is its template has none but its word (16.2.4)."""
    if query.form == "ASK" or query.form == "CONSTRUCT" and query.where == Group((Triples(query.items),)):
        return query.form
    if query.form == "CONSTRUCT":
        return f"CONSTRUCT {{ {triples_text(query.items)} }}"
    items = query.items if query.items is not None else ()
    said = [term_text(item) if isinstance(item, Term) else f"({expression_text(item[0])} AS {term_text(item[1])})" for item in items]
    return " ".join(["SELECT", *filter(None, [query.distinct]), *(said or "*")])


def text_of(query):
    """Returns the text of a query (19.8, rules 1 to 28)."""
    order = [f"{'DESC' if is_down else 'ASC'}({expression_text(expression)})" for expression, is_down in query.order]
    return " ".join([
        "PREFIX : <http://e/>", head_text(query), "WHERE", element_text(query.where), *["ORDER BY"] * bool(order), *order,
        *([f"OFFSET {query.offset}"] if query.offset else []), *([f"LIMIT {query.limit}"] if query.limit is not None else []),
        *([values_text(query.values)] if query.values else []),
    ])  # fmt: skip


def quads_text(quads):
    """Returns the text of a template of quads, with a GRAPH for each that has a graph (19.8; Update 4.1)."""
    blocks = [(graph, triples_text([triple])) for graph, *triple in quads]
    return f"{{ {' '.join(f'GRAPH {term_text(graph)} {{ {block} }}' if graph else block for graph, block in blocks)} }}"


def operation_text(operation):
    """Returns the text of an operation (19.8, rules 30 to 45)."""
    silent, end = ["SILENT"] * getattr(operation, "silent", False), lambda graph: f"GRAPH {term_text(graph)}" if graph else "DEFAULT"
    if isinstance(operation, Clear):
        words = [operation.word, *silent, operation.target if isinstance(operation.target, str) else end(operation.target)]
    elif isinstance(operation, Create):
        words = ["CREATE", *silent, end(operation.graph)]
    elif isinstance(operation, Transfer):
        words = [operation.word, *silent, end(operation.source), "TO", end(operation.target)]
    elif operation.form != "MODIFY":
        words = [operation.form, quads_text(operation.insert if operation.form == "INSERT DATA" else operation.delete)]
    else:
        named = (("DELETE", operation.delete), ("INSERT", operation.insert))
        templates = [f"{word} {quads_text(quads)}" for word, quads in named if quads is not None]
        words = [*([f"WITH {term_text(operation.graph)}"] if operation.graph else []), *templates, "WHERE", element_text(operation.where)]
    return " ".join(words)


def update_text(operations):
    return "PREFIX : <http://e/> " + " ;\n".join(map(operation_text, operations))
