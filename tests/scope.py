"""Which variables are in scope of a pattern, and which texts break a rule of scope. Sections are those of SPARQL 1.1 Query, where no other
standard is named; "(own)" marks what this store's profile narrows."""
import itertools
from collections import Counter

from trees import Bind, Filter, Graph, Group, Modify, Optional, Query, Term, Triples, Union, Values, is_hidden


def in_scope(element):
    """Returns the names of the variables that are in scope of a group or an element (the table of 18.2.1)."""
    if isinstance(element, Triples):
        return {
            word.text
            for triple in element.triples
            for word in triple
            if isinstance(word, Term) and word.kind == "var" and not is_hidden(word.text)
        }
    if isinstance(element, Group):
        return set().union(*map(in_scope, element.elements))
    if isinstance(element, Optional):
        return in_scope(element.group)
    if isinstance(element, Union):
        return set().union(*map(in_scope, element.groups))
    if isinstance(element, Graph):
        return in_scope(element.group) | ({element.name.text} if element.name.kind == "var" else set())
    if isinstance(element, Bind):
        return {element.name.text}
    return {name.text for name in element.names} if isinstance(element, Values) else set()


def inner_groups(part):
    return part.groups if isinstance(part, Union) else (part,) if isinstance(part, Group) else (part.group,) if hasattr(part, "group") else ()


def groups_of(group):
    """Returns the group and all groups in it."""
    return [group, *(item for element in group.elements for inner in inner_groups(element) for item in groups_of(inner))]


def parts(group):
    """Returns the elements of a group that aren't FILTERs, where triples with nothing but FILTERs between them are one basic graph pattern
    (5.1, 18.2.2.5)."""
    found = []
    for element in group.elements:
        if isinstance(element, Triples) and found and isinstance(found[-1], Triples):
            found[-1] = Triples(found[-1].triples + element.triples)
        elif not isinstance(element, Filter):
            found.append(element)
    return found


def labels(triples):
    """Returns the labels of blank nodes in triples or quads, each once, in the order of the text."""
    words = (word for triple in triples for word in triple if isinstance(word, Term))
    return list(dict.fromkeys(item.text for item in words if item.kind == "var" and is_hidden(item.text)))


def pattern_of(quads):
    """Update 3.1.3.3: the quads of a DELETE WHERE as its pattern."""
    parts = [(graph, Triples((tuple(triple),))) for graph, *triple in quads]
    return Group(tuple(Graph(graph, Group((item,))) if graph else item for graph, item in parts))


def patterns(tree):
    """Returns the groups in which a query or an update has its patterns."""
    if isinstance(tree, Query):
        return [tree.where]
    return [item.where or pattern_of(item.delete) for item in tree if isinstance(item, Modify) and (item.where or item.form == "DELETE WHERE")]


def breaks_scope(tree):
    """Returns whether a name stands where it may not: a variable of BIND or AS that is in scope already (18.2.1; 19.8, its notes), a label of
    a blank node in two basic graph patterns of the text (5.1.1), a variable twice in VALUES (own), and what an update's forms rule out."""
    groups = [item for pattern in patterns(tree) for item in groups_of(pattern)]
    runs = [labels(part.triples) for group in groups for part in parts(group) if isinstance(part, Triples)]
    binds = [(element, group.elements[:at]) for group in groups for at, element in enumerate(group.elements) if isinstance(element, Bind)]
    trailing = [tree.values] if isinstance(tree, Query) and tree.values else []
    tables = [element for group in groups for element in group.elements if isinstance(element, Values)] + trailing
    return (
        any(item.name.text in in_scope(Group(before)) for item, before in binds)
        or max(Counter(itertools.chain(*runs)).values(), default=0) > 1
        or any(len({*table.names}) < len(table.names) for table in tables)
        or (breaks_items(tree) if isinstance(tree, Query) else breaks_quads(tree))
    )


def breaks_items(query):
    """Returns whether an AS names a variable of WHERE or of the trailing VALUES, or one that the SELECT has before (18.2.1)."""
    if query.form != "SELECT":
        return False
    taken = in_scope(query.where) | (in_scope(query.values) if query.values else set())
    items, before = query.items or (), set()
    for item in items:
        if not isinstance(item, Term) and item[1].text in taken | before:
            return True
        before.add(item.text if isinstance(item, Term) else item[1].text)
    return False


def breaks_quads(operations):
    """Returns whether a form of an update has words that it may not have: a blank node in what is deleted, a variable in DATA, or a label in two
    INSERT DATA (19.6; 19.8, its notes)."""
    forms = [operation for operation in operations if isinstance(operation, Modify)]
    data = [form.insert or form.delete or () for form in forms if form.form.endswith("DATA")]
    made = Counter(label for form in forms if form.form == "INSERT DATA" for label in labels(form.insert))
    return (
        any(labels(form.delete or ()) for form in forms)
        or any(word and word.kind == "var" and not is_hidden(word.text) for quads in data for quad in quads for word in quad)
        or max(made.values(), default=0) > 1
    )
