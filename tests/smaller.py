"""Smaller trees and datasets, by which a mismatch is made smaller."""
import itertools
import re
import time
from dataclasses import replace

from trees import PATHS, Bind, Call, Filter, Graph, Group, Minus, Modify, Negated, Optional, Query, Term, Triples, Union, Values


def without(items):
    """Returns the tuples that lack one of the items."""
    return [items[:at] + items[at + 1 :] for at in range(len(items))]


def changed(items, of):
    """Returns the tuples in which one item is replaced by one of those that `of` gives for it."""
    return [(*items[:at], less, *items[at + 1 :]) for at, item in enumerate(items) for less in of(item)]


def with_each(tree, **fields):
    """Returns the values that differ in one field, which has one of the values given for it."""
    return [replace(tree, **{name: less}) for name, values in fields.items() for less in values]


def smaller_path(path):
    if isinstance(path, Negated):
        return with_each(path, forward=without(path.forward), inverse=without(path.inverse))
    if not isinstance(path, PATHS):
        return []
    names = [name for name in ("path", "first", "second") if hasattr(path, name)]
    return [getattr(path, name) for name in names] + with_each(path, **{name: smaller_path(getattr(path, name)) for name in names})


def smaller_triple(triple):
    subject, verb, object = triple
    return [(subject, less, object) for less in smaller_path(verb)]


def smaller_expression(expression):
    if not isinstance(expression, Call):
        return []
    is_list = expression.name in ("IN", "NOT IN", "COALESCE", "CONCAT")
    return [
        *expression.args,
        *with_each(
            expression,
            args=[*(without(expression.args) if is_list and len(expression.args) > 1 else []), *changed(expression.args, smaller_expression)],
        ),
    ]


def first_smaller(pair):
    return [(less, pair[1]) for less in smaller_expression(pair[0])] if not isinstance(pair, Term) else []


def smaller_element(element):
    """Returns elements that are smaller than an element of a group."""
    if isinstance(element, Group):
        return [*element.elements, *smaller_group(element)]
    if isinstance(element, Triples):
        return with_each(element, triples=without(element.triples) + changed(element.triples, smaller_triple))
    if isinstance(element, Filter):
        return with_each(element, condition=smaller_expression(element.condition))
    if isinstance(element, Bind):
        return with_each(element, value=smaller_expression(element.value))
    if isinstance(element, Values):
        return with_each(element, rows=without(element.rows))
    if isinstance(element, Union):
        return [
            *element.groups,
            *with_each(element, groups=[less for less in without(element.groups) if less] + changed(element.groups, smaller_group)),
        ]
    return [element.group, *with_each(element, group=smaller_group(element.group))] if isinstance(element, (Optional, Minus, Graph)) else []


def smaller_group(group):
    return with_each(group, elements=without(group.elements) + changed(group.elements, smaller_element))


def smaller_query(query):
    items = () if query.items is None or query.form == "ASK" else query.items
    fewer = without(items) + changed(items, first_smaller if query.form == "SELECT" else lambda _: ())
    plain = {"values": None, "limit": None, "offset": 0, "distinct": "", "order": ()}
    return [
        *with_each(query, **{name: [less] for name, less in plain.items() if getattr(query, name) != less}),
        *with_each(query, where=smaller_group(query.where), items=[less for less in fewer if less or query.form != "SELECT"]),
        *with_each(query, order=without(query.order) + changed(query.order, first_smaller)),
        *([] if query.values is None else with_each(query, values=smaller_element(query.values))),
    ]  # fmt: skip


def smaller_operation(operation):
    if not isinstance(operation, Modify):
        return []
    templates = {name: without(getattr(operation, name)) for name in ("delete", "insert") if getattr(operation, name)}
    return with_each(operation, **templates, where=smaller_group(operation.where) if operation.where else [])


def smaller_update(operations):
    return [item for item in without(operations) if item] + changed(operations, smaller_operation)


def smaller(tree):
    """Returns trees that are smaller than a query or a tuple of operations."""
    return smaller_query(tree) if isinstance(tree, Query) else smaller_update(tree)


def smallest(quads, tree, is_wrong, seconds):
    """Returns quads and a tree that are wrong, of which no smaller ones are, as far as can be found in so many seconds."""
    end = time.monotonic() + seconds
    while time.monotonic() < end:
        tries = itertools.chain(((less, tree) for less in without(quads)), ((quads, less) for less in smaller(tree)))
        found = next((item for item in tries if time.monotonic() < end and is_wrong(*item)), None)
        if not found:
            break
        quads, tree = found
    return quads, tree


# ---- texts


def smallest_text(text, is_wrong, seconds):
    """Returns bytes that are wrong, of which no run of words can be left out, as far as can be found in so many seconds."""
    end, words = time.monotonic() + seconds, re.findall(rb"\w+|\s+|.", text, re.S)
    size = max(1, len(words) // 2)
    while size and time.monotonic() < end:
        at, is_less = 0, False
        while at < len(words) and time.monotonic() < end:
            less = words[:at] + words[at + size :]
            if is_wrong(b"".join(less)):
                words, is_less = less, True
            else:
                at += size
        size = size if is_less and size == 1 else size // 2
    return b"".join(words)
