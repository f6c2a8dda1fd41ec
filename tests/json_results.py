"""Answers in the SPARQL 1.1 Query Results JSON Format: how they are read, and their written form, which is compact, with the members in order."""
import json

from answers import Wrong
from trees import Term, compact, json_of


def binding(solution):
    """Returns the text of a solution: a term for each name, or None where the variable isn't bound (3.2.2)."""
    return compact({name: json_of(term) for name, term in solution.items() if term})


def results_text(names, bindings):
    """Returns the text of the solutions of a SELECT (3.1.1, 3.2), of which each has this text."""
    return f'{{"head":{{"vars":{compact([*names])}}},"results":{{"bindings":[{",".join(bindings)}]}}}}'


def boolean_text(truth):
    """Returns the text of the answer of an ASK (3.1.2, 3.3)."""
    return f'{{"boolean":{"true" if truth else "false"},"head":{{}}}}'


def term_of(value):
    """Returns the term of a JSON value (3.2.2)."""
    return Term(value["type"], value["value"], value.get("datatype", ""), value.get("xml:lang", ""))


def answer_of(body):
    """Returns what an answer says: the list of solutions of a SELECT, each with a JSON value for each name that it binds, or the truth of an ASK.

    # Errors

    Wrong where it is none."""
    try:
        found = json.loads(body)
        return found["results"]["bindings"] if "results" in found else found["boolean"]
    except (ValueError, LookupError, TypeError):
        raise Wrong(f"this is no answer in JSON: {body[:300]!r}") from None


def select_of(body):
    """Returns the names of the variables of a SELECT's answer, and its solutions.

    # Errors

    Wrong where it is no such answer."""
    try:
        found = json.loads(body)
        return found["head"]["vars"], found["results"]["bindings"]
    except (ValueError, LookupError, TypeError):
        raise Wrong("these aren't solutions") from None


def check_written(body):
    """Checks that an answer is in its written form.

    # Errors

    Wrong where it isn't."""
    try:
        is_written = compact(json.loads(body)) == body
    except ValueError:
        is_written = False
    if not is_written:
        raise Wrong("this isn't JSON in its written form")


def are_same_answers(some, others, in_order):
    """Returns whether two texts are the same answer, where solutions are a bag unless their order counts.

    # Errors

    Wrong where one is no JSON."""
    found = []
    for body in (some, others):
        try:
            value = json.loads(body)
            if not in_order and "results" in value:
                value["results"]["bindings"].sort(key=compact)
        except (ValueError, LookupError, TypeError, AttributeError):
            raise Wrong(f"this is no answer in JSON: {body[:300]!r}") from None
        found.append(value)
    return found[0] == found[1]


def bindings_of(body, names):
    """Returns the texts of the solutions of a SELECT with these variables, in their order.

    # Errors

    Wrong where it is no such answer in its written form."""
    try:
        found = [compact(item) for item in select_of(body)[1]]
    except TypeError:
        raise Wrong("these aren't solutions") from None
    if results_text(names, found) != body:
        raise Wrong("the variables are others, or the JSON isn't in its written form")
    return found


def solutions_of(body, names):
    """Returns the solutions of a SELECT with these variables, in their order, each the set of its pairs (name, term).

    # Errors

    Wrong where it is no such answer in its written form."""
    variables, rows = select_of(body)
    try:
        found = [frozenset((name, term_of(value)) for name, value in row.items()) for row in rows]
    except (LookupError, TypeError, AttributeError):
        raise Wrong("these aren't solutions") from None
    if variables != names or results_text(names, map(compact, rows)) != body:
        raise Wrong(f"the variables {names} are due, and JSON in its written form")
    return found
