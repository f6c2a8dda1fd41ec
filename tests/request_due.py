"""What request some bytes of a connection are (SPARQL 1.1 Protocol, 2; RFC 9112), as far as the profile's checks tell without the whole grammar
of a head."""
import re
from urllib.parse import unquote_to_bytes

HEAD, BODY, FIELDS = 16384, 4194304, 64
PATHS = {b"/query": (b"GET", b"POST"), b"/update": (b"POST",), b"/data": (b"GET",)}
FORM = b"application/x-www-form-urlencoded"
GRAPHS = ("default-graph-uri", "named-graph-uri", "using-graph-uri", "using-named-graph-uri")
TOKEN = rb"[!#$%&'*+.^_`|~0-9A-Za-z-]+"
VALUE = rb"(?:[\x21-\x7e\x80-\xff]+(?:[ \t]+[\x21-\x7e\x80-\xff]+)*)?"
SOUND = re.compile(
    rb"([A-Z]+) ([A-Za-z0-9/?&=%+._*:@!$'(),;-]+) HTTP/1\.([01])\r?\n((?:" + TOKEN + rb":[ \t]*" + VALUE + rb"[ \t]*\r?\n)*)\r?\n"
)
"""A head that surely is one; others may be one too."""

NOTHING, UNKNOWN = ("nothing",), ("unknown",)
"""No reply is due; or this doesn't tell what is."""


def pairs_of(form):
    """Returns the pairs of a form (WHATWG URL, 5.1)."""
    decoded = lambda value: unquote_to_bytes(value.replace(b"+", b" ")).decode("utf-8", "replace")
    return [tuple(map(decoded, part.partition(b"=")[::2])) for part in form.split(b"&") if part]


def due(sent):
    """Returns what is due for all bytes of a connection: NOTHING; UNKNOWN; `("refused", status)`; `("data",)`; `("query", text)`; or
    `("update", text)`."""
    front = sent.lstrip(b"\r\n")
    end = re.search(rb"\n\r?\n", front)
    if not end or len(sent) - len(front) + end.end() > HEAD:
        return ("refused", 431) if len(sent) >= HEAD else NOTHING
    head, rest = SOUND.fullmatch(front[: end.end()]), front[end.end() :]
    if not head:
        return UNKNOWN
    method, target, version, lines = head.groups()
    fields = [part.partition(b":")[::2] for part in lines.replace(b"\r\n", b"\n").split(b"\n") if part]
    fields = [(name.lower(), value.strip(b" \t")) for name, value in fields]
    values = lambda name: [value for item, value in fields if item == name]
    if len(fields) > FIELDS or version == b"1" and len(values(b"host")) != 1:
        return "refused", 400
    path, _, search = target.partition(b"?")
    if path not in PATHS:
        return "refused", 404
    if method not in PATHS[path]:
        return "refused", 405
    kind = path[1:].decode()
    if method == b"GET":
        return ("data",) if kind == "data" else parameters(kind, search, b"")
    return posted(kind, search, values, rest)


def posted(kind, search, values, rest):
    lengths, media = values(b"content-length"), [value.partition(b";")[0].strip(b" \t").lower() for value in values(b"content-type")]
    if values(b"transfer-encoding") or not lengths:
        return "refused", 411
    if len(lengths) > 1 or not re.fullmatch(rb"[0-9]+", lengths[0]):
        return "refused", 400
    # (a length of thousands of digits is no number for Python)
    digits = lengths[0].lstrip(b"0") or b"0"
    if len(digits) > 9 or int(digits) > BODY:
        return "refused", 413
    if len(media) != 1 or media[0] not in (FORM, b"application/sparql-" + kind.encode()):
        return "refused", 415
    if len(rest) < int(digits):
        return NOTHING
    body = rest[: int(digits)]
    if media[0] == FORM:
        return parameters(kind, body, search)
    if any(name in GRAPHS for name, _ in pairs_of(search)):
        return "refused", 400
    try:
        return kind, body.decode()
    except UnicodeDecodeError:
        return "refused", 400


def parameters(kind, form, search):
    """Returns what a form asks for, where the target of a POST has these pairs besides."""
    pairs = pairs_of(form)
    texts = [value for name, value in pairs if name == kind]
    if len(texts) != 1 or any(name in GRAPHS for name, _ in pairs + pairs_of(search)):
        return "refused", 400
    return kind, texts[0]
