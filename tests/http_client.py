"""Requests of the SPARQL 1.1 Protocol and their replies as bytes (RFC 9112), and how a client on loopback sends and reads them.

Each connection has one request, and the server closes it after the reply.
"""
import re
import socket
from urllib.parse import quote_plus, urlencode

ADDRESS = "127.0.0.1"
CHUNK = 1 << 16
"""The most bytes that are read at a time, unless told otherwise."""

FORM = "application/x-www-form-urlencoded"
QUERY, UPDATE = "application/sparql-query", "application/sparql-update"
RESULTS, NTRIPLES, NQUADS = "application/sparql-results+json", "application/n-triples", "application/n-quads"
TEXT = "text/plain; charset=utf-8"
"""The media types of requests and of replies."""
PHRASES = {
    200: "OK",
    204: "No Content",
    400: "Bad Request",
    404: "Not Found",
    405: "Method Not Allowed",
    411: "Length Required",
    413: "Payload Too Large",
    415: "Unsupported Media Type",
    431: "Request Header Fields Too Large",
    500: "Internal Server Error",
}
"""By the status of a reply its phrase (RFC 9110, 15)."""

# ---- requests


def get(target, *fields):
    """Returns the bytes of a GET, with these header fields besides its Host."""
    return "\r\n".join([f"GET {target} HTTP/1.1", "Host: e", *fields, "", ""]).encode()


def get_query(text, *fields):
    """Returns the request for a query by GET (SPARQL 1.1 Protocol, 2.1.1)."""
    return get(f"/query?query={quote_plus(text)}", *fields)


def post(resource, body, media=None, *fields):
    """Returns the bytes of a POST to `/query` or `/update`: of the text itself, unless another media type is named (SPARQL 1.1 Protocol, 2.1.3, 2.2.2)."""
    body = body.encode() if isinstance(body, str) else body
    media = media or f"application/sparql-{resource}"
    head = [f"POST /{resource} HTTP/1.1", "Host: e", *fields, f"Content-Type: {media}", f"Content-Length: {len(body)}", "", ""]
    return "\r\n".join(head).encode() + body


def post_form(resource, text):
    """Returns the bytes of a POST of a form with the text (SPARQL 1.1 Protocol, 2.1.2, 2.2.1)."""
    return post(resource, urlencode({resource: text}), FORM)


DUMP = get("/data")
"""The request for the whole dataset."""

# ---- replies


def reply(status, media="", body="", *fields):
    """Returns the bytes of a reply. One without a media type has no body."""
    body = body.encode()
    typed = [f"Content-Type: {media}", f"Content-Length: {len(body)}"] if media else []
    return "\r\n".join([f"HTTP/1.1 {status} {PHRASES[status]}", "Connection: close", *fields, *typed, "", ""]).encode() + body


def fixed(status, allow=""):
    """Returns the reply whose body is the phrase of its status."""
    return reply(status, TEXT, PHRASES[status] + "\n", *([f"Allow: {allow}"] if allow else []))


def fault(line):
    """Returns the reply of a fault: 400 where the text is at fault, and 500 elsewhere."""
    return reply(400 if re.match("F[1-6] ", line) else 500, TEXT, line + "\n")


def status_and_body(found):
    """Returns the status of a reply, and its body as text."""
    head, _, body = found.partition(b"\r\n\r\n")
    return int(head.split()[1]), body.decode()


# ---- connections


def connect(port, seconds, receive=None):
    """Returns a connection to a port of loopback, on which a call may take so many seconds. `receive` are the bytes of its buffer, where these aren't
    the system's."""
    connection = socket.socket()
    try:
        if receive:
            connection.setsockopt(socket.SOL_SOCKET, socket.SO_RCVBUF, receive)
        connection.settimeout(seconds)
        connection.connect((ADDRESS, port))
    except OSError:
        connection.close()
        raise
    return connection


def pieces(connection, size=CHUNK):
    """Returns what is read on a connection until the server closes it, piece by piece."""
    return iter(lambda: connection.recv(size), b"")


def read_all(connection, size=CHUNK):
    """Returns all that is read on a connection until the server closes it."""
    return b"".join(pieces(connection, size))


def exchange(port, request, seconds, size=CHUNK):
    """Returns the whole reply of a request over a connection of its own."""
    with connect(port, seconds) as connection:
        connection.sendall(request)
        return read_all(connection, size)
