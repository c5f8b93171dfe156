"""Sessions as Traffic Server's traffic dump plugin writes them, and as Proxy Verifier reads them: JSON, or
a part of YAML."""
import json
import re
import urllib.parse

from . import wire, yaml
from .exchange import FORM_FAULTS, Exchange, LeftOut, octets, said_of
from .recording import MOST_BYTES

LATER_VERSIONS = ("2", "2.0", "3", "3.0")
DELAY = re.compile(r"([0-9]+) *(us|ms|s)")
MICROSECONDS = {"us": 1, "ms": 1000, "s": 1000000}
NOT_ASKED = "it has no server-response: the origin was not asked"


def exchanges(text, asked_for):
    """The exchanges of a file's sessions in their order, as they are asked for; in place of one that is left out,
    why."""
    written = text.decode("utf-8", "surrogateescape").lstrip("\ufeff")
    whole = json.loads(written) if written.lstrip().startswith("{") else yaml.read(written)
    for session in whole["sessions"]:
        for transaction in session.get("transactions") or []:
            try:
                yield exchange_of(transaction, asked_for)
            except LeftOut as reason:
                yield reason
            except FORM_FAULTS as fault:
                yield LeftOut(f"it is no transaction of a session: {said_of(fault)}")


def exchange_of(transaction, asked_for):
    if "client-request" not in transaction:
        raise LeftOut("it has no client-request: no request")
    is_answered = "server-response" in transaction
    if not is_answered and not asked_for.served:
        raise LeftOut(NOT_ASKED)
    everywhere = fields_of(transaction.get("all") or {})
    request = Message(transaction["client-request"], everywhere)
    asked, method = request.as_request()
    pause = request.pause() if asked_for.pauses else 0
    if not is_answered:
        if wire.host_of(asked) not in asked_for.served:
            raise LeftOut(NOT_ASKED)
        return Exchange(asked, b"", request.is_later, pause)
    response = Message(transaction["server-response"], everywhere)
    answered = response.as_response(method)
    is_rewritten = request.is_later or response.is_later
    return Exchange(asked, answered, is_rewritten, pause, response.pause() if asked_for.pauses else 0)


def path_of(url):
    """The target that a URL asks its host for: the path and the query."""
    path = url.path or "/"
    return f"{path}?{url.query}" if url.query else path


class Message:
    """One message: its node, its fields, and those of HTTP/2 whose names begin with a colon."""

    def __init__(self, node, everywhere):
        if "frames" in node:
            raise LeftOut("it is told by frames")
        fields = fields_of(node) + everywhere
        self.node = node
        self.fields = [field for field in fields if not field[0].startswith(b":")]
        self.pseudo = {name: value for name, value in fields if name.startswith(b":")}
        self.is_later = bool(self.pseudo) or str(node.get("version")) in LATER_VERSIONS

    def version(self):
        version = str(self.node.get("version", "1.1"))
        return octets("1.1" if self.is_later else version)

    def names(self):
        return {name.lower() for name, _ in self.fields}

    def pause(self):
        """For how many milliseconds its side waits before it sends the message."""
        found = DELAY.fullmatch(str(self.node.get("delay", "0ms")))
        if found is None:
            raise LeftOut("its delay is none")
        return -(-int(found[1]) * MICROSECONDS[found[2]] // 1000)

    def as_request(self):
        """The bytes of a request, and its method."""
        method = self.pseudo.get(b":method") or octets(self.node["method"])
        url = urllib.parse.urlsplit(self.node.get("url") or "")
        if self.is_later or url.scheme == "https":
            target = self.pseudo.get(b":path") or octets(path_of(url))
            if b"host" not in self.names():
                self.fields.insert(0, (b"Host", self.pseudo.get(b":authority") or octets(url.netloc)))
        elif self.node.get("url"):
            target = octets(self.node["url"])
        else:
            raise LeftOut("its request has no url")
        body = self.body(to_the_close=False)
        return wire.message(b"%b %b HTTP/%b" % (method, target, self.version()), self.fields, body), method

    def as_response(self, method):
        status = int(self.pseudo.get(b":status") or self.node["status"])
        body = b"" if wire.has_no_body(status, method) else self.body(to_the_close=True)
        line = b"HTTP/%b %03d %b" % (self.version(), status, octets(str(self.node.get("reason", ""))))
        return wire.message(line, self.fields, body)

    def body(self, to_the_close):
        """The bytes behind the head, with a field of its length where nothing says where it ends."""
        content = self.node.get("content") or {}
        data = data_of(content, wire.length_of(self.lower_fields()))
        codings = wire.values(self.lower_fields(), b"transfer-encoding")
        if b"chunked" in [coding.lower() for coding in codings]:
            return wire.in_chunks(data)
        if b"content-length" not in self.names() and data:
            if content.get("transfer") == "chunked":
                self.fields.append((b"Transfer-Encoding", b"chunked"))
                return wire.in_chunks(data)
            if self.is_later or not to_the_close:
                self.fields.append((b"Content-Length", b"%d" % len(data)))
        return data

    def lower_fields(self):
        return [(name.lower(), value) for name, value in self.fields]


def fields_of(node):
    """The pairs of a message's fields. What is said of how to check them is not looked at."""
    headers = node.get("headers") or {}
    encoding = headers.get("encoding")
    fields = []
    for name, value, *_ in headers.get("fields") or []:
        listed = value.get("value", "") if isinstance(value, dict) else value
        for one in listed if isinstance(listed, list) else [listed]:
            fields.append((octets(str(name)), decoded(str(one), encoding)))
    return fields


def decoded(text, encoding):
    return urllib.parse.unquote_to_bytes(octets(text)) if encoding == "uri" else octets(text)


def data_of(content, length):
    """The data of a body. Where only its size is there, it is made up of numbers, as Proxy Verifier does."""
    if content.get("data") is not None:
        return decoded(str(content["data"]), content.get("encoding"))
    size = int(content.get("size", length or 0))
    if size > MOST_BYTES:
        raise LeftOut("its body is larger than a recording may be")
    return made_up(size) if size > 0 else b""


def made_up(size):
    return b"".join(b"%07x " % number for number in range(size // 8 + 1))[:size]
