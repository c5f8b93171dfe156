"""HAR files, as browsers write them: of each entry what the client and the origin would have given over
HTTP/1.1."""
import base64
import json
import math
import urllib.parse

from . import wire
from .exchange import FORM_FAULTS, Exchange, LeftOut, octets, said_of

# what a browser has undone of a body before it wrote it down, or what was said of one connection alone
DROPPED = {b"content-encoding", b"transfer-encoding", b"content-length", b"connection", b"keep-alive"}


def exchanges(text, asked_for):
    """The exchanges of a HAR file in its order, as they are asked for; in place of one that is left out, why."""
    for entry in json.loads(text.decode("utf-8-sig"))["log"]["entries"]:
        try:
            yield exchange_of(entry, asked_for)
        except LeftOut as reason:
            yield reason
        except FORM_FAULTS as fault:
            yield LeftOut(f"it is no entry of a HAR file: {said_of(fault)}")


def exchange_of(entry, asked_for):
    request, response = entry["request"], entry["response"]
    url = urllib.parse.urlsplit(request["url"])
    if url.scheme not in ("http", "https"):
        raise LeftOut(f"a URL of the scheme {url.scheme}")
    status = int(response["status"])
    is_answered = 100 <= status <= 999
    if not is_answered and not asked_for.served:
        raise LeftOut("it has no answer")
    method = octets(request["method"])
    first = b"%b %b HTTP/1.1" % (method, target_of(url))
    posted = posted_of(request)
    asked = wire.message(first, request_fields(request, url, posted), posted)
    if not is_answered:
        if wire.host_of(asked) not in asked_for.served:
            raise LeftOut("it has no answer")
        return Exchange(asked, b"", is_later(request.get("httpVersion", "")))
    status_line = b"HTTP/1.1 %03d %b" % (status, octets(response.get("statusText", "")))
    body = b"" if wire.has_no_body(status, method) else body_of(response["content"])
    answered = wire.message(status_line, response_fields(response, status, method, body), body)
    versions = (request.get("httpVersion", ""), response.get("httpVersion", ""))
    is_rewritten = any(is_later(version) for version in versions)
    return Exchange(asked, answered, is_rewritten, origin_pause=waited(entry) if asked_for.pauses else 0)


def posted_of(request):
    """The body of a request. Of a file that was sent, and of a form with one, a browser may keep the size alone."""
    text = (request.get("postData") or {}).get("text") or ""
    if not text and (request.get("bodySize", 0) > 0 or said_length(request) > 0):
        raise LeftOut("the body of its request is not in the file")
    return octets(text)


def said_length(request):
    """The length that a request's fields say, 0 where they say none."""
    return wire.length_of([(name.lower(), value) for name, value in fields_of(request["headers"])]) or 0


def waited(entry):
    """For how many milliseconds the browser waited for the first byte of the answer."""
    return max(0, math.ceil(entry.get("timings", {}).get("wait") or 0))


def is_later(version):
    """Whether this is a version of HTTP whose messages are no text."""
    return version.lower().startswith(("h2", "h3", "http/2", "http/3"))


def target_of(url):
    path = url.path or "/"
    return octets(f"{path}?{url.query}" if url.query else path)


def fields_of(headers):
    """The fields of a message; several values of one name are joined by line feeds there."""
    for header in headers:
        if not header["name"].startswith(":"):
            for value in header["value"].split("\n"):
                yield octets(header["name"]), octets(value.strip())


def request_fields(request, url, body):
    fields = [field for field in fields_of(request["headers"]) if field[0].lower() not in DROPPED]
    if all(name.lower() != b"host" for name, _ in fields):
        fields.insert(0, (b"Host", octets(url.netloc.rpartition("@")[2])))
    return fields + [(b"Content-Length", b"%d" % len(body))] if body else fields


def response_fields(response, status, method, body):
    """The fields with the body's own length. Of a response without a body all but its chunks stay."""
    fields = list(fields_of(response["headers"]))
    if wire.has_no_body(status, method):
        return [field for field in fields if field[0].lower() != b"transfer-encoding"]
    kept = [field for field in fields if field[0].lower() not in DROPPED]
    return [*kept, (b"Content-Length", b"%d" % len(body))]


def body_of(content):
    if "text" not in content:
        if content.get("size", 0) > 0:
            raise LeftOut("its body is not in the file")
        return b""
    text = content["text"]
    return base64.b64decode(text) if content.get("encoding") == "base64" else octets(text)
