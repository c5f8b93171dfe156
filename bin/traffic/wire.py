"""HTTP/1.1 messages as they are on the wire: where one ends on a kept connection, and how one is put
together."""
import re

EMPTY_LINE = re.compile(rb"\n\r?\n")
DIGITS = re.compile(rb"[0-9]+")


def head_end(text, begin):
    """Where the head that begins there ends, behind its empty line; None where there is no empty line."""
    while text[begin : begin + 1] in (b"\r", b"\n"):  # empty lines before a head are no head
        begin += 1
    found = EMPTY_LINE.search(text, begin)
    return found.end() if found else None


def fields_of(head):
    """The fields of a head, with their names in lower case."""
    pairs = (line.partition(b":") for line in head.strip(b"\r\n").split(b"\n")[1:])
    return [(name.strip().lower(), value.strip()) for name, _, value in pairs]


def values(fields, name):
    """All members of the fields of a name, which may stand in several fields and behind commas."""
    joined = b",".join(value for other, value in fields if other == name)
    return [member.strip() for member in joined.split(b",") if member.strip()]


def length_of(fields):
    """The body's length by Content-Length: None where there is none, -1 where it is none that is valid."""
    members = values(fields, b"content-length")
    if not members:
        return None
    if all(DIGITS.fullmatch(member) for member in members) and len({int(member) for member in members}) == 1:
        return int(members[0])
    return -1


def chunks_end(text, at):
    """Where a body in chunks ends, behind its trailers; None where it is not whole or not in the grammar."""
    while True:
        line_end = text.find(b"\n", at)
        size = re.match(rb"[0-9a-fA-F]{1,16}", text[at:line_end]) if line_end >= 0 else None
        if size is None:
            return None
        at = line_end + 1
        if int(size[0], 16) == 0:
            break
        at += int(size[0], 16)
        ending = re.compile(rb"\r?\n").match(text, at)
        if ending is None:
            return None
        at = ending.end()
    ending = re.compile(rb"(?:[^\r\n]+\r?\n)*\r?\n").match(text, at)
    return ending.end() if ending else None


def body_end(text, at, fields, otherwise):
    """Where the body ends, by the fields of its head; `otherwise` where they do not say that there is one."""
    if values(fields, b"transfer-encoding"):
        is_chunked = values(fields, b"transfer-encoding")[-1].lower() == b"chunked"
        return chunks_end(text, at) if is_chunked else None
    length = length_of(fields)
    if length is None:
        return otherwise
    return at + length if 0 <= length <= len(text) - at else None


def request_end(text, begin):
    """Where the request that begins there ends; None where that cannot be told, or where a tunnel begins."""
    at = head_end(text, begin)
    if at is None or method_of(text[begin:at]) == b"CONNECT":
        return None
    return body_end(text, at, fields_of(text[begin:at]), at)


def host_of(request):
    """The host that a request asks for, without its port and in lower case: that of its target, or of its Host field;
    nothing where it names none."""
    end = head_end(request, 0)
    head = request[:end].lstrip(b"\r\n")
    absolute = re.match(rb"[^ ]* http://([^/? ]*)", head, re.IGNORECASE)
    hosts = [value for name, value in fields_of(head) if name == b"host"]
    host = absolute[1] if absolute else b"".join(hosts[:1])
    bracket = host.find(b"]")
    return (host[: bracket + 1] if bracket >= 0 else host.partition(b":")[0]).lower()


def method_of(request):
    return request.lstrip(b"\r\n").split(b" ", 1)[0]


def status_of(response):
    found = re.match(rb"\s*HTTP/[0-9.]+ +([0-9]{3})", response)
    return int(found[1]) if found else None


def has_no_body(status, method):
    """Whether a response has no body, whatever its fields say."""
    return method == b"HEAD" or status is not None and (status < 200 or status in (204, 304))


def response_end(text, begin, method):
    """Where the answer to a request of this method ends, with the interim heads before it; None as above."""
    while True:
        at = head_end(text, begin)
        status = None if at is None else status_of(text[begin:at])
        if status is None or status == 101:
            return None
        if status >= 200:
            break
        begin = at
    return at if has_no_body(status, method) else body_end(text, at, fields_of(text[begin:at]), None)


def split_requests(text):
    """The requests of a connection one behind the other; from one whose end cannot be told on, all is one."""
    parts, begin = [], 0
    while begin < len(text):
        end = request_end(text, begin)
        if end is None or not text[end:].strip(b"\r\n"):
            end = len(text)
        parts.append(text[begin:end])
        begin = end
    return parts or [b""]


def split_responses(text, methods):
    """The answers to requests of these methods; the last one has all that is left."""
    parts, begin = [], 0
    for method in methods[:-1]:
        end = response_end(text, begin, method)
        end = len(text) if end is None else end
        parts.append(text[begin:end])
        begin = end
    return [*parts, text[begin:]]


def in_chunks(body):
    """A body as one chunk and the last one."""
    chunk = b"%x\r\n%b\r\n" % (len(body), body) if body else b""
    return chunk + b"0\r\n\r\n"


def message(first_line, fields, body):
    """A message of its first line, its fields (pairs of name and value) and the bytes of its body."""
    lines = [first_line, *(b"%b: %b" % field for field in fields)]
    return b"\r\n".join(lines) + b"\r\n\r\n" + body
