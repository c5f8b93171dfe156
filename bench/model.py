#!/usr/bin/env python3
"""A plain second program for `tsx`, written from docs/ alone: what a recording, a body or three numbers come
to.

usage: bench/model.py replay CONFIG RECORDING
       bench/model.py transform CONFIG BODY
       bench/model.py generate SEED COUNT SIZE

It writes the report, the body or the summary, or on standard error the line of the first fault, and ends
with the program's status. docs/CONFIGURATION.md, docs/REPLAY.md, docs/HTTP.md and docs/GENERATE.md are the
pages that it was written from; it does not look at the order of events, for what is written does not depend
on it. bench/fuzz compares the program with it.
"""
import collections
import os
import re
import sys

MOST_CONFIGURATION = 1 << 20
MOST_TEXT = 16384
MOST_RECORDING = MOST_BODY_FILE = 64 << 20
MOST_PIECE = 32768
MOST_STALL, MOST_STALLED = 1000, 100000
MOST_TAKEN = 64 << 20
MOST_TRANSACTIONS = 4000
MOST_TRANSFORMS, MOST_PLUGINS, MOST_SITES = 16, 64, 64
MOST_REQUESTS, MOST_INTERCEPTS, MOST_TAPS = 16, 64, 1
MOST_FILLED, MOST_TAPPED = 262144, 2147483647
MOST_DELAY = 60000
MOST_LIMIT = 9223372036854775807
MOST_HEAD, MOST_FIELDS = 16384, 64
MOST_CHUNK_LINE = 4096
MOST_BODY = 9223372036854775807

TOKEN = rb"[A-Za-z0-9!#$%&'*+\-.^_`|~]+"
LINE_END = rb"\r?\n"
VALUE = rb"[\t\x20-\x7e\x80-\xff]*"
FIELD = re.compile(rb"(" + TOKEN + rb"):(" + VALUE + rb")" + LINE_END)
REQUEST_LINE = re.compile(rb"(" + TOKEN + rb") ([\x21-\x7e\x80-\xff]+) HTTP/1\.([01])" + LINE_END)
STATUS_LINE = re.compile(rb"HTTP/1\.([01]) ([0-9]{3})(?: (" + VALUE + rb"))?" + LINE_END)
EMPTY_LINES = re.compile(rb"(?:\r?\n)*")
EMPTY_LINE = re.compile(LINE_END)
CHUNK_LINE = re.compile(rb"([0-9A-Fa-f]{1,16})[ \t]*(?:;[^\r\n]*)?\r\n")
BEGUN_CHUNK_LINE = re.compile(rb"(?:[0-9A-Fa-f]{1,16}(?:[ \t]*(?:;[^\r\n]*)?\r?)?)?")
BEGUN_FIELD = re.compile(rb"(?:" + TOKEN + rb"(?::" + VALUE + rb"\r?)?|\r)?")

HOP_NAMES = {
    b"connection", b"keep-alive", b"proxy-connection", b"te", b"trailer", b"transfer-encoding", b"upgrade",
    b"content-length",
}
NAMES_WITHOUT_RULES = HOP_NAMES | {b"host", b"via"}
REASONS = {400: b"Bad Request", 403: b"Forbidden", 501: b"Not Implemented", 502: b"Bad Gateway"}


class Fault(Exception):
    """Why there is no report: the status, and the line on standard error."""

    def __init__(self, status, line):
        super().__init__(line)
        self.status, self.line = status, line


# ---- the configuration


class BrokenRule(Exception):
    """The kind of the first rule that a line breaks."""


def config_lines(text):
    """The lines of a configuration without their ends. A last line without any byte is none."""
    lines = text.split(b"\n")
    if lines[-1] == b"":
        lines.pop()
    return [line[:-1] if line.endswith(b"\r") else line for line in lines]


def check_text(line):
    try:
        line.decode("utf-8")
    except UnicodeDecodeError:
        raise BrokenRule("text") from None
    if any(byte < 32 and byte != 9 or byte == 127 for byte in line):
        raise BrokenRule("text")


def words_of(line):
    """The words of a line, without its comment."""
    words, at = [], 0
    while True:
        at += len(line[at:]) - len(line[at:].lstrip(b" \t"))
        if at == len(line) or line[at : at + 1] == b"#":
            return words
        if line[at : at + 1] == b'"':
            close = line.find(b'"', at + 1)
            if close < 0 or line[close + 1 : close + 2] not in (b"", b" ", b"\t", b"#"):
                raise BrokenRule("quote")
            words.append(line[at + 1 : close])
            at = close + 1
        else:
            word = re.compile(rb"[^ \t#]*").match(line, at)[0]
            words.append(word)
            at += len(word)


def byte_of(word):
    if re.fullmatch(rb"0x[0-9a-f]{2}", word):
        return int(word, 16)
    return arguments_unless(len(word) == 1 and word[0] < 128, word[0] if word else None)


def arguments_unless(fits, value):
    if not fits:
        raise BrokenRule("arguments")
    return value


def text_of(word):
    return arguments_unless(len(word) <= MOST_TEXT, word)


def file_of(word):
    return arguments_unless(word != b"", word)


def number_of(word, most):
    """A number from 0 to that, in plain decimal."""
    arguments_unless(re.fullmatch(rb"0|[1-9][0-9]{0,18}", word), None)
    return arguments_unless(int(word) <= most, int(word))


def pause_of(word):
    return number_of(word, MOST_DELAY)


def limit_of(word):
    return number_of(word, MOST_LIMIT)


TRANSFORMS = {
    b"null_transform.so": [],
    b"append_transform.so": [file_of],
    b"bnull_transform.so": [],
    b"prepend.so": [text_of],
    b"map.so": [byte_of, byte_of],
    b"drop.so": [byte_of],
    b"delay.so": [pause_of],
    b"limit.so": [limit_of],
}


def deny_list(words):
    arguments_unless(1 <= len(words) <= MOST_SITES and all(words), None)
    return ("deny", [word.lower() for word in words])


def rule_name(word):
    name = word.lower()
    is_name = re.fullmatch(TOKEN, word) and len(word) <= 65535
    return arguments_unless(is_name and name not in NAMES_WITHOUT_RULES, name)


def header_rule(words):
    """The side, what is done, the name and the value of a rule."""
    arguments_unless(len(words) >= 2 and words[0] in (b"request", b"response"), None)
    lengths = {b"set": 4, b"add": 4, b"remove": 3}
    arguments_unless(lengths.get(words[1]) == len(words), None)
    value = text_of(words[3]) if len(words) == 4 else None
    return (words[0].decode(), words[1].decode(), rule_name(words[2]), value)


def session_rule(words):
    return ("session", *header_rule(words))


def transform_line(name, words):
    """The name of a transform and its values."""
    readers = arguments_unless(name in TRANSFORMS, TRANSFORMS.get(name))
    arguments_unless(len(words) == len(readers), None)
    return (name.decode(), *(reader(word) for reader, word in zip(readers, words)))


def request_line(words):
    """The transform of a line of request bodies, which delays nothing."""
    arguments_unless(words and words[0] != b"delay.so", None)
    return transform_line(words[0], words[1:])


def intercept_line(words):
    """The site of an intercept, its kind and what that says more."""
    arguments_unless(len(words) >= 2 and words[0] != b"", None)
    site, kind, *rest = words
    if kind == b"fill" and len(rest) == 1:
        return (site, "fill", number_of(rest[0], MOST_FILLED))
    if kind == b"file" and len(rest) == 1:
        return (site, "file", file_of(rest[0]))
    return arguments_unless(kind == b"echo" and not rest, (site, "echo"))


def tap_line(words):
    arguments_unless(len(words) == 1, None)
    tapped = number_of(words[0], MOST_TAPPED)
    return arguments_unless(tapped > 0, tapped)


PLUGINS = {b"denylist.so": deny_list, b"header.so": header_rule, b"session.so": session_rule}


class Config:
    """The lines of each kind in their order: transforms, each a name and its values, hook plugins, request bodies,
    intercepts and taps. `files` are the names of the files that lines name, in the order of all lines."""

    def __init__(self):
        self.transforms, self.plugins, self.requests, self.intercepts, self.taps = [], [], [], [], []
        self.files = []

    def add(self, line):
        check_text(line)
        words = words_of(line)
        if not words:
            return
        name, *rest = words
        if name in TRANSFORMS:
            self.put_transform(self.transforms, transform_line(name, rest), MOST_TRANSFORMS)
        elif name in PLUGINS:
            put(self.plugins, PLUGINS[name](rest), MOST_PLUGINS)
        elif name == b"request.so":
            self.put_transform(self.requests, request_line(rest), MOST_REQUESTS)
        elif name == b"intercept.so":
            self.put_intercept(intercept_line(rest))
        elif name == b"tap.so":
            put(self.taps, tap_line(rest), MOST_TAPS)
        else:
            raise BrokenRule("plugin")

    def put_transform(self, lines, line, most):
        put(lines, line, most)
        if line[0] == "append_transform.so":
            self.files.append(line[1])

    def acting_plugins(self):
        """The lines of hook plugins that act where a connection carries one request: all but the rules of sessions."""
        return [line for line in self.plugins if line[0] != "session"]

    def put_intercept(self, line):
        put(self.intercepts, line, MOST_INTERCEPTS)
        if line[1] == "file":
            self.files.append(line[2])


def put(lines, line, most):
    if len(lines) == most:
        raise BrokenRule("too-many")
    lines.append(line)


def read_config(text):
    config = Config()
    for number, line in enumerate(config_lines(text), 1):
        try:
            config.add(line)
        except BrokenRule as kind:
            raise Fault(3, b"configuration line %d: %b" % (number, str(kind).encode())) from None
    return config


# ---- the recording


FIRST_LINES = (b"tsx-recording 1\n", b"tsx-recording 2\n")
SIDES = (b"client", b"origin")


class RecordingReader:
    """A place in the bytes of a recording: what stands before it is the front of some recording. `room` is
    how many reads may still wait at stalls."""

    def __init__(self, text):
        self.text, self.at = text, 0
        self.version = 1 + FIRST_LINES.index(self.one_of(*FIRST_LINES))
        self.room = MOST_STALLED if self.version == 2 else 0

    def refuse(self, more=0):
        raise Fault(4, b"recording offset %d" % (self.at + more))

    def one_of(self, *words):
        """Which of these words comes next; without one of them the longest front of one is right."""
        for word in words:
            if self.text.startswith(word, self.at):
                self.at += len(word)
                return word
        self.refuse(max(same_front(self.text, self.at, word) for word in words))

    def number(self, most):
        """A number from 1 to that, and its line feed."""
        end = self.at
        while end < len(self.text) and is_number_front(self.text[self.at : end + 1], most):
            end += 1
        number = self.text[self.at : end]
        self.at = end
        if not number:
            self.refuse()
        self.one_of(b"\n")
        return int(number)

    def piece(self):
        length = self.number(MOST_PIECE)
        piece = self.text[self.at : self.at + length]
        if len(piece) < length:
            self.refuse(len(piece))
        self.at += length
        self.one_of(b"\n")
        return piece

    def next_words(self, sides):
        """The words that may begin the next line of a transaction, of which these sides may still send."""
        stalls = [side + b"-stall " for side in sides] if self.room else []
        return [*(side + b" " for side in sides), *stalls, *([b"leave "] if self.version == 2 else []), b"close\n"]

    def transaction(self):
        """The bytes of the client and of the origin, and how many bytes the client takes, if it leaves."""
        given, sides = {side: [] for side in SIDES}, SIDES
        while (word := self.one_of(*self.next_words(sides))) not in (b"leave ", b"close\n"):
            side = word.rstrip(b" ").removesuffix(b"-stall")
            sides = SIDES[SIDES.index(side) :]
            if word == side + b" ":
                given[side].append(self.piece())
            else:
                self.room -= self.number(min(self.room, MOST_STALL))
        leave = None
        if word == b"leave ":
            leave = self.number(MOST_TAKEN)
            self.one_of(b"close\n")
        return b"".join(given[b"client"]), b"".join(given[b"origin"]), leave


def same_front(text, at, word):
    """How many bytes of a word stand there."""
    count = 0
    while count < len(word) and text[at + count : at + count + 1] == word[count : count + 1]:
        count += 1
    return count


def is_number_front(digits, most):
    return re.fullmatch(rb"[1-9][0-9]*", digits) is not None and int(digits) <= most


def read_recording(text):
    """The version of a recording and its transactions."""
    reader = RecordingReader(text)
    transactions = []
    while True:
        has_room = len(transactions) < MOST_TRANSACTIONS
        if reader.one_of(*((b"txn\n", b"end\n") if has_room else (b"end\n",))) == b"end\n":
            break
        transactions.append(reader.transaction())
    if reader.at != len(text):
        reader.refuse()
    return reader.version, transactions


# ---- heads


class Head:
    """A head: its first line, its fields (pairs of a name in lower case and a value) and its length."""

    def __init__(self, first, fields, length):
        self.first, self.fields, self.length = first, fields, length

    def values(self, name):
        return [value for other, value in self.fields if other == name]


def read_head(text, first_line):
    """The head at the front of some bytes, or None."""
    text = text[:MOST_HEAD]
    at = EMPTY_LINES.match(text).end()
    first = first_line.match(text, at)
    if first is None:
        return None
    at, fields = first.end(), []
    while field := FIELD.match(text, at):
        fields.append((field[1].lower(), field[2].strip(b" \t")))
        at = field.end()
    end = EMPTY_LINE.match(text, at)
    return Head(first, fields, end.end()) if end and len(fields) <= MOST_FIELDS else None


def members(values):
    return [member.strip(b" \t") for value in values for member in value.split(b",")]


def content_length(head):
    """The valid length of a body, None where there is none, -1 where it is not valid."""
    lengths = members(head.values(b"content-length"))
    if not lengths:
        return None
    if not all(re.fullmatch(rb"[0-9]+", length) for length in lengths) or len(set(map(int, lengths))) > 1:
        return -1
    return int(lengths[0]) if int(lengths[0]) <= MOST_BODY else -1


def passing_fields(head):
    named = {member.lower() for member in members(head.values(b"connection"))}
    return [field for field in head.fields if field[0] not in HOP_NAMES | named]


def ruled(fields, config, side):
    """The fields after the header lines of a side."""
    for line in config.acting_plugins():
        if line[0] == side:
            _, done, name, value = line
            if done != "add":
                fields = [field for field in fields if field[0] != name]
            if done != "remove":
                fields = [*fields, (name, value)]
    return fields


def printed(first_line, fields):
    return b"%b\r\n%b\r\n" % (first_line, b"".join(b"%b: %b\r\n" % field for field in fields))


def via(minor):
    return (b"via", b"1.%d tsx" % minor)


CLOSE = (b"connection", b"close")


# ---- requests


class Request:
    """A request head that was read."""

    def __init__(self, head):
        self.head = head
        self.method, self.target = head.first[1], head.first[2]
        self.minor = int(head.first[3])
        self.is_head = self.method == b"HEAD"


def read_request(text):
    head = read_head(text, REQUEST_LINE)
    if head is None:
        return None
    try:
        head.first[2].decode("utf-8")
    except UnicodeDecodeError:
        return None
    return Request(head)


def parts_of_target(request):
    """What the origin is asked for, the host, and whether the target is absolute; None where it is none."""
    target, host = request.target, (request.head.values(b"host") or [b""])[0]
    if target.startswith(b"/"):
        return target, host, False
    if target == b"*" and request.method == b"OPTIONS":
        return target, host, False
    if not target[:7].lower() == b"http://":
        return None
    authority = re.compile(rb"[^/?]*").match(target, 7)[0]
    rest = target[7 + len(authority) :]
    if not authority or b"@" in authority:
        return None
    if not rest:
        rest = b"*" if request.method == b"OPTIONS" else b"/"
    return (b"/" + rest if rest.startswith(b"?") else rest), authority, True


def refusal(request):
    """The status of the answer where a request is not taken."""
    if request.method == b"CONNECT":
        return 501
    hosts = len(request.head.values(b"host"))
    if hosts > 1 or hosts == 0 and request.minor == 1:
        return 400
    if parts_of_target(request) is None:
        return 400
    if is_in_chunks(request.head) and request.minor == 1 and content_length(request.head) is None:
        return None
    if request.head.values(b"transfer-encoding"):
        return 501
    return 400 if content_length(request.head) == -1 else None


def is_in_chunks(head):
    return [coding.lower() for coding in head.values(b"transfer-encoding")] == [b"chunked"]


def framing_of_request(request):
    """"nothing", "chunks" or a length above 0, of a request that is taken."""
    return "chunks" if is_in_chunks(request.head) else content_length(request.head) or "nothing"


def site_of(host):
    """The host without its port, in lower case: what the sites of lines are compared with."""
    bracket = host.find(b"]")
    return (host[: bracket + 1] if bracket >= 0 else host.split(b":")[0]).lower()


def is_denied(config, host):
    """Whether the host is a site of some deny list."""
    return any(line[0] == "deny" and site_of(host) in line[1] for line in config.acting_plugins())


def intercept_of(config, host):
    """The first intercept whose site is the host, None where there is none."""
    return next((line for line in config.intercepts if line[0].lower() == site_of(host)), None)


def origin_head(request, config, framing):
    """The head that the origin gets. That of a request with a body has no Expect, and a line more, which says how the
    body is sent."""
    target, host, is_absolute = parts_of_target(request)
    passing = passing_fields(request.head)
    sent = []
    if framing != "nothing":
        passing = [field for field in passing if field[0] != b"expect"]
        has_length = framing != "chunks" and not config.requests
        sent = [(b"content-length", b"%d" % framing) if has_length else (b"transfer-encoding", b"chunked")]
    fields = ruled(passing, config, "request")
    if is_absolute:
        fields = [(name, host if name == b"host" else value) for name, value in fields]
    if all(name != b"host" for name, _ in fields):
        fields = [(b"host", host), *fields]
    return printed(b"%b %b HTTP/1.1" % (request.method, target), [*fields, via(request.minor), CLOSE, *sent])


# ---- responses


def read_response(text):
    """The last head of a response and where its body begins; None where it gives 502."""
    at = 0
    while True:
        head = read_head(text[at : at + MOST_HEAD], STATUS_LINE)
        if head is None:
            return None
        at += head.length
        status = int(head.first[2])
        if status < 100 or status == 101:
            return None
        if status >= 200:
            return head, at


def framing_of(head, request):
    """"nothing", "chunks", "close", "faulty" or a length."""
    status, minor = int(head.first[2]), int(head.first[1])
    if request.is_head or status in (204, 304):
        return "nothing"
    if head.values(b"transfer-encoding"):
        return "chunks" if minor == 1 and is_in_chunks(head) else "faulty"
    length = content_length(head)
    if length is None:
        return "close"
    return "faulty" if length == -1 else length


def body_of(text, framing):
    """The body's bytes, and "whole", "cut" or "bad"."""
    if framing == "nothing":
        return b"", "whole"
    if framing == "close":
        return text, "whole"
    if framing == "chunks":
        return chunked_body(text)
    return text[:framing], "whole" if len(text) >= framing else "cut"


def chunked_body(text):
    body, at = b"", 0
    while True:
        line = CHUNK_LINE.match(text[: at + MOST_CHUNK_LINE], at)
        if line is None:
            begun = text[at : at + MOST_CHUNK_LINE]
            is_hopeless = len(begun) == MOST_CHUNK_LINE or not BEGUN_CHUNK_LINE.fullmatch(begun)
            return body, "bad" if is_hopeless else "cut"
        size, at = int(line[1], 16), line.end()
        if len(body) + size > MOST_BODY:
            return body, "bad"
        if size == 0:
            return body, end_of_trailers(text[at:])
        body += text[at : at + size]
        if len(text) - at < size:
            return body, "cut"
        at += size
        behind = text[at : at + 2]
        if not b"\r\n".startswith(behind):
            return body, "bad"
        if len(behind) < 2:
            return body, "cut"
        at += 2


def end_of_trailers(text):
    """How a body ends whose last chunk line stands before this text."""
    within, at, count = text[:MOST_HEAD], 0, 0
    while field := FIELD.match(within, at):
        at, count = field.end(), count + 1
        if count > MOST_FIELDS:
            return "bad"
    if EMPTY_LINE.match(within, at):
        return "whole"
    is_hopeless = len(within) == MOST_HEAD or not BEGUN_FIELD.fullmatch(within[at:])
    return "bad" if is_hopeless else "cut"


def served(line, asked, texts):
    """What an intercept gives in the place of the origin, which would get this head."""
    _, kind, *values = line
    if kind == "file":
        return texts[values[0]]
    body = asked if kind == "echo" else b"x" * values[0]
    fields = [(b"content-type", b"text/plain"), (b"content-length", b"%d" % len(body))]
    return printed(b"HTTP/1.1 200 OK", fields) + body


def acting_lines(head, config):
    """The lines that act on a response with this head, if it has a body."""
    is_coded = any(value != b"identity" for value in head.values(b"content-encoding"))
    if int(head.first[2]) != 200 or is_coded:
        return []
    media_type = (head.values(b"content-type") or [b""])[0].split(b";")[0].strip(b" \t").lower()
    is_html = media_type == b"text/html"
    return [line for line in config.transforms if is_html or line[0] != "append_transform.so"]


def made_of(body, line, texts):
    """What a line makes of a body; `texts` are those of the files of append lines."""
    name, *values = line
    if name == "append_transform.so":
        return body + texts[values[0]]
    if name == "prepend.so":
        return values[0] + body
    if name == "map.so":
        return body.replace(bytes(values[:1]), bytes(values[1:]))
    if name == "drop.so":
        return body.replace(bytes(values), b"")
    return body[: values[0]] if name == "limit.so" else body


def transformed(body, lines, texts):
    """What the lines make of a body, one after the other."""
    for line in lines:
        body = made_of(body, line, texts)
    return body


def written_in_time(body, line, texts):
    """What a line has written of a body of which so much came, and not its end."""
    if line[0] == "bnull_transform.so" or line[0] == "prepend.so" and not body:
        return b""
    return body if line[0] == "append_transform.so" else made_of(body, line, texts)


def finish_early(body, lines, texts):
    """Whether the lines need no more of a body of which so much came: one of them is a limit that is reached."""
    for line in lines:
        if line[0] == "limit.so" and len(body) >= line[1]:
            return True
        body = written_in_time(body, line, texts)
    return False


def framing_line(head, framing, request, acts):
    """The field that says where the client's body ends, if one does."""
    if framing == "nothing":
        length = None if head.values(b"transfer-encoding") else content_length(head)
        is_kept = int(head.first[2]) != 204 and not acts and length not in (None, -1)
        return [(b"content-length", b"%d" % length)] if is_kept else []
    if not acts and isinstance(framing, int):
        return [(b"content-length", b"%d" % framing)]
    return [(b"transfer-encoding", b"chunked")] if request.minor == 1 else []


def client_head(head, config, framing):
    reason = head.first[3] or b""
    reason = reason if all(byte < 128 for byte in reason) else b""
    fields = ruled(passing_fields(head), config, "response")
    status_line = b"HTTP/1.1 %b %b" % (head.first[2], reason)
    return printed(status_line, [*fields, via(int(head.first[1])), *framing, CLOSE])


def own_answer(status, config, request):
    """The head and the body of an answer that the proxy makes."""
    body = b"%d %b\n" % (status, REASONS[status])
    fields = ruled([(b"content-type", b"text/plain")], config, "response")
    line = b"HTTP/1.1 %d %b" % (status, REASONS[status])
    head = printed(line, [*fields, (b"content-length", b"%d" % len(body)), CLOSE])
    return head, b"" if request and request.is_head else body


# ---- transactions

# What a transaction comes to: the origin's head, the body that it gets, None where the client sends none or it is
# refused, how the transaction ended, the client's head, the client's body, and the count and the sum of that, None
# where no tap tells them.
Outcome = collections.namedtuple("Outcome", "asked upload end head body tap", defaults=(None,))


def outcome(client, origin, config, texts):
    """What a transaction comes to."""
    found = exchange(client, origin, config, texts)
    has_tap = config.taps and found.end == "whole"
    return found._replace(tap=tapped(found.body, config.taps[0])) if has_tap else found


def tapped(body, most):
    """What a tap tells of a body: how many bytes it counted, so many at most, and their sum."""
    return len(body[:most]), sum_of(body[:most])


def sum_of(text):
    total = 0
    for byte in text:
        total = (31 * total + byte) % 2**64
    return total


def exchange(client, origin, config, texts):
    """What a transaction comes to, without what a tap tells."""
    if not client:
        return Outcome(b"", None, "whole", b"", b"")
    request = read_request(client)
    status = 400 if request is None else refusal(request)
    host = None if status else parts_of_target(request)[1]
    if status is None and is_denied(config, host):
        status = 403
    if status:
        return Outcome(b"", None, "whole", *own_answer(status, config, request))
    framing = framing_of_request(request)
    asked = origin_head(request, config, framing)
    upload, is_refused = upload_of(client[request.head.length :], framing, config, texts)
    if is_refused:
        return Outcome(asked, None, "whole", *own_answer(400, config, request))
    intercept = intercept_of(config, host)
    given = served(intercept, asked, texts) if intercept else origin
    return Outcome(asked, upload, *answer(request, given, config, texts))


def upload_of(text, framing, config, texts):
    """The body that the origin gets of what stands behind a request's head, None where there is none, and whether the
    upload is refused: it is where the client's body is not whole, and no line finished early."""
    if framing == "nothing":
        return None, False
    body, end = body_of(text, framing)
    is_refused = end != "whole" and not finish_early(body, config.requests, texts)
    return transformed(body, config.requests, texts), is_refused


def answer(request, origin, config, texts):
    """What the origin's bytes come to: how the transaction ends, the client's head and its body."""
    found = read_response(origin)
    framing = framing_of(found[0], request) if found else "faulty"
    if framing == "faulty":
        return "whole", *own_answer(502, config, request)
    response, at = found
    body, end = body_of(origin[at:], framing)
    lines = acting_lines(response, config)
    head = client_head(response, config, framing_line(response, framing, request, bool(lines)))
    if framing == "nothing":
        return end, head, body
    if finish_early(body, lines, texts):
        end = "whole"
    return end, head, transformed(body, lines, texts)


def block(number, found):
    text = b"txn %d\n" % number + counted(b"request", found.asked)
    if found.upload is not None:
        text += counted(b"upload", found.upload)
    text += b"end %b\n" % found.end.encode() + counted(b"head", found.head)
    if found.end == "whole":
        text += counted(b"body", found.body)
    return text if found.tap is None else text + b"tap %d %d\n" % found.tap


def counted(word, text):
    return b"%b %d\n%b\n" % (word, len(text), text)


def outcome_of(transaction, config, texts):
    """The same of a transaction of a recording: a client that leaves takes the front of a head."""
    client, origin, leave = transaction
    found = outcome(client, origin, config, texts)
    return found if leave is None else found._replace(end="left", head=found.head[:leave], body=b"", tap=None)


def report(config, texts, version, transactions):
    outcomes = (outcome_of(transaction, config, texts) for transaction in transactions)
    blocks = (block(number, outcome) for number, outcome in enumerate(outcomes, 1))
    return b"tsx-report %d\n" % version + b"".join(blocks) + b"done\n"


# ---- generated recordings

GENERATED_CONFIG = b"null_transform.so\nmap.so a A\ndrop.so q\nbnull_transform.so\nprepend.so <\n"
GENERATED_REQUEST = b"GET / HTTP/1.1\r\nHost: a\r\n\r\n"
GENERATED_CHUNK = 1000
MOST_GENERATED_PIECE = 1460


class Draws:
    """The draws from a seed."""

    def __init__(self, seed):
        self.state = seed

    def draw(self, below):
        self.state = (self.state * 6364136223846793005 + 1442695040888963407) % 2**64
        return (self.state >> 33) % below


def in_chunks(body):
    parts = (body[at : at + GENERATED_CHUNK] for at in range(0, len(body), GENERATED_CHUNK))
    return b"".join(b"%x\r\n%b\r\n" % (len(part), part) for part in parts) + b"0\r\n\r\n"


def generated_response(draws, most):
    """The bytes of one origin. Their pieces are drawn too, and change nothing else."""
    length, kind = draws.draw(most + 1), draws.draw(3)
    body = bytes(97 + draws.draw(26) for _ in range(length))
    framed = (
        (b"Content-Length: %d\r\n" % length, body),
        (b"Transfer-Encoding: chunked\r\n", in_chunks(body)),
        (b"", body),
    )
    text = b"HTTP/1.1 200 OK\r\n%b\r\n%b" % framed[kind]
    left = len(text)
    while left > 0:
        left -= 1 + draws.draw(MOST_GENERATED_PIECE)
    return text


def generate(seed, count, size):
    """The summary of a generated recording."""
    draws, config = Draws(int(seed)), read_config(GENERATED_CONFIG)
    responses = [generated_response(draws, int(size)) for _ in range(int(count))]
    ended = [outcome(GENERATED_REQUEST, response, config, {}) for response in responses]
    bodies = [found.body for found in ended if found.end == "whole"]
    figures = (len(ended), len(bodies), sum(map(len, bodies)), sum_of(b"".join(bodies)))
    return b"transactions %d\nwhole %d\nbody %d\nsum %d\n" % figures


# ---- files


def read_file(name, most):
    """The whole file of a name, if it is not longer than that."""
    try:
        with open(name, "rb") as file:
            text = file.read(most + 1)
    except OSError:
        raise Fault(5, b"cannot read " + name) from None
    if len(text) > most:
        raise Fault(9, b"too long: " + name)
    return text


def read_setup(name):
    """The configuration of a file, and the texts of the files that its lines name."""
    config = read_config(read_file(name, MOST_CONFIGURATION))
    return config, {file: read_file(file, MOST_TEXT) for file in config.files}


def replay(config_name, recording_name):
    """The report on a recording in a file, under the configuration in a file."""
    config, texts = read_setup(config_name)
    return report(config, texts, *read_recording(read_file(recording_name, MOST_RECORDING)))


def transform(config_name, body_name):
    """What all transform lines of the configuration make of the body in a file."""
    config, texts = read_setup(config_name)
    return transformed(read_file(body_name, MOST_BODY_FILE), config.transforms, texts)


COMMANDS = {b"replay": replay, b"transform": transform, b"generate": generate}


def run(command, *words):
    """The status, what is written, and the line on standard error."""
    try:
        return 0, COMMANDS[command](*words), b""
    except Fault as fault:
        return fault.status, b"", b"tsx: %b\n" % fault.line


def main():
    status, text, line = run(*(os.fsencode(word) for word in sys.argv[1:]))
    sys.stdout.buffer.write(text)
    sys.stderr.buffer.write(line)
    sys.exit(status)


if __name__ == "__main__":
    main()
