"""Reports as `tsx replay` writes them, read block by block and written again."""
import re

FIRST_LINE = re.compile(rb"tsx-report ([12])\n")
LAST_LINE = b"done\n"


class NoReport(Exception):
    """The bytes are no whole report; the message says from which byte on."""


class Block:
    """What a report says of one transaction; `upload`, `body` and `tap` are None where it says nothing of one. A tap is
    how many bytes of the body were counted, and their sum."""

    def __init__(self, request, upload, end, head, body, tap):
        self.request, self.upload, self.end, self.head, self.body, self.tap = request, upload, end, head, body, tap

    def text(self, number):
        asked = counted(b"request", self.request) + counted(b"upload", self.upload)
        given = counted(b"head", self.head) + counted(b"body", self.body)
        tap = b"" if self.tap is None else b"tap %d %d\n" % self.tap
        return b"txn %d\n%bend %b\n%b%b" % (number, asked, self.end, given, tap)


def counted(word, text):
    """The lines of a text that is counted, if there is one."""
    return b"" if text is None else b"%b %d\n%b\n" % (word, len(text), text)


class Reader:
    """A place in the bytes of a report."""

    def __init__(self, text):
        self.text, self.at = text, 0

    def fail(self):
        raise NoReport(f"is no whole report: byte {self.at} is not as it should be")

    def line(self, pattern):
        """What the groups of a pattern stand for in the next line."""
        found = re.compile(pattern).match(self.text, self.at)
        if found is None:
            self.fail()
        self.at = found.end()
        return found

    def counted(self, word):
        length = int(self.line(rb"%b (0|[1-9][0-9]*)\n" % word)[1])
        text = self.text[self.at : self.at + length]
        if self.text[self.at + length : self.at + length + 1] != b"\n":
            self.fail()
        self.at += length + 1
        return text

    def block(self, number):
        self.line(rb"txn %d\n" % number)
        request = self.counted(b"request")
        upload = self.counted(b"upload") if self.text.startswith(b"upload ", self.at) else None
        end = self.line(rb"end ([a-z]+)\n")[1]
        head = self.counted(b"head")
        if end != b"whole":
            return Block(request, upload, end, head, None, None)
        body = self.counted(b"body")
        return Block(request, upload, end, head, body, self.tap() if self.text.startswith(b"tap ", self.at) else None)

    def tap(self):
        """The two numbers of a tap line."""
        found = self.line(rb"tap (0|[1-9][0-9]*) (0|[1-9][0-9]*)\n")
        return int(found[1]), int(found[2])


def read(text):
    """The version of a report and its blocks in their order."""
    reader = Reader(text)
    version = int(reader.line(FIRST_LINE.pattern)[1])
    blocks = []
    while not text.startswith(LAST_LINE, reader.at):
        blocks.append(reader.block(len(blocks) + 1))
    reader.at += len(LAST_LINE)
    if reader.at != len(text):
        reader.fail()
    return version, blocks


def joined(reports):
    """One report, piece by piece, of the transactions of several, numbered anew."""
    versions = {version for version, _ in reports}
    if len(versions) > 1:
        raise NoReport("are reports of several versions")
    yield b"tsx-report %d\n" % (versions.pop() if versions else 1)
    blocks = (block for _, part in reports for block in part)
    for number, block in enumerate(blocks, 1):
        yield block.text(number)
    yield LAST_LINE
