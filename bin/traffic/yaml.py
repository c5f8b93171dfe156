"""The part of YAML in which sessions are written, read into dictionaries, lists and texts.

Taken are: mappings and sequences by their indentation or in brackets, texts that are plain, between quotes
or in a block behind `|` or `>`, comments, the line `---`, anchors (`&name`), aliases (`*name`) and merge
keys (`<<`). A plain text is on one line, and each scalar stays a text (`null` and `~` are None). Not taken
are tags (`!name`), keys that are no text, several documents in one file and indentation by tabs: each is a
fault with the number of its line.
"""
import re

QUOTED_KEY = r""""(?:[^"\\]|\\.)*"|'(?:[^']|'')*'"""
PLAIN_KEY = r"""[^\s\[\]{}&*!|>'"%@`#,-][^#]*?|-[^\s#][^#]*?"""
KEY = re.compile(rf"({QUOTED_KEY}|{PLAIN_KEY})\s*:(?=\s|$)")
ITEM = re.compile(r"-(?=\s|$)\s*")
LABEL = re.compile(r"&([^\s,\[\]{}]+)\s*")
BLOCK = re.compile(r"([|>])([+-]?)([1-9]?)([+-]?)\s*(?:#.*)?$")
ESCAPES = dict(zip("0abtnvfre", "\0\a\b\t\n\v\f\r\x1b"))
LONG_ESCAPES = {"x": 2, "u": 4, "U": 8}


class NoYaml(ValueError):
    """The file is not in the part of YAML that is taken; the message says which line is not."""


class Unfinished(Exception):
    """What stands in brackets or between quotes goes on on the next line."""


class Line:
    """A line that has more than a comment: its number from 1, its blanks in front, and what follows."""

    def __init__(self, number, indent, text):
        self.number, self.indent, self.text = number, indent, text


class Reader:
    """A place in the lines of a file, and the values that anchors stand for."""

    def __init__(self, text):
        self.rows = text.splitlines()
        self.at = 0
        self.anchors = {}

    def fail(self, what):
        raise NoYaml(f"line {self.at + 1} of it is not taken: {what}")

    def line(self):
        """The next line that has more than blanks and a comment, where there is one."""
        while self.at < len(self.rows):
            row = self.rows[self.at]
            text = row.strip()
            if text.startswith("\t") or row[: len(row) - len(row.lstrip())].count("\t"):
                self.fail("a tab stands in front")
            if text and not text.startswith("#") and text not in ("---", "..."):
                return Line(self.at, len(row) - len(row.lstrip()), text)
            self.at += 1
        return None

    def node(self, least):
        """The value that begins at the next line, if that is indented so far at least; else None."""
        line = self.line()
        if line is None or line.indent < least:
            return None
        if ITEM.match(line.text):
            return self.sequence(line.indent)
        if KEY.match(line.text):
            return self.mapping(line.indent)
        self.at += 1
        return self.value(line.text, line.indent, line.indent)

    def sequence(self, indent):
        items = []
        line = self.line()
        while line and line.indent == indent and ITEM.match(line.text):
            rest = line.text[ITEM.match(line.text).end() :]
            items.append(self.item(rest, indent, indent + len(line.text) - len(rest)))
            line = self.line()
        return items

    def item(self, rest, indent, inner):
        """One item, whose text stands behind its mark: an inner mapping may begin on the same line."""
        if KEY.match(rest) or ITEM.match(rest):
            self.rows[self.at] = " " * inner + rest
            return self.node(indent + 1)
        self.at += 1
        return self.value(rest, indent, indent + 1)

    def mapping(self, indent):
        pairs, merged = {}, []
        line = self.line()
        while line and line.indent == indent:
            key = KEY.match(line.text)
            if key is None:
                break
            self.at += 1
            name = self.scalar(key[1])
            # a sequence below a key may stand as far out as the key itself
            found = self.value(line.text[key.end() :].strip(), indent, indent)
            if name == "<<":
                merged += found if isinstance(found, list) else [found]
            else:
                pairs[name] = found
            line = self.line()
        if line and line.indent > indent:
            self.fail("it is indented further than what stands before it")
        for other in merged:
            pairs.update((name, value) for name, value in other.items() if name not in pairs)
        return pairs

    def value(self, text, indent, least):
        """The value whose text stands behind a key or a mark, or on the lines below it."""
        label = LABEL.match(text)
        text = text[label.end() :] if label else text
        block = BLOCK.match(text)
        if block:
            return self.keep(label, self.block(block, indent))
        if text and not text.startswith("#"):
            return self.keep(label, self.inline(text))
        line = self.line()
        if line and line.indent == indent and least == indent and ITEM.match(line.text):
            return self.keep(label, self.sequence(indent))
        return self.keep(label, self.node(indent + 1))

    def keep(self, label, value):
        if label:
            self.anchors[label[1]] = value
        return value

    def inline(self, text):
        """A value on one line, or in brackets or quotes that go on below."""
        if LABEL.match(text) or KEY.match(text) and text[0] not in "\"'":
            self.fail("more than one value stands on a line")
        while True:
            flow = Flow(text, self)
            try:
                value = flow.value("")
                flow.finish()
                return value
            except Unfinished:
                if self.at == len(self.rows):
                    self.fail("a bracket or a quote is not closed")
                text += " " + self.rows[self.at].strip()
                self.at += 1

    def scalar(self, text):
        return Flow(text, self).value("")

    def block(self, mark, indent):
        """The lines below a key, as they stand (`|`) or joined by blanks (`>`)."""
        rows = []
        while self.at < len(self.rows):
            row = self.rows[self.at]
            if row.strip() and len(row) - len(row.lstrip(" ")) <= indent:
                break
            rows.append(row)
            self.at += 1
        filled = [len(row) - len(row.lstrip(" ")) for row in rows if row.strip()]
        inner = indent + int(mark[3]) if mark[3] else min(filled[:1], default=0)
        text = "\n".join(row[inner:] if row.strip() else "" for row in rows)
        if mark[1] == ">":
            if re.search(r"^[ \t]", text, re.MULTILINE):
                self.fail("a line of a block behind `>` is indented further than the first")
            text = re.sub(r"(?<=\S)\n(\n*)(?=\S)", lambda found: found[1] or " ", text)
        keep = mark[2] or mark[4]
        if keep == "+":
            return text + "\n" if rows else ""
        return text.rstrip("\n") + ("\n" if text.strip() and keep != "-" else "")


class Flow:
    """A place in a text that may have brackets and quotes."""

    def __init__(self, text, reader):
        self.text, self.at, self.reader = text, 0, reader

    def rest(self):
        """What follows, without blanks and a comment."""
        while True:
            skipped = re.compile(r"\s*").match(self.text, self.at)
            self.at = skipped.end()
            stands_apart = self.at == 0 or self.text[self.at - 1].isspace()
            if not (self.text.startswith("#", self.at) and stands_apart):
                return self.text[self.at :]
            self.at = len(self.text)

    def finish(self):
        if self.rest():
            self.reader.fail("more follows behind a value")

    def value(self, ends):
        """One value, which a character of `ends` may follow."""
        rest = self.rest()
        if not rest:
            raise Unfinished if ends else self.reader.fail("a value is missing")
        label = LABEL.match(rest)
        if label:
            self.at += label.end()
            return self.reader.keep(label, self.value(ends))
        readers = {"[": self.sequence, "{": self.mapping, '"': self.double, "'": self.single, "*": self.alias}
        if rest[0] in readers:
            self.at += 1
            return readers[rest[0]]()
        if rest[0] in "!%@`|>":
            self.reader.fail(f"it has a `{rest[0]}`")
        return self.plain(ends)

    def sequence(self):
        items = []
        while not self.closes("]"):
            items.append(self.value(",]"))
            self.comma("]")
        return items

    def mapping(self):
        pairs = {}
        while not self.closes("}"):
            name = self.value(":,}")
            pairs[name] = None
            if self.rest().startswith(":"):
                self.at += 1
                pairs[name] = self.value(",}")
            self.comma("}")
        return pairs

    def closes(self, bracket):
        rest = self.rest()
        if not rest:
            raise Unfinished
        if rest[0] == bracket:
            self.at += 1
        return rest[0] == bracket

    def comma(self, bracket):
        rest = self.rest()
        if not rest:
            raise Unfinished
        if rest[0] == ",":
            self.at += 1
        elif rest[0] != bracket:
            self.reader.fail("a comma is missing")

    def alias(self):
        name = re.compile(r"[^\s,\[\]{}]+").match(self.text, self.at)
        if name is None or name[0] not in self.reader.anchors:
            self.reader.fail("an alias has no anchor before it")
        self.at = name.end()
        return self.reader.anchors[name[0]]

    def plain(self, ends):
        stops = "".join(end for end in ends if end != ":")
        stop = rf"\s+#|:(?=[\s,\]}}]|$)|[{re.escape(stops)}]" if ends else r"\s+#"
        found = re.compile(stop).search(self.text, self.at) if stop else None
        end = found.start() if found else len(self.text)
        if not found and ends:
            raise Unfinished
        text = self.text[self.at : end].strip()
        self.at = end
        return None if text in ("null", "~", "") else text

    def single(self):
        found = re.compile(r"((?:[^']|'')*)'").match(self.text, self.at)
        if found is None:
            raise Unfinished
        self.at = found.end()
        return found[1].replace("''", "'")

    def double(self):
        found = re.compile(r'((?:[^"\\]|\\.)*)"', re.DOTALL).match(self.text, self.at)
        if found is None:
            raise Unfinished
        self.at = found.end()
        return re.sub(r"\\(x..|u....|U........|.)", self.escaped, found[1])

    def escaped(self, found):
        mark = found[1]
        if mark[0] in LONG_ESCAPES and len(mark) > 1:
            return chr(int(mark[1:], 16))
        return ESCAPES.get(mark, mark)


def read(text):
    """The value of a file."""
    reader = Reader(text)
    value = reader.node(0)
    if reader.line() is not None:
        reader.fail("it is indented less than what stands before it")
    return value
