"""Recordings as `tsx replay` reads them: what both sides gave is cut into pieces and written, in files
within the limits."""
import os

MOST_PIECE = 32768
MOST_STALL, MOST_STALLED = 1000, 100000
MOST_TAKEN = 64 << 20
MOST_TRANSACTIONS = 4000
MOST_BYTES = 64 << 20
LAST_LINE = b"end\n"
# after so many milliseconds a replay reads a side again that had nothing to give
MS_OF_READ = 10


class Form:
    """How exchanges are written: in pieces of at most so many bytes, with or without the pauses before them,
    and with clients that leave or do not. What version 1 cannot say is written in version 2."""

    def __init__(self, piece=MOST_PIECE, stalls=False, leave=None):
        self.piece, self.stalls, self.leave = piece, stalls, leave

    def first_line(self):
        return b"tsx-recording %d\n" % (1 if self.leave is None and not self.stalls else 2)

    def reads(self, pause):
        """How many reads wait where a side pauses for so many milliseconds."""
        return -(-pause // MS_OF_READ) if self.stalls else 0

    def side(self, word, text, pause):
        reads, lines = self.reads(pause), []
        while reads > 0:
            lines.append(b"%b-stall %d\n" % (word, min(reads, MOST_STALL)))
            reads -= MOST_STALL
        parts = (text[at : at + self.piece] for at in range(0, len(text), self.piece))
        return b"".join(lines) + b"".join(b"%b %d\n%b\n" % (word, len(part), part) for part in parts)

    def transaction(self, exchange):
        """The lines of one transaction, and how many reads wait in it."""
        client = self.side(b"client", exchange.client, exchange.client_pause)
        origin = self.side(b"origin", exchange.origin, exchange.origin_pause)
        left = b"" if self.leave is None else b"leave %d\n" % self.leave
        reads = self.reads(exchange.client_pause) + self.reads(exchange.origin_pause)
        return b"txn\n" + client + origin + left + b"close\n", reads


class Recordings:
    """The recordings of a name: transactions go into NAME-1 until it is full, then into NAME-2, and so on.
    Where one is enough it has the plain name at the end."""

    def __init__(self, name, form):
        self.name = name
        self.form = form
        self.names = []
        self.out = None
        self.size = self.count = self.stalled = self.total = 0

    def add(self, exchange):
        """Writes one transaction; where no recording can hold it nothing is written, and the answer is why."""
        text, reads = self.form.transaction(exchange)
        if len(self.form.first_line()) + len(text) + len(LAST_LINE) > MOST_BYTES:
            return "it is larger than a recording may be"
        if reads > MOST_STALLED:
            return "it pauses for longer than a recording may"
        if self.out is None or not self.has_room(len(text), reads):
            self.begin()
        self.size += self.out.write(text)
        self.stalled += reads
        self.count += 1
        self.total += 1
        return None

    def has_room(self, length, reads):
        """Whether the recording that is written can hold a transaction of so many bytes and waiting reads."""
        is_short = self.size + length + len(LAST_LINE) <= MOST_BYTES
        return is_short and self.stalled + reads <= MOST_STALLED and self.count < MOST_TRANSACTIONS

    def begin(self):
        """Ends the recording that is written, and begins the next one. No file is written over."""
        self.end()
        if os.path.lexists(self.name):
            raise FileExistsError(17, "there is a file of this name", self.name)
        name = f"{self.name}-{len(self.names) + 1}"
        self.out = open(name, "xb")
        self.names.append(name)
        self.size = self.out.write(self.form.first_line())
        self.count = self.stalled = 0

    def end(self):
        if self.out is not None:
            self.out.write(LAST_LINE)
            self.out.close()
            self.out = None

    def finish(self):
        """Ends the last recording, and gives the names of all, of which there is one at least."""
        self.end()
        if len(self.names) == 1:
            os.rename(self.names[0], self.name)
            self.names = [self.name]
        return self.names

    def remove(self):
        """Takes back what was written, since the work was not done."""
        if self.out is not None:
            self.out.close()
        for name in self.names:
            os.remove(name)
