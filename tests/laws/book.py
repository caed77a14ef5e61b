"""A book as it is read row by row: what its rows say so far, for those who look back, and what still has to
come.

A Book keeps what happened, in order, as its rows tell it: the event of each row, and each of its outs.
Whatever is to be known of a client or of the connection is looked up in that by a View, in laws.clients,
laws.link and others.
"""
import functools
from dataclasses import dataclass

from laws.policies import Policy


class Unlawful(Exception):
    """A line is not lawful: what stands there, what should, and the law that it breaks."""

    def __init__(self, stands, due):
        super().__init__(stands, due)
        self.stands, self.due, self.law = stands, due, None


def law(judge):
    """A function that judges: its docstring is the law that is told where a line breaks it."""
    @functools.wraps(judge)
    def judging(*args, **named):
        try:
            return judge(*args, **named)
        except Unlawful as unlawful:
            unlawful.law = unlawful.law or ' '.join(judge.__doc__.split())
            raise
    return judging


@dataclass(frozen=True)
class Entry:
    """Something that a row tells: what it is, of whom, what is said, and the clock of that row."""
    what: str
    client: bytes
    said: object
    clock: int


class View:
    """What a reader finds who looks back through all that the rows tell, or through what they tell of one
    client. It reads each entry once, the oldest first, and remembers what it found by then: who looks back
    again reads only what was told since."""

    def __init__(self):
        self.seen = 0

    def read(self, entry):
        """What one entry more changes in what is found."""
        raise NotImplementedError

    def look_back(self, entries):
        while self.seen < len(entries):
            self.read(entries[self.seen])
            self.seen += 1
        return self


class Book:
    """The lines of a book, how far they are read, and what the rows so far tell."""

    def __init__(self, printed):
        self.lines = printed.split(b'\n')
        # Whether the last line has its line feed, and whether the script has come to its end
        self.is_whole, self.is_ended = self.lines[-1] == b'', False
        if self.is_whole:
            self.lines.pop()
        self.next = 0
        self.rows = 0
        # The greatest tick, and the policy of the last replacement, whole and as the clock leaves it
        self.clock = 0
        self.replaced = self.policy = Policy()
        self.told, self.of_client, self.views = [], {}, {}

    # Reading on

    def peek(self):
        """The next line, or none behind the last one."""
        return self.lines[self.next].decode('latin-1') if self.next < len(self.lines) else None

    def due(self, line):
        """The next line has to be this one."""
        stands = self.peek()
        is_cut = not self.is_whole and self.next == len(self.lines) - 1 and line.startswith(stands)
        if stands != line or is_cut:
            raise Unlawful(None if is_cut else stands, line)
        self.next += 1

    def noted(self, kind, who, about, outcome):
        self.due('note %s %s %s %s' % (kind, who, about, outcome))

    def sent(self, address, octets):
        self.due('send %s %s' % (address, octets.hex()))

    def wired(self, octets):
        self.due('wire ' + octets.hex())

    # What the rows tell

    def tell(self, what, client=None, said=None):
        entry = Entry(what, client, said, self.clock)
        self.told.append(entry)
        if client is not None:
            self.of_client.setdefault(client, []).append(entry)

    def view(self, kind, client=None):
        """What a View of this kind finds in all that is told, or in what is told of a client."""
        if (kind, client) not in self.views:
            self.views[kind, client] = kind()
        entries = self.told if client is None else self.of_client.get(client, ())
        return self.views[kind, client].look_back(entries)
