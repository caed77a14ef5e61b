"""Which messages of the broker wait for a client, and what it has not answered (docs/model.md, the views)."""
from dataclasses import dataclass

from laws.book import View
from laws.clients import Presence, goes_to_sleep

# What ends what is open, beside sleep
ENDS = ('connect', 'left', 'lost', 'accepted', 'acknowledged', 'hand', 'retry denied')


@dataclass(frozen=True)
class Message:
    """A message of the broker that is due to a client."""
    name: bytes
    payload: bytes
    qos: int
    is_retained: int


@dataclass
class Open:
    """What a client was sent and has not answered: a REGISTER, or a PUBLISH at QoS 1."""
    is_announced: bool
    message: Message
    topic_id: bytes
    message_id: bytes
    octets: bytes

    def is_accepted_by(self, frame):
        return self.is_announced and (frame.topic_id, frame.message_id) == (self.topic_id, self.message_id)


class Buffer(View):
    """What was due to a client, and how many of that were settled; what is open with it, how often that was
    sent again and when it was sent last; and how many MsgIds were given."""

    def __init__(self):
        super().__init__()
        self.presence = Presence()
        self.due, self.settled, self.given = [], 0, 0
        self.opened, self.tries, self.sent = None, None, None

    def read(self, entry):
        if entry.what == 'due':
            self.due.append(entry.said)
        self.settled += entry.what == 'hand'
        self.given += is_sending(entry)
        if is_sending(entry):
            self.opened = entry.said
        elif entry.what in ENDS or goes_to_sleep(entry, self.presence.phase):
            self.opened = None
        if entry.what in ('announce', 'hand'):
            self.tries, self.sent = 0, entry.clock
        elif entry.what == 'retry':
            self.tries, self.sent = self.tries + 1, entry.clock
        self.presence.read(entry)


def waits(book, client):
    """What was due to a client, without as many of the first as were settled."""
    buffer = book.view(Buffer, client)
    return buffer.due[buffer.settled:]


def next_message_id(book, client):
    """The MsgIds of announcements and hand-overs at QoS 1 are counted on from 1, and begin anew behind
    65,535."""
    return (book.view(Buffer, client).given % 65_535 + 1).to_bytes(2, 'big')


def unanswered(book, client):
    """What is open with a client: what it was announced or handed over at QoS 1 last, unless its REGACK or
    PUBACK in turn, a settled or denied sending, sleep, an accepted CONNECT, or its leave ended that."""
    return book.view(Buffer, client).opened


def is_sending(entry):
    return entry.what == 'announce' or (entry.what == 'hand' and isinstance(entry.said, Open))


def sendings(book, client):
    """How often what is open was sent again, and the clock as it was sent last."""
    buffer = book.view(Buffer, client)
    return buffer.tries, buffer.sent
