"""What the rows show of the connection to the broker to a reader who looks back through them: what waits to
leave, what is in flight, which filters are wanted, and which packet ids are given (docs/model.md, the views).

The entries of the link are, in order: `up`, `down`, `take`; `joined`, an item that came to wait;
`forwarded`, a publish that left at QoS 1, `subscribed` and `unsubscribed`, such a packet, each with its
packet id; `dropped`, a publish in flight that was denied as a connection began; `puback` and `suback` of
the broker.
"""
from dataclasses import dataclass

from laws.book import View
from laws.standing import wanted


@dataclass(frozen=True)
class Item:
    """What waits to leave: a publish of a client (bytes) or a source (str), or what its kind says."""
    kind: str
    origin: object = None
    name: bytes = b''
    payload: bytes = b''
    qos: int = 0
    is_retained: int = 0
    packet_id: int = 0


class Link(View):
    """Whether the connection stands, and since when, what waits to leave, what is in flight, and which packet
    id was given last."""

    def __init__(self):
        super().__init__()
        self.is_up, self.pinged, self.items, self.in_flight, self.last_id = False, None, [], {}, 0

    def read(self, entry):
        if entry.what == 'joined':
            self.items.append(entry.said)
        elif entry.what == 'take' and self.is_up:
            self.items = []
        elif entry.what in ('up', 'down'):
            if self.is_up or entry.what == 'down':
                self.items = [item for item in self.items if item.kind == 'publish']
            self.is_up = entry.what == 'up'
        elif entry.what == 'forwarded':
            self.in_flight[entry.said[0]] = entry.said[1]
        elif entry.what in ('puback', 'dropped'):
            self.in_flight.pop(entry.said, None)
        if entry.what in ('forwarded', 'subscribed', 'unsubscribed'):
            self.last_id = entry.said[0]
        if entry.what == 'up' or (entry.what == 'joined' and entry.said.kind == 'ping'):
            self.pinged = entry.clock


def is_up(book):
    """The last of `up` and `down` is an `up`."""
    return book.view(Link).is_up


def waiting(book):
    """What was asked for since the last take while up, without what other than publishes was dropped by
    the end of a connection."""
    return list(book.view(Link).items)


def in_flight(book):
    """The publishes that left at QoS 1, by their packet ids, in the order in which they left: without
    those that the broker acknowledged, or that were denied as a connection began."""
    return dict(book.view(Link).in_flight)


def pinged(book):
    """The clock as the connection began, or as the last PINGREQ since came to wait."""
    return book.view(Link).pinged


def next_id(book):
    """The one after the last that was given, past those of publishes in flight and of open SUBSCRIBEs; 1
    follows on 65,535."""
    taken = set(in_flight(book)) | set(wanted(book).values())
    number = book.view(Link).last_id
    while True:
        number = number % 65_535 + 1
        if number not in taken:
            return number


def lacks_place(book, qos=0):
    """Where a publish finds no place: among those of QoS 1, or among all items. None where it finds one."""
    items = waiting(book)
    waits = sum(1 for item in items if item.kind == 'publish' and item.qos)
    if qos and waits + len(in_flight(book)) >= book.policy.limits['in_flight']:
        return '22 Full InFlight'
    return '22 Full Outbox' if len(items) >= book.policy.limits['waiting'] else None
