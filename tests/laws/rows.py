"""Each row of a book, judged by its event: the whole of it, and nothing else."""
from laws import asks, clients, ends, entering, exits, handing, link, repeats, ticks, wills
from laws.book import Unlawful, law
from laws.frames import MALFORMED, UNSUPPORTED
from laws.scripts import events_of
from laws.texts import is_name, shown

ASKS = {'register': 'register', 'publish': 'publish', 'subscribe': 'subscribe', 'unsubscribe': 'unsubscribe',
        'willtopic': 'will', 'willmsg': 'will', 'willtopicupd': 'will', 'willmsgupd': 'will'}
OF_SESSIONS = {
    'register': asks.registers, 'publish': asks.publishes, 'subscribe': asks.subscribes,
    'unsubscribe': asks.unsubscribes, 'willtopic': wills.states_will, 'willmsg': wills.states_will,
    'willtopicupd': wills.updates_will, 'willmsgupd': wills.updates_will, 'pingreq': entering.pings,
    'disconnect': entering.disconnects, 'pubrel': repeats.releases,
}
ANSWERS = {'regack': handing.confirms, 'puback': handing.acknowledges}


def judge(script, book):
    """Reads a book beside its script, to its end; Unlawful where a line is not lawful."""
    events = list(events_of(script))
    for place, event in enumerate(events, 1):
        if isinstance(event, str):
            told(book, event)
        else:
            row(book, event)
        if place < len(events):
            nothing_else(book)
    ended(book)


@law
def told(book, line):
    """A refused policy, a fault of the broker's bytes and the first line that cannot be read are told,
    each in its place, without a row."""
    book.due(line)


@law
def ended(book):
    """Behind the last line of its script a book ends."""
    book.is_ended = True
    if book.peek() is not None:
        raise Unlawful(book.peek(), None)


def row(book, event):
    begins(book, event.kind)
    {'datagram': datagram, 'broker': packet, 'tick': tick, 'replace': replace, 'up': up, 'down': down,
     'take': take}[event.kind](book, event)


@law
def begins(book, kind):
    """Each event makes one row, in order: with its number from 1, the worker 0 and its kind."""
    book.rows += 1
    book.due('row %d 0 %s' % (book.rows, kind))


@law
def nothing_else(book):
    """A row has no outs but those of its laws, and what is told without a row has none."""
    line = book.peek()
    if line is not None and line.startswith(('note ', 'send ', 'wire ')):
        raise Unlawful(line, None)


def up(book, _):
    exits.begins(book)


def take(book, _):
    exits.takes(book)


def down(book, _):
    book.tell('down')


def replace(book, event):
    book.replaced = event.said
    book.policy = book.replaced.at(book.clock)
    ends.are_judged(book)


def tick(book, event):
    book.clock = max(book.clock, event.said)
    book.policy = book.replaced.at(book.clock)
    ends.are_judged(book)
    ticks.ticks(book)


def datagram(book, event):
    """A datagram: judged by what it holds, and by the client that is at its address."""
    frame, where = event.said, event.address
    here = clients.client_at(book, where)
    if frame in (MALFORMED, UNSUPPORTED):
        no_message(book, frame, where if here is None else shown(here))
    elif frame.message == 'publish' and frame.qos == 3:
        asks.source_publishes(book, frame, where)
    elif here is None and frame.message != 'connect':
        stranger(book, frame, where)
    else:
        message(book, frame, where, here)


@law
def no_message(book, why, who):
    """What is no frame is denied by 1, and a type that is not supported by 2; nothing answers, and nobody
    is heard."""
    book.noted('frame', who, '-', '1 Malformed' if why == MALFORMED else '2 NotSupported')


@law
def stranger(book, frame, where):
    """A message from where no client is has no session, and is answered by DISCONNECT; one that is not
    taken from anybody is denied by 2, and nothing answers."""
    kind = ASKS.get(frame.message, 'frame')
    is_taken = frame.message in OF_SESSIONS or frame.message in ANSWERS
    if not is_taken:
        book.noted(kind, where, '-', '2 NotSupported')
    else:
        book.noted(kind, where, '-', '4 NoSession')
        book.sent(where, entering.DISCONNECT)


def message(book, frame, where, here):
    """A message from where a client is, or a CONNECT from anywhere."""
    state = here and clients.phase(book, here)
    if here is not None:
        book.tell('came', here, frame)
    if frame.message == 'connect':
        entering.connects(book, frame, where, here)
    elif frame.message in OF_SESSIONS:
        OF_SESSIONS[frame.message](book, here, frame, where, state)
    elif frame.message in ANSWERS:
        ANSWERS[frame.message](book, here, frame, state)
    else:
        untaken(book, here)


@law
def untaken(book, client):
    """Any other message is not supported, and nothing answers it."""
    book.noted('frame', shown(client), '-', '2 NotSupported')


def packet(book, event):
    """A packet of the broker."""
    said = event.said
    if said.message == 'publish':
        published(book, said)
    elif said.message == 'puback':
        book.tell('puback', None, said.packet_id)
    elif said.message == 'suback':
        ends.broker_answers(book, said)
    elif said.message not in ('unsuback', 'pingresp'):
        unsupported(book)


@law
def unsupported(book):
    """Any other packet of the broker is not supported."""
    book.noted('frame', 'broker', '-', '2 NotSupported')


@law
def published(book, said):
    """A PUBLISH of the broker comes to each client to whom it is due, in the order of first acceptance;
    one under a text that is no topic name is noted; at QoS 1 while up a PUBACK comes to wait."""
    if not is_name(said.name):
        book.noted('frame', 'broker', '-', '6 BadName')
    else:
        for client in clients.accepted(book):
            due = handing.due_to(book, client, said)
            if due is not None:
                handing.arrives(book, client, due)
    if said.qos and link.is_up(book):
        ends.joins_or_drops(book, link.Item('ack', packet_id=said.packet_id))
