"""What leaves for the broker, at a take and as a connection begins (docs/formats.md, "How the gateway
deals with the broker"; MQTT 3.1.1, 2.3.1, 3.3, 3.8, 3.10 and 4.4)."""
from laws import link, standing
from laws.book import law
from laws.packets import sized, written
from laws.frames import two
from laws.texts import shown


def shown_origin(origin):
    return origin if isinstance(origin, str) else shown(origin)


@law
def takes(book):
    """At a take while up each SUBSCRIBE that is owed has to leave, and then just what waits leaves, in order;
    while down nothing does."""
    for pattern in standing.owed(book) if link.is_up(book) else []:
        subscribes(book, pattern)
    items = link.waiting(book) if link.is_up(book) else []
    for item in items:
        leaves(book, item)
    book.tell('take')


def leaves(book, item):
    if item.kind == 'publish':
        forwards(book, item)
    elif item.kind == 'subscribe':
        if standing.is_held(book, item.name):
            subscribes(book, item.name)
    elif item.kind == 'unsubscribe':
        if not standing.is_held(book, item.name):
            unsubscribes(book, item.name)
    elif item.kind == 'ack':
        acknowledges(book, item)
    else:
        pings(book)


@law
def forwards(book, item):
    """A publish that leaves is noted with the verdict for the policy in force at that row and its own
    origin and name, and followed, where that allows it, by its own packet, at QoS 1 with the next packet
    id."""
    outcome = book.policy.publish_outcome(item.origin, item.name)
    book.noted('forward', shown_origin(item.origin), shown(item.name), outcome)
    if outcome == 'allowed':
        number = link.next_id(book) if item.qos else 0
        published(book, item, number)
        if item.qos:
            book.tell('forwarded', None, (number, item))


def published(book, item, number):
    packet_id = two(number) if item.qos else b''
    book.wired(written(0x30 | item.qos << 1 | item.is_retained, sized(item.name), packet_id, item.payload))


@law
def subscribes(book, pattern):
    """A SUBSCRIBE leaves where its filter stands for somebody, with the next packet id, and asks for QoS
    1. Where too many are open it is owed, and does not leave."""
    if not standing.may_open(book, pattern):
        book.tell('owed', None, pattern)
        return
    number = link.next_id(book)
    book.wired(written(0x82, two(number), sized(pattern), b'\1'))
    book.tell('subscribed', None, (number, pattern))


@law
def unsubscribes(book, pattern):
    """An UNSUBSCRIBE leaves where its filter stands for nobody, with the next packet id."""
    number = link.next_id(book)
    book.wired(written(0xa2, two(number), sized(pattern)))
    book.tell('unsubscribed', None, (number, pattern))


@law
def acknowledges(book, item):
    """A PUBACK that waits leaves at a take, without a note."""
    book.wired(written(0x40, two(item.packet_id)))


@law
def pings(book):
    """A PINGREQ that waits leaves at a take, without a note."""
    book.wired(written(0xc0))


@law
def begins(book):
    """As a connection begins each publish in flight is noted `again`, in order, judged by the policy in
    force at that row, and followed, where that allows it, by its own packet under its own packet id; and
    then a SUBSCRIBE stands for each filter that stands for anybody."""
    book.tell('up')
    for number, item in link.in_flight(book).items():
        outcome = book.policy.publish_outcome(item.origin, item.name)
        book.noted('again', shown_origin(item.origin), shown(item.name), outcome)
        if outcome == 'allowed':
            published(book, item, number)
        else:
            book.tell('dropped', None, number)
    for pattern in standing.wanted(book):
        subscribes(book, pattern)
