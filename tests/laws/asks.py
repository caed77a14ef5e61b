"""What clients and sources ask for, each judged by the first rule that forbids it: REGISTER, PUBLISH,
SUBSCRIBE and UNSUBSCRIBE (docs/model.md, the tables; docs/formats.md)."""
from laws import clients, ids, link, repeats, standing
from laws.book import law
from laws.ends import released
from laws.frames import two, written
from laws.handing import MOST_IDS
from laws.texts import is_filter, is_name, shown

MOST_FILTERS = 32


class Denied(Exception):
    """A rule forbids an ask: its outcome, and the name or filter that was read, if it was."""

    def __init__(self, outcome, read=None):
        super().__init__(outcome)
        self.outcome, self.read = outcome, '-' if read is None else shown(read)


def forbid(forbids, outcome, read=None):
    if forbids:
        raise Denied(outcome, read)


def code_of(outcome):
    """The ReturnCode of an outcome."""
    codes = {'allowed': 0, '9': 2, '21': 1, '22': 1}
    return bytes([codes.get(outcome.split(' ')[0], 3)])


def active_and_listed(book, client, state):
    forbid(state != clients.ACTIVE, '15 OutOfTurn')
    forbid(client not in book.policy.clients, '3 NoScope ' + shown(client))


def forbid_unless_allowed(outcome, read):
    forbid(outcome != 'allowed', outcome, read)


@law
def registers(book, client, frame, where, state):
    """A REGISTER is noted with its verdict, and answered by REGACK: allowed, with the id of the name, the
    one that it has or the next."""
    name = frame.text
    try:
        active_and_listed(book, client, state)
        forbid(not is_name(name), '6 BadName')
        forbid_unless_allowed(book.policy.publish_outcome(client, name), name)
        names = ids.told(book, client)
        forbid(name not in names and len(names) >= MOST_IDS, '22 Full Ids', name)
    except Denied as denied:
        book.noted('register', shown(client), denied.read, denied.outcome)
        book.sent(where, written(0x0b, two(0), frame.message_id, code_of(denied.outcome)))
        return
    book.noted('register', shown(client), shown(name), 'allowed')
    topic_id = ids.normal_id(book, client, name)
    book.tell('register', client, name)
    book.sent(where, written(0x0b, topic_id, frame.message_id, b'\0'))


def published_name(book, frame, names):
    """The name under which a PUBLISH is, where it has one; names are those that its sender was told, if it
    can be."""
    number = int.from_bytes(frame.topic_id, 'big')
    forbid(frame.id_type == 3 or (frame.id_type == 0 and names is None), '8 IdType')
    if frame.id_type == 2:
        forbid(not is_name(frame.topic_id), '6 BadName')
        return frame.topic_id
    if frame.id_type == 1:
        forbid(number not in book.policy.topics, '9 UnknownId predefined %d' % number)
        return book.policy.topics[number]
    forbid(not 1 <= number <= len(names), '9 UnknownId normal %d' % number)
    return names[number - 1]


@law
def source_publishes(book, frame, where):
    """A PUBLISH at QoS -1 is noted with the verdict by the sender's IPv4 address, and never answered; an
    allowed one waits for the broker at QoS 0."""
    source = where.split(':')[0]
    try:
        forbid(source not in book.policy.sources, '5 UnknownSource')
        name = published_name(book, frame, None)
        forbid_unless_allowed(book.policy.publish_outcome(source, name), name)
        forbid(not link.is_up(book), '21 UpstreamDown', name)
        forbid(link.lacks_place(book), '22 Full Outbox', name)
    except Denied as denied:
        book.noted('publish', source, denied.read, denied.outcome)
        return
    book.noted('publish', source, shown(name), 'allowed')
    book.tell('joined', None, link.Item('publish', source, name, frame.text, 0, frame.is_retained))


@law
def publishes(book, client, frame, where, state):
    """A PUBLISH at QoS 0, 1 or 2 that is no repeat is noted with its verdict, and answered by PUBACK where
    it is denied, and else by PUBACK at QoS 1 and by PUBREC at QoS 2, where its MsgId is open from then on;
    an allowed one waits for the broker, with its Retain, and its QoS or 1 where that is 2."""
    if repeats.is_repeat(book, client, frame, state):
        repeats.repeats(book, frame, where)
        return
    try:
        active_and_listed(book, client, state)
        name = published_name(book, frame, ids.told(book, client))
        forbid_unless_allowed(book.policy.publish_outcome(client, name), name)
        forbid(not link.is_up(book), '21 UpstreamDown', name)
        is_one_more = frame.qos == 2 and len(repeats.opened(book, client)) >= repeats.MOST_OPEN
        forbid(is_one_more, '22 Full Exchanges', name)
        lacks = link.lacks_place(book, frame.qos)
        forbid(lacks, lacks, name)
        outcome, about = 'allowed', shown(name)
    except Denied as denied:
        outcome, about = denied.outcome, denied.read
    book.noted('publish', shown(client), about, outcome)
    if outcome == 'allowed':
        item = link.Item('publish', client, name, frame.text, min(frame.qos, 1), frame.is_retained)
        book.tell('joined', None, item)
    if outcome == 'allowed' and frame.qos == 2:
        book.tell('opened', client, frame.message_id)
        repeats.received(book, frame, where)
    elif outcome != 'allowed' or frame.qos:
        book.sent(where, written(0x0d, frame.topic_id, frame.message_id, code_of(outcome)))


def asked_filter(book, frame):
    """The filter that a SUBSCRIBE or UNSUBSCRIBE names."""
    text, pattern = frame.text, frame.text
    forbid(frame.id_type == 3, '8 IdType')
    if frame.id_type == 1:
        number = int.from_bytes(text, 'big')
        forbid(number not in book.policy.topics, '9 UnknownId predefined %d' % number)
        pattern = book.policy.topics[number]
    if frame.id_type == 2:
        forbid(not is_name(text), '6 BadName')
    forbid(not is_filter(pattern), '7 BadFilter')
    return pattern


@law
def subscribes(book, client, frame, where, state):
    """A SUBSCRIBE is noted with its verdict, and answered by SUBACK; an allowed one lets its filter stand,
    at QoS 1 or 0, tells the id of a text that is a name of other than two octets, and a SUBSCRIBE waits
    for the broker."""
    try:
        active_and_listed(book, client, state)
        pattern = asked_filter(book, frame)
        forbid_unless_allowed(book.policy.subscribe_outcome(client, pattern), pattern)
        forbid(not link.is_up(book), '21 UpstreamDown', pattern)
        names, held = ids.told(book, client), standing.standing(book, client)
        tells = frame.id_type == 0 and is_name(pattern) and len(pattern) != 2
        forbid(tells and pattern not in names and len(names) >= MOST_IDS, '22 Full Ids', pattern)
        forbid(pattern not in held and len(held) >= MOST_FILTERS, '22 Full Subscriptions', pattern)
        forbid(link.lacks_place(book), '22 Full Outbox', pattern)
    except Denied as denied:
        book.noted('subscribe', shown(client), denied.read, denied.outcome)
        book.sent(where, written(0x13, b'\0', two(0), frame.message_id, code_of(denied.outcome)))
        return
    book.noted('subscribe', shown(client), shown(pattern), 'allowed')
    qos = int(frame.qos in (1, 2))
    topic_id = frame.text if frame.id_type == 1 else two(0)
    if tells:
        topic_id = ids.normal_id(book, client, pattern)
    book.tell('subscribe', client, (pattern, qos, tells))
    book.tell('joined', None, link.Item('subscribe', name=pattern))
    book.sent(where, written(0x13, bytes([qos << 5]), topic_id, frame.message_id, b'\0'))


@law
def unsubscribes(book, client, frame, where, state):
    """An UNSUBSCRIBE needs no grant: in turn and with a filter it ends that; UNSUBACK answers it, also
    where it is denied."""
    try:
        forbid(state != clients.ACTIVE, '15 OutOfTurn')
        pattern = asked_filter(book, frame)
    except Denied as denied:
        book.noted('unsubscribe', shown(client), denied.read, denied.outcome)
    else:
        book.noted('unsubscribe', shown(client), shown(pattern), 'allowed')
        stood = pattern in standing.standing(book, client)
        book.tell('unsubscribe', client, pattern)
        if stood:
            released(book, pattern)
    book.sent(where, written(0x15, frame.message_id))
