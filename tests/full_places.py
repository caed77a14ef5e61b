"""full_places.py

Scripts that fill what is limited, with what the program is to print, for end_to_end.py: the topic ids of a
client, by REGISTER, by SUBSCRIBE and by announcements, its subscriptions, the publishes at QoS 1 that are in
flight or wait, what waits for the broker, by acknowledgements and beside subscriptions that begin and end,
what waits for a client, and the datagrams that are sent to it. And what finds no place then: the will of a
client that is lost, and a ping.
"""
import json

ADDRESS, OTHER_ADDRESS = '10.0.0.9:4000', '10.0.0.9:4001'
MOST_IDS, MOST_SUBSCRIPTIONS, MOST_IN_FLIGHT, MOST_ITEMS = 128, 32, 128, 512
MOST_WAITING, MOST_PAYLOAD, MOST_NAME, MOST_OPEN = 64, 2039, 2040, 16
CONNECT, CONNECT_OTHER = '08040401003c7331', '08040401003c7332'
CONNECT_AGAIN = '08040001003c7331'
POLICY = 'policy {"version":1,"clients":{"s1":[["#",["pub"]]]},"topics":{"4":"t/4"}}'
BOTH = ('policy {"version":1,"clients":{"s1":[["#",["pub","sub"]]],"s2":[["#",["sub"]]]},'
        '"topics":{"4":"t/4"}}')
FULL = 'note outbox broker - 22 Full Outbox'


class Story:
    """Lines of a script, and what they print."""

    def __init__(self):
        self.lines, self.printed, self.rows = [], [], 0

    def row(self, kind, *outs):
        self.rows += 1
        self.printed += ['row %d 0 %s' % (self.rows, kind), *outs]

    def give(self, line, kind, *outs):
        """A line that makes a row of this kind with these outs."""
        self.lines.append(line)
        self.row(kind, *outs)

    def hear(self, octets, note, answer=None, address=ADDRESS, outs=()):
        """A datagram of a client, with its note, what else goes out behind it and, where it is answered, the
        answer's octets."""
        answers = ['send %s %s' % (address, answer)] if answer else []
        self.give('from %s %s' % (address, octets), 'datagram', 'note ' + note, *outs, *answers)

    def answer(self, octets, *outs):
        """A datagram of a client, with all that goes out."""
        self.give('from %s %s' % (ADDRESS, octets), 'datagram', *outs)

    def publish(self, name, *outs, payload='x', packet_id=None):
        """The broker publishes, at QoS 1 where there is a packet id."""
        self.give('broker ' + published(name, payload, packet_id), 'broker', *outs)

    def begin(self, policy=POLICY):
        self.give(policy, 'replace')
        self.give('up', 'up')
        self.hear(CONNECT, 'connect s1 - allowed', '030500')

    def whole(self):
        return tuple('\n'.join(lines + ['']).encode() for lines in (self.lines, self.printed))


def register(name):
    return '%02x0a00000007%s' % (6 + len(name), name.encode().hex())


def publish(flags, topic_id, msg_id):
    return '080c%02x%04x%04x78' % (flags, topic_id, msg_id)


def subscribe(pattern, flags=0x20):
    return '%02x12%02x0007%s' % (5 + len(pattern), flags, pattern.encode().hex())


def unsubscribe(pattern):
    return '%02x14000007%s' % (5 + len(pattern), pattern.encode().hex())


def published(name, payload='x', packet_id=None):
    """The broker publishes, at QoS 1 where there is a packet id."""
    packet = '%04x%s' % (len(name), name.encode().hex())
    packet += ('' if packet_id is None else '%04x' % packet_id) + payload.encode().hex()
    size = len(packet) // 2
    length = '%02x' % size if size < 128 else '%02x%02x' % (size % 128 + 128, size // 128)
    return ('30' if packet_id is None else '32') + length + packet


def will(name, flags=0):
    """A client states the topic of its will anew."""
    return '%02x1a%02x%s' % (3 + len(name), flags, name.encode().hex())


def regack(topic_id, msg_id, code=0):
    return '070b%04x%04x%02x' % (topic_id, msg_id, code)


def puback(topic_id, msg_id):
    return '070d%04x%04x00' % (topic_id, msg_id)


def spelled(body, address=ADDRESS):
    """What is sent to a client: the Length, of one octet or three, and the rest of the frame."""
    size = len(body) // 2 + 1
    return 'send %s %s%s' % (address, '%02x' % size if size <= 255 else '01%04x' % (size + 2), body)


def announced(name, topic_id, msg_id, client='s1', address=ADDRESS):
    octets = '0a%04x%04x%s' % (topic_id, msg_id, name.encode().hex())
    return ['note announce %s %s allowed' % (client, name), spelled(octets, address)]


def handed(name, flags, topic_id, msg_id=0, client='s1', address=ADDRESS, payload='x'):
    octets = '0c%02x%04x%04x%s' % (flags, topic_id, msg_id, payload.encode().hex())
    return ['note hand %s %s allowed' % (client, name), spelled(octets, address)]


def lost(name, outcome, client='s1'):
    """A message is not handed over."""
    return 'note hand %s %s %s' % (client, name, outcome)


def subscribed(packet_id, pattern):
    """The broker is sent a SUBSCRIBE."""
    return 'wire 82%02x%04x%04x%s01' % (5 + len(pattern), packet_id, len(pattern), pattern.encode().hex())


def unsubscribed(packet_id, pattern):
    """The broker is sent an UNSUBSCRIBE."""
    return 'wire a2%02x%04x%04x%s' % (4 + len(pattern), packet_id, len(pattern), pattern.encode().hex())


def ids_that_fill():
    """Each name has an id of its own, until 128 were told. Then no name gets one, a short or predefined one
    neither; what was told stays, and a CONNECT clears it."""
    story = Story()
    story.begin()
    for number in range(1, MOST_IDS + 1):
        name = 'n/%d' % number
        story.hear(register(name), 'register s1 %s allowed' % name, '070b%04x000700' % number)
    for name in ('n/129', 'ab', 't/4'):
        story.hear(register(name), 'register s1 %s 22 Full Ids' % name, '070b0000000701')
    story.hear(register('$n'), 'register s1 $n 10 MissingPub $n', '070b0000000703')
    story.hear(register('n/1'), 'register s1 n/1 allowed', '070b0001000700')
    story.hear(publish(0x20, MOST_IDS, 5), 'publish s1 n/128 allowed', '070d0080000500')
    story.hear(publish(0x20, MOST_IDS + 1, 6), 'publish s1 - 9 UnknownId normal 129', '070d0081000602')
    story.hear(CONNECT, 'connect s1 - allowed', '030500')
    story.hear(register('n/129'), 'register s1 n/129 allowed', '070b0001000700')
    return story.whole()


def in_flight_that_fills():
    """Of publishes at QoS 1 and 2 as many are taken as may be in flight or wait. Those at QoS 0 are taken
    still, repeats are answered, and each PUBACK makes room for one more."""
    story = Story()
    story.begin()
    allowed, full = 'publish s1 t/4 allowed', 'publish s1 t/4 22 Full InFlight'
    for number in range(1, MOST_OPEN + 1):
        story.hear(publish(0x41, 4, number), allowed, '040f%04x' % number)
    for number in range(MOST_OPEN + 1, MOST_IN_FLIGHT + 1):
        story.hear(publish(0x21, 4, number), allowed, '070d0004%04x00' % number)
    story.hear(publish(0x21, 4, 129), full, '070d0004008101')
    story.hear(publish(0x41, 4, 129), 'publish s1 t/4 22 Full Exchanges', '070d0004008101')
    story.answer('04100010', 'send %s 040e0010' % ADDRESS)
    story.hear(publish(0x41, 4, 129), full, '070d0004008101')
    story.answer(publish(0xc1, 4, 1), 'send %s 040f0001' % ADDRESS)
    story.hear(publish(0x01, 4, 0), allowed)
    left = []
    for packet_id in range(1, MOST_IN_FLIGHT + 1):
        left += ['note forward s1 t/4 allowed', 'wire 32080003742f34%04x78' % packet_id]
    story.give('take', 'take', *left, 'note forward s1 t/4 allowed', 'wire 30060003742f3478')
    story.hear(publish(0x21, 4, 130), full, '070d0004008201')
    story.give('broker 40020007', 'broker')
    story.hear(publish(0x21, 4, 131), allowed, '070d0004008300')
    story.hear(publish(0x21, 4, 132), full, '070d0004008401')
    story.give('take', 'take', 'note forward s1 t/4 allowed', 'wire 32080003742f34008178')
    return story.whole()


def acknowledgements_that_fill():
    """What waits may be acknowledgements alone. One more is noted and never sent, and a publish is denied. A
    take makes room for all of them."""
    story = Story()
    story.begin()
    packets = ['3205000161%04x' % packet_id for packet_id in range(1, MOST_ITEMS + 2)]
    story.lines.append('broker ' + ''.join(packets))
    for _ in range(MOST_ITEMS):
        story.row('broker')
    story.row('broker', 'note outbox broker - 22 Full Outbox')
    story.hear(publish(0x01, 4, 0), 'publish s1 t/4 22 Full Outbox', '070d0004000001')
    story.hear(publish(0x21, 4, 9), 'publish s1 t/4 22 Full Outbox', '070d0004000901')
    story.hear(publish(0x41, 4, 9), 'publish s1 t/4 22 Full Outbox', '070d0004000901')
    story.give('take', 'take', *['wire 4002%04x' % packet_id for packet_id in range(1, MOST_ITEMS + 1)])
    story.give('broker ' + packets[-1], 'broker')
    story.hear(publish(0x21, 4, 10), 'publish s1 t/4 allowed', '070d0004000a00')
    story.give('take', 'take', 'wire 40020201', 'note forward s1 t/4 allowed', 'wire 32080003742f34000178')
    return story.whole()


def ids_that_fill_by_subscriptions():
    """A name that is subscribed to as a text is told an id, until 128 names were told. Then one without an id
    is denied, and so is its REGISTER; what needs no normal id is allowed still, until 32 filters stand. A
    CONNECT clears the ids."""
    story = Story()
    story.begin(BOTH)
    for number in range(1, MOST_IDS):
        name = 'n/%d' % number
        story.hear(register(name), 'register s1 %s allowed' % name, '070b%04x000700' % number)
    story.hear(subscribe('n/128'), 'subscribe s1 n/128 allowed', '0813200080000700')
    story.hear(subscribe('n/129'), 'subscribe s1 n/129 22 Full Ids', '0813000000000701')
    story.hear(subscribe('t/4'), 'subscribe s1 t/4 22 Full Ids', '0813000000000701')
    story.hear(register('n/129'), 'register s1 n/129 22 Full Ids', '070b0000000701')
    story.hear(subscribe('n/1'), 'subscribe s1 n/1 allowed', '0813200001000700')
    story.hear(subscribe('n/128', 0), 'subscribe s1 n/128 allowed', '0813000080000700')
    story.hear('07122100070004', 'subscribe s1 t/4 allowed', '0813200004000700')
    story.hear(subscribe('ab', 0x22), 'subscribe s1 ab allowed', '0813200000000700')
    story.hear(subscribe('cd'), 'subscribe s1 cd allowed', '0813200000000700')
    filters = ['f/%d/+' % number for number in range(6, MOST_SUBSCRIPTIONS + 1)]
    for pattern in filters:
        story.hear(subscribe(pattern), 'subscribe s1 %s allowed' % pattern, '0813200000000700')
    story.hear(subscribe('n/129'), 'subscribe s1 n/129 22 Full Ids', '0813000000000701')
    story.hear(subscribe('n/2'), 'subscribe s1 n/2 22 Full Subscriptions', '0813000000000701')
    story.hear(subscribe('f/+'), 'subscribe s1 f/+ 22 Full Subscriptions', '0813000000000701')
    story.hear(unsubscribe('n/1'), 'unsubscribe s1 n/1 allowed', '04150007')
    story.hear(subscribe('n/129'), 'subscribe s1 n/129 22 Full Ids', '0813000000000701')
    story.give('down', 'down')
    story.hear(subscribe('n/129'), 'subscribe s1 n/129 21 UpstreamDown', '0813000000000701')
    story.hear('08040001003c7331', 'connect s1 - allowed', '030500')
    standing = ['n/128', 't/4', 'ab', 'cd'] + filters
    story.give('up', 'up', *[subscribed(place, it) for place, it in enumerate(standing, 1)])
    story.hear(subscribe('n/129'), 'subscribe s1 n/129 allowed', '0813200001000700')
    story.hear(subscribe('n/128'), 'subscribe s1 n/128 allowed', '0813200002000700')
    story.give('take', 'take', subscribed(32, 'n/129'), subscribed(33, 'n/128'))
    return story.whole()


def subscriptions_that_fill():
    """A client holds 32 filters. One more is denied however it is asked for, one that stands is not; each
    that ends makes room for one more."""
    story = Story()
    story.begin(BOTH)
    filters = ['f/%d/#' % number for number in range(1, MOST_SUBSCRIPTIONS + 1)]
    for pattern in filters:
        story.hear(subscribe(pattern), 'subscribe s1 %s allowed' % pattern, '0813200000000700')
    story.hear(subscribe('f/33/#'), 'subscribe s1 f/33/# 22 Full Subscriptions', '0813000000000701')
    story.hear(subscribe('ab', 0x22), 'subscribe s1 ab 22 Full Subscriptions', '0813000000000701')
    story.hear('07122100070004', 'subscribe s1 t/4 22 Full Subscriptions', '0813000000000701')
    story.hear(subscribe('f/1/#', 0), 'subscribe s1 f/1/# allowed', '0813000000000700')
    wires = [subscribed(place, it) for place, it in enumerate(filters + ['f/1/#'], 1)]
    story.give('take', 'take', *wires)
    story.hear(unsubscribe('f/2/#'), 'unsubscribe s1 f/2/# allowed', '04150007')
    story.hear('07122100070004', 'subscribe s1 t/4 allowed', '0813200004000700')
    story.hear(subscribe('f/2/#'), 'subscribe s1 f/2/# 22 Full Subscriptions', '0813000000000701')
    story.give('take', 'take', unsubscribed(34, 'f/2/#'), subscribed(35, 't/4'))
    story.give('broker 9003002080', 'broker', 'note end s1 f/32/# 14 BrokerRefused')
    story.hear(subscribe('n/1'), 'subscribe s1 n/1 allowed', '0813200001000700')
    story.hear(subscribe('n/2'), 'subscribe s1 n/2 22 Full Subscriptions', '0813000000000701')
    standing = ['f/1/#'] + filters[2:-1] + ['t/4', 'n/1']
    wires = [subscribed(place, it) for place, it in enumerate(standing, 36)]
    story.give('up', 'up', *wires)
    story.hear(CONNECT, 'connect s1 - allowed', '030500')
    story.hear(subscribe('n/2'), 'subscribe s1 n/2 allowed', '0813200001000700')
    gone = [unsubscribed(place, it) for place, it in enumerate(standing, 68)]
    story.give('take', 'take', *gone, subscribed(100, 'n/2'))
    return story.whole()


def items_that_fill_beside_subscriptions():
    """Where 512 items wait a SUBSCRIBE is denied, of a filter that stands, too. An UNSUBSCRIBE that the
    broker is owed then is noted and never sent, as one of a client, a new policy and a clean CONNECT end a
    filter. None is owed where the filter did not stand, or somebody holds it still."""
    story = Story()
    story.begin(BOTH)
    story.hear(CONNECT_OTHER, 'connect s2 - allowed', '030500', OTHER_ADDRESS)
    for pattern in ('a/#', 'b/#', 'c/#', 'd/#', 'e/#', 'f/#', 'g/#'):
        story.hear(subscribe(pattern), 'subscribe s1 %s allowed' % pattern, '0813200000000700')
    for pattern in ('c/#', 'f/#'):
        story.hear(subscribe(pattern), 'subscribe s2 %s allowed' % pattern, '0813200000000700', OTHER_ADDRESS)
    wires = [subscribed(place, it + '/#') for place, it in enumerate('abcdefgcf', 1)]
    story.give('take', 'take', *wires)
    packet_ids = range(1, MOST_ITEMS)
    story.lines.append('broker ' + ''.join('320500017a%04x' % packet_id for packet_id in packet_ids))
    for _ in packet_ids:
        story.row('broker')
    story.hear(unsubscribe('a/#'), 'unsubscribe s1 a/# allowed', '04150007')
    story.hear(unsubscribe('b/#'), 'unsubscribe s1 b/# allowed', '04150007', outs=[FULL])
    story.hear(unsubscribe('b/#'), 'unsubscribe s1 b/# allowed', '04150007')
    story.hear(subscribe('h/#'), 'subscribe s1 h/# 22 Full Outbox', '0813000000000701')
    story.hear(subscribe('d/#', 0), 'subscribe s1 d/# 22 Full Outbox', '0813000000000701')
    policy = 'policy {"version":1,"clients":{"s1":[["e/#",["sub"]],["f/#",["sub"]],["g/#",["sub"]]],"s2":%s}}'
    story.give(policy % '[["f/#",["sub"]]]', 'replace', 'note end s1 c/# 12 Uncovered c/# c',
               'note end s1 d/# 12 Uncovered d/# d', FULL, 'note end s2 c/# 12 Uncovered c/# c', FULL)
    story.hear(CONNECT, 'connect s1 - allowed', '030500', outs=[FULL, FULL])
    story.give('take', 'take', *['wire 4002%04x' % it for it in packet_ids], unsubscribed(10, 'a/#'))
    story.give('take', 'take')
    story.hear(subscribe('e/#'), 'subscribe s1 e/# allowed', '0813200000000700')
    story.give('up', 'up', subscribed(11, 'f/#'), subscribed(12, 'e/#'))
    return story.whole()


def subscriptions_that_fill_the_outbox():
    """What waits may be SUBSCRIBEs alone. With one place left, of two filters that end the first has it."""
    story = Story()
    story.begin(BOTH)
    allowed, answer = 'subscribe s1 a/# allowed', '0813200000000700'
    for _ in range(MOST_ITEMS):
        story.hear(subscribe('a/#'), allowed, answer)
    story.hear(subscribe('a/#'), 'subscribe s1 a/# 22 Full Outbox', '0813000000000701')
    story.give('down', 'down')
    story.give('up', 'up', subscribed(1, 'a/#'))
    story.hear(subscribe('b/#'), 'subscribe s1 b/# allowed', answer)
    for _ in range(2, MOST_ITEMS):
        story.hear(subscribe('a/#'), allowed, answer)
    story.give('policy {"version":1}', 'replace', 'note end s1 a/# 3 NoScope s1',
               'note end s1 b/# 3 NoScope s1', FULL)
    story.give('take', 'take', unsubscribed(2, 'a/#'))
    return story.whole()


def subscriptions_that_end_at_once():
    """A policy ends each of the 32 filters that five clients hold, all in one row, by both rules. The broker
    is told of each, in the same order."""
    story = Story()
    held = [('s%d' % client, '10.0.0.9:400%d' % client, ['s%d/%d/+' % (client, number)
             for number in range(1, MOST_SUBSCRIPTIONS + 1)]) for client in range(1, 6)]
    scopes = ','.join('"%s":[["#",["sub"]]]' % client for client, _, _ in held)
    story.give('policy {"version":1,"clients":{%s}}' % scopes, 'replace')
    story.give('up', 'up')
    for client, address, filters in held:
        story.hear('08040401003c' + client.encode().hex(), 'connect %s - allowed' % client, '030500', address)
        for pattern in filters:
            story.hear(subscribe(pattern), 'subscribe %s %s allowed' % (client, pattern), '0813200000000700',
                       address)
    every = [pattern for _, _, filters in held for pattern in filters]
    story.give('take', 'take', *[subscribed(place, it) for place, it in enumerate(every, 1)])
    ends = ['note end %s %s ' % (client, it) + ('3 NoScope ' + client if client in ('s1', 's4') else
                                               '12 Uncovered %s %sx' % (it, it[:-1]))
            for client, _, filters in held for it in filters]
    scopes = '"s2":[],"s3":[["a/#",["sub"]]],"s5":[["#",["pub"]]]'
    story.give('policy {"version":1,"clients":{%s}}' % scopes, 'replace', *ends)
    story.give('take', 'take', *[unsubscribed(place, it) for place, it in enumerate(every, len(every) + 1)])
    story.give('up', 'up')
    return story.whole()


def publishes_that_fill_without_a_connection():
    """Publishes that wait leave no place for an UNSUBSCRIBE either, also once the connection is lost."""
    story = Story()
    story.begin(BOTH)
    story.hear(subscribe('a/#'), 'subscribe s1 a/# allowed', '0813200000000700')
    story.give('take', 'take', subscribed(1, 'a/#'))
    for _ in range(MOST_ITEMS):
        story.hear(publish(0x01, 4, 0), 'publish s1 t/4 allowed')
    story.give('down', 'down')
    story.hear(unsubscribe('a/#'), 'unsubscribe s1 a/# allowed', '04150007', outs=[FULL])
    story.give('up', 'up')
    story.give('take', 'take', *['note forward s1 t/4 allowed', 'wire 30060003742f3478'] * MOST_ITEMS)
    story.give('take', 'take')
    return story.whole()


def messages_that_fill_a_queue():
    """For a client 64 messages wait at most, the one that is announced among them. One more is noted and
    never sent; another client gets it all the same. A message that is too long is noted as such in a full
    queue, too. One that was handed over at QoS 1 is not among those that wait."""
    story = Story()
    story.begin(BOTH)
    story.hear(CONNECT_OTHER, 'connect s2 - allowed', '030500', OTHER_ADDRESS)
    story.hear(subscribe('a/#'), 'subscribe s1 a/# allowed', '0813200000000700')
    story.hear(subscribe('a/b'), 'subscribe s2 a/b allowed', '0813200001000700', OTHER_ADDRESS)
    other = handed('a/b', 0, 1, client='s2', address=OTHER_ADDRESS)
    story.publish('a/b', *announced('a/b', 1, 1), *other)
    for _ in range(MOST_WAITING - 1):
        story.publish('a/b', *other)
    story.publish('a/b', lost('a/b', '22 Full Queue'), *other)
    story.publish('a/b', lost('a/b', '23 TooLong'), lost('a/b', '23 TooLong', 's2'), payload='x' * 2040)
    story.answer(regack(1, 1, 2), lost('a/b', '13 ClientRefused 2'), *announced('a/b', 1, 2))
    story.publish('a/c')
    story.publish('a/c', lost('a/c', '22 Full Queue'))
    story.answer(regack(1, 2), *handed('a/b', 0, 1) * (MOST_WAITING - 1), *announced('a/c', 2, 3))
    story.answer(regack(2, 3), *handed('a/c', 0, 2))
    story.publish('a/c', *handed('a/c', 0x20, 2, 4), packet_id=7)
    for _ in range(MOST_WAITING):
        story.publish('a/c')
    story.publish('a/c', lost('a/c', '22 Full Queue'), packet_id=8)
    story.answer(puback(2, 4), *handed('a/c', 0, 2) * MOST_WAITING)
    story.publish('a/c', *handed('a/c', 0, 2))
    story.give('take', 'take', subscribed(1, 'a/#'), subscribed(2, 'a/b'), 'wire 40020007', 'wire 40020008')
    return story.whole()


def ids_that_fill_by_announcements():
    """An announcement gives a name an id, which it keeps where the client refuses it. Once 128 were given, a
    message under a name without one is not handed over; a short name and a predefined id need none. Whether
    the client may receive it is judged before. A CONNECT clears the ids."""
    story = Story()
    story.begin(BOTH)
    for number in range(1, MOST_IDS):
        name = 'n/%d' % number
        story.hear(register(name), 'register s1 %s allowed' % name, '070b%04x000700' % number)
    story.hear(subscribe('#'), 'subscribe s1 # allowed', '0813200000000700')
    story.publish('n/128', *announced('n/128', 128, 1))
    story.answer(regack(128, 1, 3), lost('n/128', '13 ClientRefused 3'))
    story.publish('n/128', *announced('n/128', 128, 2))
    for name in ('n/129', 'n/1', 't/4', 'ab'):
        story.publish(name)
    story.answer(regack(128, 2), *handed('n/128', 0, 128), lost('n/129', '22 Full Ids'),
                 *handed('n/1', 0, 1), *handed('t/4', 1, 4), *handed('ab', 2, 0x6162))
    story.publish('n/129', lost('n/129', '22 Full Ids'))
    story.hear(register('n/129'), 'register s1 n/129 22 Full Ids', '070b0000000701')
    story.publish('ab', *handed('ab', 0x22, 0x6162, 3), packet_id=7)
    story.publish('n/129')
    story.publish('n/130')
    story.give('policy {"version":1,"clients":{"s1":[["n/130",["sub"]]]}}', 'replace',
               'note end s1 # 12 Uncovered # x')
    story.answer(puback(0x6162, 3), lost('n/129', '11 MissingSub n/129'), lost('n/130', '22 Full Ids'))
    story.give(BOTH, 'replace')
    story.hear(CONNECT_AGAIN, 'connect s1 - allowed', '030500')
    story.hear(subscribe('#'), 'subscribe s1 # allowed', '0813200000000700')
    story.publish('n/129', *announced('n/129', 1, 4))
    return story.whole()


def messages_that_fill_a_datagram():
    """A payload of 2,039 octets is handed over, a name of 2,040 announced; more of either is too long for
    any client, also under a short name or a predefined id. A Length of one octet counts 255 at most."""
    story = Story()
    story.begin('policy {"version":1,"clients":{"s1":[["#",["sub"]]]},"topics":{"4":"%s"}}' % ('p' * 2041))
    story.hear(subscribe('#'), 'subscribe s1 # allowed', '0813200000000700')
    for size in (248, 249, MOST_PAYLOAD):
        story.publish('ab', *handed('ab', 2, 0x6162, payload='x' * size), payload='x' * size)
    story.publish('ab', lost('ab', '23 TooLong'), payload='x' * (MOST_PAYLOAD + 1))
    for number, size in enumerate((249, 250, MOST_NAME), 1):
        story.publish('n' * size, *announced('n' * size, number, number))
        story.answer(regack(number, number), *handed('n' * size, 0, number))
    story.publish('n' * (MOST_NAME + 1), lost('n' * (MOST_NAME + 1), '23 TooLong'), packet_id=7)
    story.publish('p' * 2041, lost('p' * 2041, '23 TooLong'))
    story.publish('n' * MOST_NAME, *handed('n' * MOST_NAME, 0x20, 3, 4, payload='x' * MOST_PAYLOAD),
                  payload='x' * MOST_PAYLOAD, packet_id=8)
    story.give('take', 'take', subscribed(1, '#'), 'wire 40020007', 'wire 40020008')
    return story.whole()


def messages_beside_a_full_outbox():
    """Where 512 items wait, the acknowledgement of a message is noted behind all that the message brings to
    clients. A client that comes to where another one is, and begins anew, makes notes in this order: the
    other's leaving and its messages, the UNSUBSCRIBEs that find no room, its own messages."""
    story = Story()
    story.begin(BOTH)
    story.hear(CONNECT_OTHER, 'connect s2 - allowed', '030500', OTHER_ADDRESS)
    story.hear(subscribe('a/#'), 'subscribe s1 a/# allowed', '0813200000000700')
    for pattern in ('ab', '+/b', 'a/#'):
        story.hear(subscribe(pattern), 'subscribe s2 %s allowed' % pattern, '0813200000000700', OTHER_ADDRESS)
    wires = [subscribed(place, it) for place, it in enumerate(('a/#', 'ab', '+/b', 'a/#'), 1)]
    story.give('take', 'take', *wires)
    for packet_id in range(1, MOST_ITEMS + 1):
        story.publish('z', packet_id=packet_id)
    short = handed('ab', 0x22, 0x6162, 1, client='s2', address=OTHER_ADDRESS)
    story.publish('ab', *short, FULL, packet_id=9)
    story.publish('a/b', *announced('a/b', 1, 1), FULL, packet_id=9)
    story.publish('z', FULL, packet_id=9)
    story.publish('a/c')
    gone = [lost('a/b', '24 Gone', 's1'), lost('a/c', '24 Gone', 's1'), FULL, FULL]
    gone += [lost('a/b', '24 Gone', 's2'), lost('a/c', '24 Gone', 's2')]
    story.hear(CONNECT_OTHER, 'connect s2 - allowed', '030500',
               outs=['send %s 0218' % OTHER_ADDRESS, 'note left s1 - done', *gone])
    story.give('take', 'take', *['wire 4002%04x' % it for it in range(1, MOST_ITEMS + 1)])
    return story.whole()


def messages_that_fill_the_queue_of_a_sleeper():
    """As many messages wait for a client that sleeps as for any other, and what never can is noted at once.
    It wakes up to all of them, and what comes meanwhile waits behind them, as far as there is room."""
    story = Story()
    story.begin(BOTH)
    story.hear(subscribe('a/#'), 'subscribe s1 a/# allowed', '0813200000000700')
    story.answer('0418012c', 'send %s 0218' % ADDRESS)
    for _ in range(MOST_WAITING):
        story.publish('a/b')
    story.publish('a/b', lost('a/b', '22 Full Queue'))
    story.publish('a/c', lost('a/c', '23 TooLong'), payload='x' * (MOST_PAYLOAD + 1))
    story.publish('a/c', lost('a/c', '22 Full Queue'), packet_id=7)
    story.answer('04167331', *announced('a/b', 1, 1))
    story.publish('a/b', lost('a/b', '22 Full Queue'))
    story.give('tick 10000', 'tick', 'note retry s1 a/b allowed', announced('a/b', 1, 1)[1])
    pingresp = 'send %s 0217' % ADDRESS
    story.answer(regack(1, 1), *handed('a/b', 0, 1) * MOST_WAITING, pingresp)
    story.publish('a/b', packet_id=8)
    story.answer('04167331', *handed('a/b', 0x20, 1, 2))
    for _ in range(MOST_WAITING):
        story.publish('a/b')
    story.publish('a/b', lost('a/b', '22 Full Queue'))
    story.give('tick 20000', 'tick', 'note retry s1 a/b allowed', handed('a/b', 0xa0, 1, 2)[1])
    story.answer(puback(1, 2), *handed('a/b', 0, 1) * MOST_WAITING, pingresp)
    return story.whole()


def wills_beside_full_places():
    """The will of a client that is lost finds no place at QoS 1 where 128 publishes of QoS 1 wait or are in
    flight, and at QoS 0 where 512 items wait; its note stands behind those of the messages that are gone. The
    will stays the client's, and is published where that is lost again."""
    story = Story()
    story.begin('policy {"version":1,"clients":{"s1":[["#",["pub","sub"]]],"s2":[["#",["pub","sub"]]]}}')
    story.hear(CONNECT_OTHER, 'connect s2 - allowed', '030500', OTHER_ADDRESS)
    story.hear(will('w/1', 0x20), 'will s1 w/1 allowed', '031b00')
    story.hear(will('w/2'), 'will s2 w/2 allowed', '031b00', OTHER_ADDRESS)
    story.hear(subscribe('a/#'), 'subscribe s1 a/# allowed', '0813200000000700')
    for number in range(1, MOST_IN_FLIGHT + 1):
        story.hear(publish(0x22, 0x6162, number), 'publish s1 ab allowed', '070d6162%04x00' % number)
    story.publish('a/b', *announced('a/b', 1, 1))
    story.give('tick 90000', 'tick', 'note lost s1 - done', lost('a/b', '24 Gone'),
               'note will s1 w/1 22 Full InFlight', 'note lost s2 - done')
    left = []
    for packet_id in range(2, MOST_IN_FLIGHT + 2):
        left += ['note forward s1 ab allowed', 'wire 320700026162%04x78' % packet_id]
    story.give('take', 'take', subscribed(1, 'a/#'), *left, 'note forward s2 w/2 allowed',
               'wire 30050003772f32', 'wire c000')
    story.hear(CONNECT_AGAIN, 'connect s1 - allowed', '030500')
    story.give('tick 180000', 'tick', 'note lost s1 - done', 'note will s1 w/1 22 Full InFlight')
    story.give('broker 40020009', 'broker')
    story.hear(CONNECT_AGAIN, 'connect s1 - allowed', '030500')
    story.give('tick 270000', 'tick', 'note lost s1 - done')
    story.give('take', 'take', 'wire c000', 'note forward s1 w/1 allowed', 'wire 32070003772f310082',
               'wire c000')
    return story.whole()


def wills_beside_a_full_outbox():
    """The last place is that of the client that is lost first; the other's will and the ping find none. A
    tick that does not move the clock makes up for the ping."""
    story = Story()
    story.begin('policy {"version":1,"clients":{"s1":[["#",["pub"]]],"s2":[["#",["pub"]]]}}')
    story.hear(CONNECT_OTHER, 'connect s2 - allowed', '030500', OTHER_ADDRESS)
    story.hear(will('w/2'), 'will s2 w/2 allowed', '031b00', OTHER_ADDRESS)
    story.hear(will('w/1'), 'will s1 w/1 allowed', '031b00')
    packet_ids = range(1, MOST_ITEMS)
    story.lines.append('broker ' + ''.join('320500017a%04x' % packet_id for packet_id in packet_ids))
    for _ in packet_ids:
        story.row('broker')
    story.give('tick 90000', 'tick', 'note lost s1 - done', 'note lost s2 - done',
               'note will s2 w/2 22 Full Outbox', FULL)
    acknowledged = ['wire 4002%04x' % it for it in packet_ids]
    story.give('take', 'take', *acknowledged, 'note forward s1 w/1 allowed', 'wire 30050003772f31')
    story.give('tick 90000', 'tick')
    story.give('take', 'take', 'wire c000')
    return story.whole()


def scopes_that_end_beside_a_full_outbox():
    """All that is granted to a client ends by a tick, but there is no place to tell the broker of both of its
    filters; what stands for another client, too, it keeps."""
    story = Story()
    ending = {client: {'scope': [['#', ['pub', 'sub']]], 'exp': exp} for client, exp in (('s1', 5000), ('s2', 6000))}
    story.begin('policy ' + json.dumps({'version': 2, 'clients': ending}))
    story.hear(CONNECT_OTHER, 'connect s2 - allowed', '030500', OTHER_ADDRESS)
    for pattern, code in (('a', 0x61), ('b', 0x62), ('c', 0x63)):
        story.hear(subscribe(pattern + '/#'), 'subscribe s1 %s/# allowed' % pattern, '0813200000000700')
    story.hear(subscribe('b/#'), 'subscribe s2 b/# allowed', '0813200000000700', OTHER_ADDRESS)
    for number in range(MOST_ITEMS - 5):
        story.hear(publish(0x02, 0x6162, 0), 'publish s1 ab allowed')
    story.give('tick 5000', 'tick', 'note end s1 a/# 3 NoScope s1', 'note end s1 b/# 3 NoScope s1',
               'note end s1 c/# 3 NoScope s1', FULL)
    story.give('tick 6000', 'tick', 'note end s2 b/# 3 NoScope s2', FULL)
    return story.whole()


def pings_beside_a_full_outbox():
    """A ping that finds no room among 512 items is noted at each tick, and made up for by the next that finds
    room. The next one is due 30,000 ms behind that."""
    story = Story()
    story.begin()
    for _ in range(MOST_ITEMS):
        story.hear(publish(0x01, 4, 0), 'publish s1 t/4 allowed')
    story.give('tick 29999', 'tick')
    story.give('tick 30000', 'tick', FULL)
    story.give('tick 30001', 'tick', FULL)
    story.give('take', 'take', *['note forward s1 t/4 allowed', 'wire 30060003742f3478'] * MOST_ITEMS)
    story.give('tick 20000', 'tick')
    story.give('tick 60000', 'tick')
    story.give('take', 'take', 'wire c000')
    story.give('tick 60001', 'tick')
    story.give('take', 'take', 'wire c000')
    return story.whole()


def scripts():
    """Each script: its name, its text, what is printed."""
    for each in (ids_that_fill, in_flight_that_fills, acknowledgements_that_fill,
                 ids_that_fill_by_subscriptions, subscriptions_that_fill,
                 items_that_fill_beside_subscriptions, subscriptions_that_fill_the_outbox,
                 subscriptions_that_end_at_once,
                 publishes_that_fill_without_a_connection, messages_that_fill_a_queue,
                 ids_that_fill_by_announcements, messages_that_fill_a_datagram,
                 messages_beside_a_full_outbox, messages_that_fill_the_queue_of_a_sleeper,
                 wills_beside_full_places, wills_beside_a_full_outbox, pings_beside_a_full_outbox,
                 scopes_that_end_beside_a_full_outbox):
        yield (each.__name__.replace('_', '-'), *each())
