"""refused_kinds.py

Of which kind the event of each row of a script is, for refused_calls.py, and a script in which each kind
comes. A kind is a message of a client or a packet of the broker, with its form, or an event of another sort,
with what it brought about: a tick by which a client is lost is another kind than one by which nothing is."""
import copy
import sys

sys.dont_write_bytecode = True
import gateway_model
from gateway_model import ACCEPTED, NORMAL, NOT_SUPPORTED, PREDEFINED, REFUSED, SHORT, WITHOUT_SESSION
from random_scripts import frame, number, packet, sized

S1, S2, SOURCE, STRANGER = '10.0.0.9:4000', '10.0.0.9:4001', '10.0.0.7:4000', '10.0.0.8:4000'
POLICY = ('policy {"version":1,"clients":{"s1":[["t/#",["pub","sub"]]],"s2":[["t/#",["pub","sub"]]]},'
          '"sources":{"10.0.0.7":[["ab",["pub"]]]},"topics":{"1":"t/1"}}')
# s2 may receive less by it
LESS = ('policy {"version":1,"clients":{"s1":[["t/#",["pub","sub"]]],"s2":[["t/5",["pub","sub"]]]},'
        '"sources":{"10.0.0.7":[["ab",["pub"]]]},"topics":{"1":"t/1"}}')
# the scope of s1 ends by it
ENDS = ('policy {"version":2,"clients":{"s1":{"scope":[["t/#",["pub","sub"]]],"exp":55000},'
        '"s2":[["t/#",["pub","sub"]]]},"sources":{"10.0.0.7":[["ab",["pub"]]]},"topics":{"1":"t/1"}}')
CLEAN, WILL, RETAIN, DUP = 0x04, 0x08, 0x10, 0x80
QOS = {-1: 0x60, 0: 0x00, 1: 0x20, 2: 0x40}


def says(address, kind, *parts):
    return 'from %s %s' % (address, frame(kind, *parts).hex())


def connects(address, client, flags=0, seconds=60):
    return says(address, 0x04, bytes([flags, 1]), number(seconds), client)


def publishes(address, qos, id_type, topic_id, message_id, flags=0):
    flags = bytes([QOS[qos] | id_type | flags])
    return says(address, 0x0c, flags, topic_id, number(message_id), b'hi')


def asks(address, kind, text, message_id, qos=1, id_type=NORMAL):
    """SUBSCRIBE or UNSUBSCRIBE."""
    return says(address, kind, bytes([QOS[qos] | id_type]), number(message_id), text)


def answers(address, kind, topic_id, message_id, code=0):
    """REGACK or PUBACK."""
    return says(address, kind, number(topic_id), number(message_id), bytes([code]))


def brings(first, *parts):
    return 'broker ' + packet(first, b''.join(parts)).hex()


def message(name, qos=0, packet_id=7, payload=b'x'):
    return brings(0x30 | qos << 1, sized(name), number(packet_id) if qos else b'', payload)


def every_kind():
    """A script in which each kind of event comes."""
    s1_states_a_will = [
        connects(S1, b's1', CLEAN | WILL), says(S1, 0x07, bytes([QOS[1]]), b't/w'), says(S1, 0x09, b'off')]
    s1_publishes = [
        says(S1, 0x0a, number(0), number(1), b't/2'),
        publishes(S1, 0, PREDEFINED, number(1), 0), publishes(S1, 1, NORMAL, number(1), 2),
        publishes(S1, 2, NORMAL, number(1), 3), publishes(S1, 2, NORMAL, number(1), 3, DUP),
        says(S1, 0x10, number(3)), publishes(SOURCE, -1, SHORT, b'ab', 0),
        publishes(S1, 1, NORMAL, number(9), 4), 'take', brings(0x40, number(1))]
    s1_is_handed = [
        asks(S1, 0x12, b't/#', 5), 'take', brings(0x90, number(3), b'\1'), message(b't/1'),
        message(b't/3', 1), answers(S1, 0x0b, 2, 1), answers(S1, 0x0d, 2, 2),
        message(b't/4'), answers(S1, 0x0b, 3, 3, 3)]
    s1_sleeps = [
        says(S1, 0x16), says(S1, 0x1a, bytes([QOS[1]]), b't/v'), says(S1, 0x1c, b'away'),
        says(S1, 0x18, number(60)), message(b't/1'), says(S1, 0x16, b's1'), connects(S1, b's1')]
    s2_subscribes = [
        connects(S2, b's2', CLEAN), asks(S2, 0x12, number(1), 1, id_type=PREDEFINED),
        asks(S2, 0x12, b't/5', 2), asks(S2, 0x14, b't/5', 3), asks(S2, 0x12, b't/6', 4), 'take',
        brings(0x90, number(6), b'\x80'), 'tick 30000', 'take', brings(0xd0)]
    nobody_answers = [
        message(b't/1', 1), message(b't/5', 1), 'tick 40000', LESS, 'tick 50000', ENDS, 'tick 55000', POLICY]
    the_broker_says = [
        brings(0xb0, number(5)), brings(0x20, b'\0\0'),
        brings(0x10, sized(b'MQTT'), b'\4\2\0\x3c', sized(b'gw1')),
        brings(0x82, number(2), sized(b't'), b'\1'), brings(0xa2, number(2), sized(b't')),
        brings(0xc0), brings(0xe0), message(b'+')]
    nobody_knows = [
        says(S1, 0x0c), says(S1, 0x01, b'\0'), says(S1, 0x06), says(STRANGER, 0x16), connects(STRANGER, b'x1'),
        says(STRANGER, 0x18), publishes(STRANGER, 1, SHORT, b'ab', 1),
        publishes(STRANGER, -1, SHORT, b'ab', 0)]
    they_go = [
        'up', 'down', 'down', 'take', 'up', 'tick 200000', 'take',
        connects(S1, b's1', WILL), says(S1, 0x07), says(S1, 0x1a, bytes([0]), b't/w'), says(S1, 0x1a),
        says(S1, 0x18), connects(S2, b's2', WILL | CLEAN), 'tick 200001']
    lines = (POLICY, 'up', *s1_states_a_will, *s1_publishes, *s1_is_handed, *s1_sleeps, *s2_subscribes,
             *nobody_answers, *the_broker_says, *nobody_knows, *they_go)
    return '\n'.join(lines).encode()



# Of which kind an event is


def frame_kind(octets):
    """The message of a client, with its form."""
    try:
        said = gateway_model.read_frame(octets)
    except gateway_model.Denied as denied:
        return 'a datagram that is ' + ('not supported' if denied.rule == NOT_SUPPORTED else 'malformed')
    name = said.message.upper()
    if name == 'CONNECT':
        return name + ' with a will' * said.has_will + ', clean' * said.is_clean
    if name == 'PUBLISH':
        return '%s at QoS %d' % (name, -1 if said.qos == WITHOUT_SESSION else said.qos)
    if name == 'PINGREQ':
        return name + ' with an id' * bool(said.client)
    if name == 'DISCONNECT':
        return name + ' with a Duration' * bool(said.duration)
    if name in ('WILLTOPIC', 'WILLTOPICUPD'):
        return name + ', empty' * said.is_empty
    return name + ', refused' * (name == 'REGACK' and said.code != ACCEPTED)


def packet_kind(packet):
    """The packet of the broker, with its form."""
    name = packet.message.upper() + ' of the broker'
    if packet.message == 'publish':
        return '%s at QoS %d' % (name, packet.qos)
    return name + ', refused' * (packet.message == 'suback' and packet.code == REFUSED)


def event_kinds(line, gateway):
    """The kind of each event of a line, before it comes to the gateway of the model."""
    words = line.split(b' ')
    if words[0] == b'from':
        kind = frame_kind(bytes.fromhex(words[2].decode()) if words[2] != b'-' else b'')
        name = kind.split()[0].rstrip(',')
        is_taken = not name.isupper() or hasattr(gateway_model.Gateway, 'on_' + name.lower())
        return [kind if is_taken else 'a message that is not taken']
    if words[0] == b'broker':
        packets, _ = copy.copy(gateway.stream).feed(bytes.fromhex(words[1].decode()))
        return [packet_kind(packet) for packet in packets]
    if line == b'up':
        return ['Up' + ' while a connection stands' * gateway.is_up]
    return [{b'down': 'Down', b'take': 'Take', b'policy': 'Replace', b'tick': 'Tick'}[words[0]]]


def told(row, *beginnings):
    return any(line.startswith(beginnings) for line in row)


def with_outcome(kind, row):
    """The kind, with what a row says that came of it."""
    if kind == 'PUBLISH at QoS 2' and not told(row, 'note '):
        return kind + ', again'
    if kind == 'Replace' and told(row, 'note end '):
        return kind + ' with an end'
    if kind == 'Take' and not row:
        return kind + ' of nothing'
    if kind == 'Tick':
        if told(row, 'note end '):
            return kind + ' with an end'
        if told(row, 'note lost '):
            return kind + ' with a loss'
        retries = [line for line in row if line.startswith('note retry ')]
        if any(not line.endswith(' allowed') for line in retries):
            return kind + ' with an end of a retry'
        return kind + ' with a retry' * bool(retries)
    return kind


def row_kinds(script):
    """The kind of each row of a script that says nothing but events."""
    gateway = gateway_model.Gateway()
    for line in filter(None, script.split(b'\n')):
        kinds, pinged = event_kinds(line, gateway), gateway.pinged
        gateway_model.play(line, gateway)
        rows = []
        for printed in gateway.printed:
            if printed.startswith('row '):
                rows.append([])
            else:
                rows[-1].append(printed)
        gateway.printed.clear()
        if len(kinds) != len(rows):
            raise SystemExit('not one event for each row: %r' % line)
        for kind, row in zip(kinds, rows):
            is_pinged = kind == 'Tick' and gateway.pinged != pinged
            yield 'Tick with a PINGREQ' if is_pinged and not row else with_outcome(kind, row)
