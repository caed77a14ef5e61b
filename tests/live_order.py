"""Cases of tests/live.py: the order of what one device sends and is sent, however many threads there are.
SNG_LIVE_PAIRS in the environment is how many pairs of publishes each case sends: 2,000 without it."""
import os

from live_ends import Client
from live_parts import Failure, until, wanted

PAIRS = int(os.environ.get('SNG_LIVE_PAIRS', '2000'))
CONNECTS = max(100, PAIRS // 40)
# So many datagrams of a row that two threads send them, and so many messages as the sockets of the devices keep
DEVICES, MESSAGES = 80, 100
FIELD = {'version': 1, 'clients': {'d%02d' % number: [['ab', ['sub']]] for number in range(DEVICES)}}
# As many publishes may wait as may be let wait: on a busy machine the broker takes them late, and this is about
# their order.
LAMP = {'version': 4, 'limits': {'waiting': 65_000}, 'clients': {'s1': [['t/#', ['pub', 'sub']]]}}


def register(number):
    return b'\x0a\0\0' + number.to_bytes(2, 'big') + b't/1'


def switch(device, topic, number):
    """A publish "on" and one "off" at once, and two REGISTERs behind them, which are answered in order."""
    first, second = 2 * number % 60000 + 1, 2 * number % 60000 + 2
    for body in (b'\x0c\0' + topic + b'\0\0on %d' % number, b'\x0c\0' + topic + b'\0\0off %d' % number,
                 register(first), register(second)):
        device.socket.send(bytes([len(body) + 1]) + body)
    for wants in (first, second):
        answer = device.receive(0x0b)
        wanted(answer[2:] == wants.to_bytes(2, 'big') + b'\0', 'REGACK %d, not %s' % (wants, answer.hex()))


def pairs_in_order(room, workers):
    broker = room.broker()
    heard = room.subscriber(broker, 't/1', 2 * PAIRS)
    gateway = room.gateway(broker.port, workers=workers, policy=LAMP, verbose=False)
    device = room.device(gateway)
    device.connect('s1')
    topic = device.register('t/1')
    for number in range(PAIRS):
        switch(device, topic, number)
    gateway.close(verbose=False)
    sent = ['got t/1 %s %d' % (what, number) for number in range(PAIRS) for what in ('on', 'off')]

    def came():
        lines = [line for line in heard.lines['out'] if line.startswith('got ')]
        return lines if len(lines) == len(sent) else None
    lines = until(came, '%d messages' % len(sent))
    at = {line: place for place, line in enumerate(lines)}
    reversed_pairs = sum(at[sent[2 * k]] > at[sent[2 * k + 1]] for k in range(PAIRS))
    wanted(lines == sent, 'all in order, and not %d of %d pairs reversed' % (reversed_pairs, PAIRS))


def pairs_in_order_by_two_workers(room):
    pairs_in_order(room, 2)


def pairs_in_order_by_four_workers(room):
    pairs_in_order(room, 4)


def pairs_in_order_by_eight_workers(room):
    pairs_in_order(room, 8)


def a_subscribe_right_behind_a_connect(room):
    gateway = room.gateway(room.test_broker().port, workers=4, policy=LAMP, verbose=False)
    for number in range(CONNECTS):
        device = room.device(gateway)
        device.send(0x04, b'\x04\1\0\x3cs1')
        device.send(0x12, b'\x20' + (number + 1).to_bytes(2, 'big') + b't/#')
        try:
            wanted(device.receive(0x05) == b'\0', 'a CONNACK')
            wanted(device.receive(0x13)[5:] == b'\0', 'a SUBACK that accepts')
        except Failure as fault:
            raise Failure('round %d of %d: %s' % (number, CONNECTS, fault)) from None
        device.socket.close()
    gateway.close(verbose=False)


def of_the_field(room, gateway, name):
    device = room.device(gateway)
    device.connect(name)
    device.send(0x12, b'\0\0\1ab')
    wanted(device.receive(0x13)[5:] == b'\0', 'a SUBACK that accepts')
    return device


def messages_to_many_devices(room):
    broker = room.test_broker()
    gateway = room.gateway(broker.port, policy=FIELD, verbose=False)
    devices = [of_the_field(room, gateway, name) for name in FIELD['clients']]
    publisher = Client(broker.port, 'pub')
    for number in range(MESSAGES):
        publisher.publish('ab', 'message %d' % number)
    for at, device in enumerate(devices):
        for number in range(MESSAGES):
            heard = device.receive(0x0c)[5:]
            wanted(heard == b'message %d' % number, 'message %d to device %d, and not %r' % (number, at, heard))
    for device in devices:
        device.silent(0.01)
        device.socket.close()
    publisher.kill()
    gateway.close(verbose=False)


BESIDE_A_BROKER = (pairs_in_order_by_two_workers, pairs_in_order_by_four_workers,
                   pairs_in_order_by_eight_workers)
ALONE = (a_subscribe_right_behind_a_connect, messages_to_many_devices)
