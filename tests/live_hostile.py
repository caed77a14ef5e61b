"""Cases of tests/live.py: brokers, devices and networks that fail in the midst of something. Behind each
fault the rows tell what was due and could be known, the next connection comes by itself, and no worker has
ended."""
import concurrent.futures
import os
import signal
import socket
import struct
import time

from live_broker import ACCEPTED, Listener, Sender, is_blocked, read_packet
from live_ends import Client
from live_network import NEAR, Network, run
from live_parts import HOST, SECONDS, Failure, measured, until, wanted

POLICY = {'version': 1, 'clients': {'s1': [['t/#', ['pub', 'sub']]], 's2': []}, 'topics': {'1': 't/1'},
          'sources': {HOST: [['ab', ['pub']]]}}
REFUSED = b'\x20\x02\x00\x05'
# A message at QoS 0 under t/1, for which the policy has the topic id 1
MESSAGE = b'\x30\x06\x00\x03t/1x'
# What a broker may send that accepts, and then publishes
STREAM = ACCEPTED + MESSAGE
TRIES = 5
# The longest packet that the gateway takes, and by how much one is too long
LONGEST = 70_000
# Seconds for which a broker reads nothing, and for which a network is away
UNREAD, AWAY = 30, 12


def rows(gateway, kind):
    """How many rows of this kind it printed."""
    return sum(line.startswith('row ') and line.endswith(' ' + kind) for line in list(gateway.lines['out']))


def threads(gateway):
    """How many threads it has: each worker is one."""
    return len(os.listdir('/proc/%d/task' % gateway.child.pid))


def no_worker_ended(gateway, before):
    """It has as many threads as before, and told of no worker, and of no event that was refused."""
    wanted(threads(gateway) == before, '%d threads as before, and not %d' % (before, threads(gateway)))
    faults = [line for line in gateway.lines['err'] if 'the worker' in line or 'refused or lost' in line]
    wanted(not faults, 'no worker that ended, and not %r' % faults)


class Served:
    """A gateway at this listener, with a device that has a session and a subscription that stands."""

    def __init__(self, room, listener, *more, connected=True, verbose=True):
        self.room, self.listener = room, listener
        self.gateway = room.gateway(listener.port, *more, connected=False, verbose=verbose, policy=POLICY,
                                    workers=1)
        if connected:
            self.accepts()
        self.device = room.device(self.gateway)
        self.device.connect('s1')
        if connected:
            self.device.subscribe('t/#')
            wanted(read_packet(self.stream)[:1] == b'\x82', 'a SUBSCRIBE')
        self.threads = threads(self.gateway)

    def accepts(self, answer=ACCEPTED):
        """The listener takes the next connection, and accepts it."""
        before = self.told(': connected')
        self.stream = self.listener.connection(answer)
        self.gateway.line('err', ': connected$', count=before + 1)

    def is_accepted_at_last(self):
        """The same, where the gateway may have given up the connection that comes next."""
        try:
            before = self.told(': connected')
            self.stream = self.listener.connection()
            self.gateway.line('err', ': connected$', 1, count=before + 1)
        except (Failure, OSError):
            return False
        return True

    def told(self, words):
        return sum(line.endswith(words) for line in self.gateway.lines['err'])

    def kinds(self, kind):
        """How many rows of this kind there are."""
        return rows(self.gateway, kind)

    def is_served(self):
        """The device is answered."""
        self.device.send(0x16)
        self.device.receive(0x17)

    def goes_on(self):
        """The next connection came by itself: the filter is subscribed to anew there, and a message comes
        over it to the device."""
        wanted(read_packet(self.stream)[:1] == b'\x82', 'a SUBSCRIBE that comes anew')
        before = self.kinds('broker')
        self.stream.sendall(MESSAGE)
        self.gateway.line('out', '^row .* broker$', count=before + 1)
        self.device.handed(b'\0\1', b'x')
        self.is_served()
        self.is_whole()

    def is_whole(self):
        no_worker_ended(self.gateway, self.threads)

    def ends(self, ups, downs):
        """It closes all rows, with so many begins and ends of connections among them."""
        self.gateway.close()
        found = self.kinds('up'), self.kinds('down')
        wanted(found == (ups, downs), '%r rows up and down, and not %r' % ((ups, downs), found))


def resets(stream):
    """Closes a connection by a reset."""
    stream.setsockopt(socket.SOL_SOCKET, socket.SO_LINGER, struct.pack('ii', 1, 0))
    stream.close()


def side_by_side(*cases):
    """Runs these at once; the first that fails is the failure of all."""
    with concurrent.futures.ThreadPoolExecutor(len(cases)) as pool:
        for done in [pool.submit(case) for case in cases]:
            done.result()


def fails_each_try(room, fault, told):
    """A gateway with five tries at a broker that fails at each: it has given up then, and says so, and its
    devices are still answered."""
    with Listener() as listener:
        listener.socket.settimeout(2 * SECONDS)
        served = Served(room, listener, '--tries', str(TRIES), connected=False)
        for number in range(TRIES):
            fault(listener, number)
        served.gateway.line('err', '%s; gave up after %d tries' % (told, TRIES), seconds=2 * SECONDS)
        served.is_served()
        topic = served.device.register('t/2')
        served.device.publish(topic, b'x', code=1)
        wanted(served.gateway.line('out', '^note publish s1 t/2 21 UpstreamDown$'), 'a denial')
        faults = [line for line in served.gateway.lines['err'] if 'the worker' in line]
        wanted(not faults, 'no worker that gave up at the socket, and not %r' % faults)
        served.ends(0, 0)


def says_nothing(listener, _):
    listener.connection(b'')


def refuses(listener, _):
    listener.connection(REFUSED)


def closes_early(listener, number):
    listener.connection(ACCEPTED[:min(number, 3)]).close()


def resets_early(listener, number):
    stream = listener.connection(ACCEPTED[:min(number, 3)])
    time.sleep(0.05)
    resets(stream)


def brokers_that_fail_five_times(room):
    """No answer, a refusal, and an end behind each byte of the CONNACK, in order and by a reset."""
    side_by_side(lambda: fails_each_try(room, says_nothing, 'no CONNACK in time'),
                 lambda: fails_each_try(room, refuses, 'refused with code 5: .*'),
                 lambda: fails_each_try(room, closes_early, 'closed by the broker'),
                 lambda: fails_each_try(room, resets_early, 'Connection reset by peer.*'))


def a_broker_that_never_answers(room):
    """Without an end of the tries: the next connection comes by itself. So it does behind a refusal."""
    with Listener() as listener:
        served = Served(room, listener, '--tries', '0', connected=False)
        listener.connection(b'')
        served.gateway.line('err', 'no CONNACK in time; trying again in 200 ms')
        listener.connection(REFUSED)
        served.gateway.line('err', 'refused with code 5: not authorized, .*; trying again in 400 ms')
        served.is_served()
        served.accepts()
        served.device.subscribe('t/#')
        served.goes_on()
        served.ends(1, 0)


def closes_after(room, counts):
    """The broker closes behind so many bytes of its stream, one connection for each count."""
    with Listener() as listener:
        served = Served(room, listener, '--tries', '0')
        served.stream.close()
        for count in counts:
            listener.connection(STREAM[:count]).close()
            if count == len(STREAM):
                served.device.handed(b'\0\1', b'x')
        served.accepts()
        served.goes_on()
        accepted = sum(count >= len(ACCEPTED) for count in counts)
        messages = sum(count == len(STREAM) for count in counts)
        # the first connection and the last one, and each with a whole CONNACK
        served.ends(2 + accepted, 1 + accepted)
        broker = served.kinds('broker')
        wanted(broker == messages + 1, '%d rows of messages, and not %d' % (messages + 1, broker))


def a_broker_that_closes_after_each_byte(room):
    """What was whole is in the rows: the begin and the end of a connection, and a message."""
    counts = range(len(STREAM) + 1)
    parts = counts[:4], counts[4:8], counts[8:]
    side_by_side(*(lambda part=part: closes_after(room, part) for part in parts))
    measured('a broker that closes after each byte: %d connections' % len(counts))


def a_broker_that_resets_in_a_packet(room):
    """A publish that was in flight goes out again over the next connection, once it is judged anew."""
    with Listener() as listener:
        served = Served(room, listener, '--tries', '0')
        topic = served.device.register('t/2')
        served.device.publish(topic, b'kept')
        sent = read_packet(served.stream)
        wanted(sent[:1] == b'\x32' and sent.endswith(b'kept'), 'a PUBLISH, and not %s' % sent.hex())
        served.stream.sendall(MESSAGE[:4])
        time.sleep(0.05)
        resets(served.stream)
        served.gateway.line('err', 'lost: Connection reset by peer')
        served.accepts()
        again = read_packet(served.stream)
        wanted(again == sent, 'the same PUBLISH, and not %s' % again.hex())
        served.gateway.line('out', '^note again s1 t/2 allowed$')
        served.goes_on()
        served.ends(2, 1)


def a_reset_behind_a_publish_at_qos_2(room):
    """The device sends its publish again while there is no connection, and over the next one, until it
    releases it: it is answered each time, and the broker is sent it once over each connection."""
    with Listener() as listener:
        served = Served(room, listener, '--tries', '0')
        topic, number = served.device.register('t/2'), served.device.next_id()
        served.device.publish_once(topic, number, b'kept')
        sent = read_packet(served.stream)
        wanted(sent[:1] == b'\x32' and sent.endswith(b'kept'), 'a PUBLISH, and not %s' % sent.hex())
        resets(served.stream)
        served.gateway.line('err', 'lost: Connection reset by peer')
        served.device.publish_once(topic, number, b'kept', flags=0xc0)
        served.accepts()
        again = read_packet(served.stream)
        wanted(again == sent, 'the same PUBLISH, and not %s' % again.hex())
        served.device.publish_once(topic, number, b'kept', flags=0xc0)
        served.device.release(number)
        served.device.release(number)
        served.goes_on()
        served.stream.settimeout(0.5)
        try:
            more = read_packet(served.stream)
        except socket.timeout:
            more = b''
        wanted(not more, 'nothing more for the broker, and not %s' % more.hex())
        served.ends(2, 1)
        wanted(len(served.gateway.notes('publish s1 t/2 allowed')) == 1, 'one publish that was asked for')


def a_packet_that_is_too_long(room):
    """One of 70,000 bytes is a row, and one of 70,001 ends the connection."""
    with Listener() as listener:
        served = Served(room, listener, '--tries', '0')
        for size in (LONGEST, LONGEST + 1):
            before = served.kinds('broker')
            left = size - 4
            length = bytes([left & 0x7f | 0x80, left >> 7 & 0x7f | 0x80, left >> 14])
            served.stream.sendall(b'\x30' + length + MESSAGE[2:7] + bytes(left - 5))
            if size == LONGEST:
                served.gateway.line('out', '^row .* broker$', count=before + 1)
                served.gateway.line('out', '^note hand s1 t/1 23 TooLong$')
        served.gateway.line('err', 'lost: what the broker sent is not MQTT 3.1.1, or is too long')
        wanted(served.kinds('broker') == before, 'no row of a packet that is too long')
        served.accepts()
        served.goes_on()
        served.ends(2, 1)


def a_broker_that_stops_reading(room):
    """Its window is full for half a minute. The gateway gives that connection up after 10 s in which nothing
    was taken; over the next one the publish that was in flight goes out again."""
    with Listener(buffer=4096) as listener:
        served = Served(room, listener, '--tries', '0')
        topic = served.device.register('t/2')
        served.device.publish(topic, b'kept')
        wanted(read_packet(served.stream).endswith(b'kept'), 'a PUBLISH')
        begun = time.monotonic()
        served.gateway.say('verbose off')
        with Sender(room.device(served.gateway)):
            until(lambda: is_blocked(served.gateway), 'a write that waits', 3 * SECONDS)
        served.is_served()
        served.gateway.line('err', 'lost: the broker took nothing in 10 s', seconds=3 * SECONDS)
        measured('a broker that stops reading: lost after %.1f s' % (time.monotonic() - begun))
        served.is_served()
        time.sleep(max(0, UNREAD - (time.monotonic() - begun)))
        until(served.is_accepted_at_last, 'a connection that is accepted', 2 * SECONDS)
        again, anew = read_packet(served.stream), read_packet(served.stream)
        is_kept = again[:1] == b'\x32' and again.endswith(b'kept')
        wanted(is_kept, 'the PUBLISH again, and not %s' % again.hex())
        wanted(anew[:1] == b'\x82', 'a SUBSCRIBE that comes anew, and not %s' % anew.hex())
        served.stream.sendall(MESSAGE)
        served.device.handed(b'\0\1', b'x')
        served.is_served()
        served.is_whole()
        served.gateway.close(verbose=False, seconds=6 * SECONDS)


def publish(publisher, count):
    """So many messages at QoS 0 of a broker's client, under t/1."""
    for _ in range(count):
        publisher.socket.sendall(MESSAGE)


def a_device_that_went_away(room):
    """What is sent to a port that is closed comes back as unreachable (ICMP). That ends nothing: each message
    is in the rows, and another device is answered, and so is the first one from another port."""
    broker = room.test_broker()
    gateway = room.gateway(broker.port, policy=POLICY)
    gone, other = room.device(gateway), room.device(gateway)
    other.connect('s2')
    gone.connect('s1')
    gone.subscribe('t/#')
    gateway.line('out', '^row .* broker$')
    before = threads(gateway)
    gone.socket.close()
    publisher, count = Client(broker.port, 'pub'), 20
    try:
        publish(publisher, count)
        gateway.line('out', '^note hand s1 t/1 allowed$', count=count)
        other.send(0x16)
        other.receive(0x17)
        back = room.device(gateway)
        back.connect('s1', flags=0)
        publish(publisher, 1)
        back.handed(b'\0\1', b'x')
    finally:
        publisher.kill()
    no_worker_ended(gateway, before)
    gateway.close()
    wanted(len(gateway.notes('hand s1 t/1 allowed')) == count + 1, '%d hand-overs' % (count + 1))


def a_network_that_vanishes(room):
    """The link to a device goes down for a while. What cannot be sent is counted, and comes again; another
    device is answered all along."""
    with Network(room, is_slow=False) as network:
        broker = room.test_broker()
        gateway = room.gateway(broker.port, policy=POLICY, listen='0.0.0.0:0')
        far, near = network.device, room.device(gateway)
        near.connect('s2')
        far.connect((NEAR, gateway.port))
        far.send(b'\x08\x04\x04\x01\x00\x3cs1')
        wanted(far.recv(64) == b'\x03\x05\0', 'a CONNACK')
        far.send(b'\x08\x12\x20\0\1t/#')
        wanted(far.recv(64)[1] == 0x13, 'a SUBACK')
        gateway.line('out', '^row .* broker$')
        before = threads(gateway)
        run('ip', 'link', 'set', 'slow', 'down')
        publisher = Client(broker.port, 'pub')
        try:
            publisher.ask(0x32, b'\0\3t/1\0\1held', 0x40)
            gateway.line('out', '^note hand s1 t/1 allowed$')
            gateway.line('err', r'^sng: \d+ datagrams could not be sent$')
            near.send(0x16)
            near.receive(0x17)
            time.sleep(1)
            run('ip', 'link', 'set', 'slow', 'up')
            far.settimeout(AWAY + SECONDS)
            again = far.recv(64)
            wanted(again[1] == 0x0c and again[2] == 0xa1 and again.endswith(b'held'),
                   'the message again with DUP, and not %s' % again.hex())
            far.send(b'\x07\x0d' + again[3:7] + b'\0')
            far.send(b'\x02\x16')
            wanted(far.recv(64) == b'\x02\x17', 'a PINGRESP')
        finally:
            publisher.kill()
            far.close()
        no_worker_ended(gateway, before)
        gateway.close()
        wanted(gateway.notes('retry s1 t/1 allowed'), 'a note of what was sent again')


def dropped(gateway):
    """How many datagrams the system dropped, as the buffer of the gateway's socket was full."""
    with open('/proc/%d/net/udp' % gateway.child.pid) as table:
        for line in list(table)[1:]:
            words = line.split()
            if int(words[1].split(':')[1], 16) == gateway.port:
                return int(words[-1])
    raise Failure('a socket of the gateway')


def a_buffer_that_overflows(room):
    """The process stands still while a device sends more than its socket takes. What the system kept has its
    row, what it dropped is known to it alone, and devices are answered behind that."""
    broker = room.test_broker()
    gateway = room.gateway(broker.port, policy=POLICY)
    device = room.device(gateway)
    device.connect('s1')
    gateway.line('out', '^note connect s1 - allowed$')
    heard, sent, before = rows(gateway, 'datagram'), 20_000, threads(gateway)
    os.kill(gateway.child.pid, signal.SIGSTOP)
    try:
        for _ in range(sent):
            device.send(0x16)
        lost = dropped(gateway)
    finally:
        os.kill(gateway.child.pid, signal.SIGCONT)
    wanted(0 < lost < sent, 'some of %d datagrams dropped, and not %d' % (sent, lost))
    gateway.line('out', '^row .* datagram$', count=heard + sent - lost)
    measured('a buffer that overflows: %d of %d datagrams dropped' % (lost, sent))
    other = room.device(gateway)
    other.connect('s2')
    other.send(0x16)
    other.receive(0x17)
    no_worker_ended(gateway, before)
    gateway.close()
    wanted(rows(gateway, 'datagram') == heard + sent - lost + 2, 'a row for each datagram that was kept')


ALONE = (brokers_that_fail_five_times, a_broker_that_never_answers, a_broker_that_closes_after_each_byte,
         a_broker_that_resets_in_a_packet, a_reset_behind_a_publish_at_qos_2, a_packet_that_is_too_long,
         a_broker_that_stops_reading, a_device_that_went_away, a_network_that_vanishes,
         a_buffer_that_overflows)
