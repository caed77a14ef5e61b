"""Cases of tests/live.py: brokers in Python that fail in ways of their own. Each speaks as little MQTT 3.1.1
as its case needs."""
import itertools
import os
import socket
import threading
import time

from live_parts import HOST, SECONDS, Skipped, measured, until, wanted
from live_sessions import SOURCE

ACCEPTED = b'\x20\x02\x00\x00'
PING_REQUEST, PING_RESPONSE = b'\xc0\0', b'\xd0\0'
MESSAGE = b'\x30\xeb\x07\0\1x' + bytes(1000)

# Cases of brokers that hang or are slow take a minute: they run where this is in the environment.
SLOW = 'SNG_LIVE_SLOW'


class Listener:
    """Where connections to a broker are taken one by one."""

    def __init__(self, buffer=None):
        self.socket = socket.socket()
        if buffer is not None:
            self.socket.setsockopt(socket.SOL_SOCKET, socket.SO_RCVBUF, buffer)
        self.socket.bind((HOST, 0))
        self.socket.listen(5)
        self.socket.settimeout(SECONDS)
        self.port = self.socket.getsockname()[1]
        self.taken = []

    def __enter__(self):
        return self

    def __exit__(self, *_):
        for taken in self.taken:
            taken.close()
        self.socket.close()

    def connection(self, answer=ACCEPTED):
        """The next connection, which is answered once its CONNECT came."""
        taken, _ = self.socket.accept()
        taken.settimeout(SECONDS)
        self.taken.append(taken)
        packet = read_packet(taken)
        wanted(packet[:1] == b'\x10', 'a CONNECT, and not %s' % packet.hex())
        taken.sendall(answer)
        return taken


def read_bytes(stream, count):
    """So many bytes, or fewer where the stream ends."""
    found = b''
    while len(found) < count:
        more = stream.recv(count - len(found))
        if not more:
            break
        found += more
    return found


def read_packet(stream):
    """The next packet with its head, or nothing at the end."""
    head = read_bytes(stream, 1)
    size, shift = 0, 0
    while head:
        byte = read_bytes(stream, 1)
        head += byte
        size |= (byte[0] & 0x7f) << shift
        shift += 7
        if byte[0] < 0x80:
            break
    return head + read_bytes(stream, size)


def a_refusal_in_words(room):
    words = ((1, 'unacceptable protocol version'), (2, 'identifier rejected'), (3, 'server unavailable'),
             (4, 'bad user name or password, and the gateway sends none'),
             (5, 'not authorized, and the gateway sends no user name'), (77, 'a code without a meaning'))
    with Listener() as listener:
        gateway = room.gateway(listener.port, '--tries', '0', connected=False, verbose=False)
        for code, meaning in words:
            listener.connection(b'\x20\x02\x00' + bytes([code]))
            gateway.line('err', 'refused with code %d: %s; trying again in' % (code, meaning))
        gateway.close(verbose=False)


def a_connack_in_pieces(room):
    with Listener() as listener:
        gateway = room.gateway(listener.port, connected=False, verbose=False)
        refused = listener.connection(b'\x20')
        time.sleep(0.1)
        refused.sendall(b'\x02\x00\x05')
        gateway.line('err', 'refused with code 5: not authorized')
        accepted = listener.connection(b'\x20\x02\x00')
        time.sleep(0.1)
        accepted.sendall(b'\x00')
        gateway.line('err', 'connected')
        gateway.close(verbose=False)


def a_broker_that_throws_out(room):
    """Two gateways with one id: each connection ends as soon as it is accepted."""
    with Listener() as listener:
        gateway = room.gateway(listener.port, connected=False, verbose=False)
        for pause in (200, 400, 800, 1600):
            taken = listener.connection()
            gateway.line('err', 'connected', count=len(listener.taken))
            taken.close()
            gateway.line('err', r'lost: closed by the broker; up for less than 10 s '
                         r'\(another client with this id\?\); trying again in %d ms' % pause)
        wanted(not any('gave up' in line for line in gateway.lines['err']), 'a gateway that goes on')
        gateway.close(verbose=False)


def a_broker_that_says_nothing_the_second_time(room):
    with Listener() as listener:
        gateway = room.gateway(listener.port, connected=False, verbose=False)
        listener.connection().close()
        gateway.line('err', 'lost: closed by the broker')
        listener.connection(b'')
        gateway.line('err', 'no CONNACK in time; trying again in 400 ms')
        told = [line for line in gateway.lines['err'] if 'connected' in line]
        wanted(len(told) == 1, 'one connection, and not %r' % told)
        gateway.close(verbose=False)


def a_reason_for_what_is_closed(room):
    with Listener() as listener:
        gateway = room.gateway(listener.port, '--tries', '0', connected=False, verbose=False)
        listener.connection(ACCEPTED + b'\xf0\0')
        gateway.line('err', 'lost: what the broker sent is not MQTT 3.1.1, or is too long; '
                     'up for less than 10 s; trying again in 200 ms')
        listener.connection(ACCEPTED + b'\x30\xff\xff\xff\x7f')
        gateway.line('err', 'is too long; up for less than 10 s; trying again in 400 ms')
        listener.connection(b'\xd0\0')
        gateway.line('err', 'sent first is not a CONNACK of MQTT 3.1.1; trying again in 800 ms')
        listener.connection(b'HTTP/1.1 400 Bad Request\r\n\r\n')
        gateway.line('err', 'is not a CONNACK of MQTT 3.1.1; trying again in 1600 ms')
        gateway.close(verbose=False)


def payload(number):
    return b'%06d' % number + bytes(number * 7 % 251 for _ in range(2000))


class Sender:
    """A device that publishes on and on, at most 3 MB a second: more than the system keeps for a broker that does
    not read, however much that is."""

    def __init__(self, device):
        self.device = device
        self.stop = threading.Event()
        self.thread = threading.Thread(target=self.run, daemon=True)

    def __enter__(self):
        self.thread.start()
        return self

    def __exit__(self, *_):
        self.stop.set()
        self.thread.join(SECONDS)

    def run(self):
        for number in itertools.count():
            if number % 16 == 0 and self.stop.wait(0.01):
                return
            body = b'\x0c\x62ab\0\0' + payload(number)
            self.device.socket.send(b'\x01' + (len(body) + 3).to_bytes(2, 'big') + body)


def numbers_of(stream, enough):
    """The numbers of the publishes that come until these are enough, each whole, and in order."""
    numbers = []
    while not enough(numbers):
        packet = read_packet(stream)
        wanted(packet, 'a stream that goes on behind %r' % numbers[-1:])
        if packet == PING_REQUEST:
            stream.sendall(PING_RESPONSE)
            continue
        start = packet.index(b'\0\2ab') + 4
        number = int(packet[start:start + 6])
        wanted(packet[:1] == b'\x30' and packet[start:] == payload(number), 'a whole publish %d' % number)
        wanted(not numbers or numbers[-1] < number, '%r in order, and then %d' % (numbers[-1:], number))
        numbers.append(number)
    return numbers


def is_blocked(gateway):
    """Whether the gateway has not got rid of what waits for the broker for a while: its writes wait."""
    counts = []
    for _ in range(3):
        before = len(gateway.lines['out'])
        gateway.say('status')
        until(lambda: len(gateway.lines['out']) >= before + 5, 'how it stands')
        counts += [int(line.split()[4][:-1]) for line in gateway.lines['out'][before:] if 'waiting: ' in line
                   and line.startswith('status broker')]
        time.sleep(0.2)
    return min(counts) > 256


def a_broker_that_reads_late(room):
    """Writes that are taken in part go on at the right byte."""
    with Listener(buffer=4096) as listener:
        gateway = room.gateway(listener.port, connected=False, verbose=False, workers=1, policy=SOURCE)
        stream = listener.connection()
        gateway.line('err', 'connected')
        size = len(payload(0))
        with Sender(room.device(gateway)):
            until(lambda: is_blocked(gateway), 'a write that waits', 3 * SECONDS)
            time.sleep(SECONDS * 0.5)
            numbers = numbers_of(stream, lambda found: len(found) * size > 4000000)
        wanted(numbers[0] == 0, 'all from the first on, and not from %d' % numbers[0])
        wanted(not any('lost' in line for line in gateway.lines['err']), 'a connection that stays')


def a_broker_that_reads_slowly(room):
    """2 kB a second, while more waits for it: it takes something all along, so it stays."""
    if SLOW not in os.environ:
        raise Skipped('it runs where %s is set' % SLOW)
    with Listener(buffer=4096) as listener:
        gateway = room.gateway(listener.port, connected=False, verbose=False, workers=1, policy=SOURCE)
        stream = listener.connection()
        gateway.line('err', 'connected')
        begun = time.monotonic()
        with Sender(room.device(gateway)):
            while time.monotonic() - begun < 40:
                time.sleep(0.1)
                wanted(stream.recv(200), 'a stream that goes on')
        measured('a broker that reads 2 kB a second: kept for %.0f s' % (time.monotonic() - begun))
        wanted(not any('lost' in line for line in gateway.lines['err']), 'a connection that stays')


def fill(stream):
    """Sends until nothing is taken for a while, and answers how many bytes were."""
    stream.setsockopt(socket.SOL_SOCKET, socket.SO_SNDBUF, 4096)
    stream.settimeout(1)
    sent = 0
    try:
        while True:
            sent += stream.send((MESSAGE * 2)[sent % len(MESSAGE):][:len(MESSAGE)])
    except socket.timeout:
        stream.settimeout(SECONDS)
        return sent


def kept_unread():
    """How many bytes the system takes for a reader that reads nothing."""
    with socket.socket() as listener:
        listener.bind((HOST, 0))
        listener.listen(1)
        with socket.create_connection(listener.getsockname()):
            sender, _ = listener.accept()
            with sender:
                return fill(sender)


def a_broker_that_sends_before_it_reads(room):
    """It sends all that is taken, more than the system keeps for the gateway, before it reads anything."""
    kept = kept_unread()
    with Listener(buffer=4096) as listener:
        gateway = room.gateway(listener.port, connected=False, verbose=False, workers=1, policy=SOURCE)
        stream = listener.connection()
        gateway.line('err', 'connected')
        with Sender(room.device(gateway)):
            until(lambda: is_blocked(gateway), 'a write that waits', 3 * SECONDS)
            sent = fill(stream)
            numbers_of(stream, lambda found: len(found) > 1000)
        wanted(sent > kept + 30000, '30 KB that the gateway read beyond %d, and not %d in all' % (kept, sent))
        wanted(not any('lost' in line for line in gateway.lines['err']), 'a connection that stays')


def a_broker_that_never_reads(room):
    with Listener(buffer=4096) as listener:
        gateway = room.gateway(listener.port, connected=False, verbose=False, workers=1, policy=SOURCE)
        listener.connection()
        gateway.line('err', 'connected')
        with Sender(room.device(gateway)):
            begun = time.monotonic()
            gateway.line('err', 'lost: the broker took nothing in 10 s', seconds=SECONDS * 4)
            measured('a broker that never reads: lost %.1f s behind the first publish'
                     % (time.monotonic() - begun))


def a_broker_that_hangs(room):
    """It answers one PINGREQ, and the next no more. A PINGREQ comes every 30 s."""
    if SLOW not in os.environ:
        raise Skipped('it runs where %s is set' % SLOW)
    with Listener() as listener:
        gateway = room.gateway(listener.port, connected=False, verbose=False)
        stream = listener.connection()
        stream.settimeout(50)
        begun = time.monotonic()
        for answer in (PING_RESPONSE, b''):
            packet = read_packet(stream)
            wanted(packet == PING_REQUEST, 'a PINGREQ, and not %s' % packet.hex())
            stream.sendall(answer)
        asked = time.monotonic()
        gateway.line('err', 'lost: no answer to PINGREQ in 20 s$', seconds=25)
        took = time.monotonic() - asked
        wanted(asked - begun >= 55, 'two PINGREQs in a minute')
        wanted(19 <= took <= 22, 'a loss 20 s behind the second PINGREQ, and not %.1f' % took)
        measured('a broker that hangs: lost %.1f s behind the PINGREQ that it did not answer' % took)
        gateway.close(verbose=False)


ALONE = (a_refusal_in_words, a_connack_in_pieces, a_broker_that_throws_out,
         a_broker_that_says_nothing_the_second_time, a_reason_for_what_is_closed, a_broker_that_reads_late,
         a_broker_that_reads_slowly, a_broker_that_sends_before_it_reads, a_broker_that_never_reads,
         a_broker_that_hangs)
