"""Cases of tests/live.py: strangers and brokers that flood the gateway, and devices that are served
meanwhile."""
import glob
import os
import re
import select
import threading
import time

from live_book import is_said_lawful
from live_broker import PING_REQUEST, PING_RESPONSE, Listener, read_packet
from live_ends import Device
from live_hostile import MESSAGE, Served
from live_limits import FILLING, FULL_ROWS
from live_parts import SECONDS, Skipped, measured, rss_kib, until, wanted
from live_sessions import S1

STRANGER = b'\x04\1\0\x3cx1'
DENIED = 'connect x1 - 3 NoScope x1'


class Stranger:
    """Sends CONNECTs of a client that no policy lists, at a pace at which none is lost."""

    def __init__(self, gateway, count):
        self.device, self.count = Device(gateway.port), count
        self.begun = time.monotonic()
        self.thread = threading.Thread(target=self.run, daemon=True)

    def __enter__(self):
        self.thread.start()
        return self

    def __exit__(self, *_):
        self.thread.join(6 * SECONDS)

    def run(self):
        for _ in range(self.count):
            self.device.send(0x04, STRANGER)
            time.sleep(0.0004)

    def seconds(self):
        """So many seconds of the gateway's clock it may have sent in, at most."""
        return int(time.monotonic() - self.begun) + 2


def passed_over(gateway):
    """How many datagrams the gateway told that it passed over."""
    found = (re.match(r'sng: (\d+) datagrams passed over', line) for line in gateway.lines['err'])
    return sum(int(count[1]) for count in found if count)


def each_is_told(gateway, sent):
    """Each datagram of strangers was acted on, or was told as passed over."""
    until(lambda: len(gateway.notes(DENIED)) + passed_over(gateway) == sent,
          '%d datagrams acted on or passed over' % sent)


def a_flood_of_one_address(room):
    broker = room.broker()
    gateway = room.gateway(broker.port, policy=S1)
    device, sent = room.device(gateway), 5000
    with Stranger(gateway, sent) as stranger:
        device.connect('s1')
        topic = device.register('t/1')
        for _ in range(100):
            device.publish(topic, b'hi')
            time.sleep(0.01)
    seconds = stranger.seconds()
    each_is_told(gateway, sent)
    gateway.close()
    rows = len(gateway.notes(DENIED))
    wanted(50 <= rows <= 50 * seconds, '50 rows a second of the stranger, not %d in %d s' % (rows, seconds))
    wanted(len(gateway.notes('publish s1 t/1 allowed')) == 100, 'all publishes of the device')


def a_flood_of_many_addresses(room):
    broker = room.broker()
    gateway = room.gateway(broker.port, '--flood-each', '5', '--flood-all', '20', policy=S1)
    device = room.device(gateway)
    device.connect('s1')
    topic, begun = device.register('t/1'), time.monotonic()
    for _ in range(30):
        stranger = room.device(gateway)
        for _ in range(10):
            stranger.send(0x04, STRANGER)
        device.publish(topic, b'hi')
    seconds = int(time.monotonic() - begun) + 2
    each_is_told(gateway, 300)
    gateway.close()
    rows = len(gateway.notes(DENIED))
    wanted(20 <= rows <= 20 * seconds, '20 rows a second of strangers, and not %d in %d s' % (rows, seconds))


# A message of its own behind a flood, at QoS 1, and what acknowledges it
LAST, LAST_ACKNOWLEDGED = b'\x32\x0b\x00\x03t/1\x00\x01last', b'\x40\x02\x00\x01'
# So many messages of a flood are sent at once
BATCH = 500
PINGREQ, PINGRESP = b'\x02\x16', b'\x02\x17'


class Listening:
    """A device that takes what it is sent, and pings twice a second, so that it is not lost."""

    def __init__(self, device):
        self.socket, self.is_over, self.pings = device.socket, threading.Event(), 0
        self.thread = threading.Thread(target=self.run, daemon=True)

    def __enter__(self):
        self.thread.start()
        return self

    def __exit__(self, *_):
        self.is_over.set()
        self.thread.join(SECONDS)

    def run(self):
        self.socket.settimeout(0.1)
        last = 0
        while not self.is_over.is_set():
            try:
                if time.monotonic() - last > 0.5:
                    self.socket.send(PINGREQ)
                    last = time.monotonic()
                self.pings += self.socket.recv(4096) == PINGRESP
            except OSError:
                pass  # nothing came, or the gateway has ended


def answer_pings(stream, seconds):
    """Reads the packets that come within this time, and answers a PINGREQ, as a broker does."""
    came = []
    while select.select([stream], [], [], seconds)[0]:
        came.append(read_packet(stream))
        if came[-1] == PING_REQUEST:
            stream.sendall(PING_RESPONSE)
        if came[-1] in (b'', LAST_ACKNOWLEDGED):
            break
    return came


def pours(stream, count):
    """A broker publishes so many messages as fast as they are taken."""
    for _ in range(count // BATCH):
        stream.sendall(MESSAGE * BATCH)
        answer_pings(stream, 0)


def a_broker_that_floods(room):
    """Without a book on disk its messages fill the book in memory: the gateway ends by itself, and closes
    each row that found a place."""
    with Listener() as listener:
        served = Served(room, listener, '--tries', '0', verbose=False)
        begun = time.monotonic()
        with Listening(served.device):
            try:
                pours(served.stream, FULL_ROWS)
            except OSError:
                pass  # it ends in the midst
            served.gateway.line('err', '^sng: the book is full: the gateway ends', FILLING)
        measured('a broker that floods: %d rows after %.1f s' % (FULL_ROWS, time.monotonic() - begun))
        wanted(served.gateway.ended(FILLING) == 5, 'status 5')
        last = served.gateway.lines['out'][-1]
        wanted(last == 'closed %d rows' % FULL_ROWS, 'all rows closed, and not %r' % last)


def lines_on_disk(folder):
    """The lines of a book on disk, in order."""
    for path in sorted(glob.glob(os.path.join(folder, '*', '*.book'))):
        with open(path) as book:
            yield from book


def holds_each_message(folder, closed):
    """The book on disk has as many rows as were closed, in order, and among them that of each message, which
    was handed over."""
    rows, messages, handed = 0, 0, 0
    for line in lines_on_disk(folder):
        if line.startswith('row '):
            rows += 1
            wanted(line.startswith('row %d ' % rows), 'row %d, and not %r' % (rows, line))
        messages += line.startswith(('> broker 30', '> broker 32'))
        handed += line == 'note hand s1 t/1 allowed\n'
    wanted(rows == closed, 'all %d rows on disk, and not %d' % (closed, rows))
    wanted(messages == FULL_ROWS + 1, 'a row of each message, and not of %d' % messages)
    wanted(handed == FULL_ROWS + 1, 'each message handed over, and not %d' % handed)


def a_broker_that_floods_a_book_on_disk(room):
    """With a book on disk 1,000,000 messages and more are rows like any others: each is in the files, in
    order, devices are answered during the flood and behind it, and the book is lawful."""
    if '--book' not in room.told('serve', '--help')[1]:
        raise Skipped('this program has no option --book')
    folder = os.path.join(room.folder, 'books')
    with Listener() as listener:
        served = Served(room, listener, '--tries', '0', '--book', folder, verbose=False)
        begun = time.monotonic()
        with Listening(served.device) as device:
            pours(served.stream, FULL_ROWS // 2)
            half = rss_kib(served.gateway.child.pid)
            pours(served.stream, FULL_ROWS // 2)
            served.stream.sendall(LAST)
            until(lambda: LAST_ACKNOWLEDGED in answer_pings(served.stream, 1), 'the last message', FILLING)
            wanted(device.pings > 0, 'a device that is answered during the flood')
        took, whole = time.monotonic() - begun, rss_kib(served.gateway.child.pid)
        other = room.device(served.gateway)
        other.connect('s2')
        other.send(0x16)
        other.receive(0x17)
        served.is_whole()
        closed = served.gateway.close(verbose=False, seconds=FILLING)
    holds_each_message(folder, closed)
    is_said_lawful(room, folder, 'lawful %d rows' % closed)
    measured('a broker that floods a book on disk: %d rows after %.1f s, %d MiB in the midst, %d MiB behind'
             % (closed, took, half // 1024, whole // 1024))


ALONE = (a_broker_that_floods, a_broker_that_floods_a_book_on_disk)
BESIDE_A_BROKER = (a_flood_of_one_address, a_flood_of_many_addresses)
