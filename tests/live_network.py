"""Cases of tests/live.py: datagrams with a forged source, and an interface that is slow."""
import ctypes
import os
import socket
import subprocess
import threading
import time

from live_ends import Client
from live_parts import HOST, SECONDS, Failure, Process, Skipped, free_port, measured, wanted

PING, DISCONNECT = b'\x02\x16', b'\x02\x18'
NEW_NETWORK = 0x40000000
# The gateway and the device at the end of a slow interface, in a network of their own.
NEAR, FAR = '10.77.0.1', '10.77.0.2'
SLOW = {'version': 1, 'clients': {'near': [], 'far': [['t/#', ['sub']]]}}


def forger():
    """A socket that sends whole IPv4 packets."""
    try:
        return socket.socket(socket.AF_INET, socket.SOCK_RAW, socket.IPPROTO_RAW)
    except PermissionError:
        raise Skipped('only root can send datagrams with a forged source') from None


def forge(raw, source, target, payload):
    """Sends a datagram from one port of this machine to another one. A checksum of 0 is none."""
    size = 28 + len(payload)
    head = b'\x45\0' + size.to_bytes(2, 'big') + bytes(4) + b'\x40\x11\0\0' + socket.inet_aton(HOST) * 2
    ports = source.to_bytes(2, 'big') + target.to_bytes(2, 'big')
    raw.sendto(head + ports + (size - 20).to_bytes(2, 'big') + bytes(2) + payload, (HOST, 0))


def datagrams(gateway):
    return sum(line.endswith(' datagram') for line in gateway.lines['out'])


def two_gateways(room):
    """Each takes the other one for a device without a session. They do not answer one another without end."""
    with forger() as raw:
        first, second = (room.gateway(free_port(), connected=False) for _ in range(2))
        begun = time.monotonic()
        for _ in range(20):
            forge(raw, second.port, first.port, PING)
        first.line('err', r'^sng: \d+ answers to who has no session held back$')
        time.sleep(2)
        seconds = int(time.monotonic() - begun) + 2
    counts = datagrams(first), datagrams(second)
    wanted(20 <= counts[0] <= 20 + 5 * seconds and 5 <= counts[1] <= 5 * seconds,
           'five answers a second, and not %r datagrams in %d s' % (counts, seconds))
    measured('two gateways: %d and %d datagrams behind 20 forged ones in %d s' % (*counts, seconds))
    first.close()
    second.close()


def its_own_address(room):
    """A forged datagram from the very address of the gateway is neither answered nor a row."""
    with forger() as raw:
        gateway = room.gateway(free_port(), connected=False)
        for payload in (PING, DISCONNECT):
            forge(raw, gateway.port, gateway.port, payload)
        gateway.line('err', '^sng: 2 datagrams of the gateway itself passed over$')
        wanted(datagrams(gateway) == 0, 'no row of a datagram')
        gateway.close()


class Network:
    """A network of its own for this thread, and for what it starts, with an interface to a far end: a slow one,
    where nothing else is said."""

    def __init__(self, room, is_slow=True):
        self.libc = ctypes.CDLL(None, use_errno=True)
        self.room, self.is_slow = room, is_slow
        self.home = os.open('/proc/self/ns/net', os.O_RDONLY)

    def enter_new(self):
        if self.libc.unshare(NEW_NETWORK):
            raise Skipped('this user cannot make a network')

    def enter(self, network):
        wanted(self.libc.setns(network, NEW_NETWORK) == 0, 'a network that is there')

    def __enter__(self):
        self.enter_new()
        try:
            far = os.open('/proc/thread-self/ns/net', os.O_RDONLY)
            keeper = self.room.keep(Process(['sleep', '600'], stdin=subprocess.DEVNULL))
            self.enter_new()
            near = os.open('/proc/thread-self/ns/net', os.O_RDONLY)
            run('ip', 'link', 'set', 'lo', 'up')
            run('ip', 'link', 'add', 'slow', 'type', 'veth', 'peer', 'name', 'far')
            run('ip', 'link', 'set', 'far', 'netns', str(keeper.child.pid))
            run('ip', 'addr', 'add', NEAR + '/24', 'dev', 'slow')
            run('ip', 'link', 'set', 'slow', 'up')
            if self.is_slow:
                run(*'tc qdisc add dev slow root tbf rate 64kbit burst 3000 limit 4000000'.split())
            self.enter(far)
            run('ip', 'addr', 'add', FAR + '/24', 'dev', 'far')
            run('ip', 'link', 'set', 'far', 'up')
            self.device = socket.socket(socket.AF_INET, socket.SOCK_DGRAM)
            self.device.settimeout(SECONDS)
            self.enter(near)
        except BaseException:
            self.enter(self.home)
            raise
        return self

    def __exit__(self, *_):
        self.enter(self.home)
        os.close(self.home)


def run(*words):
    try:
        done = subprocess.run(words, stdin=subprocess.DEVNULL, capture_output=True, text=True, timeout=20,
                              check=False)
    except FileNotFoundError:
        raise Skipped('there is no %s' % words[0]) from None
    if done.returncode:
        raise Skipped('%s: %s' % (' '.join(words), done.stderr.strip()))


def round_trip(device):
    """How long the answer to a PINGREQ took, where it came."""
    begun = time.monotonic()
    device.send(0x16)
    try:
        device.receive(0x17, 0.2)
    except Failure:
        return None
    took = time.monotonic() - begun
    time.sleep(0.01)
    return took


def a_slow_interface(room):
    """What waits at an interface of 64 kbit/s holds up no device behind another one."""
    with Network(room) as network:
        broker = room.test_broker()
        gateway = room.gateway(broker.port, policy=SLOW, verbose=False, listen='0.0.0.0:0')
        far = network.device
        far.connect((NEAR, gateway.port))
        far.send(b'\x09\x04\x04\x01\x00\x3cfar')
        wanted(far.recv(64) == b'\x03\x05\0', 'a CONNACK')
        far.send(b'\x08\x12\0\0\1t/#')
        wanted(far.recv(64)[1] == 0x13, 'a SUBACK')
        near = room.device(gateway)
        near.connect('near')
        is_over = threading.Event()
        far.settimeout(0.2)

        def answer():
            """The far end learns the topic id, and takes what comes."""
            while not is_over.is_set():
                try:
                    frame = far.recv(4096)
                except OSError:
                    continue
                if frame[1] == 0x0a:
                    far.send(b'\x07\x0b' + frame[2:6] + b'\0')
        threads = [threading.Thread(target=answer, daemon=True)]
        publisher = Client(broker.port, 'pub')

        def publish():
            packet = b'\x30\xd4\x07\0\3t/1' + bytes(975)
            while not is_over.is_set():
                try:
                    publisher.socket.sendall(packet)
                except OSError:
                    return
                time.sleep(0.002)
        threads.append(threading.Thread(target=publish, daemon=True))
        for thread in threads:
            thread.start()
        try:
            gateway.line('err', r'^sng: \d+ datagrams could not be sent$', SECONDS * 2)
            trips = [trip for trip in (round_trip(near) for _ in range(100)) if trip is not None]
        finally:
            is_over.set()
            for thread in threads:
                thread.join(SECONDS)
            publisher.kill()
            far.close()
        trips.sort()
        # 7 came before an address rested for which the send buffer was full
        wanted(len(trips) >= 25, 'answers to 25 of 100 PINGREQs or more, and not to %d' % len(trips))
        middle = trips[len(trips) // 2]
        wanted(middle < 0.05, 'a round trip of less than 50 ms, and not %.3f s' % middle)
        measured('a slow interface: of 100 PINGREQs of another device %d answered, after %.1f ms in the '
                 'middle and %.1f ms at most' % (len(trips), middle * 1000, trips[-1] * 1000))
        gateway.close(verbose=False)


ALONE = (two_gateways, its_own_address, a_slow_interface)
