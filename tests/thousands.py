#!/usr/bin/env python3
"""thousands.py [PROGRAM]

Ten thousand clients, under policies that set limits. Scripts through `sng play`, compared with what the model in
gateway_model.py says: all clients come, ping and subscribe, by more filters than SUBSCRIBEs may be open, and a
connection of the broker that begins anew is told of them; policies with lesser limits, which take nothing away
and let nothing more in. And `sng serve` between as many devices and the program's own broker: all come by one
socket, from an address each. PROGRAM is the proved program where none is given. Exit status 1 where something
is otherwise."""
import json
import os
import re
import socket
import struct
import subprocess
import sys
import time

sys.dont_write_bytecode = True
import gateway_model
from full_places import publish, register, subscribe, unsubscribe
from live_parts import HOST, Failure, measured, until, wanted
from live_room import Room
from random_scripts import difference

HERE = os.path.dirname(os.path.abspath(__file__))
PROVED = os.path.join(os.path.dirname(HERE), 'crates', 'sng', 'out', 'sng')
CLIENTS, FILTERS, SECONDS = 10_000, 5, 300
OPEN = gateway_model.MOST_OPEN_SUBSCRIBES
PING, PUBACK, SUBACK = '0216', '4002%04x', '9003%04x01'
# The CONNACK that lets in, and the one that denies for want of a place
ACCEPTED, FULL = '030500', '030501'


# Scripts

def name(number):
    return 'c%d' % number


def place(number):
    return '10.1.%d.%d:4000' % (number // 256, number % 256)


def says(number, octets):
    return 'from %s %s' % (place(number), octets)


def connects(number, who=None):
    """A clean session without an end."""
    text = (who or name(number)).encode()
    return says(number, '%02x0404010000' % (6 + len(text)) + text.hex())


def policy(listed, /, version=4, **limits):
    """The line of a policy that allows all to each of these clients."""
    whole = {'version': version, 'clients': {who: [['#', ['pub', 'sub']]] for who in listed}}
    if limits:
        whole['limits'] = limits
    return 'policy ' + json.dumps(whole, separators=(',', ':'))


def everybody():
    return [name(number) for number in range(CLIENTS)]


def more_filters_than_may_be_open():
    """Each client subscribes by so many filters, and the last ones are owed to the broker until it answers."""
    lines = [policy(everybody(), clients=CLIENTS, waiting=CLIENTS * FILTERS), 'up']
    lines += [connects(number) for number in range(CLIENTS)]
    lines += [says(number, subscribe('%d/%d' % (number, it))) for number in range(CLIENTS)
              for it in range(FILTERS)]
    lines += [says(0, subscribe('one/more')), 'take', 'take']
    # what the broker answers makes room for as many, and what ends before goes out no more
    lines += ['broker ' + SUBACK % packet_id for packet_id in (1, 7, OPEN)]
    last = CLIENTS - 1
    lines += ['take', says(last, unsubscribe('%d/%d' % (last, FILTERS - 1))), 'take']
    lines += ['broker ' + published(it) for it in ('0/0', '5000/2', '%d/%d' % (last, FILTERS - 2), 'nobody')]
    lines += [says(number, PING) for number in range(CLIENTS)]
    lines += ['tick 1000', 'down', 'up', 'take']
    lines += ['broker ' + SUBACK % packet_id for packet_id in range(1, 1000)] + ['take', 'take']
    return lines


def published(topic):
    return '30%02x%04x%s78' % (3 + len(topic), len(topic), topic.encode().hex())


def lesser_limits_for_clients():
    """Who was accepted stays so, and nobody else is, until there is room again."""
    lines = [connects(0), policy(everybody()[:256], version=1), connects(0)]
    lines += [policy(everybody() + ['new'], clients=CLIENTS + 1)]
    lines += [connects(number) for number in range(CLIENTS)]
    few = everybody()[:299]
    lines += [policy(few + ['new'], clients=300), connects(CLIENTS, 'new'), connects(7), says(9, PING)]
    lines += [policy(few[:255] + ['new'], version=2), connects(CLIENTS, 'new'), connects(8)]
    lines += [policy(everybody(), clients=CLIENTS), connects(CLIENTS, 'new'), connects(CLIENTS - 1)]
    lines += [policy(everybody() + ['new'], clients=CLIENTS + 1), connects(CLIENTS, 'new')]
    lines += [policy(['new'], clients=1), connects(CLIENTS, 'new'), says(CLIENTS, PING), connects(1)]
    return lines


def lesser_limits_for_publishes(most=2000):
    """What waits and what is in flight stays so, and nothing more comes, until there is room again."""
    lines = [policy(['c0'], in_flight=most, waiting=most + 100), 'up', connects(0), says(0, register('t/1'))]
    lines += [says(0, publish(0x20, 1, it)) for it in range(1, most + 2)]
    # of QoS 0 those that may wait beside them
    lines += [says(0, publish(0x00, 1, 0))] * 102
    lines += [says(0, subscribe('t/#')), policy(['c0'], version=1)]
    lines += [says(0, octets) for octets in (publish(0x20, 1, 1), publish(0x00, 1, 0), subscribe('t/#'))]
    # the ping is due, and finds no room
    lines += ['tick 40000', 'take', says(0, publish(0x20, 1, 1)), says(0, publish(0x00, 1, 0))]
    lines += [policy(['c0'], in_flight=most), says(0, publish(0x20, 1, 1))]
    lines += ['broker ' + PUBACK % packet_id for packet_id in range(1, 11)]
    lines += [says(0, publish(0x20, 1, it)) for it in range(1, 12)]
    lines += [policy(['c0'], version=2), 'down', 'up', 'take', says(0, publish(0x20, 1, 1))]
    lines += ['broker ' + PUBACK % packet_id for packet_id in range(11, most + 11)]
    lines += [says(0, publish(0x20, 1, it)) for it in range(1, 130)] + ['take', says(0, publish(0x20, 1, 1))]
    return lines


# What the answers of each script have to meet, and how often at least
STORIES = (
    (more_filters_than_may_be_open, (
        (r'note connect \S+ - allowed', CLIENTS), (r'note subscribe \S+ \S+ allowed', CLIENTS * FILTERS),
        (r'note subscribe c0 one/more 22 Full Outbox', 1), (r'wire 82', 2 * OPEN + 3),
        (r'send \S+ 0217', CLIENTS), (r'note hand c5000 5000/2 allowed', 1), (r'wire a2', 1))),
    (lesser_limits_for_clients, (
        (r'note connect c0 - 3 NoScope c0', 1), (r'note connect \S+ - allowed', CLIENTS + 4),
        (r'note connect new - 22 Full Clients', 2), (r'note connect new - 3 NoScope new', 1))),
    (lesser_limits_for_publishes, (
        (r'note publish c0 t/1 22 Full InFlight', 6), (r'note publish c0 t/1 22 Full Outbox', 3),
        (r'note subscribe c0 t/# 22 Full Outbox', 2), (r'note outbox broker - 22 Full Outbox', 1),
        (r'note again c0 t/1 allowed', 1990))),
)


def plays_as_the_model(program, story, meets):
    script = '\n'.join(story() + ['']).encode()
    answer = gateway_model.play(script)
    text = answer[1].decode()
    for pattern, least in meets:
        found = len(re.findall('^' + pattern, text, re.M))
        wanted(found >= least, '%s: %r is met %d times, not %d' % (story.__name__, pattern, found, least))
    done = subprocess.run([program, 'play'], input=script, stdout=subprocess.PIPE, timeout=SECONDS, check=False)
    if (done.returncode, done.stdout) != answer:
        where = difference(done.stdout, answer[1])
        raise Failure('%s: status %d; at line %s: found %r, wanted %r' % (story.__name__, done.returncode, *where))


# Devices

# Of Linux, which the module `socket` does not name everywhere: to read, and to choose, one's own address
IP_PKTINFO = 8


class Crowd:
    """Devices behind one socket, each with an address of its own in 127.0.0.0/8."""
    AT_ONCE, PATIENCE = 100, 20.0

    def __init__(self, gateway):
        self.socket = socket.socket(socket.AF_INET, socket.SOCK_DGRAM)
        self.socket.setsockopt(socket.IPPROTO_IP, IP_PKTINFO, 1)
        self.socket.bind(('0.0.0.0', 0))
        self.gateway = (HOST, gateway)

    def send(self, number, octets):
        own = bytes((127, 1, number // 256, number % 256))
        about = (socket.IPPROTO_IP, IP_PKTINFO, struct.pack('=I4s4s', 0, own, bytes(4)))
        self.socket.sendmsg([octets], [about], 0, self.gateway)

    def receive(self):
        """The next frame, with the device that it is for."""
        frame, about, _, _ = self.socket.recvmsg(4096, 64)
        return int.from_bytes(about[0][2][10:12], 'big'), frame

    def ask(self, asked, answer):
        """Each device of the numbers sends these octets, and gets an answer that begins so; some at a time,
        and what is lost is sent again."""
        left = dict(asked)
        end = time.monotonic() + self.PATIENCE
        while left:
            wanted(time.monotonic() < end, '%d devices without an answer' % len(left))
            some = list(left)[:self.AT_ONCE]
            for number in some:
                self.send(number, left[number])
            self.socket.settimeout(2.0)
            try:
                while any(number in left for number in some):
                    number, frame = self.receive()
                    if number in left and frame.startswith(answer):
                        del left[number]
                        end = time.monotonic() + self.PATIENCE
            except socket.timeout:
                pass


def clients_told(gateway):
    """How many clients were let in, by the lines that tell so."""
    counts = [re.fullmatch(r'sng: (?:client \S+|(\d+) more clients) let in(?:, refused or lost)?', line)
              for line in list(gateway.lines['err'])]
    return sum(int(found[1] or 1) for found in counts if found)


def serves(room):
    """All clients come, subscribe, and are handed a message; `status` counts them."""
    broker = room.test_broker()
    gateway = room.gateway(broker.port, verbose=False)
    begun = time.monotonic()
    gateway.replace({'version': 4, 'limits': {'clients': CLIENTS, 'waiting': CLIENTS},
                     'clients': {who: [['d/' + who, ['sub']], ['all', ['sub']]] for who in everybody()}})
    crowd = Crowd(gateway.port)
    frames = {it: bytes.fromhex(connects(it).split()[2]) for it in range(CLIENTS)}
    crowd.ask(frames, bytes.fromhex(ACCEPTED))
    came = time.monotonic()
    crowd.ask({it: bytes.fromhex(PING) for it in range(CLIENTS)}, b'\2\x17')
    pinged = time.monotonic()
    crowd.ask({it: bytes.fromhex(subscribe('d/' + name(it))) for it in range(CLIENTS)}, b'\x08\x13')
    subscribed = time.monotonic()
    measured('%d clients: %.1f s to come, %.1f s to ping, %.1f s to subscribe'
             % (CLIENTS, came - begun, pinged - came, subscribed - pinged))
    for number in (0, 4711, CLIENTS - 1):
        def handed(number=number):
            room.publish(broker, 'd/' + name(number), 'for you')
            found = crowd.receive()
            return found[0] == number and found[1].endswith(b'for you')
        crowd.socket.settimeout(5.0)
        until(handed, 'a message for the device %d' % number)
    gateway.say('status')
    gateway.line('out', '^status clients: active %d, asleep 0' % CLIENTS)
    gateway.line('out', '^status subscriptions: %d' % CLIENTS)
    # each has a line of its own or is counted in one; what comes behind is of a second with lines left
    until(lambda: clients_told(gateway) == CLIENTS, 'a line or a count of each client')
    # lesser limits put nobody out, and let nobody else in
    gateway.replace({'version': 1, 'clients': {who: [['all', ['sub']]] for who in ('c1', 'new')}})
    crowd.ask({1: bytes.fromhex(PING), CLIENTS - 1: bytes.fromhex(PING)}, b'\2\x17')
    crowd.ask({CLIENTS: bytes.fromhex(connects(CLIENTS, 'new').split()[2])}, bytes.fromhex(FULL))
    gateway.line('err', 'denied: connect new - 22 Full Clients')
    gateway.close(verbose=False, seconds=60)


def main():
    program = os.path.abspath(sys.argv[1]) if sys.argv[1:] else PROVED
    if not os.path.exists(program):
        print('no program at %s: `rt run` in crates/sng makes it' % program)
        return 1
    failed = 0
    for story, meets in STORIES:
        try:
            plays_as_the_model(program, story, meets)
        except Failure as fault:
            failed += 1
            print('failed:', fault, flush=True)
    try:
        with Room(program) as room:
            serves(room)
    except (Failure, OSError, subprocess.SubprocessError) as fault:
        failed += 1
        print('failed: serves: %s' % fault, flush=True)
    print('thousands: %d passed, %d failed' % (len(STORIES) + 1 - failed, failed))
    return 1 if failed else 0


if __name__ == '__main__':
    sys.exit(main())
