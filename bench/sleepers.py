#!/usr/bin/env python3
"""sleepers.py [SNG]

Measures what sleep and the clock cost through SNG (if none is given, the build that `rt run` leaves in
crates/sng/out/sng). Wake-ups: 256 clients fall asleep, 64 messages of 32 bytes at QoS 0 come to wait for each,
and then the clients wake up in turn, each of which is sent its 64 messages and a PINGRESP; prints how many outs
are made a second, and what a wake-up costs. Ticks: 256 clients that are neither silent for too long nor asked
for anything, and a tick after the other; prints what a tick costs beside one over no client. Each figure is
processor time, reading and printing included, less that of the same script up to there; the best of several
runs. Fails where anything else is printed than it should be."""
import json
import os
import resource
import subprocess
import sys
import tempfile

HERE = os.path.dirname(os.path.abspath(__file__))
CLIENTS = 256
QUEUED = 64
TICKS = 200_000
RUNS = 5
SECONDS = 120


def client(number):
    return b'c%03d' % number


def said(number, octets):
    place = '10.0.%d.%d:4000' % (number // 100, number % 100 + 1)
    return 'from %s %s' % (place, (bytes([len(octets) + 1]) + octets).hex())


def front(clients):
    """The lines until each client is let in, without a Duration, and subscribed by `ab`."""
    policy = {'version': 1, 'clients': {client(n).decode(): [['#', ['sub']]] for n in range(clients)}}
    lines = ['policy ' + json.dumps(policy, separators=(',', ':')), 'up']
    for number in range(clients):
        lines.append(said(number, b'\x04\x04\x01\x0e\x10' + client(number)))
        lines.append(said(number, b'\x12\x00\x00\x01ab'))
    return lines + ['take']


def asleep():
    """The clients fall asleep, and each message comes to wait for all of them."""
    lines = front(CLIENTS) + [said(number, b'\x18\x0e\x10') for number in range(CLIENTS)]
    return lines + ['broker ' + (b'\x30\x24\x00\x02ab' + bytes(range(32))).hex()] * QUEUED


def seconds_of(program, lines):
    """The least processor time of several runs, and what the last one printed."""
    best = None
    with tempfile.TemporaryFile() as script:
        script.write(('\n'.join(lines) + '\n').encode())
        for _ in range(RUNS):
            script.seek(0)
            before = resource.getrusage(resource.RUSAGE_CHILDREN)
            ran = subprocess.run([program, 'play'], stdin=script, capture_output=True, timeout=SECONDS, check=True)
            after = resource.getrusage(resource.RUSAGE_CHILDREN)
            spent = after.ru_utime + after.ru_stime - before.ru_utime - before.ru_stime
            best = spent if best is None else min(best, spent)
    return best, ran.stdout


def main(argv):
    program = argv[0] if argv else os.path.join(HERE, '..', 'crates', 'sng', 'out', 'sng')
    before, _ = seconds_of(program, asleep())
    after, printed = seconds_of(program, asleep() + [said(number, b'\x16' + client(number)) for number in range(CLIENTS)])
    handed = printed.count(b'note hand ')
    told = printed.count(b' 0217\n')
    if (handed, told) != (CLIENTS * QUEUED, CLIENTS):
        print('not as it should be: %d messages, %d PINGRESP' % (handed, told))
        return 1
    outs = 2 * handed + told
    print('wake-ups of %d full queues: %.2f million outs a second, %.1f us a wake-up' %
          (CLIENTS, outs / (after - before) / 1e6, (after - before) / CLIENTS * 1e6))
    costs = []
    for clients in (0, CLIENTS):
        lines = front(clients)
        start, _ = seconds_of(program, lines)
        end, printed = seconds_of(program, lines + ['tick 1'] * TICKS)
        if printed.count(b' tick\n') != TICKS or b'note lost' in printed:
            print('not as it should be: %d ticks' % printed.count(b' tick\n'))
            return 1
        costs.append((end - start) / TICKS * 1e9)
    print('a tick over no client: %.0f ns; over %d idle clients: %.0f ns, %.2f ns a client' %
          (costs[0], CLIENTS, costs[1], (costs[1] - costs[0]) / CLIENTS))
    return 0


if __name__ == '__main__':
    sys.exit(main(sys.argv[1:]))
