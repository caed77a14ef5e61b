#!/usr/bin/env python3
"""cuts.py [SNG]

Measures whom the cuts of a book delay: `sng serve` (SNG is the build that `rt run` leaves in crates/sng/out/sng,
where none is given) with one client and with 10,000, beside the program's own test broker, with its book in memory
and with it on disk. One client pings, and waits for each answer. Prints of its round trips the median, the 99th
percentile and the longest in microseconds; the longest one has a cut in it, which copies the whole state while it
holds the gateway."""
import os
import sys
import tempfile
import time

HERE = os.path.dirname(os.path.abspath(__file__))
sys.path.insert(0, os.path.join(os.path.dirname(HERE), 'tests'))
sys.dont_write_bytecode = True
from live_room import Room
from thousands import ACCEPTED, CLIENTS, PING, PROVED, Crowd, connects, name

TRIPS = 40_000


def percentiles(seconds):
    ordered = sorted(1e6 * it for it in seconds)
    return ordered[len(ordered) // 2], ordered[len(ordered) * 99 // 100], ordered[-1]


def trips(crowd):
    """Round trips of PINGREQs of the first client."""
    found, ping = [], bytes.fromhex(PING)
    for _ in range(TRIPS):
        start = time.perf_counter()
        crowd.send(0, ping)
        crowd.receive()
        found.append(time.perf_counter() - start)
    return found


def measure(program, clients, *more):
    with Room(program) as room:
        broker = room.test_broker()
        gateway = room.gateway(broker.port, *more, workers=1, verbose=False)
        gateway.replace({'version': 4, 'limits': {'clients': CLIENTS},
                         'clients': {name(it): [['all', ['sub']]] for it in range(clients)}})
        crowd = Crowd(gateway.port)
        crowd.ask({it: bytes.fromhex(connects(it).split()[2]) for it in range(clients)}, bytes.fromhex(ACCEPTED))
        crowd.socket.settimeout(5.0)
        print('%6d clients, the book %-9s  p50 %8.1f   p99 %8.1f   longest %8.1f'
              % (clients, 'on disk' if more else 'in memory', *percentiles(trips(crowd))), flush=True)
        gateway.close(verbose=False, seconds=60)


def main(words):
    program = os.path.abspath(words[0]) if words else PROVED
    for clients in (1, CLIENTS):
        measure(program, clients)
        with tempfile.TemporaryDirectory() as folder:
            measure(program, clients, '--book', folder)


if __name__ == '__main__':
    main(sys.argv[1:])
