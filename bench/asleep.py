#!/usr/bin/env python3
"""asleep.py [SNG]

Measures what 10,000 sleeping clients cost an idle gateway: `sng serve` (SNG is the build that `rt run` leaves in
crates/sng/out/sng, where none is given) beside the program's own test broker. All clients connect and fall asleep
for an hour; then nothing comes for some seconds. Prints what share of a processor the gateway used in them, and
the same with no client."""
import os
import sys
import time

HERE = os.path.dirname(os.path.abspath(__file__))
sys.path.insert(0, os.path.join(os.path.dirname(HERE), 'tests'))
sys.dont_write_bytecode = True
from live_room import Room
from serve import processor_seconds
from thousands import ACCEPTED, CLIENTS, PROVED, Crowd, connects, name

IDLE_SECONDS = 60
# DISCONNECT with a Duration of 3,600 s, and the answer to it
SLEEP, ASLEEP = '04180e10', b'\x02\x18'


def measure(program, clients):
    with Room(program) as room:
        broker = room.test_broker()
        gateway = room.gateway(broker.port, workers=1, verbose=False)
        gateway.replace({'version': 4, 'limits': {'clients': CLIENTS},
                         'clients': {name(it): [['all', ['sub']]] for it in range(clients)}})
        crowd = Crowd(gateway.port)
        crowd.ask({it: bytes.fromhex(connects(it).split()[2]) for it in range(clients)}, bytes.fromhex(ACCEPTED))
        crowd.ask({it: bytes.fromhex(SLEEP) for it in range(clients)}, ASLEEP)
        time.sleep(2)
        before = processor_seconds(gateway.child.pid)
        time.sleep(IDLE_SECONDS)
        used = processor_seconds(gateway.child.pid) - before
        print('%6d clients asleep: %.4f of a processor' % (clients, used / IDLE_SECONDS), flush=True)
        gateway.close(verbose=False, seconds=60)


def main(words):
    program = os.path.abspath(words[0]) if words else PROVED
    for clients in (0, CLIENTS):
        measure(program, clients)


if __name__ == '__main__':
    main(sys.argv[1:])
