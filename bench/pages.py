#!/usr/bin/env python3
"""pages.py [SNG]

Measures what a page of figures costs and whom it delays: `sng serve --metrics` (SNG is the build that `rt run`
leaves in crates/sng/out/sng, where none is given) with 256 clients, three filters each, beside the program's
own test broker. Prints how long a page takes to come, and the round trip of a PINGREQ alone and while one page
after the other is asked for: the median and the 99th percentile in microseconds."""
import os
import sys
import threading
import time

HERE = os.path.dirname(os.path.abspath(__file__))
sys.path.insert(0, os.path.join(os.path.dirname(HERE), 'tests'))
sys.dont_write_bytecode = True
from live_room import Room
from metrics import PROVED, asked, samples, serving

CLIENTS, FILTERS = 256, 3
PAGES, TRIPS = 500, 20_000
POLICY = {'version': 1, 'clients': {'s%d' % k: [['t/#', ['sub']]] for k in range(CLIENTS)}}


def middle_and_99(seconds):
    ordered = sorted(seconds)
    return 1e6 * ordered[len(ordered) // 2], 1e6 * ordered[len(ordered) * 99 // 100]


def connected(room, gateway):
    """All clients of the policy, each with its filters."""
    devices = []
    for k in range(CLIENTS):
        device = room.device(gateway)
        device.connect('s%d' % k, duration=600)
        for name in range(FILTERS):
            device.subscribe('t/%d/%d' % (k, name))
        devices.append(device)
    return devices


def trips(device, enough):
    """Round trips of PINGREQs until `enough` says so of their number."""
    found = []
    while not enough(len(found)):
        start = time.perf_counter()
        device.send(0x16)
        device.receive(0x17)
        found.append(time.perf_counter() - start)
    return found


def pages(port):
    found = []
    for _ in range(PAGES):
        start = time.perf_counter()
        asked(port).check(200)
        found.append(time.perf_counter() - start)
    return found


def beside_pages(device, port):
    """How long pages took, and the round trips while they were asked for."""
    done, times = threading.Event(), []

    def ask():
        times.extend(pages(port))
        done.set()
    asker = threading.Thread(target=ask)
    asker.start()
    came = trips(device, lambda _: done.is_set())
    asker.join()
    return times, came


def show(name, seconds):
    print('%-32s p50 %8.1f   p99 %8.1f' % (name, *middle_and_99(seconds)), flush=True)


def main(words):
    with Room(words[0] if words else PROVED) as room:
        broker = room.test_broker()
        gateway = serving(room, broker.port, policy=POLICY, verbose=False)
        devices = connected(room, gateway)
        held = {name: number for (name, labels), number in samples(gateway.figures).items() if not labels}
        print('%d clients, %d subscriptions' % (len(devices), held['sng_subscriptions']), flush=True)
        show('a PINGREQ alone', trips(devices[0], lambda number: number == TRIPS))
        show('a page, one after the other', pages(gateway.figures))
        times, came = beside_pages(devices[0], gateway.figures)
        show('a page beside PINGREQs', times)
        show('a PINGREQ beside pages', came)
        gateway.close(verbose=False)


if __name__ == '__main__':
    main(sys.argv[1:])
