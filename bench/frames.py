#!/usr/bin/env python3
"""frames.py [SNG]

Plays scripts of 200,000 PINGREQs, of 1 client and of 256 clients in turn, through SNG (if none is given, the
build that `rt run` leaves in crates/sng/out/sng), and prints what one of them costs: its line read, the
client found by its address, and its row written. Each figure is processor time, the best of several runs,
less that of the same script without PINGREQs. Fails where one is not answered by PINGRESP."""
import os
import resource
import subprocess
import sys
import tempfile

HERE = os.path.dirname(os.path.abspath(__file__))
PINGS = 200_000
CLIENTS = (1, 256)
RUNS = 7
SECONDS = 120


def line_from(client, frame):
    return 'from 10.0.1.%d:4000 %s\n' % (client, frame)


def script(clients, pings):
    """The clients connect, and send a PINGREQ one after another, not in the order in which they came."""
    scopes = ','.join('"c%03d":[]' % client for client in range(clients))
    lines = ['policy {"version":1,"clients":{%s}}\n' % scopes, 'up\n']
    for client in range(clients):
        lines.append(line_from(client, '0a040401003c' + ('c%03d' % client).encode().hex()))
    turns = [line_from(turn * 97 % clients, '0216') for turn in range(clients)]
    lines += [turns[number % clients] for number in range(pings)]
    return ''.join(lines).encode()


def answered(sng, text):
    """How many PINGREQs of the script are answered."""
    done = subprocess.run([sng, 'play'], input=text, check=True, stdout=subprocess.PIPE, timeout=SECONDS)
    return done.stdout.count(b':4000 0217\n')


def processor_seconds(sng, given):
    """The processor time of one run."""
    given.seek(0)
    before = resource.getrusage(resource.RUSAGE_CHILDREN)
    subprocess.run([sng, 'play'], check=True, stdin=given, stdout=subprocess.DEVNULL, timeout=SECONDS)
    after = resource.getrusage(resource.RUSAGE_CHILDREN)
    return after.ru_utime - before.ru_utime + after.ru_stime - before.ru_stime


def least(sng, text):
    """The least of several runs, since other work on the machine only adds to it."""
    with tempfile.TemporaryFile() as given:
        given.write(text)
        return min(processor_seconds(sng, given) for _ in range(RUNS))


def main(arguments):
    sng = arguments[0] if arguments else os.path.join(HERE, '..', 'crates', 'sng', 'out', 'sng')
    for clients in CLIENTS:
        text = script(clients, PINGS)
        if answered(sng, text) != PINGS:
            print('not every PINGREQ is answered')
            return 1
        took = least(sng, text) - least(sng, script(clients, 0))
        who = 'of 1 client' if clients == 1 else 'of %d clients in turn' % clients
        print('a PINGREQ %-25s %6.0f ns each, %9.0f a second' % (who, took / PINGS * 1e9, PINGS / took))
    return 0


sys.exit(main(sys.argv[1:]))
