#!/usr/bin/env python3
"""fan_out.py [SNG]

Measures what a message of the broker to many clients costs through SNG (if none is given, the build that `rt
run` leaves in crates/sng/out/sng): 256 clients that are active and idle, for each of which filters stand that
match the name of each message. Prints of each kind how many outs (notes and datagrams) are made a second, the
printing of the rows included, and what one client costs. The messages are of 32 bytes at QoS 0: under a name
of two octets, under a predefined topic id, under a topic id that each client was told; and for scale the same
message while none of the 256 holds a matching filter. Each figure is processor time, the best of several runs
that take turns. Fails where anything else is printed than one hand-over to each client. Where there is a
`rustc`, a plain program that makes the same outs, and prints nothing (fan_out.rs), is built and run for
scale."""
import json
import os
import resource
import shutil
import subprocess
import sys
import tempfile

HERE = os.path.dirname(os.path.abspath(__file__))
CLIENTS = 256
MESSAGES = 2000
RUNS = 5
SECONDS = 120
PAYLOAD = bytes(range(32))
NAMES = {'short': b'ab', 'predefined': b'site/all/time', 'told': b'site/all/news', 'nobody': b'other/name'}


def client(number):
    return b'c%03d' % number


def address(number):
    return '10.0.%d.%d:4000' % (number // 100, number % 100 + 1)


def frame(octets):
    return bytes([len(octets) + 1]) + octets


def said(number, octets):
    return 'from %s %s' % (address(number), frame(octets).hex())


def delivered(name):
    body = len(name).to_bytes(2, 'big') + name + PAYLOAD
    return 'broker ' + (bytes([0x30, len(body)]) + body).hex()


def front(take):
    """The lines until each client is let in and holds its filters; the text of NAMES['told'] tells it an
    id."""
    clients = {client(number).decode(): [['#', ['sub']]] for number in range(CLIENTS)}
    policy = {'version': 1, 'clients': clients, 'topics': {'7': NAMES['predefined'].decode()}}
    lines = ['policy ' + json.dumps(policy, separators=(',', ':')), 'up']
    for number in range(CLIENTS):
        lines.append(said(number, b'\x04\x04\x01\x00\x00' + client(number)))
        for place, text in enumerate([b'ab', b'site/#', NAMES['told']], 1):
            lines.append(said(number, b'\x12\x00' + place.to_bytes(2, 'big') + text))
        lines.append(take)
    return lines


def processor_seconds(sng, given):
    given.seek(0)
    before = resource.getrusage(resource.RUSAGE_CHILDREN)
    subprocess.run([sng, 'play'], check=True, stdin=given, stdout=subprocess.DEVNULL, timeout=SECONDS)
    after = resource.getrusage(resource.RUSAGE_CHILDREN)
    return after.ru_utime - before.ru_utime + after.ru_stime - before.ru_stime


def is_right(sng, first, kind, name):
    """Whether one message is handed to each client, and no other, with one frame each."""
    given = '\n'.join(first + [delivered(name)]).encode()
    done = subprocess.run([sng, 'play'], input=given, stdout=subprocess.PIPE, timeout=SECONDS)
    row = done.stdout.split(b'\nrow ')[-1].split(b'\n')[1:-1]
    notes = [b'note hand %s %s allowed' % (client(number), name) for number in range(CLIENTS)]
    sends = [line.split()[1] for line in row[1::2]]
    wanted = [address(number).encode() for number in range(CLIENTS)]
    return done.returncode == 0 and (row == [] if kind == 'nobody' else row[::2] == notes and sends == wanted)


def plain():
    """Runs the plain program, and answers the exit status."""
    if shutil.which('rustc') is None:
        print('no rustc: the plain program was not run')
        return 0
    with tempfile.TemporaryDirectory() as folder:
        built = os.path.join(folder, 'fan_out')
        source = os.path.join(HERE, 'fan_out.rs')
        subprocess.run(['rustc', '--edition', '2021', '-O', '-o', built, source], check=True, timeout=SECONDS)
        return subprocess.run([built], timeout=SECONDS).returncode


def main(arguments):
    sng = arguments[0] if arguments else os.path.join(HERE, '..', 'crates', 'sng', 'out', 'sng')
    first = front('take')
    files = []
    for kind, name in [('none', None)] + list(NAMES.items()):
        if name and not is_right(sng, first, kind, name):
            print('not handed to each client once: ' + kind)
            return 1
        lines = first + ([delivered(name)] * MESSAGES if name else [])
        files.append(tempfile.TemporaryFile())
        files[-1].write(''.join(line + '\n' for line in lines).encode())
    turns = [[processor_seconds(sng, given) for given in files] for _ in range(RUNS)]
    least = [min(of_one) for of_one in zip(*turns)]
    for kind, seconds in zip(NAMES, least[1:]):
        each = (seconds - least[0]) / MESSAGES
        outs = 0 if kind == 'nobody' else 2 * CLIENTS
        print('%9.0f outs a second, %5.0f ns a client, %7.1f microseconds a message  %s' % (
            outs / each, each * 1e9 / CLIENTS, each * 1e6, kind))
    return plain()


if __name__ == '__main__':
    sys.exit(main(sys.argv[1:]))
