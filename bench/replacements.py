#!/usr/bin/env python3
"""replacements.py [SNG]

Measures what a replacement of the policy costs through SNG (if none is given, the build that `rt run` leaves
in crates/sng/out/sng): 256 clients with 64 pairs each, for each of which 31 filters stand. Prints of each
kind how many milliseconds one replacement takes, with the reading of its JSON: of the very same policy; of
one in which each scope differs by a pair, the filters granted by their own texts, or by wider filters; and
of one that ends every subscription. Each figure is processor time, the best of several runs, which take
turns since the machine may be busy for a while. Fails where other rows are printed."""
import json
import os
import resource
import subprocess
import sys
import tempfile

HERE = os.path.dirname(os.path.abspath(__file__))
CLIENTS = 256
PAIRS = 64
STANDING = 31
TAKEN = 400
TIMES = 20
RUNS = 5
SECONDS = 120


def client(number):
    return 'c%03d' % number


def filters(number):
    return ['site/%03d/sensor/%02d/+' % (number, place) for place in range(STANDING)]


def rest(number, count, last):
    """Further pairs of a client, the last of which publishes in one edition and not in the other."""
    names = ['other/%03d/%02d/#' % (number, place) for place in range(count)]
    return [[name, ['sub']] for name in names[:-1]] + [[names[-1], last]]


def policy(scope_of):
    clients = {client(number): scope_of(number) for number in range(CLIENTS)}
    return 'policy ' + json.dumps({'version': 1, 'clients': clients}, separators=(',', ':'))


def own_texts(last):
    """Each standing filter is granted by its own text."""
    return lambda number: [[text, ['sub']] for text in filters(number)] + rest(number, PAIRS - STANDING, last)


def wider(last):
    """All standing filters of a client are covered by one filter, which stands behind the others."""
    return lambda number: (rest(number, PAIRS - 1, last) + [['site/%03d/sensor/#' % number, ['sub']]])


def nothing_stands(last):
    return lambda number: rest(number, PAIRS, last)


def frame(octets):
    return bytes([len(octets) + 1]) + octets


def address(number):
    return '10.0.%d.%d:4000' % (number // 100, number % 100 + 1)


def front():
    """The lines until all filters stand and are subscribed, and how many rows they make."""
    lines = [policy(own_texts(['sub'])), 'up']
    for number in range(CLIENTS):
        connect = frame(b'\x04\x04\x01\x00\x00' + client(number).encode())
        lines.append('from %s %s' % (address(number), connect.hex()))
    waiting = 0
    for number in range(CLIENTS):
        for place, text in enumerate(filters(number), 1):
            subscribe = frame(b'\x12\x20' + place.to_bytes(2, 'big') + text.encode())
            lines.append('from %s %s' % (address(number), subscribe.hex()))
            waiting += 1
            if waiting % TAKEN == 0:
                lines.append('take')
    return lines + ['take']


# A kind of replacement: its lines, by turns, and how many subscriptions end with the first of them
KINDS = [
    ('the same policy', [own_texts(['sub'])], 0),
    ('each scope differs, granted by own texts', [own_texts(['pub']), own_texts(['sub'])], 0),
    ('each scope differs, granted by a wider filter', [wider(['pub']), wider(['sub'])], 0),
    ('every subscription ends', [nothing_stands(['sub'])], CLIENTS * STANDING),
]


def processor_seconds(sng, given):
    given.seek(0)
    before = resource.getrusage(resource.RUSAGE_CHILDREN)
    subprocess.run([sng, 'play'], check=True, stdin=given, stdout=subprocess.DEVNULL, timeout=SECONDS)
    after = resource.getrusage(resource.RUSAGE_CHILDREN)
    return after.ru_utime - before.ru_utime + after.ru_stime - before.ru_stime


def is_right(sng, lines, rows, ends):
    """Whether just so many rows are printed, in which just so many subscriptions end."""
    text = ''.join(line + '\n' for line in lines).encode()
    done = subprocess.run([sng, 'play'], input=text, stdout=subprocess.PIPE, timeout=SECONDS)
    printed = done.stdout.split(b'\n')
    found = sum(line.startswith(b'row ') for line in printed)
    ended = sum(line.startswith(b'note end ') for line in printed)
    if (done.returncode, found, ended) == (0, rows, ends):
        return True
    print('status %d, %d rows of %d, %d ends of %d' % (done.returncode, found, rows, ended, ends))
    return False


def main(arguments):
    sng = arguments[0] if arguments else os.path.join(HERE, '..', 'crates', 'sng', 'out', 'sng')
    first = front()
    scripts, times = [first], [0]
    for what, scopes, ends in KINDS:
        count = 1 if ends else TIMES
        texts = [policy(scope_of) for scope_of in scopes]
        lines = first + [texts[turn % len(texts)] for turn in range(count)]
        if not is_right(sng, lines, len(lines), ends):
            print('other rows are printed: ' + what)
            return 1
        scripts.append(lines)
        times.append(count)
    files = []
    for lines in scripts:
        files.append(tempfile.TemporaryFile())
        files[-1].write(''.join(line + '\n' for line in lines).encode())
    turns = [[processor_seconds(sng, given) for given in files] for _ in range(RUNS)]
    least = [min(of_one) for of_one in zip(*turns)]
    for (what, _, _), seconds, count in zip(KINDS, least[1:], times[1:]):
        print('%6.1f ms  %s' % ((seconds - least[0]) * 1000 / count, what))
    return 0


if __name__ == '__main__':
    sys.exit(main(sys.argv[1:]))
