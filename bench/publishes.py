#!/usr/bin/env python3
"""publishes.py [SNG]

Plays scripts of 200,000 publishes through SNG (if none is given, the build that `rt run` leaves in
crates/sng/out/sng): at QoS -1 without a session, and of a client at QoS 0 and 1. After each hundred stands a
`take`, and at QoS 1 a line in which the broker acknowledges that hundred, a row for each, so that what is in
flight never fills. Prints of each how many rows a second it makes and how many that is beside QoS -1, and
what a publish costs with all that belongs to it. Each figure is processor time, the best of several runs,
which take turns since the machine may be busy for a while. Fails where other rows are printed."""
import collections
import os
import resource
import subprocess
import sys
import tempfile

HERE = os.path.dirname(os.path.abspath(__file__))
PUBLISHES = 200_000
BATCH = 100
RUNS = 7
SECONDS = 120
MOST_PACKET_ID = 65_535
ADDRESS = '10.0.0.7:4000'
# The scripts' first lines, and the rows that they make
FRONT = [
    ('policy {"version":1,"sources":{"10.0.0.7":[["ab",["pub"]]]},"clients":{"s1":[["ab",["pub"]]]}}',
     ['replace']),
    ('up', ['up']),
    ('from %s 08040401003c7331' % ADDRESS,
     ['datagram', 'note connect s1 - allowed', 'send %s 030500' % ADDRESS]),
    ('from %s 080a000000016162' % ADDRESS,
     ['datagram', 'note register s1 ab allowed', 'send %s 070b0001000100' % ADDRESS]),
]
# A kind of publish: its datagram, who publishes, its QoS (at QoS -1 it leaves with 0), and what answers it
Kind = collections.namedtuple('Kind', 'what datagram who qos answer')
KINDS = [
    Kind('QoS -1, by a short name', '090c62616200003231', '10.0.0.7', 0, None),
    Kind('QoS 0 of a client, by a short name', '090c02616200003231', 's1', 0, None),
    Kind('QoS 0 of a client, by a topic id', '090c00000100003231', 's1', 0, None),
    Kind('QoS 1 of a client, by a topic id', '090c20000100093231', 's1', 1, '070d0001000900'),
]


def packet_ids(batch):
    """The packet ids of a batch of publishes at QoS 1, of which none before it is in flight."""
    return [number % MOST_PACKET_ID + 1 for number in range(batch * BATCH, (batch + 1) * BATCH)]


def script(kind, publishes):
    lines = [line for line, _ in FRONT]
    for batch in range(publishes // BATCH):
        lines += ['from %s %s' % (ADDRESS, kind.datagram)] * BATCH + ['take']
        if kind.qos:
            lines.append('broker ' + ''.join('4002%04x' % packet_id for packet_id in packet_ids(batch)))
    return ''.join(line + '\n' for line in lines).encode()


def rows_of(kind, publishes):
    """The rows that the script makes: of each its kind, and the lines behind it."""
    asked = ['datagram', 'note publish %s ab allowed' % kind.who]
    if kind.answer:
        asked.append('send %s %s' % (ADDRESS, kind.answer))
    rows = [row for _, row in FRONT]
    for batch in range(publishes // BATCH):
        left = ['take']
        for packet_id in packet_ids(batch):
            wire = '320800026162%04x3231' % packet_id if kind.qos else '3006000261623231'
            left += ['note forward %s ab allowed' % kind.who, 'wire ' + wire]
        rows += [asked] * BATCH + [left] + [['broker']] * (BATCH if kind.qos else 0)
    return rows


def printed(rows):
    lines = []
    for number, row in enumerate(rows, 1):
        lines += ['row %d 0 %s' % (number, row[0]), *row[1:]]
    return ''.join(line + '\n' for line in lines).encode()


def is_right(sng, text, rows):
    """Whether the program prints these rows; else the first line that differs is printed."""
    done = subprocess.run([sng, 'play'], input=text, stdout=subprocess.PIPE, timeout=SECONDS)
    wanted = printed(rows)
    if done.returncode == 0 and done.stdout == wanted:
        return True
    found, wanted = done.stdout.split(b'\n'), wanted.split(b'\n')
    place = next((place for place, pair in enumerate(zip(found, wanted)) if pair[0] != pair[1]),
                 min(len(found), len(wanted)) - 1)
    print('status %d; line %d is %r, and has to be %r'
          % (done.returncode, place + 1, found[place][:100], wanted[place][:100]))
    return False


def processor_seconds(sng, given):
    """The processor time of one run."""
    given.seek(0)
    before = resource.getrusage(resource.RUSAGE_CHILDREN)
    subprocess.run([sng, 'play'], check=True, stdin=given, stdout=subprocess.DEVNULL, timeout=SECONDS)
    after = resource.getrusage(resource.RUSAGE_CHILDREN)
    return after.ru_utime - before.ru_utime + after.ru_stime - before.ru_stime


def least(sng, files):
    """For each file the least of several runs, since other work on the machine only adds to it."""
    turns = [[processor_seconds(sng, given) for given in files] for _ in range(RUNS)]
    return [min(of_one) for of_one in zip(*turns)]


def main(arguments):
    sng = arguments[0] if arguments else os.path.join(HERE, '..', 'crates', 'sng', 'out', 'sng')
    files, counts = [], []
    for kind in KINDS:
        text, rows = script(kind, PUBLISHES), rows_of(kind, PUBLISHES)
        if not is_right(sng, text, rows):
            print('other rows are printed: ' + kind.what)
            return 1
        files.append(tempfile.TemporaryFile())
        files[-1].write(text)
        counts.append(len(rows))
    seconds = least(sng, files)
    for kind, count, took in zip(KINDS, counts, seconds):
        beside = count / took / (counts[0] / seconds[0])
        print('%-35s %9.0f rows a second, %.2f of QoS -1, %6.0f ns a publish'
              % (kind.what, count / took, beside, took / PUBLISHES * 1e9))
    return 0


if __name__ == '__main__':
    sys.exit(main(sys.argv[1:]))
