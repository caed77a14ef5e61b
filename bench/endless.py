#!/usr/bin/env python3
"""endless.py [SNG [ROWS]]

A run of ROWS rows (20,000,000 where none is given) through `sng serve --book` on loopback: PUBLISHes at QoS
-1 and at QoS 1 take turns, by the drivers of bench/serve.py. SNG is the build that `rt run` leaves in
crates/sng/out/sng, where none is given; its environment has what that of examples/sng.service has. Prints,
and exits with status 1 where one is not kept:

- that no row is lost: the rows of the files are counted up, and as many as were closed;
- the memory over the two millions of rows behind the second million, and how much it has grown over the last
  two: under 5 %. Rows of a second or two are always on their way to disk, so the middle of what was read counts;
- the rate, beside that of the first 780,000 to 980,000 rows of a run without --book: at least 0.8 of it;
- the 99th percentile of a round trip at QoS 1 beside that without --book: at most twice that;
- the time of `sng check --book` beside that of `sng play` for the same events: at most twice that."""
import glob
import json
import os
import re
import socket
import statistics
import subprocess
import sys
import tempfile
import time

from serve import HERE, PROVED, POLICY, figures, free_port, resident, started

ROWS = 20_000_000
# What the unit sets: docs/capacity.md says what it does
ALLOCATOR = {'MALLOC_MMAP_THRESHOLD_': '262144'}
# Behind so many rows a run without a book on disk is full with the next driver, and memory has to be flat,
# which is read over so many rows
FIRST, SETTLED, OVER = 780_000, 2_000_000, 2_000_000
# So many messages a driver sends; each takes two rows at QoS -1 and four at QoS 1, fewer under load
MINUS, ONE, TRIPS = 100_000, 40_000, 20_000
SECONDS = 600


class Run:
    """A gateway, and drivers that come to it one after the other."""

    def __init__(self, tool, sng, policy, *more):
        self.tool, self.port = tool, free_port(socket.SOCK_STREAM)
        self.gateway = started(sng, policy, 2, self.port, '--tries', '0', *more)
        self.udp = None

    def __enter__(self):
        for line in self.gateway.stderr:
            found = re.search(r'listening on [\d.]+:(\d+)', line)
            if found:
                self.udp = int(found[1])
                break
        return self

    def __exit__(self, *_):
        if self.gateway.poll() is None:
            self.gateway.kill()
            self.gateway.wait()

    def drive(self, kind, *words):
        """What a driver measured, once its gateway is connected."""
        words = [self.tool, kind, str(self.port), *map(str, words)]
        driver = subprocess.Popen(words, stdin=subprocess.PIPE, stdout=subprocess.PIPE, text=True,
                                  env=dict(os.environ, SESSION='1'))
        for line in self.gateway.stderr:
            if ': connected' in line:
                break
        time.sleep(0.2)
        return figures(driver.communicate('%d\n' % self.udp, timeout=SECONDS)[0])

    def rows(self):
        """How many rows were made, as `status` tells them."""
        self.gateway.stdin.write('status\n')
        self.gateway.stdin.flush()
        for line in self.gateway.stdout:
            found = re.match(r'status rows: (\d+)', line)
            if found:
                return int(found[1])
        raise SystemExit('the gateway has ended')

    def close(self):
        printed, _ = self.gateway.communicate('quit\n', timeout=SECONDS)
        return int(re.search(r'closed (\d+) rows', printed)[1])


def mixed(run, rows, seen=lambda made: None):
    """Rows a second of drivers that take turns until so many rows are made, while they drive."""
    made, took, turn = run.rows(), 0.0, 0
    begun = made
    while made < rows:
        kind, count, *more = (('minus', MINUS), ('one', ONE, 32))[turn % 2]
        took += count / run.drive(kind, count, *more)['rate']
        turn, made = turn + 1, run.rows()
        seen(made)
    return (made - begun) / took


def middle(memory, first, last):
    """The middle of what was read while so many rows were made, or the last reading where there is none."""
    read = [octets for made, octets in memory if first <= made < last]
    return int(statistics.median(read or [memory[-1][1]]))


def counted(folder):
    """How many rows the files have, each of which has the number behind that of the row before."""
    number = 0
    for path in sorted(glob.glob(os.path.join(folder, '*', '*.book'))):
        with open(path, 'rb') as file:
            for line in file:
                if line.startswith(b'row '):
                    number += 1
                    if not line.startswith(b'row %d ' % number):
                        raise SystemExit('row %d is not in its place in %s' % (number, path))
    return number


def timed(words, **more):
    begun = time.monotonic()
    subprocess.run(words, check=True, stdout=subprocess.DEVNULL, **more)
    return time.monotonic() - begun


def judged(name, text, is_kept):
    print('%-8s %s: %s' % ('ok' if is_kept else 'NOT KEPT', name, text), flush=True)
    return is_kept


def checking(sng, room, folder):
    """The times of `sng check --book` and of `sng play` for the events of the book."""
    script = os.path.join(room, 'script')
    with open(script, 'wb') as out:
        for path in sorted(glob.glob(os.path.join(folder, '*', '*.book'))):
            with open(path, 'rb') as file:
                out.writelines(line[2:] for line in file if line.startswith(b'> '))
    with open(script, 'rb') as events:
        play = timed([sng, 'play'], stdin=events)
    return timed([sng, 'check', '--book', folder]), play


def measure(tool, sng, room, policy, rows):
    folder, memory = os.path.join(room, 'books'), []
    with Run(tool, sng, policy) as plain:
        alone = plain.drive('one', TRIPS, 1)
        first = mixed(plain, FIRST)
    with Run(tool, sng, policy, '--book', folder) as run:
        kept = run.drive('one', TRIPS, 1)
        rate = mixed(run, rows, lambda made: memory.append((made, resident(run.gateway.pid))))
        closed = run.close()
    found = counted(folder)
    size = sum(os.path.getsize(path) for path in glob.glob(os.path.join(folder, '*', '*')))
    made = memory[-1][0]
    settled, last = middle(memory, SETTLED, SETTLED + OVER), middle(memory, made - OVER, made + 1)
    print('%d octets a row on disk' % (size // found))
    fine = [judged('rows', '%d closed, %d on disk' % (closed, found), closed == found),
            judged('memory', '%d MiB from %d rows on, %d MiB up to %d' %
                   (settled >> 20, SETTLED, last >> 20, made), last <= 1.05 * settled),
            judged('rate', '%.0f rows a second, x %.2f' % (rate, rate / first), rate >= 0.8 * first),
            judged('p99', '%.0f us, x %.2f' % (kept['p99'], kept['p99'] / alone['p99']),
                   kept['p99'] <= 2 * alone['p99'])]
    check, play = checking(sng, room, folder)
    fine.append(judged('check', '%.1f s, x %.2f of play' % (check, check / play), check <= 2 * play))
    return all(fine)


def main():
    os.environ.update(ALLOCATOR)
    sng = os.path.abspath(sys.argv[1]) if len(sys.argv) > 1 else PROVED
    rows = int(sys.argv[2]) if len(sys.argv) > 2 else ROWS
    with tempfile.TemporaryDirectory() as room:
        tool, policy = os.path.join(room, 'serve'), os.path.join(room, 'policy.json')
        subprocess.run(['cc', '-O2', '-o', tool, os.path.join(HERE, 'serve.c'), '-lpthread'], check=True)
        with open(policy, 'w') as file:
            json.dump(POLICY, file)
        return 0 if measure(tool, sng, room, policy, rows) else 1


if __name__ == '__main__':
    sys.exit(main())
