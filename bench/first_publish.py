#!/usr/bin/env python3
"""first_publish.py [SNG]

Plays a script of 200,000 publishes at QoS -1, with a `take` after each hundred of them and one policy,
through SNG (if none is given, the build that `rt run` leaves in crates/sng/out/sng). Prints how many rows
a second it prints, and the most memory that it held at a time. Fails where the program takes more than two
minutes, ends with another status than 0, or prints other rows."""
import os
import subprocess
import sys
import tempfile
import time

PUBLISHES = 200_000
BATCH = 100
SECONDS = 120
POLICY = b'policy {"version":1,"sources":{"10.0.0.7":[["ab",["pub"]]]}}\n'
PUBLISH = b'from 10.0.0.7:4000 090c62616200003231\n'
HERE = os.path.dirname(os.path.abspath(__file__))


def script():
    batch = PUBLISH * BATCH + b'take\n'
    return POLICY + b'up\n' + batch * (PUBLISHES // BATCH)


def lines_of(row):
    """The lines that the row of this number prints."""
    if row == 1:
        return [b'row 1 0 replace']
    if row == 2:
        return [b'row 2 0 up']
    if (row - 2) % (BATCH + 1) != 0:
        return [b'row %d 0 datagram' % row, b'note publish 10.0.0.7 ab allowed']
    left = [b'note forward 10.0.0.7 ab allowed', b'wire 3006000261623231']
    return [b'row %d 0 take' % row] + left * BATCH


def peak_of(process, before):
    """The most memory in KiB that the process has held.

    The figure of `getrusage` would be that of Python, which it is forked from."""
    try:
        with open('/proc/%d/status' % process.pid) as status:
            return max([before] + [int(line.split()[1]) for line in status if line.startswith('VmHWM:')])
    except OSError:
        return before


def run(words, given, printed):
    """The exit status, the seconds that it took, and the most memory in KiB."""
    memory = 0
    start = time.monotonic()
    with subprocess.Popen(words, stdin=given, stdout=printed) as process:
        while process.poll() is None:
            if time.monotonic() - start > SECONDS:
                process.kill()
            memory = peak_of(process, memory)
            time.sleep(0.001)
        return process.returncode, time.monotonic() - start, memory


def main(arguments):
    program = arguments[0] if arguments else os.path.join(HERE, '..', 'crates', 'sng', 'out', 'sng')
    rows = 2 + PUBLISHES + PUBLISHES // BATCH
    with tempfile.TemporaryFile() as given, tempfile.TemporaryFile() as printed:
        given.write(script())
        given.seek(0)
        status, seconds, memory = run([program, 'play'], given, printed)
        printed.seek(0)
        lines = printed.read().split(b'\n')
    want = [line for row in range(1, rows + 1) for line in lines_of(row)] + [b'']
    if status != 0 or lines != want:
        right = sum(a == b for a, b in zip(lines, want))
        print('status %d, %d lines of %d as they must be' % (status, right, len(want)))
        return 1
    print('%d rows in %.3f s: %d rows a second, %d KiB at most' % (rows, seconds, rows / seconds, memory))
    return 0


sys.exit(main(sys.argv[1:]))
