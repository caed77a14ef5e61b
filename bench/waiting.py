#!/usr/bin/env python3
"""waiting.py [SNG]

Measures the memory of payloads that wait, through SNG (if none is given, the build that `rt run` leaves in
crates/sng/out/sng): 256 clients fall asleep, and 64 messages of 1,024 octets at QoS 0 come to wait for each.
Prints by how much the most memory that the program held exceeds that of the same script without the messages,
and of the same script with messages of one octet. The C library fills all memory that it gives out, so the
room of the queues is in memory before the messages come. Fails where the program refuses a line, or a message does
not wait for each."""
import os
import subprocess
import sys
import time

from sleepers import CLIENTS, QUEUED, client, front, said

HERE = os.path.dirname(os.path.abspath(__file__))
OCTETS = 1024
QUIET = 0.3
SECONDS = 120


def message(octets):
    """The line of a PUBLISH of the broker under `ab` with so many octets."""
    rest = 4 + octets
    length = bytes([rest]) if rest < 128 else bytes([rest % 128 + 128, rest // 128])
    return 'broker ' + (b'\x30' + length + b'\x00\x02ab' + b'x' * octets).hex()


def spent(process):
    """The processor time that the process took, in ticks of the clock."""
    with open('/proc/%d/stat' % process.pid) as stat:
        words = stat.read().rsplit(')', 1)[1].split()
    return int(words[11]) + int(words[12])


def peak(process):
    """The most memory in KiB that the process has held."""
    with open('/proc/%d/status' % process.pid) as status:
        return max(int(line.split()[1]) for line in status if line.startswith('VmHWM:'))


def memory_of(program, lines, woken):
    """The most memory in KiB once all lines are played and nothing is done any more. The clients wake up then,
    and so many messages must be handed over."""
    text = '\n'.join(said(number, b'\x16' + client(number)) for number in range(CLIENTS)) + '\n'
    filled = dict(os.environ, MALLOC_PERTURB_='85')
    with subprocess.Popen([program, 'play'], stdin=subprocess.PIPE, stdout=subprocess.PIPE, env=filled) as process:
        process.stdin.write(('\n'.join(lines) + '\n').encode())
        process.stdin.flush()
        start, before = time.monotonic(), -1
        while before != spent(process):
            if time.monotonic() - start > SECONDS:
                process.kill()
            before = spent(process)
            time.sleep(QUIET)
        memory = peak(process)
        printed, _ = process.communicate(text.encode())
        if process.returncode != 0 or printed.count(b'note hand ') != woken:
            raise SystemExit('status %d, %d messages handed over' % (process.returncode, printed.count(b'note hand ')))
    return memory


def main(argv):
    program = argv[0] if argv else os.path.join(HERE, '..', 'crates', 'sng', 'out', 'sng')
    asleep = front(CLIENTS) + [said(number, b'\x18\x0e\x10') for number in range(CLIENTS)]
    none = memory_of(program, asleep, 0)
    short = memory_of(program, asleep + [message(1)] * QUEUED, CLIENTS * QUEUED)
    long = memory_of(program, asleep + [message(OCTETS)] * QUEUED, CLIENTS * QUEUED)
    print('%d messages that wait for %d clients: %.2f MiB more where each has %d octets than with none, and %.2f MiB '
          'more than where each has one' % (QUEUED, CLIENTS, (long - none) / 1024, OCTETS, (long - short) / 1024))
    return 0


if __name__ == '__main__':
    sys.exit(main(sys.argv[1:]))
