#!/usr/bin/env python3
"""desk.py [BENCH]

Measures what a row of the audit book takes and what an act costs, beside the bare step. BENCH is the proved
program of bench/desk.rt.in; where none is given, laid.py has it made.

A hundred publishes of a source at QoS -1, each with a payload of 32 octets, and a take make 101 rows: each
publish one with a note, the take one with a note and a packet for each. Prints what a row costs in processor
time and by the clock: of the core alone, of a desk in one thread, and of four threads that share a desk. Then
what a cut takes of a desk with 256 clients that are asleep, each with 32 subscriptions and 20 messages that
wait, and what such a desk's rows cost without cuts and with one each 4,096 rows. Then the bytes of memory that the book keeps for a row, with all that the row holds: of a publish that is denied,
and for each publish that is allowed, with its share of the take. Each time is the best of several runs that
take turns. Fails where a job lets out another number of outs."""
import os
import subprocess
import sys
import time

import laid

NAME = 'desk_bench'
FILES = {'src/main.rt': 'desk.rt', 'proofs/fn/four/scope/Answers.antt': 'desk.antt'}
LIBRARIES = 'sng_text mqtt_frames sng_grants sng_book sng_core sng_desk'
TIMES = 404_000
RUNS = 5
CUTS = 200
HELD = 256 * (32 + 20)
JOBS = [('bare', 'the core alone'), ('alone', 'a desk, one thread'), ('four', 'a desk, four threads')]


def run(bench, job, times):
    """Processor seconds, seconds by the clock, the greatest memory in bytes, and how many outs there were."""
    begun = time.perf_counter()
    process = subprocess.Popen([bench, job, str(times)], stdout=subprocess.PIPE, text=True)
    outs = int(process.stdout.read())
    _, status, used = os.wait4(process.pid, 0)
    if status:
        raise SystemExit('%s failed' % job)
    return used.ru_utime + used.ru_stime, time.perf_counter() - begun, used.ru_maxrss * 1024, outs


def measure(bench):
    best = {}
    for _ in range(RUNS):
        for job, _title in JOBS:
            seconds, clock, _, outs = run(bench, job, TIMES)
            if outs != TIMES // 101 * 300:
                raise SystemExit('%s let out %d outs' % (job, outs))
            old = best.get(job, (seconds, clock))
            best[job] = min(old[0], seconds), min(old[1], clock)
    for job, title in JOBS:
        seconds, clock = (least / TIMES * 1e9 for least in best[job])
        print('%-20s %6.0f ns a row, by the clock %6.0f' % (title, seconds, clock))
    print('a cut of 256 clients with 32 subscriptions and 20 messages each takes %.2f ms' % (cut(bench) * 1e3))
    for job, title in (('filled', 'with all these clients'), ('cutting', 'the same, with cuts')):
        took = least(bench, job, TIMES) - least(bench, job, 0)
        print('%-24s %6.0f ns a row: %.0f rows a second' % (title, took / TIMES * 1e9, TIMES / took))
    print('the row of a denied publish keeps %.0f bytes' % kept(bench, 'denied', TIMES))
    print('a publish that is allowed, all told, %.0f bytes' % (kept(bench, 'alone', TIMES) * 1.01))


def least(bench, job, times):
    """The least processor time of several runs, in seconds."""
    return min(run(bench, job, times)[0] for _ in range(RUNS))


def cut(bench):
    """What a cut takes, in seconds: what as many cuts more take."""
    if run(bench, 'cuts', 0)[3] != HELD:
        raise SystemExit('not all subscriptions stand, or not all messages wait')
    return (least(bench, 'cuts', 2 * CUTS) - least(bench, 'cuts', CUTS)) / CUTS


def kept(bench, job, times):
    """The bytes that a row keeps: what twice as many rows take more, by the greatest memory of a run."""
    return (run(bench, job, times)[2] - run(bench, job, times // 2)[2]) / (times - times // 2)


def main():
    if len(sys.argv) > 1:
        measure(os.path.abspath(sys.argv[1]))
        return
    with laid.program(NAME, LIBRARIES, FILES) as bench:
        measure(bench)


if __name__ == '__main__':
    main()
