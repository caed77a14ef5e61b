#!/usr/bin/env python3
"""speed.py [BENCH]

Runs each job of BENCH, the proved program of bench/jobs (where none is given, laid.py has it made), and prints
what it costs: answers on inclusion and of policies, a policy's text read (beside Python's json.loads of the
same text), frames read and written, and a stream taken in pieces. Each figure is processor time, the best of
several runs. Fails where a job fails."""
import json
import resource
import subprocess
import sys
import time

import laid

NAME = 'jobs_bench'
FILES = {'src/%s.rt' % name: 'jobs/%s.rt' % name for name in ('main', 'jobs', 'holding', 'judging', 'policies')}
LIBRARIES = 'sng_text sng_standing sng_cover sng_grants sng_scope sng_policy sng_frames mqtt_frames'
JOBS = [
    ('cover-deep', 20_000, 'a filter of 100 levels against 64 of 100 levels'),
    ('cover-all', 20_000, '`#` against 64 of 100 levels'),
    ('cover-short', 200_000, '`+/#` against 64 short filters'),
    ('may-publish', 200_000, 'may_publish, denied by 64 pairs'),
    ('source-may-publish', 200_000, 'source_may_publish, denied by 64 pairs'),
    ('may-receive', 200_000, 'may_receive, denied by 64 pairs'),
    ('may-subscribe', 200_000, 'may_subscribe, uncovered by 64 pairs'),
    ('read-policy', 20, 'read_policy of 256 clients with 64 pairs each'),
    ('judge-own', 200, '256 clients x 31 filters, each granted by its own text'),
    ('judge-granted', 40, '256 clients x 31 filters, each granted by a pair'),
    ('judge-denied', 40, '256 clients x 31 filters, each uncovered'),
    ('same-scope', 2000, 'the scopes of 256 clients under two policies'),
    ('holders-none', 200_000, 'a name that none of 8,192 filters matches'),
    ('holders-one', 200_000, 'a name that one of 8,192 filters matches'),
    ('holders-256', 2_000, 'a name that a filter of 256 clients matches'),
    ('holders-4096', 100, 'a name that a filter of 4,096 clients matches'),
    ('holders-chain', 20_000, 'a name of 100 levels, along 8,192 filters that leave it on the way'),
    ('holders-wildcards', 20_000, 'a name of 40 levels, by 256 clients with 32 filters of `+` each'),
    ('decode', 5_000_000, 'read a small PUBLISH'),
    ('encode', 5_000_000, 'write a small PUBLISH'),
]

# a stream of so many bytes, taken so many times over
STREAMS = [
    ('feed-small-1', 100, 4096 * 33, 'packets of 33 bytes in pieces of 1 byte'),
    ('feed-small', 1_000, 4096 * 33, 'packets of 33 bytes in pieces of 4,096'),
    ('feed-medium', 5_000, 128 * 1027, 'packets of 1,027 bytes in pieces of 4,096'),
    ('feed-large', 5_000, 4 * 65_003, 'packets of 65,003 bytes in pieces of 4,096'),
    ('feed-subscribe', 200, 70_000, 'a SUBSCRIBE of 70,000 bytes in pieces of 4,096'),
]


RUNS = 5


def least(measure):
    """The least of several runs, since other work on the machine only adds to it."""
    return min(measure() for _ in range(RUNS))


def processor_seconds(words):
    """The processor time of one run."""
    before = resource.getrusage(resource.RUSAGE_CHILDREN)
    subprocess.run(words, check=True, stdout=subprocess.DEVNULL, timeout=120)
    after = resource.getrusage(resource.RUSAGE_CHILDREN)
    return after.ru_utime - before.ru_utime + after.ru_stime - before.ru_stime


def work_seconds(bench, job, times):
    """What the job takes beyond making its inputs, which it does once."""
    whole = least(lambda: processor_seconds([bench, job, str(times)]))
    return whole - least(lambda: processor_seconds([bench, job, '0']))


def policy_text():
    """The text that the job `read-policy` reads."""
    pair = '["plant/a%d/d%d/+",["pub","sub"]]'
    clients = ','.join(
        '"c%d":[%s]' % (client, ','.join(pair % (client, number) for number in range(64)))
        for client in range(256))
    return '{"version":1,"clients":{%s}}' % clients


def same_text(bench, text):
    """Whether the job reads a text of that size: its sum is of the text's bytes and the clients."""
    ran = subprocess.run([bench, 'read-policy', '1'], check=True, stdout=subprocess.PIPE, timeout=120)
    return int(ran.stdout) == len(text) + 256


def json_seconds(text):
    start = time.process_time()
    json.loads(text)
    return time.process_time() - start


def measure(bench):
    for job, times, what in JOBS:
        took = work_seconds(bench, job, times)
        print('%-50s %8.0f ns each, %10.0f a second' % (what, took / times * 1e9, times / took))
    text = policy_text()
    if not same_text(bench, text):
        raise SystemExit('the job read-policy reads another text')
    took = least(lambda: json_seconds(text))
    what = "Python's json.loads of the same text"
    print('%-50s %8.0f ns each, of %d bytes' % (what, took * 1e9, len(text)))
    for job, times, size, what in STREAMS:
        took = work_seconds(bench, job, times)
        print('%-50s %8.1f megabytes a second' % (what, size * times / took / 1e6))


def main(arguments):
    if arguments:
        measure(arguments[0])
        return
    with laid.program(NAME, LIBRARIES, FILES) as bench:
        measure(bench)


if __name__ == '__main__':
    main(sys.argv[1:])
