#!/usr/bin/env python3
"""plain.py [--instructions | --runs N] [SNG]

Plays the same scripts through SNG (if none is given, the build that `rt run` leaves in crates/sng/out/sng) and
through a plain gateway (plain.rs, built on the spot by `rustc -O`), which decides by the same rules and prints
the same text, and is not proved: publishes at QoS -1; publishes at QoS 1 with their acknowledgements; messages
of the broker to 256 clients; and 256 sleeping clients for each of which 64 messages come to wait, and which
then wake up in turn. Prints for each how many rows a second both make, or for messages to clients how many
outs, and how the rates compare. Each figure is processor time, that of the middle of five runs, or of N with
--runs, in which the two take turns. Fails where they print different texts. With --instructions it counts by
valgrind's callgrind what one run of each takes, which other work on the machine does not change."""
import os
import re
import resource
import shutil
import subprocess
import sys
import tempfile

import fan_out
import publishes
import sleepers
from publishes import HERE

RUNS = 5
SECONDS = 600
# A run of 200,000 publishes is over in 90 ms
PUBLISHES = 1_000_000
MESSAGES = 10_000
NIGHTS = 100
# The same in short, since callgrind is some fifty times slower
FEW_PUBLISHES, FEW_MESSAGES, FEW_NIGHTS = 20_000, 100, 2


def nights(count):
    """The clients fall asleep once, and then wake up again and again, each time to a full queue."""
    asleep = sleepers.asleep()
    coming = asleep[-sleepers.QUEUED:]
    waking = [sleepers.said(number, b'\x16' + sleepers.client(number)) for number in range(sleepers.CLIENTS)]
    return asleep[:-sleepers.QUEUED] + (coming + waking) * count


def scripts(number, messages, count):
    """Of each script its name, what is counted, its text, and how many of that it makes."""
    at_minus, at_one = publishes.KINDS[0], publishes.KINDS[-1]
    lines = lambda given: ''.join(line + '\n' for line in given).encode()
    fan = lines(fan_out.front('take') + [fan_out.delivered(b'ab')] * messages)
    yield 'QoS -1', 'rows', publishes.script(at_minus, number), number + number // 100
    yield 'QoS 1', 'rows', publishes.script(at_one, number), 2 * number + number // 100
    yield 'messages to 256 clients', 'outs', fan, 2 * fan_out.CLIENTS * messages
    yield 'sleepers', 'outs', lines(nights(count)), count * sleepers.CLIENTS * (2 * sleepers.QUEUED + 1)


def processor_seconds(words, given):
    given.seek(0)
    before = resource.getrusage(resource.RUSAGE_CHILDREN)
    subprocess.run(words, check=True, stdin=given, stdout=subprocess.DEVNULL, timeout=SECONDS)
    after = resource.getrusage(resource.RUSAGE_CHILDREN)
    return after.ru_utime - before.ru_utime + after.ru_stime - before.ru_stime


def instructions(words, given):
    given.seek(0)
    with tempfile.TemporaryDirectory() as folder:
        tool = ['valgrind', '--tool=callgrind', '--callgrind-out-file=' + os.path.join(folder, 'out')]
        done = subprocess.run(tool + words, check=True, stdin=given, stdout=subprocess.DEVNULL,
                              stderr=subprocess.PIPE, text=True, timeout=SECONDS)
    return int(re.search(r'Collected : (\d+)', done.stderr)[1])


def are_same(programs, given):
    """Whether the programs print the same text, which is not empty."""
    printed = []
    for words in programs:
        given.seek(0)
        printed.append(subprocess.run(words, check=True, stdin=given, stdout=subprocess.PIPE,
                                      timeout=SECONDS).stdout)
    return printed[0] == printed[1] != b''


def measure(programs, name, what, text, count, counts_instructions, runs):
    with tempfile.TemporaryFile() as given:
        given.write(text)
        if not are_same(programs, given):
            print('other texts are printed: ' + name)
            return False
        if counts_instructions:
            sng, plain = (instructions(words, given) / count for words in programs)
            print('%-24s sng %7.0f, plain %7.0f instructions for one of the %s, x %.2f'
                  % (name, sng, plain, what, plain / sng), flush=True)
            return True
        turns = [[processor_seconds(words, given) for words in programs] for _ in range(runs)]
    sng, plain = (count / sorted(of_one)[runs // 2] for of_one in zip(*turns))
    print('%-24s sng %9.0f, plain %9.0f %s a second, x %.2f' % (name, sng, plain, what, sng / plain), flush=True)
    return True


def main(arguments):
    counts_instructions = arguments[:1] == ['--instructions']
    arguments = arguments[counts_instructions:]
    runs = RUNS
    if arguments[:1] == ['--runs']:
        if not arguments[1:] or not arguments[1].isdigit() or int(arguments[1]) == 0:
            print('--runs wants a number of runs, 1 or more')
            return 2
        runs, arguments = int(arguments[1]), arguments[2:]
    sng = arguments[0] if arguments else os.path.join(HERE, '..', 'crates', 'sng', 'out', 'sng')
    if shutil.which('rustc') is None:
        print('no rustc: there is no plain gateway')
        return 1
    sizes = (FEW_PUBLISHES, FEW_MESSAGES, FEW_NIGHTS) if counts_instructions else (PUBLISHES, MESSAGES, NIGHTS)
    with tempfile.TemporaryDirectory() as folder:
        built = os.path.join(folder, 'plain')
        source = os.path.join(HERE, 'plain.rs')
        subprocess.run(['rustc', '--edition', '2021', '-O', '-o', built, source], check=True, timeout=SECONDS)
        return 0 if all([measure(([sng, 'play'], [built]), *script, counts_instructions, runs)
                         for script in scripts(*sizes)]) else 1


if __name__ == '__main__':
    sys.exit(main(sys.argv[1:]))
