#!/usr/bin/env python3
"""gate_times.py [--write] [COMMAND ..]

Runs `rt ci`, or the command, which prints what it prints, and then a table of the processor seconds that each
crate took: its proof, the proof of its tests, and its must-fail edits. It looks at the processes below it once
a second, so a figure is a second low for each check. The table is left as sng-gate-times.md in the folder for
temporary files, too; with --write it takes the place of the one in CONTRIBUTING.md. Figures count where nothing
else runs. Exit status: that of the command.
"""
import collections
import os
import re
import subprocess
import sys
import tempfile
import time

ROOT = os.path.join(os.path.dirname(os.path.abspath(__file__)), '..')
TICKS = os.sysconf('SC_CLK_TCK')
KINDS = ('proof', 'tests', 'edits')
# A check that runs: the process, its parent, the crate, what of it is checked, and the seconds that it and its
# children that have ended took
Check = collections.namedtuple('Check', 'process parent crate kind seconds')


def numbers_of(process):
    """What the system tells of a process: its parent, and what it used."""
    with open('/proc/%s/stat' % process) as file:
        return file.read().rsplit(')', 1)[1].split()


def is_below(process, root):
    """Whether a process was begun by another one, or by one that this one began."""
    while process not in ('0', root):
        process = numbers_of(process)[1]
    return process == root


def check_of(process, root):
    """The check that a process is, where it is one below the root."""
    with open('/proc/%s/cmdline' % process) as file:
        words = file.read().split('\0')
    if not words[0].endswith('/rattle') or '--crate-name' not in words or not is_below(process, root):
        return None
    numbers = numbers_of(process)
    folder = os.readlink('/proc/%s/cwd' % process)
    kind = 'edits' if 'rt-edit' in folder else 'tests' if '--test' in words else 'proof'
    crate = words[words.index('--crate-name') + 1]
    return Check(process, numbers[1], crate, kind, sum(map(int, numbers[11:15])) / TICKS)


def checks(root):
    """The checks below the root that run now, without those that a check has forked: it counts them itself as
    they end."""
    found = {}
    for process in filter(str.isdigit, os.listdir('/proc')):
        try:
            check = check_of(process, root)
        except (OSError, IndexError, ValueError):
            continue
        if check:
            found[process] = check
    return [check for check in found.values() if check.parent not in found]


def watched(command):
    """The status of the command, and the seconds of each check by its process, crate and kind."""
    seconds = {}
    running = subprocess.Popen(command)
    while True:
        for check in checks(str(running.pid)):
            seconds[check.process, check.crate, check.kind] = check.seconds
        try:
            return running.wait(timeout=1), seconds
        except subprocess.TimeoutExpired:
            pass


def table(seconds, clock):
    """The lines of the table, the dearest crate first."""
    sums = collections.Counter()
    for (_, crate, kind), used in seconds.items():
        sums[crate, kind] += used
    crates = {crate: sum(sums[crate, kind] for kind in KINDS) for crate, _ in sums}
    yield '| Crate | Proof | Tests | Edits |'
    yield '|---|---|---|---|'
    for crate in sorted(crates, key=lambda it: -crates[it]):
        yield '| `%s` | %d | %d | %d |' % ((crate,) + tuple(round(sums[crate, kind]) for kind in KINDS))
    whole = [sum(sums[crate, kind] for crate in crates) for kind in KINDS]
    yield '| all | %d | %d | %d |' % tuple(map(round, whole))
    yield ''
    yield 'Together %d processor minutes, %d by the clock.' % (sum(whole) / 60, clock / 60)


def write(lines):
    """Puts the table into CONTRIBUTING.md."""
    path = os.path.join(ROOT, 'CONTRIBUTING.md')
    with open(path, encoding='utf-8') as file:
        text = file.read()
    between = re.compile(r'(<!-- gate-times: begin -->\n).*?(<!-- gate-times: end -->)', re.DOTALL)
    with open(path, 'w', encoding='utf-8') as file:
        file.write(between.sub(lambda it: it[1] + '\n'.join(lines) + '\n' + it[2], text))


def main():
    words = sys.argv[1:]
    writes = words[:1] == ['--write']
    command = words[writes:] or ['rt', 'ci']
    began = time.monotonic()
    status, seconds = watched(command)
    lines = list(table(seconds, time.monotonic() - began))
    print('\n'.join(lines), flush=True)
    with open(os.path.join(tempfile.gettempdir(), 'sng-gate-times.md'), 'w', encoding='utf-8') as file:
        file.write('\n'.join(lines) + '\n')
    if writes:
        write(lines)
    return status


if __name__ == '__main__':
    sys.exit(main())
