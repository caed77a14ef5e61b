#!/usr/bin/env python3
"""refused_memory.py [NAME ..]

Refuses allocations of the tests of public calls, by tests/calls.py: of every test the N-th, for N from 1 on,
until two turns in a row refuse none or TURNS are made. A test that meets the refusal has to end with an error
of memory, or at a comparison whose left side is one; where it ends otherwise, what is said of it is printed,
and the exit status is 1.

NAMEs are those of the files in tests/calls; without any it takes them all, in one build a turn, but those of
WORKING: there a worker meets the refusal, and goes on without what it wanted. A turn takes half a minute for
one file and some two minutes for all, so the gate leaves this out."""
import re
import sys

sys.dont_write_bytecode = True
import calls

TURNS = 120
WORKING = ('sng_serve', 'sng_crew_sends')
OF_MEMORY = re.compile(r'(error: |left: Err\()(AllocError|AllocFailed \{.*\}|OutOfMemory|(\w+::)?Memory)\)?$')


def turn(names, number):
    """The tests that failed where their allocation of this number was refused, with what is said of each."""
    _, printed = calls.run(names, ['--fail-alloc', str(number)])
    if 'test result:' not in printed:
        raise SystemExit('the tests were not run\n' + printed[-2000:])
    failed, name = {}, None
    for line in printed.splitlines():
        found = re.match(r'test (\S+) \.\.\. (\w+)', line)
        if found:
            name = found[1] if found[2] == 'FAILED' else None
            if name:
                failed[name] = []
        elif name:
            failed[name].append(line.strip())
    return failed


def refuse(names):
    """Whether every refusal was reported as one of memory."""
    is_right, quiet = True, 0
    for number in range(1, TURNS + 1):
        failed = turn(names, number)
        wrong = {name: said for name, said in failed.items() if not any(map(OF_MEMORY.match, said))}
        print('allocation %d: %d tests met the refusal' % (number, len(failed)), flush=True)
        for name, said in wrong.items():
            print('  %s: %s' % (name, ' '.join(said)), flush=True)
        is_right = is_right and not wrong
        quiet = 0 if failed else quiet + 1
        if quiet == 2:
            print('no test has so many allocations')
            return is_right
    print('stopped after %d turns' % TURNS)
    return is_right


def main():
    names = sys.argv[1:] or [name for name in calls.files([]) if name not in WORKING]
    return 0 if refuse(names) else 1


if __name__ == '__main__':
    sys.exit(main())
