#!/usr/bin/env python3
"""memory_errors.py [--lines]

No contract excludes a false want of memory: a body may answer that an allocation failed although none did.
So each line of the sources that makes such an error itself stands in memory_errors.table, with the reason why
memory is really wanting there, and this script finds these lines by reading crates/*/src and compares: a line
that is not listed fails, and a listed one that is gone. With --lines it prints what it finds.

A line makes the error where it names the value `AllocError`, a variant `..::Memory` or `..::OutOfMemory`, or
calls `out_of_memory(..)`. It does not where the name is a type, a pattern or what is compared with, or stands
in a contract, and where an arm on the same line has taken just this error from a callee, as in
`Err(X::Memory) => Err(AllocError)`. What `?` passes on is the callee's. Not seen: a want of memory that is
told by a bool or by `None`.
"""
import collections
import glob
import os
import re
import sys

HERE = os.path.dirname(os.path.abspath(__file__))
CRATES = os.path.join(os.path.dirname(HERE), 'crates')
NAME = re.compile(r'\bAllocError\b|::(?:Memory|OutOfMemory)\b|(?<!fn )\bout_of_memory\b')
# A name that is a type: a parameter of one, or what is behind a colon.
TYPE = re.compile(r'<AllocError>|, AllocError>|<AllocError,|: AllocError\b|-> AllocError\b|dyn AllocError\b')
CONTRACT = re.compile(r'\s*(ghost |ensures |requires |invariant |→ |//)')
IMPORT = re.compile(r'\s*(pub(\(crate\))? )?use ')
# An import by which the error gets a name that this script does not know.
RENAMED = re.compile(r'\bAllocError as\b|[:{ ](Memory|OutOfMemory)\b')
# An arm that has taken the error from a callee, and nothing else
TAKEN = re.compile(r'\s*(Err\()?(\w+::)?(AllocError|Memory|OutOfMemory)\)?\s*')
FUNCTION = re.compile(r'\bfn (\w+)')
TEXT = re.compile(r'"(\\.|[^"\\])*"')

# Where a line stands: its file below crates, its function, and its text
Line = collections.namedtuple('Line', 'path function text')


def makes(line):
    """Whether the line makes an error of memory itself."""
    line = TEXT.sub('""', line).split('//')[0]
    if CONTRACT.match(line):
        return False
    if IMPORT.match(line):
        return bool(RENAMED.search(line))
    pattern, arrow, value = line.rpartition('=>')
    if arrow:
        return bool(NAME.search(value)) and not TAKEN.fullmatch(pattern)
    if line.lstrip().startswith('| '):
        return False
    return bool(NAME.search(re.sub(r'[!=]= \w+::\w+', '', TYPE.sub('', line))))


def made_in(path):
    """The lines of a file that make the error, each with the function that it stands in."""
    function = '-'
    with open(path, encoding='utf-8') as file:
        for line in file:
            named = FUNCTION.search(line)
            if named and not CONTRACT.match(line):
                function = named[1]
            if makes(line):
                yield Line(os.path.relpath(path, CRATES), function, line.strip())


def made():
    for path in sorted(glob.glob(os.path.join(CRATES, '*', 'src', '**', '*.rt'), recursive=True)):
        yield from made_in(path)


def listed():
    """The lines of the table. Each has a reason."""
    with open(os.path.join(HERE, 'memory_errors.table'), encoding='utf-8') as file:
        for row in file:
            if row.strip() and not row.startswith('#'):
                where, reason, text = [part.strip() for part in row.split('|', 2)]
                if not reason:
                    raise SystemExit('memory_errors.table: no reason: ' + row.strip())
                yield Line(*where.split(), text)


def main():
    if sys.argv[1:] == ['--lines']:
        for line in made():
            print('%s %s |  | %s' % line)
        return 0
    found, known = collections.Counter(made()), collections.Counter(listed())
    for line in (found - known).elements():
        print('not in memory_errors.table: crates/%s, %s: %s' % line)
    for line in (known - found).elements():
        print('no longer in crates/%s, %s: %s' % line)
    good = sum((found & known).values())
    failed = sum((found - known).values()) + sum((known - found).values())
    print('%d passed, %d failed' % (good, failed))
    return 1 if failed or not good else 0


if __name__ == '__main__':
    sys.exit(main())
