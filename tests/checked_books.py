#!/usr/bin/env python3
"""checked_books.py [--scripts N] [--first SEED] [SNG]

Lets `sng check` judge books: what `sng play` prints for each of N (2,000) random scripts of 400 lines, those
of random_scripts.py from SEED (1,000,000) on, has to be lawful, with its number of rows. Then 200 of these
books are changed (changed_books.py): each has to be refused by `sng check` at just that row and line, with
what stands there and what should, and by the second reader of lawful.py. If no SNG is given, it is the proved
program, which has to lie in crates/sng/out then and to be newer than every source. As many run at once as
there are processors. What fails is printed with its seed, and the exit status is 1.
"""
import argparse
import contextlib
import functools
import multiprocessing
import os
import subprocess
import sys
import tempfile

sys.dont_write_bytecode = True
import changed_books
import end_to_end
import lawful_books
import random_scripts

SCRIPTS, FIRST, LINES, CHANGES = 2000, 1_000_000, 400, 200
# Of so many scripts the book of one may be changed
KEPT = 10


# What `sng check` has to answer (docs/running.md)


def shown(line):
    return ''.join(chr(octet) if 32 <= octet <= 126 else '%%%02X' % octet for octet in line)


def refusal(place):
    """What it prints for a book that is not lawful from this place on."""
    lines = ['row %d, line %d: %s' % (place.row, place.line, place.kind)]
    if place.stands is not None:
        lines.append('stands: ' + shown(place.stands))
    if place.should is not None:
        lines.append('should: ' + shown(place.should))
    return ''.join(line + '\n' for line in lines).encode()


def acceptance(book):
    return b'lawful %d rows\n' % sum(line.startswith(b'row ') for line in changed_books.lines_of(book))


# Running it


def check(program, script, book):
    """The exit status of `sng check`, and what it prints; no status where it hangs."""
    with tempfile.NamedTemporaryFile() as file:
        file.write(script)
        file.flush()
        try:
            done = subprocess.run([program, 'check', file.name], input=book, stdout=subprocess.PIPE,
                                  stderr=subprocess.STDOUT, timeout=random_scripts.SECONDS)
        except subprocess.TimeoutExpired:
            return None, b''
    return done.returncode, done.stdout


def unlike(found, wanted):
    """How an answer differs from the wanted one; nothing where it does not."""
    if found == wanted:
        return ''
    return '  found  %s %s\n  wanted %s %s\n' % tuple(repr(part)[:1000] for part in (*found, *wanted))


def judge_lawful(program, seed):
    """Plays a random script; the script, its book, and how the answer of `sng check` differs, if it does."""
    script = random_scripts.script_of_lines(seed, LINES)
    [(status, book)] = random_scripts.by_program(program, [script])
    if status not in (0, 1):
        return seed, script, book, '  sng play ended with status %s\n' % status
    return seed, script, book, unlike(check(program, script, book), (0, acceptance(book)))


def judge_changed(program, changed):
    """How the answers of `sng check` and of the second reader differ from the wanted ones, if they do."""
    fault = unlike(check(program, changed.script, changed.book), (1, refusal(changed.place)))
    if not lawful_books.is_refused(changed):
        fault += '  lawful.py does not refuse it there\n'
    return changed, fault


def read_arguments():
    reader = argparse.ArgumentParser(description='Lets `sng check` judge books.')
    reader.add_argument('program', metavar='SNG', nargs='?')
    reader.add_argument('--scripts', type=int, default=SCRIPTS)
    reader.add_argument('--first', type=int, default=FIRST)
    return reader.parse_args()


def results(program, seeds):
    """For each book its name, and what is wrong with the answers about it."""
    books = []
    with contextlib.closing(multiprocessing.Pool(len(os.sched_getaffinity(0)))) as pool:
        judge = functools.partial(judge_lawful, program)
        for seed, script, book, fault in pool.imap(judge, seeds, chunksize=10):
            if seed % KEPT == 0:
                books.append((seed, script, book))
            yield 'seed %d' % seed, fault
        judge = functools.partial(judge_changed, program)
        for changed, fault in pool.imap(judge, changed_books.changed_books(books, CHANGES)):
            yield 'seed %d with %s, %s' % (changed.whose, changed.how, changed.place), fault


def main():
    given = read_arguments()
    program = given.program or (end_to_end.PROVED if end_to_end.is_current() else None)
    if program is None:
        print('no book is checked: the proved program is not there, or a source is newer')
        return 1
    print('checked books, by', program, flush=True)
    passed = failed = 0
    for name, fault in results(os.path.abspath(program), range(given.first, given.first + given.scripts)):
        passed, failed = passed + (not fault), failed + bool(fault)
        if fault:
            print('%s:\n%s' % (name, fault), end='', flush=True)
    print('%d passed, %d failed' % (passed, failed))
    return 1 if failed else 0


if __name__ == '__main__':
    sys.exit(main())
