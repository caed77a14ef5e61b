#!/usr/bin/env python3
"""lawful_books.py [--scripts N] [--first SEED] [SNG]

Lets the second reader of lawful.py judge books: each of N (300) random scripts, those of random_scripts.py
from SEED (0) on, as SNG plays it, has to be lawful, and so has what the scripts of tests/scripts and
full_places.py are to print. Then 240 of these books are changed (changed_books.py): each has to be refused,
at just the line that was changed, and so has some book of each of wrong_gateways.py. If no SNG is given, the
proved program plays where it lies in crates/sng/out and is newer than every source, and else the model of
gateway_model.py does. What fails is printed with its seed, and the exit status is 1.
"""
import argparse
import sys

sys.dont_write_bytecode = True
import changed_books
import end_to_end
import gateway_model
import lawful
import random_scripts
import wrong_gateways

SCRIPTS, CHANGES = 300, 240
KINDS = {changed_books.UNLIKE: lawful.OTHER, changed_books.CUT: lawful.CUT, changed_books.ON: lawful.ON}


def is_refused(changed):
    """Whether a changed book is refused at the line that was changed, and as what it is."""
    judged = lawful.judged(changed.script, changed.book)
    return (judged.unlawful is not None and judged.line == changed.place.line
            and judged.kind == KINDS[changed.place.kind])


def books_of(program, given):
    """Each random script with what is printed for it."""
    seeds = range(given.first, given.first + given.scripts)
    scripts = [(seed, random_scripts.script(seed)) for seed in seeds]
    texts = [text for _, text in scripts]
    answers = random_scripts.by_program(program, texts) if program else map(gateway_model.play, texts)
    return [(seed, text, printed) for (seed, text), (_, printed) in zip(scripts, answers)]


def written_books():
    """The scripts of tests/scripts and full_places.py with what they are to print."""
    for case in end_to_end.scripts():
        if len(case.given) < random_scripts.MOST_PRINTED:
            yield case.name, case.given, case.expected


def refusal(wrong, scripts):
    """How the first book of a wrong gateway is refused, if one is."""
    for script in scripts:
        judged = lawful.judged(script, gateway_model.play(script, wrong())[1])
        if judged.unlawful is not None:
            return judged
    return None


def read_arguments():
    reader = argparse.ArgumentParser(description='Lets the second reader judge books.')
    reader.add_argument('program', metavar='SNG', nargs='?')
    reader.add_argument('--scripts', type=int, default=SCRIPTS)
    reader.add_argument('--first', type=int, default=0)
    return reader.parse_args()


def main():
    given = read_arguments()
    program = given.program or (end_to_end.PROVED if end_to_end.is_current() else None)
    print('books, by', program or 'the model', flush=True)
    passed = failed = 0
    books = books_of(program, given)
    for name, script, printed in books + list(written_books()):
        judged = lawful.judged(script, printed)
        passed, failed = passed + (judged.unlawful is None), failed + (judged.unlawful is not None)
        if judged.unlawful is not None:
            print('%s is refused: %s' % (name, judged))
    for changed in changed_books.changed_books(books, CHANGES):
        refused = is_refused(changed)
        passed, failed = passed + refused, failed + (not refused)
        if not refused:
            judged = lawful.judged(changed.script, changed.book)
            print('%s with %s, %s: %s' % (changed.whose, changed.how, changed.place, judged))
    for wrong in wrong_gateways.WRONG:
        found = refusal(wrong, [script for _, script, _ in books])
        passed, failed = passed + (found is not None), failed + (found is None)
        if found is None:
            print('no book of a wrong gateway is refused: ' + wrong.__name__)
    print('%d passed, %d failed' % (passed, failed))
    return 1 if failed else 0


if __name__ == '__main__':
    sys.exit(main())
