#!/usr/bin/env python3
"""lawful.py SCRIPT BOOK

Judges a script and its book, all that `sng play` prints for it, by the laws of docs/model.md alone: row by
row, looking back through the rows, as a second reader beside the program and beside the model of
gateway_model.py.

`lawful N rows` is printed, with status 0, where all of the book is lawful. Else it is the first line that
is not, with what stands there, what is due, and the law that is broken, with status 1; and so it is where
the book is cut off, or goes on behind its end. Each row looks back through all rows before it, with memory of
what was found there.
"""
import sys

sys.dont_write_bytecode = True
from laws.book import Book, Unlawful
from laws.rows import judge

CUT, ON, OTHER = 'the book is cut off', 'the book goes on', 'not lawful'
MOST_SHOWN = 300


class Judged:
    """What a reader says of a book."""

    def __init__(self, book, unlawful):
        self.book, self.unlawful = book, unlawful
        self.line = book.next + 1

    @property
    def kind(self):
        if self.unlawful.stands is None:
            return CUT
        return ON if self.book.is_ended else OTHER

    def __str__(self):
        if self.unlawful is None:
            return 'lawful %d rows' % self.book.rows
        lines = ['line %d, row %d: %s' % (self.line, self.book.rows, self.kind)]
        if self.unlawful.stands is not None:
            lines.append('  stands ' + short(self.unlawful.stands))
        if self.unlawful.due is not None:
            lines.append('  due    ' + short(self.unlawful.due))
        return '\n'.join(lines + ['  law    ' + self.unlawful.law])


def short(line):
    return line if len(line) <= MOST_SHOWN else line[:MOST_SHOWN] + '..'


def judged(script, printed):
    book, found = Book(printed), None
    try:
        judge(script, book)
    except Unlawful as unlawful:
        found = unlawful
    return Judged(book, found)


def main(arguments):
    if len(arguments) != 2:
        print(__doc__.split('\n')[0], file=sys.stderr)
        return 2
    texts = []
    for path in arguments:
        with open(path, 'rb') as file:
            texts.append(file.read())
    answer = judged(*texts)
    print(answer)
    return 0 if answer.unlawful is None else 1


if __name__ == '__main__':
    sys.exit(main(sys.argv[1:]))
