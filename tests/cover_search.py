#!/usr/bin/env python3
"""cover_search.py

A second opinion on tests/cover.table, which shares no code with the program: for each pair of the table it looks for a name that the
asked filter matches and no granted one does, through all names of a small alphabet of levels, depth by depth, by the definitions of
MQTT 3.1.1, 4.7. Prints each line of the table that it answers otherwise, and fails if there is one."""
import itertools
import os
import sys

TABLE = os.path.join(os.path.dirname(os.path.abspath(__file__)), 'cover.table')


def items_of(text):
    """The levels before a last `#`, and whether there is one."""
    levels = text.split('/')
    return (levels[:-1], True) if levels[-1] == '#' else (levels, False)


def matches(text, name):
    items, has_rest = items_of(text)
    levels = name.split('/')
    begins_wild = items[:1] == ['+'] or not items
    if begins_wild and name.startswith('$'):
        return False
    if len(levels) < len(items) or (len(levels) > len(items) and not has_rest):
        return False
    return all(item in ('+', level) for item, level in zip(items, levels))


def shows_gap(asked, granted, name):
    return name != '' and matches(asked, name) and not any(matches(text, name) for text in granted)


def answer(asked, granted):
    taken = {level for text in granted for level in text.split('/')}
    fresh = next('x' * count for count in itertools.count(1) if 'x' * count not in taken)
    named = {level for text in [asked] + granted for level in text.split('/') if level not in ('+', '#')}
    alphabet = sorted(named | {'', 'zz', '$q', fresh})
    items, has_rest = items_of(asked)
    most = max(len(items_of(text)[0]) for text in [asked] + granted) + 2
    for depth in range(1, most + 1):
        if depth < len(items) or (depth > len(items) and not has_rest):
            continue
        places = [[items[at]] if at < len(items) and items[at] != '+' else alphabet for at in range(depth)]
        if any(shows_gap(asked, granted, '/'.join(levels)) for levels in itertools.product(*places)):
            gap = '/'.join(place[0] if len(place) == 1 else fresh for place in places)
            return 'uncovered ' + gap if shows_gap(asked, granted, gap) else 'no gap of this form at depth %d' % depth
    return 'included'


def main():
    wrong = 0
    with open(TABLE) as table:
        for line in table:
            if line.startswith('#'):
                continue
            _, want, words = line.rstrip('\n').split('|')
            if want.startswith('bad filter'):
                continue
            asked, *granted = words.split(' ')
            found = answer(asked, granted)
            if found != want:
                wrong += 1
                print(line.rstrip('\n'), '\n  found', found)
    return 1 if wrong else 0


if __name__ == '__main__':
    sys.exit(main())
