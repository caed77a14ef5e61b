#!/usr/bin/env python3
"""promise_lines.py [--names] [--write]

Counts the lines of definitions that whoever believes the promise has to read, and compares them with the table
of docs/promise.md, which rounds to ten. Of each contract that the table names (and of its clauses, where it names
them) these are the definitions that it cites, and all that these cite in turn, with their comments and without
imports, in the specs of all crates; what the toolchain's library defines and the types of the code are left out.
A definition cites those that its words name, so a variable with the name of one counts as it.
With --names it prints each definition that a contract of these crates cites, by its module and lines; --write
puts the right numbers into the page.
Exit status: 0 where each number stands, 1 where one does not.
"""
import glob
import os
import re
import sys

ROOT = os.path.join(os.path.dirname(os.path.abspath(__file__)), '..')
# What a reader takes from the gateway: that each step keeps its book lawful, and the plain rows as which that is
# read, from the opening state on
PREMISE = {('sng_history.Lawful', 'Lawful'), ('sng_history.Books', 'LawfulBook'), ('sng_history.Books', 'IsBook'),
           ('sng_history.State', 'opening')}
WORD = re.compile(r"[^\s(){}\[\],;.λ→×]+")
HEAD = re.compile(r"^(?:abbrev |pub |record |data )*([^\s:(){}]+)")
# A name behind the alias of its module, as `streams.feed`
DOTTED = re.compile(r"(\w+)\.([^\s(){}\[\],;.]+)")


def uses(lines):
    """What the imports among the lines bring: the local name to the module and the name there, which is None for
    the alias of a module."""
    found = {}
    for line in lines:
        it = re.match(r'(?:ghost )?use Rattle\.(\w+)\.specs\.([\w.]+)(?:\.\{(.*?)\}| as (\w+))?;?$', line.strip())
        if not it or it[1] == 'std' or it[2].startswith('declared'):
            continue
        for word in (it[3] or '').split(','):
            name, _, other = word.strip().partition(' as ')
            if name:
                found[other or name] = (it[1] + '.' + it[2], name)
        if it[4]:
            found[it[4]] = (it[1] + '.' + it[2], None)
    return found


class Module:
    """A file of specs: its imports, and its definitions by name, each with its lines."""

    def __init__(self, path):
        with open(path, encoding='utf-8') as file:
            lines = file.read().split('\n')
        self.uses = uses(lines)
        self.texts, self.lengths = {}, {}
        text = '\n'.join(line for line in lines if not line.startswith(('use ', 'mod ', 'pub mod ')))
        for part in re.split(r'\n\s*\n', text):
            kept = [line for line in part.split('\n') if line.strip() and not line.startswith('-- ----')]
            code = [line for line in kept if not line.startswith('--')]
            if not code:
                continue
            names = [HEAD.match(line)[1] for line in code if re.match(r'(abbrev|pub|record|data)\b', line)]
            for name in names or [HEAD.match(code[0])[1]]:
                self.texts[name] = '\n'.join(code)
                self.lengths[name] = (part, len(kept))


def modules():
    found = {}
    for path in glob.glob(os.path.join(ROOT, 'crates', '*', 'specs', '**', '*.antt'), recursive=True):
        crate, _, rest = os.path.relpath(path, os.path.join(ROOT, 'crates')).partition(os.sep + 'specs' + os.sep)
        found[crate + '.' + rest[:-5].replace(os.sep, '.')] = Module(path)
    return found


def cited(text, scope, module, all_modules):
    """The definitions that a text names, each by its module and name."""
    for alias, name in set(DOTTED.findall(text)):
        where, whole = scope.get(alias, (None, ''))
        if whole is None and where in all_modules and name in all_modules[where].texts:
            yield where, name
    for word in set(WORD.findall(text)):
        if module and word in all_modules[module].texts:
            yield module, word
        elif word in scope:
            where, name = scope[word]
            if where in all_modules and name in all_modules[where].texts and (where, name) not in PREMISE:
                yield where, name


def reached(roots, all_modules):
    open_ones, done = list(roots), set(roots)
    while open_ones:
        module, name = open_ones.pop()
        it = all_modules[module]
        for other in cited(it.texts[name], it.uses, module, all_modules):
            if other not in done:
                done.add(other)
                open_ones.append(other)
    return done


def lines(done, all_modules):
    parts = {(module, all_modules[module].lengths[name][0]): all_modules[module].lengths[name][1]
             for module, name in done}
    return sum(parts.values())


def contracts(all_modules):
    """The clauses of each function of sng_promise and sng_isolation: its name to its clauses by name."""
    found = {}
    for path in glob.glob(os.path.join(ROOT, 'crates/sng_promise/src/*.rt')) + [
            os.path.join(ROOT, 'crates/sng_isolation/src/lib.rt')]:
        with open(path, encoding='utf-8') as file:
            text = file.read()
        scope = uses(text.split('\n'))
        for name, body in re.findall(r'\npub fn (\w+)\(\)\n(.*?)\n\{\}', text, re.DOTALL):
            clauses = re.findall(r'ensures (\w+)? ?\{(.*?)\n?\}(?=\s*(?:ensures|$))', body, re.DOTALL)
            found[name] = {clause: set(cited(what, scope, None, all_modules)) for clause, what in clauses}
    return found


def table(text):
    """The rows of the table: the line, what it says of contracts, and its number of lines as it is written."""
    for line in text.split('| What is promised | Contract')[1].split('\n\n')[0].split('\n')[2:]:
        cells = [cell.strip() for cell in line.strip('|').split('|')]
        yield line, cells, cells[3].strip('* ')


def roots_of(cells, before, found):
    """The definitions that the clauses of a row cite. `before` has the contract of the row above."""
    words = re.findall(r'`(?:\w+::)?(\w+)`', cells[1])
    name = words.pop(0) if words and words[0] in found else before
    roots = set()
    while words or name:
        clauses = found[name]
        named = []
        while words and words[0] in clauses:
            named.append(words.pop(0))
        for clause in named or clauses:
            roots |= clauses[clause]
        last, name = name, words.pop(0) if words else None
    return last, roots


def told_lines(text, found, all_modules):
    """Each number of the page: the text that it stands in, as it is written, and what it has to be."""
    last, half, whole = None, set(), set()
    for line, cells, told in table(text):
        if cells[0].startswith('**both**'):
            roots = whole
        elif cells[0].startswith('**'):
            roots, half = half, set()
        else:
            last, roots = roots_of(cells, last, found)
            half |= roots
            whole |= roots
        if told:
            yield line, told, lines(reached(roots, all_modules), all_modules)
    laws = {it for it in reached(whole, all_modules) if it[0].startswith('sng_laws.')}
    it = re.search(r'([\d,]+) of these lines stand in `sng_laws`', text)
    yield it[0], it[1], lines(laws, all_modules)


def main():
    all_modules = modules()
    found = contracts(all_modules)
    path = os.path.join(ROOT, 'docs/promise.md')
    with open(path, encoding='utf-8') as file:
        text = file.read()
    wrong, mended = 0, text
    for line, told, count in told_lines(text, found, all_modules):
        right = '{:,}'.format(round(count, -1))
        if told != right:
            wrong += 1
            print('%d lines, and docs/promise.md says: %s' % (count, line))
            mended = mended.replace(line, line.replace(told, right), 1)
    if '--write' in sys.argv:
        with open(path, 'w', encoding='utf-8') as file:
            file.write(mended)
    if '--names' in sys.argv:
        roots = set().union(*(roots for clauses in found.values() for roots in clauses.values()))
        for module, name in sorted(reached(roots, all_modules)):
            print(module, name, all_modules[module].lengths[name][1])
    print('the lines of the promise:', 'wrong in %d places' % wrong if wrong else 'as docs/promise.md says')
    return 1 if wrong else 0


if __name__ == '__main__':
    sys.exit(main())
