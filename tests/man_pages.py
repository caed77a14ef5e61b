#!/usr/bin/env python3
"""man_pages.py [PROGRAM]

Makes the man pages (packaging/man.py) and compares them with the help of the program: each option of each
command stands once where the command is described, docs/running.md has a row for each option of `sng serve`
and for no other, no page tells of an option that there is not, and each section of docs/policy.md is in
sng-policy(5). Where groff can be had it has to find no fault in them, and to print the options as they are
typed. PROGRAM is the proved program where none is given. Exit status 1 where something differs."""
import os
import re
import shutil
import subprocess
import sys
import tempfile

sys.dont_write_bytecode = True
ROOT = os.path.dirname(os.path.dirname(os.path.abspath(__file__)))
PROVED = os.path.join(ROOT, 'crates', 'sng', 'out', 'sng')
MAKER = os.path.join(ROOT, 'packaging', 'man.py')
COMMANDS = ('play', 'check', 'book', 'cover', 'may', 'policy', 'serve', 'status', 'broker')
# Options in examples of other programs
OF_OTHERS = {'--base64url', '--offline'}


def run(*words):
    done = subprocess.run(words, stdin=subprocess.DEVNULL, capture_output=True, text=True, timeout=60,
                          check=False)
    return done.returncode, done.stdout, done.stderr


def helped(program, *command):
    """The options and arguments of a command as the lines of its help begin."""
    text = run(program, *command, '--help')[1]
    return (sorted(re.findall(r'^ {2,6}(?:-\w, )?(--[\w-]+)', text, re.M)),
            sorted(re.findall(r'^ {2}[<\[](\w+)', text, re.M)))


def described(page):
    """The options and arguments that a part of a page describes: the terms behind .TP."""
    terms = [line.replace('\\-', '-') for line in re.findall(r'^\.TP\n(\\f.*)$', page, re.M)]
    return (sorted(option for term in terms for option in re.findall(r'\\fB(--[\w-]+)\\fR', term)
                   if term.startswith('\\fB-')),
            sorted(re.findall(r'^\\fI(\w+)\\fR$', '\n'.join(terms), re.M)))


def part(page, heading):
    found = re.search(r'^%s\n(.*?)(?=^\.S[HS] |\Z)' % re.escape(heading), page, re.S | re.M)
    return found[1] if found else ''


def compared(program, pages):
    """What is said of each command, and what should be."""
    page = pages['sng.1']
    yield 'sng', described(part(page, '.SH OPTIONS')), helped(program)
    for command in COMMANDS:
        if command != 'serve':
            yield command, described(part(page, '.SS sng ' + command)), helped(program, command)
    yield 'serve', described(part(pages['sng-serve.8'], '.SH OPTIONS')), helped(program, 'serve')
    with open(os.path.join(ROOT, 'docs', 'running.md')) as file:
        rows = re.findall(r'^\| `(--[\w-]+)', file.read(), re.M)
    wanted = [option for option in helped(program, 'serve')[0] if option != '--help']
    yield 'docs/running.md', sorted(rows), wanted
    told = {option for page in pages.values()
            for option in re.findall(r'(?<![\w-])--[a-z][\w-]*', page.replace('\\-', '-'))}
    known = {option for words in ((), *((one,) for one in COMMANDS)) for option in helped(program, *words)[0]}
    yield 'options that there are not', sorted(told - known - OF_OTHERS), []
    whole = run(program, '--help')[1]
    commands = re.findall(r'^  (\w+) ', whole.split('Commands:')[1].split('Options:')[0], re.M)
    yield 'commands', re.findall(r'^\.SS sng (\w+)$', page, re.M), [one for one in commands if one != 'help']
    with open(os.path.join(ROOT, 'docs', 'policy.md')) as file:
        heads = [head.upper() for head in re.findall(r'^## (.*)$', file.read(), re.M)]
    yield 'docs/policy.md', [head for head in re.findall(r'^\.SH (.*)$', pages['sng-policy.5'], re.M)
                             if head in heads], heads


def printed(folder):
    """What groff says against the pages, and what is not to be seen of them."""
    for name in sorted(os.listdir(folder)):
        status, text, fault = run('groff', '-man', '-Tascii', '-P-cbou', '-ww', os.path.join(folder, name))
        yield name + ' by groff', (status, fault), (0, '')
        if name == 'sng-serve.8':
            yield 'an option as it is printed', '--flood-each EACH' in text, True


def main():
    program = os.path.abspath(sys.argv[1]) if sys.argv[1:] else PROVED
    if not os.path.exists(program):
        print('no program at %s: `rt run` in crates/sng makes it' % program)
        return 1
    with tempfile.TemporaryDirectory() as folder:
        status, _, fault = run(sys.executable, MAKER, program, folder)
        if status:
            print('failed: the pages are made: ' + fault)
            return 1
        pages = {}
        for name in sorted(os.listdir(folder)):
            with open(os.path.join(folder, name)) as file:
                pages[name] = file.read()
        results = list(compared(program, pages))
        if shutil.which('groff'):
            results += printed(folder)
        else:
            print('left out: what groff says of the pages, which is not there')
    failed = 0
    for name, found, wanted in results:
        if found != wanted:
            failed += 1
            print('failed: %s: found %s, wanted %s' % (name, found, wanted))
    print('man pages: %d passed, %d failed' % (len(results) - failed, failed))
    return 1 if failed else 0


if __name__ == '__main__':
    sys.exit(main())
