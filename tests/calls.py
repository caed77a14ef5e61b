#!/usr/bin/env python3
"""calls.py [--fail-alloc N] [NAME ..]

Runs the tests of public calls that no proof is paid for: each file tests/calls/NAME.rt.in is laid as a
module of a crate `calls` beside a copy of the crates, and `rt try --test` runs its tests. It proves
nothing: the crates are proved by `rt ci`, with these calls in them. With NAMEs only those files are laid.
With --fail-alloc the N-th allocation of each test is refused; a test that meets the refusal has to end
with an error of memory (tests/refused_memory.py does this for N from 1 on). Exit status 1 where a test
fails."""
import glob
import os
import re
import shutil
import subprocess
import sys
import tempfile

HERE = os.path.dirname(os.path.abspath(__file__))
ROOT = os.path.dirname(HERE)
# Not `.rt`: `rt ci` refuses a file of that ending outside the crates.
ENDING = '.rt.in'
# A limit for what hangs: the tests run beside the proofs
SECONDS = '600'


def files(names):
    """The files with tests, by the name of their module."""
    paths = sorted(glob.glob(os.path.join(HERE, 'calls', '*' + ENDING)))
    found = {os.path.basename(path)[:-len(ENDING)]: path for path in paths}
    missing = [name for name in names if name not in found]
    if missing:
        raise SystemExit('no such file: ' + ', '.join('tests/calls/' + name + ENDING for name in missing))
    return {name: found[name] for name in names} if names else found


def libraries(texts, crates):
    """The crates that the texts name, and those that the repository names of the kit's."""
    known = set()
    for line in crates.splitlines():
        if ':' in line and not line.startswith('#'):
            known.update(line.replace(':', ' ').split())
    return sorted(name for name in known if any(re.search(r'\b%s::' % name, text) for text in texts))


def lay(room, names):
    """Copies the crates into the folder and puts the crate of tests beside them."""
    for source in glob.glob(os.path.join(ROOT, 'crates', '*', 'src')):
        shutil.copytree(source, os.path.join(room, os.path.relpath(source, ROOT)))
    shutil.copy(os.path.join(ROOT, 'HANDLES'), room)
    source = os.path.join(room, 'crates', 'calls', 'src')
    os.makedirs(source)
    texts = []
    for name, path in names.items():
        shutil.copy(path, os.path.join(source, name + '_calls.rt'))
        with open(path) as file:
            texts.append(file.read())
    with open(os.path.join(source, 'lib.rt'), 'w') as file:
        file.write('//! Tests of public calls.\n#![tactic(auto)]\n')
        file.write(''.join('mod %s_calls;\n' % name for name in names))
    with open(os.path.join(ROOT, 'crates.txt')) as file:
        crates = file.read()
    with open(os.path.join(room, 'crates.txt'), 'w') as file:
        file.write('%s\ncalls: %s\n' % (crates, ' '.join(libraries(texts, crates))))
    return os.path.join(room, 'crates', 'calls')


def run(names, more=()):
    """What `rt try --test` says of the tests in these files."""
    with tempfile.TemporaryDirectory() as room:
        crate = lay(room, files(names))
        subprocess.run(['git', 'init', '-q', room], check=True)
        command = ['rt', 'try', '--test', '--seconds', SECONDS, *more]
        done = subprocess.run(command, cwd=crate, stdin=subprocess.DEVNULL, stdout=subprocess.PIPE,
                              stderr=subprocess.STDOUT, text=True)
        return done.returncode, done.stdout


def main():
    words, more = sys.argv[1:], []
    if words[:1] == ['--fail-alloc']:
        more, words = words[:2], words[2:]
    status, printed = run(words, more)
    print(printed.rstrip())
    found = re.search(r'test result: \w+\. (\d+) passed; (\d+) failed', printed)
    if not found:
        print('0 passed, 1 failed')
        return 1
    print('%s passed, %s failed' % found.groups())
    return 0 if status == 0 and found[2] == '0' else 1


if __name__ == '__main__':
    sys.exit(main())
