#!/usr/bin/env python3
"""operating.py [PROGRAM]

Types the commands of docs/operating.md, those behind a `$`, in examples/operating, and compares what they
print with the lines below each. PROGRAM is the proved program where none is given. Exit status 1 where one
prints anything else, or says something on standard error."""
import os
import re
import subprocess
import sys
import tempfile

HERE = os.path.dirname(os.path.abspath(__file__))
ROOT = os.path.dirname(HERE)
PROVED = os.path.join(ROOT, 'crates', 'sng', 'out', 'sng')
FOLDER = os.path.join(ROOT, 'examples', 'operating')
DOCUMENT = os.path.join(ROOT, 'docs', 'operating.md')
SECONDS = 60


def commands():
    """The commands of the document, with the lines below each."""
    with open(DOCUMENT) as file:
        blocks = re.findall(r'^```console\n(.*?)^```$', file.read(), re.MULTILINE | re.DOTALL)
    for block in blocks:
        for command, printed in re.findall(r'^\$ (.*)\n((?:(?!\$ ).*\n)*)', block, re.MULTILINE):
            yield command, printed


def main():
    program = os.path.abspath(sys.argv[1]) if sys.argv[1:] else PROVED
    passed, failed = 0, 0
    with tempfile.TemporaryDirectory() as folder:
        os.symlink(program, os.path.join(folder, 'sng'))
        path = folder + ':' + os.environ['PATH']
        for command, printed in commands():
            done = subprocess.run(['/bin/sh', '-c', command], cwd=FOLDER, stdin=subprocess.DEVNULL, text=True,
                                  capture_output=True, timeout=SECONDS, check=False,
                                  env=dict(os.environ, PATH=path, LC_ALL='C'))
            if (done.stdout, done.stderr) == (printed, ''):
                passed += 1
            else:
                failed += 1
                print('failed: %s\n%s%s' % (command, done.stdout, done.stderr))
    print('questions of an operator: %d commands passed, %d failed' % (passed, failed))
    return 1 if failed or not passed else 0


if __name__ == '__main__':
    sys.exit(main())
