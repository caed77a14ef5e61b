#!/usr/bin/env python3
"""command_examples.py [PROGRAM]

Types a wrong command line of each command, and compares what is told: the fault, and as the last line an
example of that very command, which is then run as it stands, in a folder with the files that it names, and
for `sng status` beside a gateway. It has to end with status 0, or to listen where it serves. PROGRAM is the proved program where none is given. Exit
status 1 where one does not."""
import os
import re
import shutil
import subprocess
import sys
import tempfile

sys.dont_write_bytecode = True
from live_parts import HOST, Failure, Process

HERE = os.path.dirname(os.path.abspath(__file__))
ROOT = os.path.dirname(HERE)
PROVED = os.path.join(ROOT, 'crates', 'sng', 'out', 'sng')
SCRIPT = os.path.join(ROOT, 'examples', 'first-publish.script')
POLICY = '{"version":1,"clients":{"s1":[["t/1",["pub"]]]}}'
# Wrong words, and the command of the example
WRONG = (([], 'serve'), (['nonsense'], 'serve'), (['--nonsense'], 'serve'), (['play', 'x'], 'play'),
         (['check'], 'check'), (['book'], 'book'), (['cover'], 'cover'), (['may', 's1'], 'may'),
         (['policy', 'a', 'b'], 'policy'), (['serve', '--listen', '0.0.0.0:1884'], 'serve'),
         (['serve', '--workers', '9'], 'serve'), (['status', 'a', 'b'], 'status'), (['broker'], 'broker'))


def told(program, words):
    """The example behind a fault."""
    done = subprocess.run([program, *words], stdin=subprocess.DEVNULL, capture_output=True, text=True,
                          timeout=20, check=False)
    lines = done.stderr.splitlines()
    found = re.fullmatch(r'For example: sng (.*)', lines[-1]) if lines else None
    if done.returncode != 2 or done.stdout or not lines[0].startswith('error: ') or not found:
        raise Failure('a fault with an example, and not %d %r' % (done.returncode, done.stderr))
    return found[1]


def run(program, example, folder):
    """Runs the example in the folder. A port that it names becomes any that is free."""
    words = '"%s" %s' % (program, example)
    if example.split()[0] in ('serve', 'broker'):
        anywhere = re.sub(r'(--listen [\d.]+):\d+', r'\1:0', words)
        process = Process(['/bin/sh', '-c', 'exec ' + anywhere], cwd=folder)
        try:
            process.line('err', 'listening on ')
        finally:
            process.kill()
        return
    if example.split()[0] == 'status':
        beside_a_gateway(program, lambda port: works(re.sub(r':\d+$', ':' + port, words), folder))
    else:
        works(words, folder)


def works(words, folder):
    done = subprocess.run(['/bin/sh', '-c', words], cwd=folder, stdin=subprocess.DEVNULL, capture_output=True,
                          text=True, timeout=20, check=False)
    if done.returncode or done.stderr:
        raise Failure('an example that works, and not %r: %s' % (words, done.stdout + done.stderr))


def beside_a_gateway(program, act):
    """Acts with the port at which a gateway serves its figures that has a broker."""
    broker = Process([program, 'broker', '--listen', HOST + ':0'])
    try:
        port = broker.line('err', r'listening on [\d.]+:(\d+)')[1]
        gateway = Process([program, 'serve', '--listen', HOST + ':0', '--broker', HOST + ':' + port, '--id',
                           'gw1', '--workers', '1', '--metrics', HOST + ':0'])
        try:
            gateway.line('err', 'connected$')
            act(gateway.line('err', r'figures at http://[\d.]+:(\d+)/')[1])
        finally:
            gateway.kill()
    finally:
        broker.kill()


def main():
    program = os.path.abspath(sys.argv[1]) if sys.argv[1:] else PROVED
    failed = 0
    with tempfile.TemporaryDirectory() as folder:
        with open(os.path.join(folder, 'policy.json'), 'w') as file:
            file.write(POLICY)
        shutil.copy(SCRIPT, os.path.join(folder, 'first.script'))
        with open(SCRIPT) as script, open(os.path.join(folder, 'first.book'), 'w') as book:
            subprocess.run([program, 'play'], stdin=script, stdout=book, timeout=20, check=True)
        for words, command in WRONG:
            try:
                example = told(program, words)
                if example.split()[0] != command:
                    raise Failure('an example of %s, and not %r' % (command, example))
                run(program, example, folder)
            except Failure as fault:
                failed += 1
                print('failed: sng %s: %s' % (' '.join(words), fault))
    print('examples of command lines: %d passed, %d failed' % (len(WRONG) - failed, failed))
    return 1 if failed else 0


if __name__ == '__main__':
    sys.exit(main())
