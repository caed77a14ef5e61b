"""What tests/live.py works with: processes and their lines, ports, and waits, each of which is bounded."""
import os
import re
import shutil
import socket
import subprocess
import threading
import time

HOST = '127.0.0.1'
SECONDS = 10.0
LEVELS = ('info', 'warning', 'error')


class Failure(Exception):
    """What a case wanted did not come."""


class Skipped(Exception):
    """A case needs what this user or this machine does not have."""


def wanted(holds, what):
    if not holds:
        raise Failure(what)


def measured(figure):
    """Shows a figure of docs/hardening.md, where it is asked for."""
    if 'SNG_LIVE_FIGURES' in os.environ:
        print('measured: ' + figure, flush=True)


def rss_kib(number):
    """The memory of a process as it is now; 0 where it has ended."""
    with open('/proc/%d/status' % number) as status:
        found = [int(line.split()[1]) for line in status if line.startswith('VmRSS:')]
    return found[0] if found else 0


def until(asked, what, seconds=SECONDS):
    """Waits until the question is answered, and answers that."""
    end = time.monotonic() + seconds
    while True:
        answer = asked()
        if answer:
            return answer
        if time.monotonic() > end:
            raise Failure('in %.0f s not: %s' % (seconds, what))
        time.sleep(0.01)


def free_port(kind=socket.SOCK_STREAM):
    with socket.socket(socket.AF_INET, kind) as found:
        found.bind((HOST, 0))
        return found.getsockname()[1]


def tool(name):
    """Where a program of mosquitto is, which need not be on the path of every user."""
    return shutil.which(name, path=os.environ.get('PATH', '') + ':/usr/sbin:/usr/local/sbin')


def without_levels(text):
    """Lines of standard error without the words that tell how grave each is."""
    return re.sub('^sng: (?:%s): ' % '|'.join(LEVELS), 'sng: ', text, flags=re.MULTILINE)


class Process:
    """A process with its lines of standard output and standard error, as they come. Those of standard error
    are without their levels, and as they are among `told`."""

    def __init__(self, words, **more):
        self.lines, self.told = {'out': [], 'err': []}, []
        pipes = {'stdin': subprocess.PIPE, 'stdout': subprocess.PIPE, 'stderr': subprocess.PIPE}
        self.child = subprocess.Popen(words, **dict(pipes, **more))
        self.readers = [threading.Thread(target=self.read, args=(name, pipe), daemon=True)
                        for name, pipe in (('out', self.child.stdout), ('err', self.child.stderr)) if pipe]
        for reader in self.readers:
            reader.start()

    def read(self, name, pipe):
        for line in pipe:
            text = line.decode('utf-8', 'replace').rstrip('\n')
            if name == 'err':
                self.told.append(text)
                text = without_levels(text)
            self.lines[name].append(text)

    def line(self, name, pattern, seconds=SECONDS, count=1):
        """The count-th line that the pattern is found in."""
        def found():
            fits = [match for match in (re.search(pattern, line) for line in list(self.lines[name])) if match]
            return fits[count - 1] if len(fits) >= count else None
        return until(found, 'a line with %r among %r' % (pattern, self.lines[name]), seconds)

    def say(self, text):
        self.child.stdin.write(text.encode() + b'\n')
        self.child.stdin.flush()

    def ended(self, seconds=SECONDS):
        """The exit status."""
        try:
            status = self.child.wait(seconds)
        except subprocess.TimeoutExpired:
            self.kill()
            raise Failure('it does not end: %r' % self.lines['err'][-3:]) from None
        for reader in self.readers:
            reader.join(SECONDS)
        return status

    def kill(self):
        if self.child.poll() is None:
            self.child.kill()
            self.child.wait(SECONDS)
