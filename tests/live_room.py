"""Where a case of tests/live.py takes place: the gateway, brokers and subscribers as processes, each of which
is ended by its own id."""
import json
import os
import re
import shutil
import socket
import subprocess
import tempfile

from live_ends import Client, Device
from live_parts import HOST, SECONDS, Process, free_port, tool, until, wanted, without_levels


class Room:
    """A folder, and all processes of a case."""

    def __init__(self, program):
        self.program = program
        self.folder = tempfile.mkdtemp(prefix='sng-live-')
        self.processes = []

    def __enter__(self):
        return self

    def __exit__(self, *_):
        for process in reversed(self.processes):
            process.kill()
        shutil.rmtree(self.folder, ignore_errors=True)

    def run(self, *words):
        """The exit status and the standard output of a run of the program without input."""
        done = subprocess.run([self.program, *words], stdin=subprocess.DEVNULL, timeout=20, text=True,
                              stdout=subprocess.PIPE, stderr=subprocess.DEVNULL, check=False)
        return done.returncode, done.stdout

    def told(self, *words):
        """The same with the standard error, whose lines are without their levels."""
        done = subprocess.run([self.program, *words], stdin=subprocess.DEVNULL, timeout=20, text=True,
                              capture_output=True, check=False)
        return done.returncode, done.stdout, without_levels(done.stderr)

    def keep(self, process):
        self.processes.append(process)
        return process

    def file(self, name, text):
        path = os.path.join(self.folder, name)
        with open(path, 'w') as file:
            file.write(text)
        return path

    def broker(self, port=None, anonymous=True):
        """A mosquitto, once it listens."""
        port = port or free_port()
        lines = ['listener %d %s' % (port, HOST), 'allow_anonymous %s' % str(anonymous).lower(),
                 'persistence false', 'log_dest stderr', 'log_type all']
        if os.geteuid() == 0:
            lines.append('user root')
        conf = self.file('mosquitto-%d.conf' % port, '\n'.join(lines) + '\n')
        process = self.keep(Process([tool('mosquitto'), '-c', conf]))
        process.port, process.is_own = port, False

        def listens():
            wanted(process.child.poll() is None, 'a broker: %r' % process.lines['err'])
            with socket.socket() as probe:
                return probe.connect_ex((HOST, port)) == 0
        until(listens, 'a broker that listens')
        return process

    def test_broker(self, port=0):
        """The program's own broker, once it listens."""
        broker = self.keep(Process([self.program, 'broker', '--listen', '%s:%d' % (HOST, port)]))
        broker.port, broker.is_own = int(broker.line('err', r'listening on [\d.]+:(\d+)')[1]), True
        return broker

    def subscriber(self, broker, topic, count):
        """Hears so many messages of the topic, as mosquitto_sub a line `got TOPIC PAYLOAD` for each. It is
        subscribed once this returns."""
        name = 'sub%d' % len(self.processes)
        if broker.is_own:
            client = self.keep(Client(broker.port, name))
            client.subscribe(topic)
            return client
        words = [tool('mosquitto_sub'), '-h', HOST, '-p', str(broker.port), '-i', name, '-q', '1',
                 '-t', topic, '-C', str(count), '-W', '60', '-F', 'got %t %p']
        process = self.keep(Subscriber(words))
        broker.line('err', 'Sending SUBACK to %s$' % name)
        return process

    def publish(self, broker, topic, payload, *more):
        """Publishes at QoS 0, or at QoS 1 with the words -q 1, as the test broker is always sent it."""
        if broker.is_own:
            client = Client(broker.port, 'pub')
            client.publish(topic, payload)
            client.kill()
            return
        words = [tool('mosquitto_pub'), '-h', HOST, '-p', str(broker.port), '-t', topic, '-m', payload, *more]
        subprocess.run(words, check=True, timeout=SECONDS, stdin=subprocess.DEVNULL)

    def gateway(self, port, *more, workers=2, policy=None, connected=True, verbose=True, listen=HOST + ':0',
                **rest):
        words = [self.program, 'serve', '--listen', listen, '--broker', '%s:%d' % (HOST, port),
                 '--id', 'gw1', '--workers', str(workers), *(['--verbose'] if verbose else []), *more]
        gateway = self.keep(Gateway(words, **rest))
        gateway.is_verbose = verbose
        gateway.port = int(gateway.line('err', r'listening on [\d.]+:(\d+)')[1])
        if connected:
            gateway.line('err', 'connected')
        if '--policy' in more and verbose:
            gateway.line('out', '^row .* replace$')
        if policy is not None:
            gateway.replace(policy)
        return gateway

    def device(self, gateway, port=0):
        return Device(gateway.port, port)


class Subscriber(Process):
    def hears(self, topic, payload):
        self.line('out', '^got %s %s$' % (topic, payload))


class Gateway(Process):
    def replace(self, policy):
        """Puts a policy in force."""
        before = sum('policy in force' in line for line in self.lines['err'])
        self.say(json.dumps(policy))
        self.line('err', 'policy in force', count=before + 1)
        if self.is_verbose:
            self.line('out', '^row .* replace$', count=before + 1)

    def close(self, status=0, verbose=True, seconds=SECONDS):
        """Stops it, checks how it ends, and answers how many rows it closed."""
        self.say('quit')
        came = self.ended(seconds)
        wanted(came == status, 'status %d, and not %d: %r' % (status, came, self.lines['err'][-3:]))
        last = self.lines['out'][-1] if self.lines['out'] else ''
        found = re.fullmatch(r'closed (\d+) rows', last)
        wanted(found, 'a last line that tells the rows, and not %r' % last)
        if verbose:
            rows = [line for line in self.lines['out'] if line.startswith('row ')]
            numbers = [int(line.split()[1]) for line in rows]
            wanted(numbers == list(range(1, int(found[1]) + 1)), 'all rows in order')
        return int(found[1])

    def notes(self, text):
        return [line for line in self.lines['out'] if line.startswith('note ') and text in line]
