#!/usr/bin/env python3
"""field.py [PROGRAM]

Plays examples/field: its script starts mosquitto, the gateway and twenty devices, and prints what arrives at
the broker. Each device has to be heard, a valve has to do what it is told, a meter that sleeps has to learn
its new pause, and all ends in order. Beside that devices ask for what the policy does not grant them, and the
policy itself is judged by `sng policy` and `sng may`. PROGRAM is the proved program where none is given.
Exit status 1 where something of this does not hold, and 0 with a line where mosquitto cannot be had."""
import importlib.util
import json
import os
import re
import signal
import subprocess
import sys

sys.dont_write_bytecode = True
from live_parts import HOST, Failure, Process, free_port, tool, wanted

ROOT = os.path.dirname(os.path.dirname(os.path.abspath(__file__)))
FIELD = os.path.join(ROOT, 'examples', 'field')
POLICY = os.path.join(FIELD, 'policy.json')
PROVED = os.path.join(ROOT, 'crates', 'sng', 'out', 'sng')
NEEDED = ('mosquitto', 'mosquitto_pub', 'mosquitto_sub')
PATIENCE = 40.0
# The name of each of the twenty, and of what it says
SAYS = ['field/meters/meter-%02d/reading' % number for number in range(1, 13)]
SAYS += ['field/valves/valve-%d/state' % number for number in range(1, 5)]
SAYS += ['field/probes/probe-%d/moisture' % number for number in range(1, 5)]


def library():
    """device.py of the example, as a program that copied it has it."""
    spec = importlib.util.spec_from_file_location('device', os.path.join(FIELD, 'device.py'))
    module = importlib.util.module_from_spec(spec)
    spec.loader.exec_module(module)
    return module


def the_copy_is_short():
    """150 lines, and nothing is imported but the standard library: -S and -I leave out all else."""
    with open(os.path.join(FIELD, 'device.py')) as file:
        wanted(len(file.readlines()) <= 150, 'a device of at most 150 lines')
    done = subprocess.run([sys.executable, '-I', '-S', '-B', 'device.py'], cwd=FIELD, timeout=20, check=False,
                          capture_output=True, text=True)
    wanted(done.returncode == 0 and not done.stderr, 'a device without other libraries: ' + done.stderr)


def the_policy(program):
    """It is accepted without a warning, and grants each device its own names alone."""
    def said(*words):
        return subprocess.run([program, *words], stdin=subprocess.DEVNULL, capture_output=True, text=True,
                              timeout=20, check=False)
    report = said('policy', POLICY)
    wanted(report.stdout == 'policy ok: 16 clients, 4 sources, 4 topics\n' and not report.stderr,
           'a policy without a warning, and not %r' % (report.stdout + report.stderr))
    with open(POLICY) as file:
        clients = json.load(file)['clients']
    for client, pairs in clients.items():
        wanted(len(pairs) == 2 and all('/%s/' % client in name for name, _ in pairs), 'names of %s' % client)
    for client in ('meter-12', 'valve-4'):
        allowed = [topic for topic in SAYS
                   if said('may', '--policy', POLICY, client, 'publish', topic).returncode == 0]
        wanted(allowed == [topic for topic in SAYS if '/%s/' % client in topic],
               '%s publishes what is its own, and not %s' % (client, allowed))


def tell(broker, topic, payload):
    words = [tool('mosquitto_pub'), '-h', HOST, '-p', str(broker), '-q', '1', '-t', topic, '-m', payload]
    subprocess.run(words, check=True, timeout=20, stdin=subprocess.DEVNULL)


def all_are_heard(field):
    for topic in SAYS:
        field.line('out', '^%s ' % topic, PATIENCE)


def they_do_as_told(field, broker):
    tell(broker, 'field/valves/valve-2/set', 'open')
    field.line('out', '^field/valves/valve-2/state open$', PATIENCE)
    tell(broker, 'field/meters/meter-07/pause', '1.5')
    field.line('out', r'^field/meters/meter-07/reading \d+ pause 1\.5$', PATIENCE)


def what_is_not_granted(gateway):
    """What a device may not do is refused, and a device that no policy lists is let in nowhere."""
    module = library()

    def refused(ask, *words):
        try:
            ask(*words)
        except module.Refused:
            return
        raise Failure('%s is refused %r' % (ask.__name__, words))
    refused(module.Device((HOST, gateway), 'meter-13').connect)
    valve = module.Device((HOST, gateway), 'valve-4', source='127.0.1.9')
    valve.connect()
    refused(valve.register, 'field/valves/valve-1/state')
    refused(valve.subscribe, 'field/#')
    valve.leave()
    module.Device((HOST, gateway), source='127.0.1.9').publish_alone(1, b'forged')


def all_goes_well(program):
    broker, gateway = free_port(), free_port()
    more = {'SNG': program, 'BROKER_PORT': str(broker), 'GATEWAY_PORT': str(gateway), 'PAUSE': '1'}
    field = Process([os.path.join(FIELD, 'run')], env=dict(os.environ, **more), start_new_session=True)
    try:
        all_are_heard(field)
        they_do_as_told(field, broker)
        what_is_not_granted(gateway)
        field.line('err', r'denied: publish 127\.0\.1\.9 ', PATIENCE)
        os.kill(field.child.pid, signal.SIGINT)
        wanted(field.ended(PATIENCE) == 0, 'status 0')
    finally:
        if field.child.poll() is None:
            os.killpg(field.child.pid, signal.SIGKILL)
            field.child.wait()
    out = field.lines['out']
    wanted(not any('forged' in line for line in out), 'nothing of a probe that is not listed')
    wanted(any(re.fullmatch(r'closed \d+ rows', line) for line in out), 'a book that is closed')
    wanted(out[-1] == 'the gateway ended with status 0', 'a gateway that ends, and not %r' % out[-1])
    try:
        os.killpg(field.child.pid, 0)
    except ProcessLookupError:
        return
    raise Failure('no process that is left')


def main():
    program = os.path.abspath(sys.argv[1]) if sys.argv[1:] else PROVED
    missing = [name for name in NEEDED if not tool(name)]
    if not os.path.exists(program):
        print('no program at %s: `rt run` in crates/sng makes it' % program)
        return 1
    try:
        the_copy_is_short()
        the_policy(program)
        if missing:
            print('left out: the field itself: not there: ' + ', '.join(missing))
            return 0
        all_goes_well(program)
    except (Failure, OSError, subprocess.SubprocessError) as fault:
        print('failed: %s' % fault)
        return 1
    print('field: twenty devices heard, told and stopped')
    return 0


if __name__ == '__main__':
    sys.exit(main())
