#!/usr/bin/env python3
"""two_gateways.py [PROGRAM]

Plays examples/two-gateways, the script of docs/capacity.md that runs two gateways beside one broker: each
lets in its own part of the devices, a message goes from a device of one to a device of the other by way of
the broker, one goes on where the other is gone, and what is left ends in order with its own book. PROGRAM is
the proved program where none is given. Exit status 1 where something of this does not hold, and 0 with a line
where mosquitto cannot be had."""
import os
import re
import signal
import subprocess
import sys

sys.dont_write_bytecode = True
from field import NEEDED, PATIENCE, PROVED, ROOT, library
from live_parts import Failure, Process, free_port, tool, until, wanted

FOLDER = os.path.join(ROOT, 'examples', 'two-gateways')
NORTH, SOUTH = '127.0.2.1', '127.0.2.2'


def policies_are_right(program):
    """Each is accepted without a warning, and no client is listed by both."""
    clients = []
    for name in ('north.json', 'south.json'):
        done = subprocess.run([program, 'policy', os.path.join(FOLDER, name)], capture_output=True, text=True,
                              stdin=subprocess.DEVNULL, timeout=20, check=False)
        wanted(done.returncode == 0 and not done.stderr, 'the policy %s without a warning' % name)
        with open(os.path.join(FOLDER, name)) as file:
            clients.append(set(re.findall(r'"(\w+-\w+)": \[\[', file.read())))
    wanted(all(clients) and not clients[0] & clients[1], 'two parts of the devices')


def refused(module, device):
    try:
        device.connect()
    except module.Refused:
        return
    raise Failure('%s is refused' % device.name)


def each_has_its_part(module, port, both):
    """A device is let in at its own gateway alone, and an alarm of the south reaches a valve of the north."""
    refused(module, module.Device((NORTH, port), 'meter-s1'))
    both.line('out', '^north: sng: info: denied: connect meter-s1 - 3 NoScope ')
    meter = module.Device((SOUTH, port), 'meter-s1')
    meter.connect()
    heard = []
    valve = module.Device((NORTH, port), 'valve-n1', heard=lambda *message: heard.append(message))
    valve.connect()
    valve.subscribe('site/+/alarm')
    meter.publish('site/south/alarm', b'frost')
    both.line('out', '^site/south/alarm frost$', PATIENCE)
    until(lambda: valve.receive(0.2) and heard, 'an alarm', PATIENCE)
    wanted(heard == [('site/south/alarm', b'frost')], 'one alarm, and not %s' % heard)
    return meter, valve


def one_goes_on(module, both, meter, valve):
    """Where one gateway is gone its devices are not answered, and those of the other go on."""
    south = int(both.line('out', r'^south: process (\d+)$')[1])
    os.kill(south, signal.SIGKILL)
    until(lambda: not is_running(south), 'an end of the south')
    patience, module.WAIT = module.WAIT, 0.2
    try:
        meter.ping()
    except OSError:
        pass
    else:
        raise Failure('no answer of a gateway that is gone')
    module.WAIT = patience
    valve.publish('site/north/valve-n1/state', b'open')
    both.line('out', '^site/north/valve-n1/state open$', PATIENCE)


def is_running(number):
    try:
        with open('/proc/%d/stat' % number) as stat:
            return stat.read().rsplit(')', 1)[1].split()[0] != 'Z'
    except FileNotFoundError:
        return False


def all_goes_well(program):
    broker, gateway = free_port(), free_port()
    more = {'SNG': program, 'BROKER_PORT': str(broker), 'GATEWAY_PORT': str(gateway)}
    both = Process([os.path.join(FOLDER, 'run')], env=dict(os.environ, **more), start_new_session=True)
    try:
        for name in ('north', 'south'):
            both.line('out', '^%s: sng: info: broker .*: connected$' % name, PATIENCE)
        module = library()
        meter, valve = each_has_its_part(module, gateway, both)
        one_goes_on(module, both, meter, valve)
        os.kill(both.child.pid, signal.SIGINT)
        wanted(both.ended(PATIENCE) == 0, 'status 0')
    finally:
        if both.child.poll() is None:
            os.killpg(both.child.pid, signal.SIGKILL)
            both.child.wait()
    out = both.lines['out']
    for line in (r'north: closed \d+ rows', 'north: ended with status 0', 'south: ended with status 137'):
        wanted(any(re.fullmatch(line, found) for found in out), '%r among %s' % (line, out[-6:]))


def main():
    program = os.path.abspath(sys.argv[1]) if sys.argv[1:] else PROVED
    missing = [name for name in NEEDED if not tool(name)]
    if not os.path.exists(program):
        print('no program at %s: `rt run` in crates/sng makes it' % program)
        return 1
    try:
        policies_are_right(program)
        if missing:
            print('left out: both gateways: not there: ' + ', '.join(missing))
            return 0
        all_goes_well(program)
    except (Failure, OSError, subprocess.SubprocessError) as fault:
        print('failed: %s' % fault)
        return 1
    print('two gateways: each its own part, its own book, and its own end')
    return 0


if __name__ == '__main__':
    sys.exit(main())
