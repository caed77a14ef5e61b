"""Cases of tests/live.py: what an operator says to the program while it serves."""
import json
import os
import re
import shutil
import subprocess
import time

from live_parts import LEVELS, Process, free_port, measured, rss_kib, wanted

EXAMPLES = os.path.join(os.path.dirname(os.path.dirname(os.path.abspath(__file__))), 'examples')
ALLOWS_S1 = {'version': 1, 'clients': {'s1': [['t/#', ['pub', 'sub']]]}}
ALLOWS = '{"version":1,"clients":{"s1":[["t/#",["pub","sub"]]]}}'


def a_control_pipe(room):
    """The commands of examples/sng.service, by a pipe that is never at its end."""
    path, pipe = room.file('policy.json', '{"version":1}'), os.path.join(room.folder, 'control')
    os.mkfifo(pipe, 0o600)
    source = os.open(pipe, os.O_RDWR)
    try:
        gateway = room.gateway(free_port(), '--policy', path, '--tries', '0', connected=False, stdin=source)
    finally:
        os.close(source)
    room.device(gateway).connect('s1', code=3)
    room.file('policy.json', ALLOWS)
    run_to_its_end(room, unit_command('ExecReload', pipe, gateway))
    gateway.line('err', 'policy in force: 1 clients')
    gateway.line('out', '^row .* replace$', count=2)
    room.device(gateway).connect('s1')
    stop = begin(room, unit_command('ExecStop', pipe, gateway))
    wanted(gateway.ended() == 0, 'status 0')
    wanted(stop.ended() == 0, 'a stop that ends behind the gateway')
    wanted(gateway.lines['out'][-1].startswith('closed '), 'rows that are closed')


def the_level_of_each_line(room):
    """Each line on standard error has a word for how grave it is."""
    gateway = room.gateway(free_port(), '--tries', '2', connected=False)
    gateway.line('err', 'gave up after 2 tries')
    gateway.say(ALLOWS)
    gateway.line('err', 'policy in force: 1 clients')
    gateway.say('{"version":9}')
    gateway.line('err', 'policy refused: Shape')
    gateway.say('nonsense')
    gateway.line('err', 'nonsense')
    gateway.close(verbose=False)
    wanted(all(re.match('sng: (%s): ' % '|'.join(LEVELS), line) for line in gateway.told),
           'a level in each line, and not %r' % gateway.told)
    for level, said in (('info', 'listening on'), ('warning', 'broker .*; trying again in'),
                        ('error', 'broker .*; gave up after 2 tries'), ('info', 'policy in force'),
                        ('error', 'policy refused: Shape'), ('warning', '.*nonsense')):
        wanted(any(re.match('sng: %s: %s' % (level, said), line) for line in gateway.told),
               '%s for %r, and not %r' % (level, said, gateway.told))


def unit_command(name, pipe, gateway):
    """What the unit runs by this name, for another pipe and process."""
    with open(os.path.join(EXAMPLES, 'sng.service')) as unit:
        command = [line.rstrip('\n').split("-c '", 1)[1][:-1] for line in unit if line.startswith(name + '=')]
    wanted(len(command) == 1, 'one %s of the unit' % name)
    found = command[0].replace('$$MAINPID', str(gateway.child.pid))
    wanted('/run/sng.control' in found, 'a command that writes to the pipe')
    return found.replace('/run/sng.control', pipe)


def begin(room, command):
    return room.keep(Process(['/bin/sh', '-c', command]))


def run_to_its_end(room, command):
    wanted(begin(room, command).ended() == 0, 'a command that ends well: ' + command)


def the_units(room):
    """systemd finds no fault in the units, where it is there."""
    if not shutil.which('systemd-analyze'):
        return
    paths = []
    for name in ('sng.socket', 'sng.service'):
        with open(os.path.join(EXAMPLES, name)) as unit:
            paths.append(room.file(name, unit.read().replace('/usr/local/bin/sng', room.program)))
    done = subprocess.run(['systemd-analyze', 'verify', *paths], stdin=subprocess.DEVNULL, timeout=60,
                          capture_output=True, text=True, check=False)
    wanted(done.returncode == 0 and not done.stderr, 'units without a fault, and not %r' % done.stderr)


def what_a_line_asks_for(room):
    """Each command, and lines that are none."""
    gateway = room.gateway(free_port(), connected=False)
    gateway.say('help')
    for word in ('policy TEXT', 'reload', 'status', 'verbose on', 'verbose denials', 'verbose off', 'quit',
                 'help'):
        gateway.line('err', '^sng: %s  ' % word)
    for line, shown in (('relaod', 'relaod'), ('verbose loud', 'verbose%20loud'), ('policy', 'policy'),
                        ('\u00e4%', '%C3%A4%25'), ('x' * 300, 'x' * 200)):
        gateway.say(line)
        gateway.line('err', r"^sng: unknown command: %s \('help' lists them\)$" % shown)
    gateway.say('')
    gateway.say('reload')
    gateway.line('err', '^sng: nothing to reload: --policy names no file$')
    gateway.say('policy ' + ALLOWS + '\r')
    gateway.line('err', '^sng: policy in force: 1 clients, 0 sources, 0 topics$')
    room.device(gateway).connect('s1')
    wanted(not any('refused policy' in line for line in gateway.lines['out']), 'no policy that is refused')
    gateway.close()


def how_it_stands(room):
    """`status` counts what is there."""
    gateway = room.gateway(free_port(), '--tries', '1', connected=False, policy=ALLOWS_S1)
    gateway.line('err', 'gave up after 1 tries')
    room.device(gateway).connect('s1')
    gateway.line('out', '^row .* datagram$')
    gateway.say('status')
    for line in ('broker: not up, waiting: 0, in flight: 0',
                 'clients: active 1, asleep 0, awake 0, in dialogue 0, disconnected 0, lost 0',
                 'subscriptions: 0, messages waiting: 0', 'policy: clients 1, sources 0, topics 0'):
        gateway.line('out', '^status %s$' % line)
    found = gateway.line('out', r'^status rows: (\d+), left: (\d+)$')
    wanted(int(found[1]) + int(found[2]) == 1000000, 'as many rows as the book may have')
    gateway.close()


def rows_from_now_on(room):
    """`verbose` turns rows on and off, and `status` needs none of them."""
    gateway = room.gateway(free_port(), connected=False, verbose=False, policy=ALLOWS_S1)
    gateway.say('status')
    gateway.line('out', '^status rows: ')
    wanted(not any(line.startswith('row ') for line in gateway.lines['out']), 'no row')
    gateway.say('verbose denials')
    time.sleep(0.3)
    room.device(gateway).connect('s2', code=3)
    gateway.line('out', '^note connect s2 - 3 NoScope')
    wanted(not any(line.endswith(' tick') for line in gateway.lines['out']), 'rows with a denial alone')
    gateway.say('verbose on')
    gateway.line('out', '^row .* tick$')
    gateway.say('verbose off')
    time.sleep(0.3)
    before = len(gateway.lines['out'])
    room.device(gateway).connect('s1')
    time.sleep(0.3)
    wanted(len(gateway.lines['out']) == before, 'no more rows')
    gateway.close(verbose=False)


def a_policy_that_changes_nothing(room):
    """The same text again makes no row, of a file or of a line."""
    path = room.file('policy.json', ALLOWS)
    gateway = room.gateway(free_port(), '--policy', path, connected=False)
    gateway.say('reload')
    gateway.line('err', '^sng: policy unchanged: nothing to do$')
    gateway.say(ALLOWS)
    gateway.line('err', '^sng: policy unchanged: nothing to do$', count=2)
    gateway.say('{"version":1}')
    gateway.line('err', '^sng: policy in force: 0 clients')
    gateway.say('reload')
    gateway.line('err', '^sng: policy in force: 1 clients', count=2)
    gateway.line('out', '^row .* replace$', count=3)
    gateway.say('reload')
    gateway.line('err', '^sng: policy unchanged: nothing to do$', count=3)
    gateway.close()
    rows = [line for line in gateway.lines['out'] if line.endswith(' replace')]
    wanted(len(rows) == 3, 'three rows of policies, and not %d' % len(rows))


def a_large_policy_that_changes_nothing(room):
    """Read again 60 times, it keeps no memory."""
    pairs = [['area/%02d/#' % number, ['pub', 'sub']] for number in range(64)]
    text = json.dumps({'version': 1, 'clients': {'client%03d' % number: pairs for number in range(256)}})
    path = room.file('policy.json', text)
    gateway = room.gateway(free_port(), '--policy', path, connected=False, verbose=False)
    gateway.line('err', '^sng: policy in force: 256 clients')
    before = rss_kib(gateway.child.pid)
    for count in range(1, 61):
        gateway.say('reload')
        gateway.line('err', '^sng: policy unchanged: nothing to do$', count=count)
    grown = rss_kib(gateway.child.pid) - before
    wanted(grown < 16384, 'no memory that is kept, and not %d KiB' % grown)
    measured('a policy of %d bytes reloaded 60 times: %d KiB more' % (len(text), grown))
    rows = gateway.close(verbose=False)
    wanted(rows < 60, 'no row for each, and not %d' % rows)


def what_is_told_of_a_policy(room):
    """A fault with its place, and warnings up to a bound."""
    gateway = room.gateway(free_port(), connected=False)
    gateway.say('{"version":1,"clients":{"s1":[["t+",["pub"]]]}}')
    gateway.line('out', '^refused policy 3 BadFilter$')
    gateway.line('err', '^sng: policy refused: BadFilter: the one before stays$')
    gateway.line('err', '^sng: a filter in a scope is not a valid topic filter, or is too long$')
    gateway.line('err', r"""^sng: at clients.s1\[0\]\[0\]: "t\+": wildcard '\+' inside a level$""")
    gateway.say(json.dumps({'version': 1, 'clients': {'c%02d' % number: [] for number in range(23)}}))
    gateway.line('err', '^sng: clients.c19 has no pairs: all is denied$')
    gateway.line('err', '^sng: 3 lines more: `sng policy` shows all$')
    gateway.line('err', '^sng: policy in force: 23 clients')
    gateway.close()
    wanted(not any('c20' in line for line in gateway.lines['err']), 'no more than 20 warnings')


def an_input_that_does_not_block(room):
    """Such a standard input is read as any other."""
    taken, given = os.pipe()
    os.set_blocking(taken, False)
    try:
        gateway = room.gateway(free_port(), connected=False, stdin=taken)
        time.sleep(0.3)
        wanted(gateway.child.poll() is None, 'a gateway that goes on')
        os.write(given, b'he')
        time.sleep(0.3)
        os.write(given, b'lp\n')
        gateway.line('err', '^sng: help  ')
        os.write(given, b'quit\n')
        wanted(gateway.ended() == 0, 'status 0')
    finally:
        os.close(taken)
        os.close(given)


ALONE = (a_control_pipe, the_level_of_each_line, the_units, what_a_line_asks_for, how_it_stands,
         rows_from_now_on, a_policy_that_changes_nothing,
         a_large_policy_that_changes_nothing, what_is_told_of_a_policy, an_input_that_does_not_block)
