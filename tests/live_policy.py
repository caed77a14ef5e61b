"""Cases of tests/live.py: a policy file that changes while the gateway serves, and what is told of clients."""
import json
import os
import re
import subprocess
import time

from live_parts import free_port, wanted

ONE = '{"version":1,"clients":{"s1":[["t/#",["pub","sub"]]]}}'
TWO = '{"version":1,"clients":{"s1":[["t/#",["pub"]]],"s2":[["t/#",["sub"]]]}}'
THREE = '{"version":1,"clients":{"s1":[],"s2":[],"s3":[["t/#",["sub"]]]}}'
REFUSED = '{"version":1,"clients":{"s1":[["t+",["pub"]]]}}'
# For so long nothing may come of a file, in seconds: longer than a file that has changed takes
LONG = 3.0


def beside(path, text):
    """Writes the text to another file, which then takes the place of this one."""
    with open(path + '.new', 'w') as file:
        file.write(text)
    os.rename(path + '.new', path)


def in_force(gateway, clients, count):
    gateway.line('err', '^sng: policy in force: %d clients' % clients)
    gateway.line('out', '^row .* replace$', count=count)


def told_once(gateway, pattern):
    """The line came, and comes no second time."""
    gateway.line('err', pattern)
    time.sleep(LONG)
    count = sum(1 for line in gateway.lines['err'] if re.search(pattern, line))
    wanted(count == 1, '%r once, and not %d times' % (pattern, count))


def a_policy_file_that_changes(room):
    """It is taken by itself, written in its place or beside it; the same text again makes no row."""
    path = room.file('policy.json', ONE)
    gateway = room.gateway(free_port(), '--policy', path, connected=False)
    beside(path, TWO)
    in_force(gateway, 2, 2)
    room.device(gateway).connect('s2')
    room.file('policy.json', THREE)
    in_force(gateway, 3, 3)
    room.file('policy.json', THREE)
    time.sleep(LONG)
    gateway.say('reload')
    gateway.line('err', '^sng: policy unchanged: nothing to do$')
    gateway.close()
    rows = [line for line in gateway.lines['out'] if line.endswith(' replace')]
    unchanged = sum('policy unchanged' in line for line in gateway.lines['err'])
    wanted((len(rows), unchanged) == (3, 1), 'three rows and a line for the reload, not %d and %d'
           % (len(rows), unchanged))


def a_policy_whose_scope_has_ended(room):
    """It ended before the gateway began: its client is as if it were not listed, and another one is let in."""
    path = room.file('policy.json', json.dumps({'version': 2, 'clients': {
        's1': {'scope': [['t/#', ['pub']]], 'exp': 1000}, 's2': {'scope': [['t/#', ['pub']]]}}}))
    gateway = room.gateway(free_port(), '--policy', path, connected=False)
    gateway.line('err', '^sng: policy in force: 2 clients, 0 sources, 0 topics; 1 scopes end, the first at '
                 '1000 ms of Unix time, 1970-01-01T00:00:01Z$')
    room.device(gateway).connect('s1', code=3)
    gateway.line('out', '^note connect s1 - 3 NoScope s1$')
    room.device(gateway).connect('s2')
    gateway.close()


def a_policy_file_in_two_halves(room):
    """While it grows it is not taken, and half of it is not told."""
    path = room.file('policy.json', ONE)
    gateway = room.gateway(free_port(), '--policy', path, connected=False)
    with open(path, 'w') as file:
        for place in range(0, len(TWO), 2):
            file.write(TWO[place:place + 2])
            file.flush()
            time.sleep(0.1)
    in_force(gateway, 2, 2)
    gateway.close()
    wanted(not any('policy refused' in line for line in gateway.lines['err']), 'no half that is refused')


def a_policy_file_that_is_refused(room):
    """Its fault is told once, with its place, and the policy before stays."""
    path = room.file('policy.json', ONE)
    gateway = room.gateway(free_port(), '--policy', path, connected=False)
    beside(path, REFUSED)
    told_once(gateway, '^sng: policy refused: BadFilter: the one before stays$')
    gateway.line('err', r"""^sng: at clients.s1\[0\]\[0\]: "t\+": wildcard '\+' inside a level$""")
    room.device(gateway).connect('s1')
    beside(path, TWO)
    in_force(gateway, 2, 2)
    gateway.close()


def a_policy_file_that_goes(room):
    """Removed, put back, and with a folder in its place: the policy stays, and each is told once."""
    path = room.file('policy.json', ONE)
    gateway = room.gateway(free_port(), '--policy', path, connected=False)
    os.remove(path)
    told_once(gateway, '^sng: .*policy.json: No such file or directory .*: the policy in force stays$')
    beside(path, ONE)
    time.sleep(LONG)
    os.remove(path)
    os.mkdir(path)
    told_once(gateway, '^sng: .*policy.json: not a regular file: the policy in force stays$')
    room.device(gateway).connect('s1')
    os.rmdir(path)
    beside(path, TWO)
    in_force(gateway, 2, 2)
    gateway.close()


def a_policy_file_that_is_not_watched(room):
    """With --no-watch only `reload` reads it again."""
    path = room.file('policy.json', ONE)
    gateway = room.gateway(free_port(), '--policy', path, '--no-watch', connected=False)
    beside(path, TWO)
    time.sleep(LONG)
    wanted(not any('2 clients' in line for line in gateway.lines['err']), 'the policy of before')
    gateway.say('reload')
    in_force(gateway, 2, 2)
    gateway.close()


def a_policy_file_without_input(room):
    """Where standard input is at its end the file is taken still, and a line before that is not lost."""
    path = room.file('policy.json', ONE)
    source, sink = os.pipe()
    gateway = room.gateway(free_port(), '--policy', path, connected=False, stdin=source)
    os.close(source)
    beside(path, TWO)
    in_force(gateway, 2, 2)
    os.write(sink, b'status\n')
    gateway.line('out', '^status policy: clients 2, sources 0, topics 0$')
    os.close(sink)
    time.sleep(1)
    beside(path, THREE)
    in_force(gateway, 3, 3)
    gateway.kill()


def the_time_of_each_line(room):
    """With --log-time each line begins with the time at which it was written."""
    gateway = room.gateway(free_port(), '--tries', '1', '--log-time', connected=False)
    begun = time.time()
    gateway.line('err', 'gave up after 1 tries')
    gateway.close()
    for line in gateway.told:
        found = re.match(r'(\d{4}-\d\d-\d\dT\d\d:\d\d:\d\dZ) sng: (info|warning|error): ', line)
        wanted(found, 'a line with its time, and not %r' % line)
        done = subprocess.run(['date', '-d', found[1], '+%s'], capture_output=True, text=True, check=True,
                              stdin=subprocess.DEVNULL, timeout=10)
        wanted(abs(int(done.stdout) - begun) < 60, 'the time of now, and not %s' % found[1])


def clients_are_told(room):
    """Who is let in, refused and lost; of many in a second the rest is counted."""
    policy = {'version': 1, 'clients': {'c%03d' % number: [] for number in range(100)}}
    gateway = room.gateway(free_port(), connected=False, verbose=False, policy=policy)
    room.device(gateway).connect('c000', duration=1)
    gateway.line('err', '^sng: client c000 let in$')
    gateway.line('err', '^sng: client c000 lost$')
    room.device(gateway).connect('s 1', code=3)
    gateway.line('err', '^sng: denied: connect s%201 - 3 NoScope s%201$')
    begun = time.monotonic()
    for number in range(1, 100):
        room.device(gateway).connect('c%03d' % number)
    gateway.line('err', r'^sng: \d+ more clients let in, refused or lost$')
    time.sleep(2)
    gateway.close(verbose=False)
    seconds = time.monotonic() - begun + 2
    lines = [line for line in gateway.lines['err'] if re.search('^sng: client c[0-9]+ let in$', line)]
    more = sum(int(found[1]) for found in (re.match(r'sng: (\d+) more clients', line)
                                           for line in gateway.lines['err']) if found)
    wanted(len(lines) + more == 100, '100 that are let in, and not %d and %d' % (len(lines), more))
    wanted(len(lines) <= 10 * seconds, 'ten lines a second, and not %d in %.1f s' % (len(lines), seconds))


ALONE = (a_policy_file_that_changes, a_policy_whose_scope_has_ended, a_policy_file_in_two_halves,
         a_policy_file_that_is_refused,
         a_policy_file_that_goes, a_policy_file_that_is_not_watched, a_policy_file_without_input,
         the_time_of_each_line, clients_are_told)
