"""Cases of tests/live.py: how the program starts and ends, its policies, and brokers that fail."""
import json
import os
import socket
import subprocess
import time

from live_parts import HOST, free_port, wanted
from live_room import Gateway
from live_sessions import S1, SOURCE


def a_broker_that_comes_back(room):
    broker = room.broker()
    gateway = room.gateway(broker.port, policy=SOURCE)
    device = room.device(gateway)
    broker.kill()
    gateway.line('err', 'lost: ')
    gateway.line('err', 'trying again in 200 ms')
    device.publish_short('ab', b'lost')
    gateway.line('out', 'note publish .* 21 UpstreamDown')
    anew = room.broker(broker.port)
    gateway.line('err', 'connected', count=2)
    heard = room.subscriber(anew, 'ab', 1)
    device.publish_short('ab', b'again')
    wanted(heard.ended() == 0 and 'got ab again' in heard.lines['out'], 'the message')
    gateway.close()
    kinds = [line.split()[-1] for line in gateway.lines['out'] if line.startswith('row ')]
    wanted(kinds.count('up') == 2, 'two rows up')
    wanted(kinds.count('down') == 1, 'one row down')


def a_subscription_outlives_the_broker(room):
    broker = room.broker()
    gateway = room.gateway(broker.port, policy=S1)
    device = room.device(gateway)
    device.connect('s1')
    device.subscribe('t/#')
    gateway.line('out', '^row .* broker')
    broker.kill()
    gateway.line('err', 'lost: ')
    room.broker(broker.port)
    gateway.line('out', '^wire 82', count=2)
    gateway.line('out', '^row .* broker', count=2)
    room.publish(broker, 't/2', 'anew')
    device.handed(device.announced('t/2'), b'anew')
    gateway.close()


def a_broker_that_refuses(room):
    broker = room.broker(anonymous=False)
    gateway = room.gateway(broker.port, '--tries', '2', policy=SOURCE, connected=False)
    gateway.line('err', 'refused with code 5: not authorized, .*; trying again in 200 ms')
    gateway.line('err', 'refused with code 5: not authorized, .*; gave up after 2 tries')
    room.device(gateway).publish_short('ab', b'x')
    gateway.line('out', 'note publish .* 21 UpstreamDown')
    gateway.close()


def an_unreachable_broker(room):
    gateway = room.gateway(free_port(), '--tries', '3', policy=SOURCE, connected=False)
    gateway.line('err', 'gave up after 3 tries')
    room.device(gateway).publish_short('ab', b'x')
    gateway.line('out', 'note publish .* 21 UpstreamDown')
    gateway.close()


def a_broker_that_says_nothing(room):
    with socket.socket() as mute:
        mute.bind((HOST, 0))
        mute.listen(5)
        gateway = room.gateway(mute.getsockname()[1], '--tries', '1', connected=False)
        gateway.line('err', 'no CONNACK in time; gave up after 1 tries')
        gateway.close()


def a_hostile_broker(room):
    with socket.socket() as hostile:
        hostile.bind((HOST, 0))
        hostile.listen(5)
        gateway = room.gateway(hostile.getsockname()[1], '--tries', '2', connected=False)
        peer, _ = hostile.accept()
        peer.sendall(b'\x20\x02\x00\x00' + b'\xf0' * 9000)
        gateway.line('err', 'lost: ')
        again, _ = hostile.accept()
        again.sendall(b'HTTP/1.1 400 Bad Request\r\n\r\n')
        gateway.line('err', 'trying again|gave up')
        gateway.close()
        peer.close()
        again.close()


def a_policy_of_a_file(room):
    broker = room.broker()
    path = room.file('policy.json', '{"version":1,\n"clients":{"s1":[["t/#",["pub","sub"]]]}}\n')
    gateway = room.gateway(broker.port, '--policy', path)
    gateway.line('err', 'policy in force: 1 clients, 0 sources, 0 topics')
    device = room.device(gateway)
    device.connect('s1')
    room.file('policy.json', '{"version":1,"clients":{"s1":[["t+",["pub"]]]}}')
    gateway.say('reload')
    gateway.line('out', '^refused policy 3 BadFilter$')
    gateway.line('err', 'policy refused: BadFilter')
    room.file('policy.json', '{"version":1}')
    gateway.say('reload')
    gateway.line('err', 'policy in force: 0 clients')
    gateway.line('out', '^row .* replace$', count=2)
    room.device(gateway).connect('s1', code=3)
    gateway.close()


def the_end_of_the_input(room):
    gateway = room.gateway(free_port(), connected=False)
    gateway.child.stdin.close()
    wanted(gateway.ended() == 0, 'status 0')
    wanted(gateway.lines['out'][-1].startswith('closed '), 'rows that are closed')


def a_service_without_input(room):
    path = room.file('policy.json', '{"version":1}')
    gateway = room.gateway(free_port(), '--policy', path, connected=False)
    gateway.child.stdin.close()
    gateway.line('out', '^row .* tick$')
    wanted(gateway.child.poll() is None, 'a gateway that goes on')
    room.device(gateway).connect('s1', code=3)
    gateway.kill()


def a_test_broker_that_does_not_open(room):
    with socket.socket() as taken:
        taken.bind((HOST, 0))
        taken.listen(1)
        busy = '%s:%d' % taken.getsockname()
        for word, printed in ((busy, 'cannot open %s\n' % busy), ('x', 'bad address x\n')):
            status, came = room.run('broker', '--listen', word)
            wanted((status, came) == (1, printed), '%r, and not %d: %r' % (printed, status, came))


def the_version(room):
    status, came = room.run('--version')
    kit = subprocess.run(['rt', 'version'], stdin=subprocess.DEVNULL, stdout=subprocess.PIPE, timeout=60,
                         check=True, text=True)
    printed = 'sng 0.1.0, proved by rattle logic %s\n' % kit.stdout.split()[-1]
    wanted((status, came) == (0, printed), '%r, and not %d: %r' % (printed, status, came))


def a_start_that_fails(room):
    path = room.file('policy.json', '{"version":1,"clients":{"s1":[["t+",["pub"]]]}}')
    with socket.socket(socket.AF_INET, socket.SOCK_DGRAM) as taken:
        taken.bind((HOST, 0))
        busy = '%s:%d' % taken.getsockname()
        good = ['--listen', HOST + ':0', '--broker', HOST + ':1883', '--id', 'gw1', '--workers', '1']

        def case(at, word, more, status, told, printed=''):
            words = good[:at] + [word] + good[at + 1:] if at is not None else good
            came = room.told('serve', *words, *more)
            told = 'sng: %s\n' % told
            wanted(came == (status, printed, told),
                   '%r: %r, and not %r' % (words + more, (printed, told), came))
        no_address = ': not an IPv4 address with a port, as 0.0.0.0:1884'
        no_id = ': not a client id of 1 to 23 characters'
        case(1, 'localhost:1', [], 1, '--listen localhost:1' + no_address)
        case(3, '127.0.0.1', ['--policy', path], 1, '--broker 127.0.0.1' + no_address)
        case(5, '', ['--policy', path], 1, '--id ' + no_id)
        case(5, 'x' * 24, [], 1, '--id ' + 'x' * 24 + no_id)
        case(1, busy, [], 1, '--listen %s: cannot be opened: Address already in use (os error 98)' % busy)
        case(1, busy, ['--policy', path], 1, '--policy %s: refused: BadFilter' % path,
             'refused policy 3 BadFilter\na filter in a scope is not a valid topic filter, or is too long\n'
             'at clients.s1[0][0]: "t+": wildcard \'+\' inside a level\n')
        case(None, '', ['--policy', path + 'x'], 1,
             '--policy %sx: cannot be read: No such file or directory (os error 2)' % path)
        for number in ('0', '9', 'x'):
            words = good[:7] + [number]
            status, printed = room.run('serve', *words)
            wanted((status, printed) == (2, ''), '%r: status 2, and not %d' % (words, status))


def configured(room, *words, **settings):
    """A gateway that a configuration file starts, and words of the command line. Once it listens."""
    text = ''.join('%s = %s\n' % (name.replace('_', '-'), json.dumps(value))
                   for name, value in settings.items())
    gateway = room.keep(Gateway([room.program, 'serve', '--config', room.file('sng.toml', text), *words]))
    gateway.port = int(gateway.line('err', r'listening on [\d.]+:(\d+)')[1])
    return gateway


def a_configuration_file(room):
    broker = room.test_broker()
    policy = room.file('policy.json', json.dumps(SOURCE))
    gateway = configured(room, listen=HOST + ':0', broker='%s:%d' % (HOST, broker.port), id='gw1', workers=2,
                         policy=policy, verbose=True, rows=True)
    gateway.line('err', 'connected')
    heard = room.subscriber(broker, 'ab', 1)
    room.device(gateway).publish_short('ab', b'x')
    heard.hears('ab', 'x')
    gateway.line('out', '^note publish .* ab allowed')
    gateway.say('reload')
    gateway.line('err', 'policy unchanged: nothing to do')
    gateway.say('quit')
    wanted(gateway.ended() == 0, 'status 0')
    rows = [line for line in gateway.lines['out'] if line.startswith('row 1 ')]
    wanted(len(rows) == 2, 'each row as it is made and at the end')


def the_command_line_goes_before_the_file(room):
    """Each of its words does, also before one that is no address; a switch that is on stays on."""
    port = free_port()
    policy = room.file('policy.json', json.dumps(SOURCE))
    gateway = configured(room, '--broker', '%s:%d' % (HOST, port), '--tries', '2', '--workers', '1',
                         listen=HOST + ':0', broker='nowhere', id='gw1', workers=8, tries=1, policy=policy,
                         rows=True)
    gateway.line('err', 'policy in force')
    gateway.line('err', 'gave up after 2 tries')
    gateway.say('quit')
    wanted(gateway.ended() == 0, 'status 0')
    wanted(any(line.startswith('row 1 ') for line in gateway.lines['out']), 'rows')
    gateway = configured(room, '--listen', HOST + ':0', listen='nowhere', broker='%s:%d' % (HOST, port),
                         id='gw1', workers=1, tries=1)
    gateway.line('err', 'gave up after 1 tries')
    gateway.kill()


def a_configuration_at_fault(room):
    """Nothing is started, and what is wrong is told with the file and the line; the file's faults first."""
    good = 'listen = "%s:0"\nbroker = "%s:1883"\nid = "gw1"\nworkers = 1\n' % (HOST, HOST)
    path = os.path.join(room.folder, 'sng.toml')

    def case(text, told, *words):
        room.file('sng.toml', text)
        came = room.told('serve', '--config', path, *words)
        told = 'sng: %s\n' % told.replace('FILE', path)
        wanted(came == (1, '', told), '%r: %r, and not %r' % (text, told, came))
    names = 'listen, broker, id, workers, policy, book, metrics, tries, flood-each, flood-all, verbose, ' \
            'rows, no-watch, log-time'
    case(good + 'listne = "x"\n', 'FILE, line 5: `listne` is not a setting; the settings are ' + names)
    case(good + '\nid = "gw2"', 'FILE, line 6: `id` is set on line 3 already')
    case(good + 'tries = "5"', 'FILE, line 5: `tries` wants a whole number from 0 to 4294967295')
    case(good.replace('= 1\n', '= 9\n'), 'FILE, line 4: `workers` wants a whole number from 1 to 8')
    case(good + 'policy = p.json', 'FILE, line 5, column 10: invalid value, expected a string, number, '
         'boolean, date-time, array or inline table')
    case(good + '[policy]', 'FILE, line 5: there are no tables here: each line is NAME = VALUE')
    case(good.replace(HOST + ':0', '1.2.3'),
         'FILE, line 1: listen 1.2.3: not an IPv4 address with a port, as 0.0.0.0:1884')
    case(good.replace('gw1', 'x' * 24),
         'FILE, line 3: id %s: not a client id of 1 to 23 characters' % ('x' * 24))
    case(good + 'policy = "/none.json"',
         'FILE, line 5: policy /none.json: cannot be read: No such file or directory (os error 2)')
    case(good.replace('workers', '#'),
         '--workers is missing: neither the command line nor the configuration file has it')
    case('x', 'FILE, line 1, column 2: key with no value, expected `=`', '--listen', 'nowhere')
    came = room.told('serve', '--config', path + 'x', '--listen', 'nowhere')
    told = 'sng: --config %sx: cannot be read: No such file or directory (os error 2)\n' % path
    wanted(came == (1, '', told), '%r, and not %r' % (told, came))
    status = room.told('serve', '--listen', HOST + ':0', '--broker', HOST + ':1883', '--id', 'gw1')[0]
    wanted(status == 2, 'status 2, and not %d' % status)


def an_input_that_cannot_be_read(room):
    policy, long = room.file('policy.json', '{"version":1}'), room.file('long', '')
    os.truncate(long, 256 * 1024 * 1024 + 1)
    for path, more in ((room.folder, []), (room.folder, ['--policy', policy]), (long, [])):
        source = os.open(path, os.O_RDONLY)
        try:
            gateway = room.gateway(free_port(), *more, connected=False, verbose=False, stdin=source)
        finally:
            os.close(source)
        status, came = gateway.ended(), gateway.lines['out']
        wanted((status, came) == (4, []), 'status 4 and no text, and not %d: %r' % (status, came))
        gateway.line('err', '^sng: standard input cannot be read$')


def a_full_disk(room):
    with open('/dev/full', 'wb') as full:
        gateway = room.gateway(free_port(), connected=False, stdout=full)
        room.device(gateway).connect('s1', code=3)
        gateway.say('quit')
        wanted(gateway.ended() == 4, 'status 4')


def idle(room):
    broker = room.broker()
    gateway = room.gateway(broker.port, workers=8, verbose=False)
    with open('/proc/%d/stat' % gateway.child.pid) as stat:
        before = sum(map(int, stat.read().rsplit(')', 1)[1].split()[11:13]))
    time.sleep(3)
    with open('/proc/%d/stat' % gateway.child.pid) as stat:
        after = sum(map(int, stat.read().rsplit(')', 1)[1].split()[11:13]))
    gateway.close(verbose=False)
    used = (after - before) / os.sysconf('SC_CLK_TCK')
    wanted(used <= 0.1, 'no more than 0.1 s of a processor in 3 s, and not %.2f' % used)
