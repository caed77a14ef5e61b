"""Cases of tests/live.py: the rows that `sng serve` prints, the denials that it tells, and streams that take
nothing."""
import os
import re
import socket
import subprocess
import threading
import time

from live_parts import HOST, SECONDS, Failure, free_port, measured, until, wanted
from live_room import Gateway
from live_sessions import S1, SOURCE

RUNNING = os.path.join(os.path.dirname(os.path.dirname(os.path.abspath(__file__))), 'docs', 'running.md')
# The rows after which the book is cut at a beat of the clock, and messages of MQTT-SN.
VOLUME_ROWS = 4096
PINGREQ, PINGRESP = 0x16, 0x17
CHECKS = ('sed -n ', 'grep -E ', 'sng check script')


def commands_of_the_document():
    """Those of docs/running.md that make a script and a book of printed rows, and check them."""
    with open(RUNNING) as text:
        lines = [line[2:].rstrip('\n') for line in text if line.startswith('$ ')]
    found = [line for start in CHECKS for line in lines if line.startswith(start)]
    wanted(len(found) == len(CHECKS), 'the commands of the document, and not %r' % found)
    return found


def rows_that_are_lawful(room):
    gateway = room.gateway(room.test_broker().port, policy=S1)
    device = room.device(gateway)
    device.connect('s1')
    device.publish(device.register('t/1'), b'hi')
    device.register('x/1', code=3)
    gateway.say('{')
    gateway.line('out', '^refused policy')
    gateway.replace(SOURCE)
    device.publish_short('ab', b'one')
    device.publish_short('cd', b'denied')
    gateway.line('out', '^note publish %s cd 10 ' % HOST)
    rows = gateway.close()
    room.file('log', ''.join(line + '\n' for line in gateway.lines['out']))
    for command in commands_of_the_document():
        done = subprocess.run(re.sub('^sng', room.program, command), shell=True, cwd=room.folder, timeout=60,
                              stdin=subprocess.DEVNULL, capture_output=True, text=True, check=False)
        wanted(done.returncode == 0, '%s: %r' % (command, done.stdout))
    wanted(done.stdout == 'lawful %d rows\n' % rows, 'a lawful book, and not %r' % done.stdout)


def denials_are_told(room):
    gateway = room.gateway(free_port(), '--flood-each', '1000', connected=False, verbose=False)
    room.device(gateway).connect('s1', code=3)
    gateway.line('err', '^sng: denied: connect s1 - 3 NoScope s1$')
    device = room.device(gateway)
    count, begun = 500, time.monotonic()
    publish_many(device, count)
    gateway.line('err', '^sng: denied: publish %s - 5 UnknownSource$' % re.escape(HOST))
    gateway.line('err', r'^sng: \d+ more denials$')
    time.sleep(2)
    gateway.close(verbose=False)
    lines = [line for line in gateway.lines['err'] if 'denied: publish' in line]
    more = sum(int(found[1]) for found in (re.fullmatch(r'sng: (\d+) more denials', line)
                                           for line in gateway.lines['err']) if found)
    wanted(len(lines) + more == count, '%d denials, and not %d and %d more' % (count, len(lines), more))
    seconds = time.monotonic() - begun + 1
    wanted(len(lines) <= 20 * seconds, '20 lines a second, and not %d in %.1f s' % (len(lines), seconds))
    wanted(not any(line.startswith('row ') for line in gateway.lines['out']), 'no rows')


def publish_many(device, count):
    """So many that are denied, at a pace at which none is lost."""
    for _ in range(count):
        device.publish_short('cd', b'denied')
        time.sleep(0.0005)


def full_pipe(blocks=True):
    """The ends of a pipe that is full."""
    source, sink = os.pipe()
    os.set_blocking(sink, False)
    try:
        while True:
            os.write(sink, b'\n' * 4096)
    except BlockingIOError:
        pass
    os.set_blocking(sink, blocks)
    return source, sink


def free_listen():
    return '%s:%d' % (HOST, free_port(socket.SOCK_DGRAM))


def begin(room, broker, listen, *more, **streams):
    """A gateway whose standard error is not read, with a policy of a file."""
    path = room.file('policy.json', '{"version":1,"clients":{"s1":[["t/#",["pub","sub"]]]}}')
    words = [room.program, 'serve', '--listen', listen, '--broker', '%s:%d' % (HOST, broker), '--id', 'gw1',
             '--workers', '2', '--policy', path, *more]
    gateway = room.keep(Gateway(words, **streams))
    gateway.port, gateway.is_verbose = int(listen.split(':')[1]), False

    def answers():
        device = room.device(gateway)
        device.socket.settimeout(0.2)
        device.send(0x04, b'\4\1\0\x3cs1')
        try:
            return device if device.socket.recv(64)[1] == 5 else None
        except OSError:
            return None
    return gateway, until(answers, 'a gateway that answers')


def publish_once_connected(device):
    """A publish at QoS 1, tried again while the gateway has no connection to the broker."""
    topic = device.register('t/1')

    def publishes():
        try:
            device.publish(topic, b'hi')
        except Failure:
            return False
        return True
    until(publishes, 'a publish that is accepted')


def a_stuck_standard_error(room):
    broker = room.test_broker()
    heard = room.subscriber(broker, 't/1', 1)
    source, sink = full_pipe()
    try:
        gateway, device = begin(room, broker.port, free_listen(), stderr=sink)
        os.close(sink)
        publish_many(device, 600)
        publish_once_connected(device)
        heard.hears('t/1', 'hi')
        before = time.monotonic()
        gateway.say('quit')
        wanted(gateway.ended() == 0, 'status 0')
        wanted(time.monotonic() - before < 5, 'an end in time')
        measured('a stuck standard error: an end %.1f s behind quit' % (time.monotonic() - before))
        wanted(gateway.lines['out'][-1].startswith('closed '), 'rows that are closed')
    finally:
        os.close(source)


def a_stuck_standard_output(room):
    broker = room.test_broker()
    heard = room.subscriber(broker, 't/1', 1)
    source, sink = full_pipe()
    try:
        gateway, device = begin(room, broker.port, free_listen(), '--verbose', stdout=sink)
        os.close(sink)
        publish_many(device, 2000)
        publish_once_connected(device)
        heard.hears('t/1', 'hi')
        gateway.line('err', '^sng: denied: publish ')
        before = time.monotonic()
        gateway.say('quit')
        wanted(gateway.ended() == 4, 'status 4')
        wanted(time.monotonic() - before < 5, 'an end in time')
        measured('a stuck standard output: an end %.1f s behind quit' % (time.monotonic() - before))
        gateway.line('err', r'^sng: \d+ rows were not printed$')
    finally:
        os.close(source)


def an_output_that_fails_for_a_while(room):
    """Writes to a full pipe that does not block fail; rows go on once there is room, and none is left out."""
    broker = room.test_broker()
    source, sink = full_pipe(blocks=False)
    gateway, device = begin(room, broker.port, free_listen(), '--verbose', stdout=sink)
    os.close(sink)
    gateway.line('err', '^sng: standard output: Resource temporarily unavailable')
    publish_once_connected(device)
    with os.fdopen(source, 'rb') as pipe:
        lines = []
        reader = threading.Thread(target=lambda: lines.extend(pipe.read().decode().split('\n')), daemon=True)
        reader.start()
        gateway.line('err', '^sng: standard output: written again$')
        device.leave()
        gateway.say('quit')
        wanted(gateway.ended() == 0, 'status 0')
        reader.join(SECONDS)
    rows = [int(line.split()[1]) for line in lines if line.startswith('row ')]
    wanted(rows == list(range(1, len(rows) + 1)), 'all rows in order')
    wanted('closed %d rows' % len(rows) in lines, 'as many rows as were closed')


def a_stop_under_load(room):
    gateway = room.gateway(room.test_broker().port, '--flood-each', '1000000', '--flood-all', '1000000',
                           workers=4, policy=S1)
    device = room.device(gateway)
    is_over = threading.Event()

    def flood():
        while not is_over.is_set():
            try:
                device.publish_short('cd', b'x' * 100)
            except OSError:
                return
    flooding = threading.Thread(target=flood, daemon=True)
    flooding.start()
    try:
        gateway.line('out', '^row 5000 ', 30)
        wanted(gateway.close() > 5000, 'rows')
    finally:
        is_over.set()
        flooding.join(SECONDS)


def a_book_in_volumes(room):
    """Under load the book is cut three times, at beats of a second: each row is printed once, by its number, as
    it is made or as the gateway stops."""
    for option, verbose in ((), True), (('--rows',), False):
        gateway = room.gateway(free_port(), *option, connected=False, verbose=verbose, policy=S1)
        device = room.device(gateway)
        device.connect('s1')
        for _ in range(3):
            for _ in range(VOLUME_ROWS + 10):
                device.send(PINGREQ)
                device.receive(PINGRESP)
            time.sleep(1.2)
        rows = gateway.close()
        wanted(rows > 3 * VOLUME_ROWS, 'three volumes, and not %d rows' % rows)
        told = [line for line in gateway.lines['err'] if 'not printed' in line]
        wanted(not told, 'all rows printed: %r' % told)


ALONE = (rows_that_are_lawful, a_book_in_volumes, denials_are_told, a_stuck_standard_error, a_stuck_standard_output,
         an_output_that_fails_for_a_while, a_stop_under_load)
