#!/usr/bin/env python3
"""metrics.py [PROGRAM [CASE ..]]

Asks running gateways for their figures over HTTP and by `sng status`, on loopback, beside the program's own
test broker: the page is read by a parser of Prometheus' text format that was written from its description
(prometheus_text.py), figures move with what devices do, and slow, large and wrong requests leave devices
alone. PROGRAM is the proved program where none is given. With SNG_LIVE_FIGURES in the environment the figures
of docs/hardening.md are printed. Exit status 1 where a case fails."""
import json
import os
import re
import resource
import signal
import socket
import struct
import subprocess
import sys
import time

sys.dont_write_bytecode = True
import prometheus_text
from live_parts import HOST, SECONDS, Failure, free_port, measured, until, wanted
from live_room import Gateway, Room

HERE = os.path.dirname(os.path.abspath(__file__))
PROVED = os.path.join(os.path.dirname(HERE), 'crates', 'sng', 'out', 'sng')
ALLOWS_S1 = {'version': 1, 'clients': {'s1': [['t/#', ['pub', 'sub']]]}}
# As many visitors are heard at a time, and each for so many seconds at most.
PLACES, VISIT_SECONDS = 32, 5
# Octets that a file may have while the disk is full
FULL_DISK = 4096


class Answer:
    """An answer of HTTP: its status, its fields and its body."""

    def __init__(self, octets):
        head, parted, body = octets.partition(b'\r\n\r\n')
        wanted(parted, 'a whole head, and not %r' % octets[:80])
        lines = head.decode('ascii').split('\r\n')
        found = re.fullmatch(r'HTTP/1\.1 (\d{3}) .+', lines[0])
        wanted(found, 'a status line, and not %r' % lines[0])
        self.status = int(found[1])
        self.fields = {name.lower(): value.strip() for name, value in
                       (line.split(':', 1) for line in lines[1:])}
        self.body = body

    def check(self, status, has_body=True):
        """Its status, and that it is whole and the last of its connection."""
        wanted(self.status == status, 'status %d, and not %d: %r' % (status, self.status, self.body[:200]))
        wanted(self.fields.get('connection') == 'close', 'Connection: close, and not %r' % self.fields)
        if has_body:
            wanted(self.fields.get('content-length') == str(len(self.body)), 'a Content-Length of the body')
        else:
            wanted(not self.body, 'no body')
        return self


class Visitor:
    """A connection to where figures are asked for."""

    def __init__(self, port):
        self.socket = socket.create_connection((HOST, port), SECONDS)

    def send(self, octets):
        self.socket.sendall(octets)

    def answer(self, seconds=SECONDS):
        """What comes until the gateway closes the connection."""
        self.socket.settimeout(seconds)
        octets = b''
        while True:
            piece = self.socket.recv(65536)
            if not piece:
                self.socket.close()
                return octets
            octets += piece

    def close(self):
        self.socket.close()


def asked(port, path='/metrics', method='GET', more='', seconds=SECONDS):
    visitor = Visitor(port)
    visitor.send(('%s %s HTTP/1.1\r\nHost: x\r\n%s\r\n' % (method, path, more)).encode())
    return Answer(visitor.answer(seconds))


def samples(port, seconds=SECONDS):
    """The samples of the page, by name and labels: one that is no page of the format fails."""
    answer = asked(port, seconds=seconds).check(200)
    wanted(answer.fields.get('content-type') == 'text/plain; version=0.0.4; charset=utf-8',
           'the type of the format, and not %r' % answer.fields)
    families = prometheus_text.parse(answer.body.decode('utf-8'))
    complaints = prometheus_text.complaints(families)
    wanted(not complaints, 'a page without a complaint, and not %r' % complaints)
    return {(name, frozenset(labels.items())): number for family in families.values()
            for name, labels, number in family.samples}


def serving(room, port, *more, **rest):
    """A gateway that serves figures, at its `figures`."""
    gateway = room.gateway(port, '--metrics', HOST + ':0', *more, **rest)
    gateway.figures = int(gateway.line('err', r'^sng: figures at http://[\d.]+:(\d+)/metrics$')[1])
    return gateway


def health(gateway):
    return asked(gateway.figures, '/healthz')


def status(room, gateway):
    """The exit status of `sng status`, and what it prints."""
    return room.told('status', '%s:%d' % (HOST, gateway.figures))


def the_page(room):
    """It keeps the rules of the format, and has the figures of the rows that there are."""
    broker = room.test_broker()
    gateway = serving(room, broker.port, policy=ALLOWS_S1)
    found = samples(gateway.figures)
    wanted(value(found, 'sng_broker_up') == 1, 'a connection that is up')
    wanted(value(found, 'sng_rows_total', event='replace') == 1, 'one policy that came into force')
    for path in ('/metrics?x=1', 'http://x/metrics'):
        asked(gateway.figures, path).check(200)
    head = asked(gateway.figures, method='HEAD').check(200, has_body=False)
    wanted(int(head.fields['content-length']) > 1000, 'the length of the page')
    gateway.close()


def value(found, name, **labels):
    """The one sample of this name with these labels among its own."""
    fits = [number for (other, own), number in found.items()
            if other == name and set(labels.items()) <= set(own)]
    wanted(len(fits) == 1, 'one sample %s %r, and not %d' % (name, labels, len(fits)))
    return fits[0]


def total(found, name, **labels):
    """The sum of all samples of this name with these labels."""
    return sum(number for (other, own), number in found.items()
               if other == name and set(labels.items()) <= set(own))


def figures_that_move(room):
    """A publish, a denial and a policy that is refused are counted; nothing that was counted is lost."""
    broker = room.test_broker()
    gateway = serving(room, broker.port, policy=ALLOWS_S1)
    device = room.device(gateway)
    device.connect('s1')
    topic = device.register('t/1')
    before = samples(gateway.figures)
    device.publish(topic, b'x')
    room.device(gateway).connect('s2', code=3)
    gateway.say('{"version":9}')
    gateway.line('err', 'policy refused: Shape')
    after = samples(gateway.figures)

    def grew(name, by, **labels):
        more = total(after, name, **labels) - total(before, name, **labels)
        wanted(more == by, '%s %r grew by %g, and not by %g' % (name, labels, by, more))
    grew('sng_decisions_total', 1, kind='publish', outcome='allowed')
    grew('sng_decisions_total', 1, kind='forward', outcome='allowed')
    grew('sng_decisions_total', 1, kind='connect', rule='NoScope')
    grew('sng_rows_total', 2, event='datagram')
    grew('sng_policies_refused_total', 1)
    for (name, labels), number in before.items():
        if name.endswith('_total'):
            wanted(after.get((name, labels), -1) >= number, '%s %r goes on' % (name, labels))
    wanted(value(after, 'sng_clients', state='active') == 1, 'one active client')
    rows = gateway.close()
    wanted(total(after, 'sng_rows_total') <= rows, 'no more rows than were closed')


def whether_all_is_well(room):
    """/healthz and `sng status` tell that the broker is away, and that it is back."""
    broker = room.test_broker()
    gateway = serving(room, broker.port, '--tries', '0')
    wanted(health(gateway).check(200).body == b'ok\n', 'ok')
    came = status(room, gateway)
    wanted(came[0] == 0 and came[2] == '', 'status 0, and not %r' % (came,))
    wanted(re.search('^broker +up$', came[1], re.M), 'the broker, and not %r' % came[1])
    broker.kill()
    gateway.line('err', 'lost: ')
    until(lambda: health(gateway).status == 503, 'a gateway that is not well')
    wanted(b'broker' in health(gateway).check(503).body, 'the reason')
    came = status(room, gateway)
    wanted(came[0] == 1 and 'broker' in came[1] + came[2], 'status 1 with the reason, and not %r' % (came,))
    room.test_broker(broker.port)
    gateway.line('err', 'connected', count=2)
    until(lambda: health(gateway).status == 200, 'a gateway that is well again')
    gateway.close()


def a_book_that_cannot_be_written(room):
    """Rows wait for the disk, and that is told as long as they do."""
    broker = room.test_broker()
    gateway = serving(room, broker.port, '--book', os.path.join(room.folder, 'books'), policy=ALLOWS_S1,
                      verbose=False, preexec_fn=limits_files)
    until(lambda: health(gateway).status == 200, 'a gateway that is well')
    device = room.device(gateway)
    device.connect('s1')
    topic = device.register('t/1')
    for _ in range(100):
        device.publish(topic, b'x' * 100)
    gateway.line('err', 'rows wait until it can be written')
    wanted(health(gateway).check(503).body == b'the book takes no rows\n', 'the reason')
    found = samples(gateway.figures)
    wanted(value(found, 'sng_book_takes_rows') == 0 and value(found, 'sng_rows_waiting') > 0, 'rows that wait')
    came = status(room, gateway)
    wanted(came[0] == 1 and re.search('^book +takes no rows$', came[1], re.M), 'the table, and not %r' % (came,))
    device.publish(topic, b'more')
    resource.prlimit(gateway.child.pid, resource.RLIMIT_FSIZE, (resource.RLIM_INFINITY, resource.RLIM_INFINITY))
    gateway.line('err', 'the book on disk: written again')
    until(lambda: health(gateway).status == 200, 'a gateway that is well again')
    until(lambda: value(samples(gateway.figures), 'sng_rows_waiting') < 20, 'rows that are on disk')
    gateway.close(verbose=False)


def limits_files():
    """The process that is to start may write so few octets to a file, and is not killed by one more."""
    signal.signal(signal.SIGXFSZ, signal.SIG_IGN)
    resource.setrlimit(resource.RLIMIT_FSIZE, (FULL_DISK, resource.RLIM_INFINITY))


def nobody_to_ask(room):
    """`sng status` says in a line what it asked and what came of that."""
    port = free_port()
    where = '%s:%d' % (HOST, port)
    case = room.told('status', where)
    wanted(case == (1, '', 'sng: %s: Connection refused (os error 111)\n' % where), repr(case))
    case = room.told('status', 'localhost')
    wanted(case[0] == 1 and len(case[2].splitlines()) == 1 and 'localhost' in case[2], repr(case))
    with socket.socket() as other:
        other.bind((HOST, 0))
        other.listen(4)
        where = '%s:%d' % other.getsockname()
        asking = subprocess.Popen([room.program, 'status', where], stdin=subprocess.DEVNULL, text=True,
                                  stdout=subprocess.PIPE, stderr=subprocess.PIPE)
        peer, _ = other.accept()
        peer.sendall(b'220 mail.example.org ESMTP\r\n')
        peer.close()
        out, err = asking.communicate(timeout=SECONDS)
        wanted((asking.returncode, out) == (1, '') and where in err and len(err.splitlines()) == 1,
               'an answer that is none of a gateway, and not %r' % ((asking.returncode, out, err),))


def a_port_in_use(room):
    """Nothing is started."""
    with socket.socket() as taken:
        taken.bind((HOST, 0))
        taken.listen(1)
        busy = '%s:%d' % taken.getsockname()
        words = ['serve', '--listen', HOST + ':0', '--broker', HOST + ':1883', '--id', 'gw1', '--workers', '1']
        came = room.told(*words, '--metrics', busy)
        told = 'sng: --metrics: cannot open %s: Address already in use (os error 98)\n' % busy
        wanted(came == (1, '', told), '%r, and not %r' % (told, came))
        came = room.told(*words, '--metrics', '9884')
        told = 'sng: --metrics 9884: not an IPv4 address with a port, as 0.0.0.0:1884\n'
        wanted(came == (1, '', told), '%r, and not %r' % (told, came))


def a_setting_of_the_file(room):
    broker = room.test_broker()
    text = ('listen = "%s:0"\nbroker = "%s:%d"\nid = "gw1"\nworkers = 1\nmetrics = "%s:0"\n'
            % (HOST, HOST, broker.port, HOST))
    gateway = room.keep(Gateway([room.program, 'serve', '--config', room.file('sng.toml', text)]))
    gateway.figures = int(gateway.line('err', r'^sng: figures at http://[\d.]+:(\d+)/metrics$')[1])
    until(lambda: health(gateway).status == 200, 'a gateway that is well')
    gateway.say('quit')
    wanted(gateway.ended() == 0, 'status 0')


def what_is_no_question(room):
    """Other paths, methods and rubbish are told so, each in an answer of its own."""
    gateway = serving(room, free_port(), '--tries', '1', connected=False)
    asked(gateway.figures, '/').check(404)
    asked(gateway.figures, '/metrics/').check(404)
    asked(gateway.figures, method='POST', more='Content-Length: 3\r\n').check(405)
    asked(gateway.figures, method='HEAD', path='/x').check(404, has_body=False)
    for octets in (b'\r\n\r\nrubbish\r\n\r\n', b'GET /metrics\r\n\r\n', b'GET /metrics HTTP/1.1\r\n\r\n',
                   b'\x16\x03\x01\x02\0\x01\0\x01\xfc\x03\x03' + bytes(64) + b'\r\n\r\n'):
        visitor = Visitor(gateway.figures)
        visitor.send(octets)
        Answer(visitor.answer()).check(400)
    visitor = Visitor(gateway.figures)
    for octet in b'GET /healthz HTTP/1.1\r\nHost: x\r\n\r\n':
        visitor.send(bytes([octet]))
        time.sleep(0.005)
    Answer(visitor.answer()).check(503)
    gateway.close()


def a_request_of_a_megabyte(room):
    """It is refused by its first 8 KiB, and the answer comes through though the rest is not read as a request."""
    gateway = serving(room, free_port(), '--tries', '1', connected=False)
    for request in (b'GET /metrics HTTP/1.1\r\nHost: x\r\nX: ' + b'x' * 1048576 + b'\r\n\r\n',
                    b'GET /' + b'x' * 1048576 + b' HTTP/1.1\r\nHost: x\r\n\r\n'):
        visitor = Visitor(gateway.figures)
        visitor.send(request)
        answer = Answer(visitor.answer())
        wanted(answer.status in (414, 431), 'a request that is too large, and not %d' % answer.status)
    asked(gateway.figures).check(200)
    gateway.close()


def a_visitor_who_says_nothing(room):
    """He is told so after five seconds, and let go; nobody waits for him."""
    gateway = serving(room, free_port(), '--tries', '1', connected=False)
    quiet, slow = Visitor(gateway.figures), Visitor(gateway.figures)
    slow.send(b'GET /metrics HTTP/1.1\r\nHost')
    begun = time.monotonic()
    asked(gateway.figures).check(200)
    wanted(time.monotonic() - begun < 1, 'an answer at once')
    for visitor in (quiet, slow):
        Answer(visitor.answer()).check(408)
    took = time.monotonic() - begun
    wanted(VISIT_SECONDS - 1 < took < VISIT_SECONDS + 2, 'an end after 5 s, and not after %.1f s' % took)
    gateway.close()


def visitors_who_leave(room):
    """They ask and do not wait for the answer, or take a part of it; some of them break the connection."""
    gateway = serving(room, free_port(), '--tries', '1', connected=False)
    for number in range(200):
        visitor = Visitor(gateway.figures)
        if number % 2:
            visitor.socket.setsockopt(socket.SOL_SOCKET, socket.SO_LINGER, struct.pack('ii', 1, 0))
        visitor.send(b'GET /metrics HTTP/1.1\r\nHost: x\r\n\r\n')
        if number % 4 > 1:
            visitor.socket.recv(100)
        visitor.close()
    asked(gateway.figures).check(200)
    before = len(os.listdir('/proc/%d/fd' % gateway.child.pid))
    visitor = Visitor(gateway.figures)
    visitor.send(b'GET /metrics HTTP/1.1\r\nHost: x\r\n\r\n' * 1000)
    Answer(visitor.answer()).check(200)
    until(lambda: len(os.listdir('/proc/%d/fd' % gateway.child.pid)) <= before, 'no connection that stays')
    gateway.close()


def files(count):
    """Sees to it that this process may have so many more files open."""
    soft, hard = resource.getrlimit(resource.RLIMIT_NOFILE)
    if soft < count:
        resource.setrlimit(resource.RLIMIT_NOFILE, (min(count, hard), hard))
    wanted(min(count, hard) == count or soft >= count, 'a process that may have %d files open' % count)


def round_trips(device, count):
    """How long the answers to PINGREQs took, in order of length."""
    found = []
    for _ in range(count):
        begun = time.monotonic()
        device.send(0x16)
        device.receive(0x17)
        found.append(time.monotonic() - begun)
    return sorted(found)


def a_thousand_slow_visitors(room):
    """They hold up no device: 32 are heard at a time, and the others wait unaccepted."""
    files(1200)
    broker = room.test_broker()
    gateway = serving(room, broker.port, policy=ALLOWS_S1, verbose=False)
    device = room.device(gateway)
    device.connect('s1')
    topic = device.register('t/1')
    alone = round_trips(device, 200)
    before = len(os.listdir('/proc/%d/fd' % gateway.child.pid))
    visitors = [Visitor(gateway.figures) for _ in range(1000)]
    try:
        for visitor in visitors:
            visitor.send(b'GET /met')
        time.sleep(0.5)
        more = len(os.listdir('/proc/%d/fd' % gateway.child.pid)) - before
        wanted(0 < more <= PLACES, '32 visitors who are heard at most, and not %d' % more)
        beside = round_trips(device, 200)
        for number in range(50):
            device.publish(topic, b'%d' % number)
    finally:
        for visitor in visitors:
            visitor.close()
    measured('a PINGREQ takes %.2f ms in the middle, beside 1,000 slow visitors %.2f ms'
             % (alone[100] * 1000, beside[100] * 1000))
    wanted(beside[100] < alone[100] * 3 + 0.002, 'round trips of %.4f s, and not %.4f s in the middle'
           % (alone[100], beside[100]))
    wanted(total(samples(gateway.figures, 60), 'sng_decisions_total', kind='publish') == 50, '50 publishes')
    gateway.close(verbose=False)


def the_page_of_a_full_gateway(room):
    """A page with 256 clients takes a few ms of the processor, whatever else the machine does."""
    clients = {'s%d' % number: [['t/#', ['pub', 'sub']]] for number in range(256)}
    broker = room.test_broker()
    gateway = serving(room, broker.port, policy={'version': 1, 'clients': clients}, verbose=False)
    devices = [room.device(gateway) for _ in clients]
    for name, device in zip(clients, devices):
        device.connect(name)
    wanted(value(samples(gateway.figures), 'sng_clients', state='active') == 256, '256 clients')
    before, begun = processor_seconds(gateway), time.monotonic()
    for _ in range(100):
        asked(gateway.figures)
    took = (processor_seconds(gateway) - before) / 100
    measured('a page of 256 clients takes %.2f ms of the processor, and comes after %.2f ms'
             % (took * 1000, (time.monotonic() - begun) * 10))
    wanted(took < 0.02, 'a page in a few ms, and not in %.4f s' % took)
    gateway.close(verbose=False)


def processor_seconds(gateway):
    """How long the processors worked for the gateway."""
    with open('/proc/%d/stat' % gateway.child.pid) as stat:
        fields = stat.read().rsplit(')', 1)[1].split()
    return (int(fields[11]) + int(fields[12])) / os.sysconf('SC_CLK_TCK')


def an_end_beside_visitors(room):
    """A visitor who stays keeps no gateway from ending."""
    gateway = serving(room, free_port(), '--tries', '1', connected=False)
    visitor = Visitor(gateway.figures)
    visitor.send(b'GET')
    time.sleep(0.2)
    begun = time.monotonic()
    gateway.close()
    wanted(time.monotonic() - begun < 2, 'an end at once')
    visitor.close()


CASES = (the_page, figures_that_move, whether_all_is_well, a_book_that_cannot_be_written, nobody_to_ask,
         a_port_in_use, a_setting_of_the_file,
         what_is_no_question, a_request_of_a_megabyte, a_visitor_who_says_nothing, visitors_who_leave,
         a_thousand_slow_visitors, the_page_of_a_full_gateway, an_end_beside_visitors)


def main():
    words = sys.argv[1:]
    program = os.path.abspath(words[0]) if words else PROVED
    if not os.path.exists(program):
        print('no program at %s: `rt run` in crates/sng makes it' % program)
        return 1
    chosen = [case for case in CASES if not words[1:] or case.__name__ in words[1:]]
    failed = 0
    for case in chosen:
        try:
            with Room(program) as room:
                case(room)
        except (Failure, OSError, subprocess.SubprocessError, prometheus_text.PageError) as fault:
            failed += 1
            print('failed: %s: %s' % (case.__name__, fault), flush=True)
    print('figures: %d passed, %d failed' % (len(chosen) - failed, failed))
    return 1 if failed or not chosen else 0


if __name__ == '__main__':
    sys.exit(main())
