"""Cases of tests/live.py: how the program starts where something is missing, and datagrams of strangers."""
import json
import os
import signal
import socket
import time

from live_ends import Device
from live_parts import HOST, Failure, Process, free_port, measured, until, wanted

ALLOWS = '{"version":1,"clients":{"s1":[["t/#",["pub","sub"]]]}}'
PING, CONNECT_S1 = b'\x02\x16', b'\x08\x04\x04\x01\x00\x3cs1'


def closed_standard_input(room):
    """What comes to the devices' socket is no line of an operator, though descriptor 0 was free at first."""
    path = room.file('policy.json', '{"version":1}')
    words = ('exec "$0" serve --listen %s:0 --broker %s:%d --id gw1 --workers 1 --policy "$1" <&-'
             % (HOST, HOST, free_port()))
    gateway = room.keep(Process(['/bin/sh', '-c', words, room.program, path]))
    port = int(gateway.line('err', r'listening on [\d.]+:(\d+)')[1])
    wanted(os.readlink('/proc/%d/fd/0' % gateway.child.pid) == '/dev/null', 'a standard input that is empty')
    with socket.socket(socket.AF_INET, socket.SOCK_DGRAM) as stranger:
        stranger.connect((HOST, port))
        stranger.send(ALLOWS.encode() + b'\n')
        stranger.settimeout(5)
        stranger.send(CONNECT_S1)
        wanted(stranger.recv(64) == b'\x03\x05\x03', 'a stranger that is not let in')
    gateway.kill()


def the_first_policy(room):
    """Of 200 devices that ask while the gateway starts none is denied: the policy lists them."""
    names = ['d%03d' % number for number in range(200)]
    path = room.file('policy.json', json.dumps({'version': 1, 'clients': {name: [] for name in names}}))
    port = free_port(socket.SOCK_DGRAM)
    waiting = {Device(port).socket: name for name in names}
    for device in waiting:
        device.setblocking(False)
    gateway = Process([room.program, 'serve', '--listen', '%s:%d' % (HOST, port), '--broker',
                       '%s:%d' % (HOST, free_port()), '--id', 'gw1', '--workers', '2', '--policy', path,
                       '--verbose'])
    room.keep(gateway)
    answers = []

    def all_answered():
        for device, name in list(waiting.items()):
            try:
                device.send(b'\x0a\x04\x04\x01\x00\x3c' + name.encode())
                answers.append(device.recv(64))
                del waiting[device]
            except OSError:
                pass
        return not waiting
    until(all_answered, 'an answer for each')
    denied = sum(answer != b'\x03\x05\x00' for answer in answers)
    wanted(denied == 0, 'CONNACKs that accept, and not %d others' % denied)
    wanted(gateway.line('out', '^row 1 .*')[0].endswith(' tick'), 'a clock before everything else')
    wanted(gateway.line('out', '^row 2 .*')[0].endswith(' replace'), 'a policy before every device')
    gateway.say('quit')
    wanted(gateway.ended() == 0, 'status 0')
    measured('a start: %d of %d CONNECTs denied' % (denied, len(answers)))


def answers_to_nobody(room):
    """One address without a session is answered five times in a second, and the rest is told."""
    gateway = room.gateway(free_port(), connected=False)
    with socket.socket(socket.AF_INET, socket.SOCK_DGRAM) as stranger:
        stranger.connect((HOST, gateway.port))
        stranger.settimeout(1.5)
        begun = time.monotonic()
        for _ in range(40):
            stranger.send(PING)
        answers = 0
        try:
            while True:
                wanted(stranger.recv(64) == b'\x02\x18', 'DISCONNECT')
                answers += 1
        except socket.timeout:
            pass
        seconds = int(time.monotonic() - begun) + 2
        wanted(5 <= answers <= 5 * seconds and answers < 40, 'five answers a second, and not %d' % answers)
    gateway.line('err', r'\d+ answers to who has no session held back')
    rows = [line for line in gateway.lines['out'] if line.endswith('NoSession')]
    wanted(len(rows) == 40, '40 rows, and not %d' % len(rows))
    gateway.close()


def its_own_datagrams(room):
    """What comes from the gateway's port at an address of its machine is passed over."""
    gateway = room.gateway(free_port(), connected=False)
    with socket.socket(socket.AF_INET, socket.SOCK_DGRAM) as own:
        own.bind(('127.0.0.2', gateway.port))
        own.sendto(PING, (HOST, gateway.port))
        gateway.line('err', '1 datagrams of the gateway itself passed over')
        own.settimeout(0.3)
        try:
            raise Failure('no answer, and not %r' % own.recv(64))
        except socket.timeout:
            pass
    wanted(not [line for line in gateway.lines['out'] if line.endswith(' datagram')], 'no row of a datagram')
    gateway.close()


def a_pause_of_the_process(room):
    """A client whose PINGREQ lay in the socket while the process was stopped is not lost."""
    gateway = room.gateway(free_port(), connected=False, policy={'version': 1, 'clients': {'s1': []}})
    device = room.device(gateway)
    device.connect('s1', duration=2)
    os.kill(gateway.child.pid, signal.SIGSTOP)
    time.sleep(2)
    device.send(0x16)
    time.sleep(2.5)
    os.kill(gateway.child.pid, signal.SIGCONT)
    device.receive(0x17)
    wanted(not [line for line in gateway.lines['out'] if line.startswith('note lost')], 'a client that stays')
    gateway.close()


def a_start_without_descriptors(room):
    """A refused descriptor is told as the system tells it."""
    words = 'ulimit -n 6; exec "$0" serve --listen %s:0 --broker %s:1 --id gw1 --workers 1' % (HOST, HOST)
    gateway = room.keep(Process(['/bin/sh', '-c', words, room.program]))
    wanted(gateway.ended() == 1, 'status 1')
    gateway.line('err', 'Too many open files')
    wanted(not gateway.lines['out'], 'nothing on standard output')


ALONE = (closed_standard_input, the_first_policy, answers_to_nobody, its_own_datagrams,
         a_pause_of_the_process, a_start_without_descriptors)
