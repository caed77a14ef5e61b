"""Cases of tests/live.py: what the system refuses to the program (threads, reads, room on a disk), and a book
that is full."""
import ctypes
import errno
import os
import platform
import resource
import shutil
import subprocess
import sys
import time

from live_parts import HOST, SECONDS, Process, Skipped, free_port, measured, rss_kib, until, wanted
from live_rows import begin, free_listen, publish_many
from live_sessions import SOURCE

FULL_ROWS = 1000000
# Sends datagrams to a port until nobody listens there any more.
FLOOD = '''import socket, sys
flood = socket.socket(socket.AF_INET, socket.SOCK_DGRAM)
flood.connect((sys.argv[1], int(sys.argv[2])))
datagram = bytes.fromhex(sys.argv[3])
try:
    while True:
        flood.send(datagram)
except ConnectionRefusedError:
    pass
'''
# A PUBLISH at QoS -1 by the short name `ab`, with 32 octets of payload.
PUBLISH = b'\x27\x0c\x62ab\0\0' + bytes(32)
# Seconds that a book may take to fill, on a machine with much other work.
FILLING = 150
# A user that runs nothing else, for what a system refuses to a user alone.
NOBODY_ELSE = 54321


def flood(room, port, count=2):
    words = [sys.executable, '-c', FLOOD, HOST, str(port), PUBLISH.hex()]
    return [room.keep(Process(words, stdin=subprocess.DEVNULL)) for _ in range(count)]


def a_full_book(room):
    """It ends the gateway by itself, though no operator says so and devices go on; memory grows no more."""
    gateway = room.gateway(room.test_broker().port, verbose=False, policy=SOURCE)
    begun = time.monotonic()
    flood(room, gateway.port)
    gateway.line('err', '^sng: the book has 900000 of 1000000 rows: a gateway with --book goes on for ever$',
                 FILLING)
    gateway.line('err', '^sng: the book is full: the gateway ends, as nothing more can be answered$', FILLING)
    filled, full = time.monotonic(), rss_kib(gateway.child.pid)
    most = full

    def has_ended():
        nonlocal most
        most = max(most, rss_kib(gateway.child.pid))
        return gateway.child.poll() is not None
    until(has_ended, 'an end by itself', SECONDS * 6)
    took = time.monotonic() - filled
    wanted(gateway.ended() == 5, 'status 5')
    last = gateway.lines['out'][-1]
    wanted(last == 'closed %d rows' % FULL_ROWS, 'all rows closed, and not %r' % last)
    wanted(most - full < 65536, 'no more memory behind the full book, and not %d KiB' % (most - full))
    measured('a full book: %.1f s to fill it, %d MiB as it was full, %d MiB at most behind that, an end '
             'after %.1f s' % (filled - begun, full // 1024, most // 1024, took))


def refuses(call, error):
    """Makes a system call fail in the process that is to start, by a filter of seccomp."""
    if platform.machine() != 'x86_64' or sys.platform != 'linux':
        raise Skipped('a filter of system calls is written for x86-64 alone')
    words = [(0x20, 0, 0, 0), (0x15, 0, 1, call), (0x06, 0, 0, 0x00050000 | error), (0x06, 0, 0, 0x7fff0000)]
    code = b''.join(word.to_bytes(2, 'little') + bytes([yes, no]) + value.to_bytes(4, 'little')
                    for word, yes, no, value in words)
    libc = ctypes.CDLL(None, use_errno=True)

    class Program(ctypes.Structure):
        _fields_ = (('count', ctypes.c_ushort), ('code', ctypes.c_char_p))
    program = Program(len(words), code)

    def install():
        if libc.prctl(38, 1, 0, 0, 0) or libc.prctl(22, 2, ctypes.byref(program), 0, 0):
            raise OSError(ctypes.get_errno(), 'no filter')
    return install


def workers_that_give_up(room):
    """No receive is possible any more: the last worker at the socket ends the gateway, and it says so."""
    install = refuses(45, errno.EIO)  # recvfrom
    gateway = room.gateway(free_port(), connected=False, verbose=False, preexec_fn=install)
    gateway.line('err', "^sng: the worker at the devices' socket gave up$", count=2)
    wanted(gateway.ended() == 6, 'status 6')
    wanted(gateway.lines['out'][-1].startswith('closed '), 'rows that are closed')


def refused_threads(room):
    """Whichever of the ten threads is refused, the gateway ends at once, says so, and closes nothing."""
    if os.geteuid() != 0:
        raise Skipped('only root can run the program as a user that has no other process')
    os.chmod(room.folder, 0o711)
    program = shutil.copy(room.program, room.folder)
    policy = room.file('policy.json', '{"version":1}')

    def limited(count):
        def limit():
            resource.setrlimit(resource.RLIMIT_NPROC, (count, count))
            os.setgid(NOBODY_ELSE)
            os.setuid(NOBODY_ELSE)
        words = [program, 'serve', '--listen', HOST + ':0', '--broker', '%s:%d' % (HOST, free_port()), '--id',
                 'gw1', '--workers', '2', '--policy', policy]
        return room.keep(Process(words, preexec_fn=limit))
    told = []
    for count in range(1, 30):
        gateway = limited(count)
        try:
            # one that has all its threads ends by this line, and one that lacks any ends whether it is read or not
            gateway.say('quit')
        except BrokenPipeError:
            pass
        status = gateway.ended()
        if status == 0:
            break
        told.append((status, gateway.lines['out'], gateway.lines['err'][-1:]))
    wanted(status == 0, 'a gateway that has all its threads')
    # the two threads that write to standard output and standard error come first, when nothing is begun
    begun = (1, ['not closed'], ['sng: a thread was refused: a limit of processes, or memory'])
    # then come the one that prints rows, the courier, the one that runs the workers, and five workers
    wanted(told == [(3, ['out of memory'], [])] * 2 + [begun] * 8, 'each refusal told, and not %r' % told)


def a_disk_with_room_again(room):
    """Rows wait for a full disk, and go on once it has room: none is left out, and none in part."""
    disk = os.path.join(room.folder, 'disk')
    os.mkdir(disk)
    if subprocess.run(['mount', '-t', 'tmpfs', '-o', 'size=256k', 'sng-live', disk], check=False,
                      stderr=subprocess.DEVNULL).returncode != 0:
        raise Skipped('a small disk cannot be mounted by this user')
    try:
        filler = os.path.join(disk, 'filler')
        subprocess.run(['dd', 'if=/dev/zero', 'of=' + filler, 'bs=4096'], check=False,
                       stderr=subprocess.DEVNULL)
        with open(os.path.join(disk, 'rows'), 'ab') as rows:
            gateway, device = begin(room, free_port(), free_listen(), '--verbose', stdout=rows)
        gateway.line('err', '^sng: standard output: No space left on device')
        publish_many(device, 200)
        os.remove(filler)
        gateway.line('err', '^sng: standard output: written again$')
        gateway.say('quit')
        wanted(gateway.ended() == 0, 'status 0')
        with open(os.path.join(disk, 'rows')) as rows:
            lines = rows.read().split('\n')
    finally:
        subprocess.run(['umount', '-l', disk], check=True)
    numbers = [int(line.split()[1]) for line in lines if line.startswith('row ')]
    wanted(numbers == list(range(1, len(numbers) + 1)), 'all rows in order')
    wanted(len(numbers) > 200, 'the rows of the publishes')
    wanted(lines[-2:] == ['closed %d rows' % len(numbers), ''], 'all rows that were closed')


ALONE = (a_full_book, workers_that_give_up, refused_threads, a_disk_with_room_again)
