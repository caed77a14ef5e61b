"""Cases of tests/live.py: the book on disk. What stands in its files, who may write there, a disk that is
full under load, a gateway that is killed, and one whose broker is away while millions of rows are made."""
import calendar
import errno
import glob
import os
import re
import resource
import signal
import subprocess
import time

from live_limits import FILLING, FULL_ROWS, flood
from live_parts import HOST, SECONDS, Skipped, free_port, measured, rss_kib, until, wanted
from live_room import Gateway
from live_sessions import S1, SOURCE

FILE_NAME = re.compile(r'\d{20}-\d{8}T\d{6}Z\.book')
# Nothing is passed over, whatever is denied
NO_FLOOD = ('--flood-each', '4294967295', '--flood-all', '4294967295')
# Octets that a file may have while the disk is full
FULL_DISK = 256 * 1024
# So many rows a run has that goes on without a broker
LONG_RUN = 3 * FULL_ROWS
# Rows of a run behind which memory is looked at, and how many times as much it may be at the end: rows that wait
# for the disk come and go, and what is kept of each row would more than double it
SETTLED, GROWTH = 1000000, 1.5


def needs_book(room):
    if '--book' not in room.told('serve', '--help')[1]:
        raise Skipped('this program has no option --book')
    return os.path.join(room.folder, 'books')


def texts(folder, run=1):
    """The files of a run, in order, each as its name and its octets."""
    paths = sorted(glob.glob(os.path.join(folder, '%08d' % run, '*')))
    for path in paths:
        name = os.path.basename(path)
        wanted(FILE_NAME.fullmatch(name), 'a name of a file, and not %r' % name)
        with open(path, 'rb') as file:
            yield name, file.read()


def rows_of(folder, run=1):
    """The whole rows of a run, each as its lines: those of a file count up to the row with which the next one
    begins, and what stands behind the last line feed does not count."""
    files = list(texts(folder, run))
    firsts = [int(name[:20]) for name, _ in files[1:]] + [None]
    number = 0
    for (name, octets), end in zip(files, firsts):
        first = int(name[:20])
        wanted(octets.startswith(b'# sng book 1\n') or octets == b'# sng book 1\n'[:len(octets)],
               'the head of %s' % name)
        lines = [line for line in octets.split(b'\n')[:-1] if not line.startswith(b'#')]
        rows = [[]]
        for line in lines:
            if line.startswith(b'> '):
                rows.append([])
            rows[-1].append(line)
        wanted(not rows[0], 'a row behind the head of %s' % name)
        rows = rows[1:]
        wanted(first == number + 1, 'row %d in %s' % (number + 1, name))
        kept = rows if end is None else rows[:end - first]
        for at, row in enumerate(kept):
            if len(row) < 2:
                # cut off within the row, which is the last one
                wanted(end is None and at + 1 == len(kept), 'a whole row in %s' % name)
                return
            is_next = row[1].split()[:2] == [b'row', b'%d' % (first + at)]
            wanted(is_next, 'row %d, and not %r' % (first + at, row[1]))
            yield row
        number = first + len(kept) - 1


def script_and_book(rows):
    """The script that makes these rows, and the book that `sng play` prints for it."""
    script, book = [], []
    for row in rows:
        script.append(row[0][2:])
        first = row[1].split(b' ')
        book += [b' '.join((first[0], first[1], b'0', first[3]))] + row[2:]
    return b''.join(line + b'\n' for line in script), b''.join(line + b'\n' for line in book)


def is_lawful(room, rows):
    """`sng check` finds the rows to be the lawful history of their own events."""
    script, book = script_and_book(rows)
    path = os.path.join(room.folder, 'script')
    with open(path, 'wb') as file:
        file.write(script)
    done = subprocess.run([room.program, 'check', path], input=book, timeout=FILLING, capture_output=True,
                          check=False)
    said = done.stdout.decode()
    lawful = 'lawful %d rows\n' % len(rows)
    wanted(done.returncode == 0 and said == lawful, 'a lawful book, and not %r' % said)


def checked(room, folder):
    """What the program says of the books in the folder."""
    done = subprocess.run([room.program, 'check', '--book', folder], stdin=subprocess.DEVNULL,
                          timeout=FILLING, capture_output=True, text=True, check=False)
    return done.returncode, done.stdout


def is_said_lawful(room, folder, said):
    status, printed = checked(room, folder)
    wanted(status == 0 and re.search(said, printed), '%r, and not %r' % (said, printed[-300:]))


def has_line(folder, line):
    return any(line in row for row in rows_of(folder))


def marks(folder, run=1):
    return [line for _, octets in texts(folder, run) for line in octets.decode().split('\n')
            if line.startswith('# ')]


def last_time(folder):
    """The last time that the files tell, in seconds since 1970, or 0."""
    told = [line for line in marks(folder) if re.fullmatch(r'# time \d{8}T\d{6}Z', line)]
    return calendar.timegm(time.strptime(told[-1], '# time %Y%m%dT%H%M%SZ')) if told else 0


def what_stands_in_the_files(room):
    """Each row behind its event, in order; the times; how each worker ended; and each beat comes there."""
    folder = needs_book(room)
    gateway = room.gateway(room.test_broker().port, '--book', folder, policy=S1)
    device = room.device(gateway)
    device.connect('s1')
    device.publish(device.register('t/1'), b'hi')
    until(lambda: has_line(folder, b'note publish s1 t/1 allowed'), 'the row on disk')
    closed = gateway.close()
    rows = list(rows_of(folder))
    wanted(len(rows) == closed, 'all %d rows, and not %d' % (closed, len(rows)))
    is_lawful(room, rows)
    is_said_lawful(room, folder, 'lawful %d rows$' % closed)
    told = marks(folder)
    wanted(told[0] == '# sng book 1', 'the format, and not %r' % told[0])
    wanted(any(re.fullmatch(r'# time \d{8}T\d{6}Z', line) for line in told), 'times')
    wanted(len([line for line in told if re.fullmatch(r'# worker \d+ at .* ended', line)]) == 5,
           'how five workers ended: %r' % told[-6:])


def a_configured_book(room):
    """A second run has a folder of its own; the clock and the policy of the start are the first rows of each."""
    folder = needs_book(room)
    policy = room.file('policy.json', '{"version":1,"clients":{"s1":[["t/#",["pub"]]]}}')
    lines = ('listen = "%s:0"' % HOST, 'broker = "%s:%d"' % (HOST, free_port()), 'id = "gw1"', 'workers = 1',
             'tries = 1', 'policy = "%s"' % policy, 'book = "%s"' % folder, '')
    path = room.file('sng.toml', '\n'.join(lines))
    for run in (1, 2):
        gateway = room.keep(Gateway([room.program, 'serve', '--config', path]))
        gateway.line('err', 'listening on')
        gateway.line('err', 'gave up after 1 tries')
        closed = gateway.close(verbose=False)
        rows = list(rows_of(folder, run))
        begins = rows[0][0].startswith(b'> tick ') and rows[1][0].startswith(b'> policy ')
        wanted(len(rows) == closed and begins, 'the rows of run %d' % run)
        is_lawful(room, rows)


def words(folder, *more):
    return ['serve', '--listen', HOST + ':0', '--broker', '%s:%d' % (HOST, free_port()), '--id', 'gw1',
            '--workers', '1', '--book', folder, *more]


def a_folder_that_cannot_be_written(room):
    """Nothing is started, and nothing is printed but why."""
    needs_book(room)
    file = room.file('file', '')
    missing = os.path.join(room.folder, 'none', 'books')
    reasons = [(missing, 'No such file or directory (os error 2)'), (file, 'Not a directory (os error 20)')]
    if os.geteuid() != 0:
        locked = os.path.join(room.folder, 'locked')
        os.mkdir(locked, 0o500)
        reasons.append((locked, 'Permission denied (os error 13)'))
    for folder, reason in reasons:
        came = room.told(*words(folder))
        told = 'sng: cannot write %s: %s\n' % (folder, reason)
        wanted(came == (1, '', told), '%r, and not %r' % (told, came))
    came = room.told(*words(missing, '--rows'))
    told = 'sng: --rows cannot stand beside --book: its rows are on disk at the end\n'
    wanted(came == (1, '', told), '%r, and not %r' % (told, came))


def a_second_gateway_on_the_folder(room):
    folder = needs_book(room)
    first = room.gateway(free_port(), '--book', folder, connected=False, verbose=False)
    came = room.told(*words(folder))
    wanted(came == (1, '', 'sng: %s is in use\n' % folder), 'in use, and not %r' % (came,))
    first.kill()
    second = room.gateway(free_port(), '--book', folder, connected=False, verbose=False)
    until(lambda: list(rows_of(folder, 2)), 'rows of the second run')
    second.close(verbose=False)


def a_gateway_that_is_killed(room):
    """What is on disk is a beginning of the run, and grows with it."""
    folder = needs_book(room)
    gateway = room.gateway(room.test_broker().port, '--book', folder, policy=SOURCE, verbose=False)
    flooding = flood(room, gateway.port)
    until(lambda: sum(1 for _ in rows_of(folder)) > 5000, 'rows on disk', FILLING)
    now = time.time()
    until(lambda: last_time(folder) >= now, 'rows of the next seconds', FILLING)
    gateway.child.send_signal(signal.SIGKILL)
    gateway.child.wait(SECONDS)
    for process in flooding:
        process.kill()
    # the last row may be cut off behind any of its lines
    is_lawful(room, list(rows_of(folder))[:-1])
    is_said_lawful(room, folder, r'lawful \d+ rows')


def one_changed_byte(room):
    """A book on disk is not lawful any more with one byte changed, and the check names the row."""
    folder = needs_book(room)
    gateway = room.gateway(room.test_broker().port, '--book', folder, policy=SOURCE, verbose=False)
    room.device(gateway).publish_short('ab', b'x')
    until(lambda: has_line(folder, b'note publish %s ab allowed' % HOST.encode()), 'the row on disk')
    gateway.close(verbose=False)
    path, = glob.glob(os.path.join(folder, '00000001', '*.book'))
    with open(path, 'rb') as file:
        octets = file.read()
    with open(path, 'wb') as file:
        file.write(octets.replace(b'ab allowed', b'ab allowee', 1))
    changed = [any(b'allowee' in line for line in row) for row in rows_of(folder)]
    number = changed.index(True) + 1
    status, printed = checked(room, folder)
    wanted(status == 1 and ': row %d, line ' % number in printed, 'row %d, and not %r' % (number, printed))


def limits_files():
    """The process that is to start may write so many octets to a file, and is not killed by one more."""
    signal.signal(signal.SIGXFSZ, signal.SIG_IGN)
    resource.setrlimit(resource.RLIMIT_FSIZE, (FULL_DISK, resource.RLIM_INFINITY))


def a_full_disk_under_load(room):
    """Rows wait until as many do as may; then nobody is served, and no worker ends. With room on the disk all
    rows come there, and the same connection to the broker goes on."""
    folder = needs_book(room)
    if not hasattr(resource, 'prlimit'):
        raise Skipped('the limit of a running process cannot be changed')
    gateway = room.gateway(room.test_broker().port, '--book', folder, *NO_FLOOD, policy=SOURCE, verbose=False,
                           preexec_fn=limits_files)
    begun = time.monotonic()
    flooding = flood(room, gateway.port)
    full = r'the book on disk: %s \(os error %d\); rows wait until it can be written' % (
        re.escape(os.strerror(errno.EFBIG)), errno.EFBIG)
    gateway.line('err', full, FILLING)
    gateway.line('err', r'^sng: 9\d{5} rows wait for the disk, of 1000000 that may$', FILLING)
    gateway.line('err', r'^sng: 9\d{5} rows wait for the disk: nobody is served until it takes some$',
                 FILLING)
    held, most = time.monotonic(), rss_kib(gateway.child.pid)
    for process in flooding:
        process.kill()
    time.sleep(3)
    wanted(gateway.child.poll() is None, 'a gateway that goes on')
    none = (resource.RLIM_INFINITY, resource.RLIM_INFINITY)
    resource.prlimit(gateway.child.pid, resource.RLIMIT_FSIZE, none)
    gateway.line('err', '^sng: the book on disk: written again$', FILLING)
    gateway.line('err', '^sng: the book on disk has caught up$', FILLING)
    caught, device = time.monotonic(), room.device(gateway)
    heard = b'> from %s:%d ' % (HOST.encode(), device.socket.getsockname()[1])

    def is_heard():
        # one alone may be lost: what was sent before may still fill the gateway's socket
        device.publish_short('ab', b'again')
        return any(row[0].startswith(heard) for row in rows_of(folder))
    until(is_heard, 'the row of the device', FILLING)
    closed = gateway.close(verbose=False, seconds=FILLING)
    wanted(sum('connected' in line for line in gateway.lines['err']) == 1, 'one connection to the broker')
    faults = [line for line in gateway.lines['err'] if 'gave up' in line or 'is full:' in line]
    wanted(not faults, 'no worker that ended, and not %r' % faults)
    count = sum(1 for _ in rows_of(folder))
    wanted(count == closed, 'all %d rows on disk, and not %d' % (closed, count))
    measured('a full disk under load: held after %.1f s with %d MiB, caught up %.1f s later'
             % (held - begun, most // 1024, caught - held - 3))


def a_disk_that_stays_full(room):
    """The gateway ends all the same, in some ten seconds, and says what is not there."""
    folder = needs_book(room)
    gateway = room.gateway(room.test_broker().port, '--book', folder, policy=SOURCE, verbose=False,
                           preexec_fn=limits_files)
    until(lambda: list(rows_of(folder)), 'the first rows on disk')
    flooding = flood(room, gateway.port)
    gateway.line('err', 'rows wait until it can be written', FILLING)
    for process in flooding:
        process.kill()
    gateway.say('quit')
    wanted(gateway.ended(FILLING) == 4, 'status 4')
    told = [re.fullmatch(r'sng: (\d+) rows are not on disk', line) for line in gateway.lines['err']]
    left = [int(found[1]) for found in told if found]
    wanted(len(left) == 1 and left[0] > 0, 'how many rows are not on disk: %r' % gateway.lines['err'][-3:])
    wanted(gateway.lines['out'][-1] == 'not closed', 'not closed, and not %r' % gateway.lines['out'][-1])
    wanted(list(rows_of(folder)), 'the rows before')


def a_run_goes_on_without_its_broker(room):
    """The worker at the broker gives up in the midst; millions of rows behind that come to disk, and memory
    does not grow with them."""
    folder = needs_book(room)
    broker = room.test_broker()
    gateway = room.gateway(broker.port, '--book', folder, '--tries', '2', *NO_FLOOD, policy=SOURCE,
                           verbose=False)
    begun, ahead = time.monotonic(), None
    flooding = flood(room, gateway.port)
    path = os.path.join(folder, '00000001')

    def rows():
        """The number of the first row of the newest file."""
        return max((int(name[:20]) for name in os.listdir(path)), default=0)
    until(lambda: os.path.isdir(path) and os.listdir(path), 'a file', FILLING)
    broker.kill()
    gateway.line('err', 'gave up after 2 tries', FILLING)
    end = time.monotonic() + 10 * FILLING
    while rows() < LONG_RUN:
        wanted(gateway.child.poll() is None, 'a gateway that goes on: %r' % gateway.lines['err'][-3:])
        wanted(time.monotonic() < end, '%d rows in time' % LONG_RUN)
        if ahead is None and rows() >= SETTLED:
            ahead = rss_kib(gateway.child.pid)
        time.sleep(0.5)
    behind, took = rss_kib(gateway.child.pid), time.monotonic() - begun
    for process in flooding:
        process.kill()
    closed = gateway.close(verbose=False, seconds=FILLING)
    count = sum(1 for _ in rows_of(folder))
    wanted(count == closed >= LONG_RUN, 'all %d rows on disk, and not %d' % (closed, count))
    wanted(behind <= ahead * GROWTH, 'memory that does not grow: %d KiB, and then %d' % (ahead, behind))
    told = [line for line in marks(folder) if 'at the broker' in line]
    wanted(told == ['# worker 2 at the broker gave up: no connection to the broker could be made'],
           'how it ended, and not %r' % told)
    measured('a run of %d rows on disk: %.1f s, %d MiB at a million rows and %d MiB behind'
             % (closed, took, ahead // 1024, behind // 1024))


ALONE = (what_stands_in_the_files, a_configured_book, a_folder_that_cannot_be_written,
         a_second_gateway_on_the_folder, a_gateway_that_is_killed, one_changed_byte, a_full_disk_under_load,
         a_disk_that_stays_full, a_run_goes_on_without_its_broker)
