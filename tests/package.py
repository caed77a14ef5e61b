#!/usr/bin/env python3
"""package.py [PROGRAM]

Builds the Debian package (./package), twice, and compares; looks at what is in it; installs it by `dpkg -i`
where root may and nothing of it is there, and takes it away by `dpkg --purge` at the end, or lays it into a
folder by `dpkg -x`; starts what the unit starts, as the user nobody and under the unit's filter of system
calls where that may be; and plays the first publish: nobody is let in at first, then a policy is reloaded, a
device's message comes to a broker, and the stop closes the book, all by the commands of the unit. systemd
rates the unit. PROGRAM is another program than the proved one. Exit status 1 where something fails; what was
left out is told."""
import filecmp
import glob
import os
import re
import shutil
import signal
import stat
import subprocess
import sys
import tempfile

sys.dont_write_bytecode = True
import unit_file
from live_operator import begin, run_to_its_end
from live_parts import HOST, Failure, Skipped, wanted
from live_room import Gateway, Room

ROOT = os.path.dirname(os.path.dirname(os.path.abspath(__file__)))
PROVED = os.path.join(ROOT, 'crates', 'sng', 'out', 'sng')
UNIT = '/usr/lib/systemd/system/sng.service'
CONFIG, POLICY, PIPE = '/etc/sng/sng.toml', '/etc/sng/policy.json', '/run/sng.control'
BOOKS = '/var/lib/sng'
LEFT = ('/usr/bin/sng', '/etc/sng', UNIT, '/usr/share/doc/sng')
# What systemd-analyze may find at most, on its scale from 0 to 10
EXPOSURE = 2.0
NOBODY = 65534
# The files beside the documents and the examples
FILES = {
    '/usr/bin/sng', UNIT, '/usr/lib/systemd/system/sng.socket', CONFIG, POLICY,
    '/usr/share/man/man1/sng.1.gz', '/usr/share/man/man5/sng-policy.5.gz',
    '/usr/share/man/man8/sng-serve.8.gz', '/usr/share/bash-completion/completions/sng',
    '/usr/share/zsh/vendor-completions/_sng', '/usr/share/fish/vendor_completions.d/sng.fish',
    '/usr/share/doc/sng/README.Debian', '/usr/share/doc/sng/README.md', '/usr/share/doc/sng/CHANGELOG.md'}


def run(*words, **more):
    return subprocess.run(words, stdin=subprocess.DEVNULL, capture_output=True, text=True, timeout=300,
                          check=False, **more)


def ran(*words, **more):
    done = run(*words, **more)
    wanted(done.returncode == 0, '%s that ends well, and not %r' % (words[0], done.stdout + done.stderr))
    return done.stdout


def built(program, folder):
    """The package, of which a second build is the same file."""
    words = [] if program == PROVED else ['--program', program]
    for name in ('first', 'second'):
        ran(os.path.join(ROOT, 'package'), *words, os.path.join(folder, name))
    first, second = glob.glob(os.path.join(folder, '*', '*.deb'))
    wanted(filecmp.cmp(first, second, shallow=False), 'two builds that are the same')
    version = re.match(r'sng ([\d.]+),', ran(program, '--version'))[1]
    wanted(os.path.basename(first) == 'sng_%s_amd64.deb' % version, 'a name with version ' + version)
    return first


def what_is_in_it(package):
    """Its files, all of them root's, and which of them are conffiles."""
    with open(os.path.join(ROOT, '.gitignore')) as ignored:
        wanted('/out/' in ignored.read(), 'packages that are not committed')
    lines = [re.split(r'\s+', line, maxsplit=5) for line in ran('dpkg-deb', '-c', package).splitlines()]
    wanted(all(line[1] == 'root/root' for line in lines), 'files of root')
    files = {line[5][1:] for line in lines if not line[0].startswith('d')}
    documents = {os.path.join('/usr/share/doc/sng', os.path.relpath(folder, ROOT), name)
                 for top in ('docs', 'examples') for folder, _, names in os.walk(os.path.join(ROOT, top))
                 for name in names if '__pycache__' not in folder}
    wanted(files == FILES | documents, 'the files %s' % sorted(files ^ (FILES | documents)))
    modes = {line[5][1:]: line[0] for line in lines}
    wanted(modes['/usr/bin/sng'] == '-rwxr-xr-x' and modes[POLICY] == '-rw-r--r--', 'modes')
    conffiles = ran('dpkg-deb', '-I', package, 'conffiles').split()
    wanted(sorted(conffiles) == sorted(path for path in files if path.startswith('/etc/')), 'conffiles')
    for name in ('postinst', 'prerm', 'postrm'):
        text = ran('dpkg-deb', '-I', package, name)
        wanted(not re.search(r'\b(enable|start|unmask)\b', text), 'a %s that starts nothing' % name)


def may_be_installed():
    return (os.geteuid() == 0 and not any(os.path.exists(path) for path in LEFT)
            and run('dpkg-query', '-W', 'sng').returncode != 0)


def installed(package, folder):
    """Where the files of the package begin: '' where it was installed."""
    if may_be_installed():
        done = run('dpkg', '--force-unsafe-io', '-i', package)
        if done.returncode == 0:
            return ''
        run('dpkg', '--force-unsafe-io', '--purge', 'sng')
        print('not installed, as dpkg says: %s' % done.stderr.strip().splitlines()[-1])
    else:
        print('not installed: not root, or another sng is there; its files are laid into a folder')
    base = os.path.join(folder, 'base')
    ran('dpkg', '-x', package, base)
    return base


def purged():
    ran('dpkg', '--force-unsafe-io', '--purge', 'sng')
    left = [path for path in LEFT if os.path.exists(path)]
    wanted(not left, 'nothing that is left, and not %s' % left)


def read(path):
    with open(path) as file:
        return file.read()


def the_files_work(base, program):
    wanted(filecmp.cmp(program, base + '/usr/bin/sng', shallow=False), 'the program byte for byte')
    report = run(base + '/usr/bin/sng', 'policy', base + POLICY)
    wanted(report.stdout == 'policy ok: 0 clients, 0 sources, 0 topics\n' and not report.stderr,
           'a policy that lets nobody in, and not %r' % report.stdout)
    device = base + '/usr/share/doc/sng/examples/field/device.py'
    ran(sys.executable, '-I', '-S', '-B', device)
    wanted(os.stat(base + '/usr/share/doc/sng/examples/field/run').st_mode & stat.S_IXOTH, 'a script to run')


def how_systemd_rates_it(base):
    """systemd finds no fault in the units, and little that they leave open."""
    if not shutil.which('systemd-analyze'):
        raise Skipped('systemd-analyze is not there')
    done = run('systemd-analyze', 'security', '--offline=true', '--no-pager', base + UNIT)
    found = re.search(r'Overall exposure level for sng\.service: ([\d.]+)', done.stdout)
    if not found:
        raise Skipped('this systemd-analyze rates no file')
    wanted(float(found[1]) <= EXPOSURE, 'an exposure of at most %s, and not %s' % (EXPOSURE, found[1]))
    print('exposure of the unit: ' + found[1])


def as_the_unit(room, base, port):
    """The gateway as the unit starts it, with the configuration as it is installed but for its ports and,
    in a folder, the place of the policy; in no environment, and with the unit's pipe and umask."""
    text = read(base + UNIT)
    words = unit_file.started(text)
    usual = ['/usr/bin/sng', 'serve', '--config', CONFIG, '--book', BOOKS]
    wanted(words == usual, 'the usual words, and not %s' % words)
    config = read(base + CONFIG)
    for usual, here in (('0.0.0.0:1884', HOST + ':0'), ('127.0.0.1:1883', '%s:%d' % (HOST, port)),
                        (POLICY, base + POLICY)):
        wanted(config.count('"%s"' % usual) == 1, 'the usual %s' % usual)
        config = config.replace('"%s"' % usual, '"%s"' % here)
    room.books = os.path.join(room.folder, 'books')
    os.mkdir(room.books)
    words = [base + words[0], *words[1:3], room.file('sng.toml', config), words[4], room.books]
    os.chmod(room.folder, 0o755)
    more = {'env': {}, 'cwd': '/', 'umask': int(unit_file.settings(text)['UMask'][0], 8)}
    if os.geteuid() == 0:
        os.chown(room.books, NOBODY, NOBODY)
        more.update(user=NOBODY, group=NOBODY, extra_groups=[])
    try:
        more['preexec_fn'] = unit_file.filtering(unit_file.system_calls(text))
    except Skipped as why:
        print('left out: the filter of system calls: %s' % why)
    source = os.open(room.pipe, os.O_RDWR)
    try:
        gateway = room.keep(Gateway(words, stdin=source, **more))
    finally:
        os.close(source)
    gateway.port = int(gateway.line('err', r'listening on [\d.]+:(\d+)')[1])
    gateway.line('err', 'connected')
    return gateway, text


def steps(base):
    """The commands of README.Debian that write a policy and send what a device would."""
    text = read(base + '/usr/share/doc/sng/README.Debian')
    found = [re.findall(r'^ +(%s .*)$' % word, text, re.M) for word in ('echo', 'printf')]
    wanted([len(lines) for lines in found] == [1, 1], 'one command each, and not %s' % found)
    return found[0][0], found[1][0]


def told(room, text, name, gateway):
    """A command of the unit, for the pipe and the process of this test."""
    command = unit_file.settings(text)[name][0].split("-c '", 1)[1][:-1]
    wanted(PIPE in command, 'a command that writes to the pipe')
    return command.replace(PIPE, room.pipe).replace('$$MAINPID', str(gateway.child.pid))


def the_first_publish(room, base):
    """From what is installed to a device's message at a broker."""
    broker = room.test_broker()
    room.pipe = os.path.join(room.folder, 'control')
    os.mkfifo(room.pipe, 0o600)
    gateway, text = as_the_unit(room, base, broker.port)
    gateway.line('err', 'policy in force: 0 clients, 0 sources, 0 topics')
    listener = room.subscriber(broker, 'ab', 1)
    device = room.device(gateway)
    device.publish_short('ab', b'20')
    gateway.line('err', r'denied: publish 127\.0\.0\.1 - 5 UnknownSource$')
    device.connect('s1', code=3)
    policy, message = steps(base)
    ran('bash', '-c', policy.replace(POLICY, base + POLICY))
    run_to_its_end(room, told(room, text, 'ExecReload', gateway))
    gateway.line('err', 'policy in force: 0 clients, 1 sources')
    ran('bash', '-c', message.replace('/1884', '/%d' % gateway.port))
    listener.hears('ab', '21')
    stop = begin(room, told(room, text, 'ExecStop', gateway))
    wanted(gateway.ended() == 0 and stop.ended() == 0, 'a stop that ends well')
    closed = re.fullmatch(r'closed (\d+) rows', gateway.lines['out'][-1])
    wanted(closed, 'a book that is closed')
    book = ''.join(read(path) for path in sorted(glob.glob(os.path.join(room.books, '00000001', '*.book'))))
    wanted(book.count('\nrow ') == int(closed[1]), 'each row in the folder of the unit')


def tried(program, folder):
    """Each part by its name, in their order; a part that fails ends the test."""
    package = built(program, folder)
    what_is_in_it(package)
    base = installed(package, folder)
    try:
        the_files_work(base, program)
        try:
            how_systemd_rates_it(base)
        except Skipped as why:
            print('left out: how systemd rates the unit: %s' % why)
        with Room(base + '/usr/bin/sng') as room:
            os.chmod(folder, 0o755)
            the_first_publish(room, base)
    finally:
        if not base:
            purged()
    return 'installed and purged' if not base else 'laid into a folder'


def main():
    program = os.path.abspath(sys.argv[1]) if sys.argv[1:] else PROVED
    if not os.path.exists(program):
        print('no program at %s: `rt run` in crates/sng makes it' % program)
        return 1
    if not shutil.which('dpkg-deb'):
        print('left out: the package: dpkg-deb is not there')
        return 0
    # A test that is stopped takes the package away, too.
    signal.signal(signal.SIGTERM, lambda *_: sys.exit(1))
    with tempfile.TemporaryDirectory() as folder:
        try:
            how = tried(program, folder)
        except (Failure, OSError, subprocess.SubprocessError) as fault:
            print('failed: %s' % fault)
            return 1
    print('package: built, %s, and a first publish played' % how)
    return 0


if __name__ == '__main__':
    sys.exit(main())
