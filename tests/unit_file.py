"""What a unit of systemd says, for tests that start what it starts: its words, and its filter of system
calls."""
import collections
import ctypes
import errno
import shutil
import subprocess

from live_parts import Skipped, wanted

ALLOW, REFUSE = 0x7fff0000, 0x00050000 | errno.EPERM


def settings(text):
    """The values of each setting, in their order; a line that ends in a backslash goes on."""
    found = collections.defaultdict(list)
    for line in text.replace('\\\n', ' ').splitlines():
        name, equals, value = line.partition('=')
        if equals and not line.startswith('#'):
            found[name].append(value.strip())
    return found


def started(text):
    """The words of ExecStart=, which have no variables."""
    commands = settings(text)['ExecStart']
    wanted(len(commands) == 1 and '$' not in commands[0], 'one ExecStart, without variables')
    return commands[0].split()


def system_calls(text):
    """The system calls that the unit lets through, by SystemCallFilter= and the sets that systemd knows."""
    if not shutil.which('systemd-analyze'):
        raise Skipped('systemd-analyze tells the sets of system calls')
    done = subprocess.run(['systemd-analyze', 'syscall-filter', '--no-pager'], stdin=subprocess.DEVNULL,
                          capture_output=True, text=True, check=True, timeout=60)
    sets, into = {}, None
    for line in done.stdout.splitlines():
        if line.startswith('@'):
            into = sets.setdefault(line.strip(), set())
        elif not line.startswith(' '):
            into = None  # calls of the kernel that are in no set
        elif into is not None and not line.strip().startswith('#'):
            into.add(line.strip())

    def calls(name):
        if not name.startswith('@'):
            return {name}
        return set().union(*(calls(inner) for inner in sets[name]))
    allowed = calls('@default')
    for value in settings(text)['SystemCallFilter']:
        named = set().union(*(calls(name) for name in value.lstrip('~').split()))
        allowed = allowed - named if value.startswith('~') else allowed | named
    return allowed | calls('@default')


def filtering(allowed):
    """What a process does before it starts a program, so that all other system calls fail with EPERM."""
    try:
        library = ctypes.CDLL('libseccomp.so.2')
    except OSError:
        raise Skipped('libseccomp makes the filter of system calls') from None
    library.seccomp_init.restype = ctypes.c_void_p
    context = ctypes.c_void_p(library.seccomp_init(REFUSE))
    numbers = [library.seccomp_syscall_resolve_name(name.encode()) for name in sorted(allowed)]
    for number in numbers:
        if number >= 0 and library.seccomp_rule_add(context, ALLOW, number, 0):
            raise OSError('no rule for system call %d' % number)

    def install():
        if library.seccomp_load(context):
            raise OSError('no filter')
    return install
