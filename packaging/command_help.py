"""What `sng --help` and `sng COMMAND --help` say, taken apart: the man pages are made of it, and the tests
hold man pages and completions against it."""
import collections
import re
import subprocess

# An entry of a list of the help: `--listen <LISTEN>` has the names ['--listen'], the value `LISTEN` and its
# text; an argument the name of its value alone.
Entry = collections.namedtuple('Entry', 'names value text')
Help = collections.namedtuple('Help', 'about usage commands arguments options')
LISTS = {'Commands:': 'commands', 'Arguments:': 'arguments', 'Options:': 'options'}


def said(program, *words):
    done = subprocess.run([program, *words], stdin=subprocess.DEVNULL, stdout=subprocess.PIPE, timeout=20,
                          text=True, check=True)
    return done.stdout


def entry(term, text):
    """`  -h, --help`, `--listen <LISTEN>`, `<SCRIPT>`, `[FILE]` or `serve`, with its text."""
    names = re.findall(r'(?:^|, )(--?[\w-]+)', term.strip())
    value = re.search(r'[<\[](\w+)[>\]](?:\.\.\.)?$', term.strip())
    return Entry(names or ([] if value else [term.strip()]), value and value[1], text.strip())


def parsed(text):
    """The help of a command. A line that belongs to no list is what the command is about."""
    found = {'commands': [], 'arguments': [], 'options': []}
    about, usage, into, pending = [], '', None, None
    for line in text.splitlines():
        if line.startswith('Usage: '):
            usage = line[len('Usage: '):]
        elif line in LISTS:
            into = found[LISTS[line]]
        elif into is None:
            about.append(line)
        elif line.strip():
            term, _, rest = line.strip().partition('  ')
            if re.match(r' {2,6}\S', line):
                into.append(entry(term, rest))
            else:
                into[-1] = into[-1]._replace(text=(into[-1].text + ' ' + line.strip()).strip())
    return Help(' '.join(about).strip(), usage, **found)


def of_program(program):
    """The help of the program as a whole, and that of each command by its name, `help` left out."""
    whole = parsed(said(program, '--help'))
    names = [one.names[0] for one in whole.commands if one.names[0] != 'help']
    return whole, {name: parsed(said(program, name, '--help')) for name in names}


def version(program):
    """`0.1.0` of `sng 0.1.0, proved by ..`."""
    return re.match(r'sng (\d+\.\d+\.\d+)\b', said(program, '--version'))[1]
