#!/usr/bin/env python3
"""man.py PROGRAM FOLDER

Makes the man pages sng(1), sng-serve(8) and sng-policy(5) in the folder: what each command takes is what its
`--help` says, and all else is taken from README.md, docs/running.md and docs/policy.md."""
import os
import re
import sys

sys.dont_write_bytecode = True
import command_help
from roff import escaped, guarded, inline, plain, roff

ROOT = os.path.dirname(os.path.dirname(os.path.abspath(__file__)))
CONFIG_FILE, POLICY_FILE, PIPE = '/etc/sng/sng.toml', '/etc/sng/policy.json', '/run/sng.control'
BOOKS = '/var/lib/sng'
DOCUMENTS = '/usr/share/doc/sng'


def document(name):
    with open(os.path.join(ROOT, name)) as file:
        return file.read().replace('crates/sng/out/sng', 'sng')


def part(text, heading):
    """What stands under a heading, up to the next one that is as high or higher."""
    depth = len(heading) - len(heading.lstrip('#'))
    found = re.search(r'^%s\n(.*?)(?=^#{1,%d} |\Z)' % (re.escape(heading), depth), text, re.S | re.M)
    if not found:
        raise SystemExit('no heading %r' % heading)
    return found[1]


def without_parts(text):
    """The text up to its first heading."""
    return re.split(r'^#+ ', text, maxsplit=1, flags=re.M)[0]


def head(name, section, version, about):
    return ['.\\" Made by packaging/man.py from the help of the program and the documents: change those.',
            '.TH %s %d "" "sng %s" "MQTT-SN gateway"' % (name.upper().replace('-', '\\-'), section, version),
            '.SH NAME', '%s \\- %s' % (name.replace('-', '\\-'), inline(about.replace('`', '')))]


def synopsis(usage):
    """A usage line: names are bold, values slanted."""
    words = [re.sub(r'(\w+)', r'\\fI\1\\fR', word.replace('<', '').replace('>', ''))
             if word[0] in '<[' else '\\fB%s\\fR' % escaped(word) for word in usage.split()]
    return ['.nf', ' '.join(['\\fBsng\\fR', *words[1:]]), '.fi']


def term(entry):
    names = ', '.join('\\fB%s\\fR' % escaped(name) for name in entry.names)
    return (names + ' ' + '\\fI%s\\fR' % entry.value if entry.value else names).strip()


def entries(found, more=None):
    """The arguments and options of a command, each with what the document says of it, or else the help."""
    out = []
    for entry in found.arguments + found.options:
        said = (more or {}).get(entry.names[-1] if entry.names else entry.value, entry.text)
        out += ['.TP', term(entry), guarded(inline(said[:1].upper() + said[1:]) + '.')]
    return out


def options_of(text):
    """The rows of the table of options in docs/running.md, by the option."""
    rows = re.findall(r'^\| `(--[\w-]+)[^`]*` \| (.*) \|$', text, re.M)
    return {option: re.sub(r' \(\[below\]\([^)]*\)\)$', '', said) for option, said in rows}


def without_table(text, first):
    """The text without the table that begins with this row."""
    return re.sub(r'^%s\n(?:\|.*\n)+' % re.escape(first), '', text, flags=re.M)


def see_also(*pages):
    return ['.SH SEE ALSO', ', '.join('\\fB%s\\fR(%d)' % (name.replace('-', '\\-'), number)
                                      for name, number in pages) + ',', '.I %s' % plain(DOCUMENTS)]


def sng_page(version, whole, commands, running):
    intro = without_parts(part(document('README.md'), '# sng: an MQTT-SN gateway whose promise is proved'))
    out = head('sng', 1, version, whole.about[:1].lower() + whole.about[1:])
    out += ['.SH SYNOPSIS'] + [line for found in commands.values() for line in synopsis(found.usage)]
    out += ['.SH DESCRIPTION'] + roff(intro) + ['.SH OPTIONS'] + entries(whole) + ['.SH COMMANDS']
    for name, found in commands.items():
        out += ['.SS sng ' + name, guarded(inline(found.about) + '.')]
        if name == 'serve':
            out += ['See', '.BR sng\\-serve (8).']
        elif '## sng ' + name in running:
            out += entries(found) + roff(without_parts(part(running, '## sng ' + name)), top=1)
        else:
            out += entries(found)
    return out + see_also(('sng-serve', 8), ('sng-policy', 5))


def serve_page(version, found, running):
    text = part(running, '## sng serve')
    first = '| Option | Means |'
    out = head('sng-serve', 8, version, found.about[:1].lower() + found.about[1:])
    out += ['.SH SYNOPSIS'] + synopsis(found.usage)
    out += ['.SH OPTIONS'] + entries(found, options_of(part_of_table(text, first)))
    out += ['.SH DESCRIPTION'] + roff(without_table(text, first), top=1)
    out += ['.SH FILES', '.TP', '.I ' + plain(CONFIG_FILE), 'The configuration of the service.',
            '.TP', '.I ' + plain(POLICY_FILE), 'The policy of the service, see',
            '.BR sng\\-policy (5).', '.TP', '.I ' + PIPE,
            'Its standard input, to which root may write commands.',
            '.TP', '.I ' + BOOKS, 'Its books on disk, a folder for each run.']
    return out + see_also(('sng', 1), ('sng-policy', 5), ('mosquitto', 8))


def part_of_table(text, first):
    return text[text.index(first):].split('\n\n', 1)[0]


def policy_page(version, policy):
    title, text = policy.split('\n', 1)
    out = head('sng-policy', 5, version, 'who may publish and subscribe to what at an MQTT-SN gateway')
    out += ['.SH DESCRIPTION'] + roff(text)
    out += ['.SH FILES', '.TP', '.I ' + plain(POLICY_FILE),
            'The policy of the service. As it is installed it lets nobody in.']
    return out + see_also(('sng', 1), ('sng-serve', 8))


def pages(program):
    """Each page by the name of its file."""
    version, (whole, commands) = command_help.version(program), command_help.of_program(program)
    running, policy = document('docs/running.md'), document('docs/policy.md')
    made = {'sng.1': sng_page(version, whole, commands, running),
            'sng-serve.8': serve_page(version, commands['serve'], running),
            'sng-policy.5': policy_page(version, policy)}
    return {name: '\n'.join(lines) + '\n' for name, lines in made.items()}


def main():
    program, folder = sys.argv[1:]
    os.makedirs(folder, exist_ok=True)
    for name, text in pages(program).items():
        with open(os.path.join(folder, name), 'w') as file:
            file.write(text)


if __name__ == '__main__':
    main()
