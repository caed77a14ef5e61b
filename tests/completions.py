#!/usr/bin/env python3
"""completions.py [PROGRAM]

Holds the completions of packaging/completions against the help of the program: for zsh and fish what is
written of each command and option, with its text, has to be what the help has, no more and no less. Then each
shell that is installed completes commands, the options of each command, and values; what each offers has to
be what the help lists. PROGRAM is the proved program where none is given. Exit status 1 where something
differs."""
import os
import pty
import re
import shlex
import shutil
import subprocess
import sys
import tempfile
import time

sys.dont_write_bytecode = True
ROOT = os.path.dirname(os.path.dirname(os.path.abspath(__file__)))
PROVED = os.path.join(ROOT, 'crates', 'sng', 'out', 'sng')
FOLDER = os.path.join(ROOT, 'packaging', 'completions')
HELP = {'--help': 'Print help'}
SECONDS = 30


def read(name):
    with open(os.path.join(FOLDER, name)) as file:
        return file.read()


def listed(text, title):
    """The lines of a list of the help, each as its term and its text."""
    found = re.search(r'^%s:\n((?:  .*\n)+)' % title, text, re.M)
    return [tuple(line.strip().split('  ', 1)) for line in found[1].splitlines()] if found else []


def help_of(program):
    """The commands with their texts, and the long options of each with theirs; '' is the program itself."""
    def said(*words):
        return subprocess.run([program, *words, '--help'], stdin=subprocess.DEVNULL, text=True, check=True,
                              stdout=subprocess.PIPE, timeout=SECONDS).stdout

    def options(text):
        return {re.search(r'--[\w-]+', term)[0]: about.strip() for term, about in listed(text, 'Options')}
    commands = {term: about.strip() for term, about in listed(said(), 'Commands')}
    return commands, {'': options(said()),
                      **{name: options(said(name)) for name in commands if name != 'help'}}


def written_for_fish():
    """What sng.fish has of commands, and of the options of each."""
    commands, options = {}, {'': dict(HELP)}
    for line in read('sng.fish').replace('\\\n', ' ').splitlines():
        words = shlex.split(line, comments=True)
        if words[:3] != ['complete', '-c', 'sng']:
            continue
        at = {flag: words[words.index(flag) + 1] for flag in ('-n', '-l', '-d', '-a') if flag in words}
        under = at.get('-n', '').replace('$behind ', '')
        if under == '$first' and '-a' in at:
            commands[at['-a']] = at['-d']
        elif '-l' in at:
            options.setdefault('' if under == '$first' else under, {})['--' + at['-l']] = at['-d']
    return commands, {name: {**HELP, **options.get(name, {})} for name in ['', *commands] if name != 'help'}


def written_for_zsh():
    """What _sng has of commands, and of the options of each."""
    text = read('_sng')
    commands = dict(re.findall(r"^    '(\w+):(.*)'$", text, re.M))
    options = {'': {**HELP, '--version': re.search(r"\{-V,--version\}'\[(.*?)\]'", text)[1]}}
    for name, body in re.findall(r'^    (\w+)\)\n(.*?)^      ;;$', text, re.S | re.M):
        if name != 'help':
            options[name] = dict(re.findall(r"'(--[\w-]+)\[([^\]]*)\]", body))
            options[name].update(HELP if '$help' in body else {})
    return commands, options


def by_bash(words):
    """What bash offers for the last of these words."""
    script = '. %s/sng.bash; COMP_WORDS=("$@"); COMP_CWORD=$(($# - 1)); _sng; printf "%%s\\n" "${COMPREPLY[@]}"'
    done = subprocess.run(['bash', '--norc', '-c', script % FOLDER, 'bash', *words], check=True, text=True,
                          stdin=subprocess.DEVNULL, stdout=subprocess.PIPE, timeout=SECONDS)
    return sorted(word for word in done.stdout.splitlines() if word)


def by_fish(words):
    script = 'source %s/sng.fish; complete -C %s' % (FOLDER, shlex.quote(' '.join(words)))
    done = subprocess.run(['fish', '--no-config', '-c', script], check=True, text=True, timeout=SECONDS,
                          stdin=subprocess.DEVNULL, stdout=subprocess.PIPE)
    return sorted(line.split('\t')[0] for line in done.stdout.splitlines())


ZSHRC = r'''
PROMPT=
fpath=(%s $fpath)
autoload -U compinit; compinit -u -D
bindkey '^I' complete-word
zstyle ':completion:*' insert-tab false
compadd() {
  local -a hits
  if [[ ${@[1,(i)(-|--)]} != *-(O|A|D)\ * ]]; then
    builtin compadd -A hits "$@"
    print -rl -- $hits >> $ZDOTDIR/hits
  fi
  builtin compadd "$@"
}
offered() { print > $ZDOTDIR/end; exit }
comppostfuncs=(offered)
print > $ZDOTDIR/ready
'''


def by_zsh(words):
    """What zsh offers as a tabulator is typed behind the words, in a terminal of its own."""
    with tempfile.TemporaryDirectory() as folder:
        with open(os.path.join(folder, '.zshrc'), 'w') as file:
            file.write(ZSHRC % FOLDER)
        open(os.path.join(folder, 'hits'), 'w').close()
        ours, theirs = pty.openpty()
        shell = subprocess.Popen(['zsh', '-i'], stdin=theirs, stdout=theirs, stderr=theirs, cwd=folder,
                                 start_new_session=True, env=dict(os.environ, ZDOTDIR=folder, TERM='dumb'))
        os.close(theirs)
        try:
            appears(folder, 'ready')
            os.write(ours, ' '.join(words).encode() + b'\t')
            appears(folder, 'end')
        finally:
            shell.kill()
            shell.wait()
            os.close(ours)
        with open(os.path.join(folder, 'hits')) as file:
            return sorted(set(line for line in file.read().splitlines() if line))


def appears(folder, name):
    end = time.monotonic() + SECONDS
    while not os.path.exists(os.path.join(folder, name)):
        if time.monotonic() > end:
            raise TimeoutError('zsh does not get to its ' + name)
        time.sleep(0.02)


def tried(shell, offers, commands, options):
    """What a shell offers, and what it should."""
    yield shell + ' sng', offers(['sng', '']), sorted(commands)
    yield shell + ' sng --', offers(['sng', '--']), sorted(options[''])
    for name, known in options.items():
        if name:
            yield '%s sng %s --' % (shell, name), offers(['sng', name, '--']), sorted(known)
    yield shell + ' ACTION', offers(['sng', 'may', '--policy', 'p', 's1', 'p']), ['publish']
    yield shell + ' --workers', offers(['sng', 'serve', '--workers', '']), list('12345678')
    yield shell + ' help', offers(['sng', 'help', 's']), ['serve', 'status']


def results(program):
    commands, options = help_of(program)
    yield 'there are commands and options', len(commands) > 5 and len(options['serve']) > 8, True
    yield 'written for fish', written_for_fish(), (commands, options)
    yield 'written for zsh', written_for_zsh(), (commands, options)
    for shell, offers in (('bash', by_bash), ('fish', by_fish), ('zsh', by_zsh)):
        if shutil.which(shell):
            yield from tried(shell, offers, commands, options)
        else:
            print('left out: what %s offers, which is not there' % shell)


def main():
    program = os.path.abspath(sys.argv[1]) if sys.argv[1:] else PROVED
    if not os.path.exists(program):
        print('no program at %s: `rt run` in crates/sng makes it' % program)
        return 1
    passed, failed = 0, 0
    for name, found, wanted in results(program):
        if found == wanted:
            passed += 1
        else:
            failed += 1
            print('failed: %s: found %s, wanted %s' % (name, found, wanted))
    print('completions: %d passed, %d failed' % (passed, failed))
    return 1 if failed else 0


if __name__ == '__main__':
    sys.exit(main())
