#!/usr/bin/env python3
"""end_to_end.py

Runs the program over everything that a text can show: each script of tests/scripts through `sng play`, with
its whole output and exit status (NAME.expected; NAME.status, where it is not 0); the lines of
tests/lines.table, which cannot be read; the scripts of full_places.py; the policy texts of policy_texts.py;
the questions of tests/cover.table and tests/may.table; the reports on policy texts of policy_reports.py, with
their warnings where the proved program runs; books of a script, its own and others; books on disk that are
checked (disk_books.py), and what is told of books (browse_books.py); command lines, good and bad; output that
cannot be written or is closed; a line without end under a limit of memory. The numbers in the help have to be
those of the constants. Behind what is wrong with a command line stands an example that works
(command_examples.py), and the commands of docs/operating.md print what it says (operating.py). A search over
names (cover_search.py) answers the first table of questions too, memory_errors.py reads which lines of the
sources make an error of memory, and promise_lines.py counts the definitions of the promise. Uses the proved
program where one lies in crates/sng/out that is newer than every source, and else one build without proof,
which leaves out what it cannot run, and says what.
"""
import collections
import glob
import json
import os
import re
import resource
import subprocess
import sys
import tempfile

sys.dont_write_bytecode = True
import browse_books
import disk_books
import full_places
import policy_reports
import policy_texts

HERE = os.path.dirname(os.path.abspath(__file__))
ROOT = os.path.dirname(HERE)
CRATE = os.path.join(ROOT, 'crates', 'sng')
PROVED = os.path.join(CRATE, 'out', 'sng')
SECONDS = 600
POLICY = 'policy.json'
ENDS = 'ends.json'
NO_FILE = b'cannot read no-such.json: No such file or directory (os error 2)\n'
BOOK_SCRIPT = 'scripts/refused-policy-leaves-the-one-before.script'
# The files that the words of a case name, for the build without proof
DATA = [word for name in (POLICY, ENDS, 'cover.table', BOOK_SCRIPT)
        for word in ('--data', '%s=%s' % (name, os.path.join(HERE, name)))]
MAX_LINE = 256 * 1024 * 1024
MEMORY = 512 * 1024 * 1024
SHORT = 16 * 1024 * 1024
# The texts of the help that have a number, with the constants that they tell of, and where these stand
HELP_SOURCES = sorted(glob.glob(os.path.join(ROOT, 'crates/sng_command/src/command/*.rt')))
HELP_CONSTANTS = [os.path.join(ROOT, 'crates/%s.rt' % name)
                  for name in ('sng_config/src/limits', 'sng_operator/src/ask', 'sng_bookkeeper/src/limits',
                               'sng_metrics/src/response')]
HELP_TEXTS = (
    'How many workers read datagrams, from 1 to {MAX_WORKERS}',
    'How many tries to connect may fail in a row: {USUAL_TRIES} where it is left out; 0 is no end',
    'How many denied datagrams a second one stranger may send: {each} where it is left out',
    'How many all strangers together may send: {all} where it is left out',
    'The folder where the book is kept on disk: without it a run ends with {ROWS_AHEAD} rows',
    'Where it serves its figures, IP:PORT: {USUAL_METRICS} where it is left out',
)

# A run of the program: standard input, the exit status, and standard output and standard error, where they
# are compared
Case = collections.namedtuple('Case', 'name words given status expected warned', defaults=(None,))
ENDLESS = Case('a-line-without-end', ['play'], b'', 1, b'line 1: unreadable\n')


def is_current():
    """Whether the proved program is newer than every source that it is made of."""
    if not os.path.exists(PROVED):
        return False
    sources = glob.glob(os.path.join(ROOT, 'crates', '*', 'src', '**', '*.rt'), recursive=True)
    return all(os.path.getmtime(source) <= os.path.getmtime(PROVED) for source in sources)


def read(path, otherwise=None):
    if not os.path.exists(path):
        return otherwise
    with open(path, 'rb') as file:
        return file.read()


def rows(name):
    """The rows of a table that are no comments, with their numbers."""
    for number, line in enumerate(read(os.path.join(HERE, name)).decode().split('\n')[:-1], 1):
        if not line.startswith('#'):
            yield '%s:%d' % (name, number), line


def scripts():
    for path in sorted(glob.glob(os.path.join(HERE, 'scripts', '*.script'))):
        stem = path[:-len('.script')]
        status = int(read(stem + '.status', b'0'))
        yield Case(os.path.basename(stem), ['play'], read(path), status, read(stem + '.expected'))
    for name, line in rows('lines.table'):
        yield Case(name, ['play'], json.loads(line).encode() + b'\n', 1, b'line 1: unreadable\n')
    for name, given, printed in full_places.scripts():
        yield Case(name, ['play'], given, 0, printed)
    yield Case('the-policies', ['play'], *plays(policy_texts.all_texts()))
    yield Case('the-longest-line', ['play'], b'policy ' + b' ' * (MAX_LINE - 7) + b'\n', 0,
               b'refused policy 1 NotJson\n')
    yield Case('a-line-that-is-too-long', ['play'], b'\npolicy ' + b' ' * (MAX_LINE - 6) + b'\nup\n', 1,
               b'line 2: unreadable\n')


def plays(texts):
    given, printed = policy_texts.script(texts)
    return given, 0, printed


def questions():
    for name, line in rows('cover.table'):
        status, printed, words = line.split('|')
        yield Case(name, ['cover'] + words.split(' '), b'', int(status), printed.encode() + b'\n')
    for name, word in (('empty', b''), ('of-201-bytes', b'a' * 201), ('not-utf8', b'a/\xff')):
        yield Case('cover-a-filter-' + name, ['cover', 'a', word, '#'], b'', 1, b'bad filter 2\n')
    yield Case('cover-a-name-with-a-space', ['cover', 'a b/%'], b'', 1, b'uncovered a%20b/%25\n')
    yield Case('cover-behind-the-escape', ['cover', '--', '-x/+', '-x/a'], b'', 1, b'uncovered -x/x\n')
    yield Case('cover-an-escape-as-a-filter', ['cover', '--', '--', '#'], b'', 0, b'included\n')
    yield Case('cover-an-escape-behind-a-filter', ['cover', '#', '--', '--'], b'', 1, b'uncovered x\n')


def asking(*words, policy=POLICY):
    """The command line of a question to the policy of a file."""
    return ['may', '--policy', policy, *words]


def questions_to_a_policy():
    """Questions to tests/policy.json, which lies in the folder where the program runs."""
    for name, line in rows('may.table'):
        status, printed, words = line.split('|')
        yield Case(name, asking(*words.split()), b'', int(status), printed.encode() + b'\n' * bool(printed))
    for name, words, status, printed in (
            ('a-name-with-a-space', asking('s1', 'publish', 'b/x y/c'), 0, b'allowed\n'),
            ('a-gap-with-a-space', asking('s1', 'subscribe', 'x y/+'), 1, b'denied Uncovered x%20y/x\n'),
            ('an-empty-name', asking('s1', 'publish', ''), 1, b'bad name\n'),
            ('not-utf8', asking('s1', 'publish', b'b/\xff/c'), 1, b'bad word 6\n'),
            ('without-a-policy', ['may', 's1', 'publish', 'a'], 2, b''),
            ('a-text-that-is-no-policy', asking('s1', 'publish', 'a', policy='cover.table'), 1,
             b'refused policy 1 NotJson\n'),
            ('a-file-that-is-not-there', asking('s1', 'publish', 'a', policy='no-such.json'), 1, NO_FILE)):
        yield Case('may-' + name, words, b'', status, printed)


def questions_at_times():
    """Questions to tests/ends.json: s1's scope ends as 2027 begins, the source's in 2001, old's in 1970."""
    allowed, ended, source = (0, b'allowed\n'), (1, b'denied NoScope\n'), (1, b'denied UnknownSource\n')
    for name, at, words, (status, printed) in (
            ('the-last-ms', '1798761599999', ['s1', 'publish', 't/1'], allowed),
            ('the-end', '1798761600000', ['s1', 'publish', 't/1'], ended),
            ('the-last-ms-in-utc', '2026-12-31T23:59:59.999Z', ['s1', 'publish', 't/1'], allowed),
            ('the-end-in-utc', '2027-01-01T00:00:00Z', ['s1', 'publish', 't/1'], ended),
            ('the-end-at-an-offset', '2027-01-01T05:30:00+05:30', ['s1', 'receive', 'a/x'], ended),
            ('less-than-a-ms-before', '2026-12-31T23:59:59.9999Z', ['s1', 'subscribe', 'a/#'], allowed),
            ('the-first-ms', '0', ['old', 'publish', 't/1'], allowed),
            ('the-last-ms-of-all', '18446744073709551615', ['s1', 'publish', 't/1'], ended),
            ('the-last-ms-of-all-without-an-end', '18446744073709551615', ['s2', 'publish', 'ab'], allowed),
            ('a-source-before', '2001-09-09T01:46:39Z', ['--source', '10.0.0.7', 'publish', 'ab'], allowed),
            ('a-source-at-its-end', '1000000000000', ['--source', '10.0.0.7', 'publish', 'ab'], source)):
        yield Case('may-at-' + name, asking('--at', at, *words, policy=ENDS), b'', status, printed)
    for name, words, (status, printed) in (
            ('what-has-ended', ['old', 'publish', 't/1'], ended),
            ('what-never-ends', ['s2', 'publish', 'ab'], allowed)):
        yield Case('may-now-' + name, asking(*words, policy=ENDS), b'', status, printed)
    for at in ('', 'now', '-1', '18446744073709551616', '2027-01-01', '2027-01-01T00:00:00',
               '1969-12-31T23:59:59Z'):
        words = asking('--at=' + at, 's1', 'publish', 't/1', policy=ENDS)
        yield Case('may-at-no-time-%s' % at, words, b'', 2, b'',
                   b'error: TIME is ms of Unix time, or a date and a time, as 2027-01-01T00:00:00Z\n')


def checks():
    """Policy texts that are checked, from standard input and from files."""
    for report in policy_reports.reports():
        yield Case('policy-' + report.name, ['policy'], report.text, report.status, report.printed,
                   report.warned)
    for report in policy_reports.prints():
        yield Case('policy-' + report.name, ['policy', '--print'], report.text, report.status, report.printed,
                   report.warned)
    for name, words, status, printed in (
            ('of-a-file', ['policy', POLICY], 0, b'policy ok: 3 clients, 1 sources, 1 topics\n'),
            ('print-of-a-file', ['policy', '--print', POLICY], 0,
             policy_reports.canonical(read(os.path.join(HERE, POLICY)))),
            ('that-is-no-json', ['policy', 'cover.table'], 1,
             b'refused policy 1 NotJson\n%s\nat line 1, column 1: not JSON\n'
             % policy_reports.SENTENCES['1 NotJson'].encode()),
            ('that-is-not-there', ['policy', 'no-such.json'], 1, NO_FILE),
            ('not-utf8', ['policy', b'b/\xff/c'], 1, b'bad word 2\n'),
            ('of-two-files', ['policy', POLICY, POLICY], 2, b''),
            ('with-no-such-option', ['policy', '--x'], 2, b'')):
        yield Case('policy-' + name, words, b'', status, printed)


def books():
    """Books of a script with a refused policy: the one that it has, and others."""
    book = read(os.path.join(HERE, BOOK_SCRIPT[:-len('.script')] + '.expected'))
    lines = book.splitlines(keepends=True)
    refused, note, wire = lines[1].decode(), lines[4].decode(), lines[7].decode()
    for name, text, printed in (
            ('as-it-is', book, None),
            ('with-a-changed-byte', book.replace(b'allowed', b'allowee', 1),
             'row 3, line 5: unlike\nstands: %sshould: %s' % (note.replace('allowed', 'allowee'), note)),
            ('with-a-byte-that-is-not-printed', book.replace(b'wire', b'wir\x01'),
             'row 4, line 8: unlike\nstands: %sshould: %s' % (wire.replace('wire', 'wir%01'), wire)),
            ('that-is-empty', b'', 'row 1, line 1: cut off\nshould: row 1 0 replace\n'),
            ('that-is-cut-off-behind-a-row', b''.join(lines[:5]),
             'row 4, line 6: cut off\nshould: row 4 0 take\n'),
            ('that-is-cut-off-within-a-line', b''.join(lines[:5]) + b'ro',
             'row 4, line 6: cut off\nstands: ro\nshould: row 4 0 take\n'),
            ('without-the-last-line-feed', book[:-1], 'row 4, line 8: cut off\nstands: %sshould: %s' % (wire, wire)),
            ('that-goes-on', book + b'row 5 0 up\n', 'row 5, line 9: goes on\nstands: row 5 0 up\n'),
            ('that-goes-on-with-an-out', book + lines[7], 'row 4, line 9: goes on\nstands: %s' % wire),
            ('without-an-out', b''.join(lines[:4] + lines[5:]),
             'row 3, line 5: unlike\nstands: row 4 0 take\nshould: %s' % note),
            ('with-an-out-more', b''.join(lines[:5] + lines[4:]),
             'row 3, line 6: unlike\nstands: %sshould: row 4 0 take\n' % note),
            ('without-what-is-told', b''.join(lines[:1] + lines[2:]),
             'row 1, line 2: unlike\nstands: row 2 0 up\nshould: %s' % refused)):
        yield Case('book-' + name, ['check', BOOK_SCRIPT], text, 1 if printed else 0,
                   (printed or 'lawful 4 rows\n').encode())
    yield Case('book-of-a-line-that-is-too-long', ['check', BOOK_SCRIPT], b'r' * (MAX_LINE + 1), 1,
               b'unreadable book\n')
    for name, words, status, printed in (
            ('of-a-script-that-is-not-there', ['check', 'no-such.json'], 1, NO_FILE),
            ('of-no-script', ['check'], 2, b''),
            ('of-two-scripts', ['check', BOOK_SCRIPT, BOOK_SCRIPT], 2, b''),
            ('of-a-word-that-is-no-text', ['check', b'\xff'], 1, b'bad word 2\n')):
        yield Case('book-' + name, words, book, status, printed)


def books_on_disk(folder):
    """Books of disk_books.py, which are laid into the folder."""
    for book in disk_books.books():
        path, asked = disk_books.lay(folder, book)
        yield Case('disk-' + book.name, ['check', '--book', *asked], b'', book.status,
                   book.printed.replace('{}', path).encode())
    for name, words, status, printed in (
            ('that-is-not-there', ['check', '--book', 'no-such.json'], 1, NO_FILE),
            ('and-a-script', ['check', BOOK_SCRIPT, '--book', '.'], 2, b''),
            ('without-its-folder', ['check', '--book'], 2, b''),
            ('of-a-word-that-is-no-text', ['check', '--book', b'\xff'], 1, b'bad word 3\n')):
        yield Case('disk-' + name, words, b'', status, printed)


def books_told(folder):
    """Books of browse_books.py, which are laid into the folder."""
    for book in browse_books.books():
        path = disk_books.lay_files(folder, 'told-' + book.name, book.files)
        warned = None if book.warned is None else book.warned.replace('{}', path).encode()
        words = ['book', *(word.replace('{}', path) for word in book.words)]
        yield Case('told-' + book.name, words, book.given, book.status, book.printed.encode(), warned)


def command_lines():
    for name, words in (('nothing', []), ('no-such-command', ['nonsense']), ('cover-nothing', ['cover']),
                        ('play-with-a-word', ['play', 'x']), ('no-such-option', ['cover', '--x', 'a'])):
        yield Case('command-line-' + name, words, b'', 2, b'')
    for words in (['--help'], ['check', '--help'], ['book', '--help'], ['cover', '--help'], ['may', '--help'],
                  ['policy', '--help'], ['serve', '--help'], ['status', '--help'], ['broker', '--help'],
                  ['help']):
        yield Case('-'.join(words).replace('--', ''), words, b'', 0, None)


def constants():
    """The numbers and the texts of the constants that the help tells of, and of the fields of such a constant, by
    name."""
    found = {}
    for source in HELP_CONSTANTS:
        text = read(source).decode()
        for name, number in re.findall(r'(?:const |^ {4})(\w+): (?:\w+ = )?([\d_]+)[;,]$', text, re.MULTILINE):
            found[name] = int(number)
        found.update(re.findall(r'const (\w+): &str = "([^"]*)";$', text, re.MULTILINE))
    return found


def is_helped_right(proved):
    """Whether each text of the help that has a number has that of its constant; printed, where the proved
    program runs."""
    wanted = sorted(text.format(**constants()) for text in HELP_TEXTS)
    source = ''.join(read(source).decode() for source in HELP_SOURCES)
    told = sorted(text for text in re.findall(r'\.help\(\s*"([^"]*)"', source) if re.search(r'\b\d', text))
    helps = [run_proved(Case('', [name, '--help'], b'', 0, None))[1].decode()
             for name in ('serve', 'status') if proved]
    printed = ''.join(helps)
    if told == wanted and all(text in printed or not proved for text in wanted):
        return True
    print('  the help is to tell', wanted, '\n  found', told, printed)
    return False


def cases(folder):
    yield from scripts()
    yield from questions()
    yield from questions_to_a_policy()
    yield from questions_at_times()
    yield from checks()
    yield from books()
    yield from books_on_disk(folder)
    yield from books_told(folder)
    yield from command_lines()


def lost():
    """Commands whose output is lost: each ends with status 4."""
    yield Case('help-that-is-lost', ['--help'], b'', 4, None)
    yield Case('an-answer-that-is-lost', ['cover', 'a', '#'], b'', 4, None)
    yield Case('a-row-that-is-lost', ['play'], b'up\n', 4, None)
    yield Case('a-verdict-that-is-lost', ['check', BOOK_SCRIPT], b'', 4, None)
    yield Case('a-report-that-is-lost', ['policy'], b'{}', 4, None)
    yield Case('a-check-of-a-book-on-disk-that-is-lost', ['check', '--book', POLICY], b'', 4, None)
    yield Case('a-decision-that-is-lost', ['book', '-'], browse_books.WHOLE, 4, None)


def is_as_wanted(case, status, printed, warned=None):
    if status == case.status and case.expected in (None, printed) and case.warned in (None, warned):
        return True
    print('  %s wanted' % case.name, case.status, (case.expected or b'')[:500], (case.warned or b'')[:500])
    print('  found', status, printed[:500], (warned or b'')[:500])
    return False


def run_proved(case, output=subprocess.PIPE):
    """The exit status of the proved program, and what it prints on standard output and standard error."""
    done = subprocess.run([PROVED] + case.words, cwd=HERE, input=case.given, stdout=output,
                          stderr=subprocess.PIPE, timeout=SECONDS)
    return done.returncode, done.stdout or b'', done.stderr


def limit_memory():
    resource.setrlimit(resource.RLIMIT_AS, (MEMORY, MEMORY))


def by_the_proved_program():
    """Each case's name, and whether the proved program does as wanted."""
    with tempfile.TemporaryDirectory() as folder:
        for case in cases(folder):
            yield case.name, is_as_wanted(case, *run_proved(case))
    for case in lost():
        with open('/dev/full', 'wb') as full:
            yield case.name, is_as_wanted(case, *run_proved(case, output=full))
    with open('/dev/zero', 'rb') as zero:
        done = subprocess.run([PROVED, 'play'], cwd=CRATE, stdin=zero, stdout=subprocess.PIPE,
                              stderr=subprocess.DEVNULL, timeout=SECONDS, preexec_fn=limit_memory)
    yield ENDLESS.name, is_as_wanted(ENDLESS, done.returncode, done.stdout)
    yield from browse_books.while_it_runs(PROVED)


def is_runnable(case):
    """Whether the build without proof can run the case: its words are texts, and its input is short."""
    return len(case.given) < SHORT and all(is_text(word) for word in case.words)


def is_text(word):
    return isinstance(word, str) or word.decode(errors='replace').encode() == word


def lay(folder, listed):
    """Writes the cases as files for `rt try --cases`."""
    for number, case in enumerate(listed):
        stem = os.path.join(folder, 'c%04d' % number)
        words = [word if isinstance(word, bytes) else word.encode() for word in case.words]
        files = [(stem, case.given), (stem + '.args', b''.join(word + b'\n' for word in words))]
        if case.expected is not None:
            files.append((stem + '.stdout', case.expected))
        for path, text in files:
            with open(path, 'wb') as file:
                file.write(text)


def by_the_build_without_proof():
    """Each case's name, and whether the build without proof, built once, does as wanted."""
    with tempfile.TemporaryDirectory() as folder, tempfile.TemporaryDirectory() as disk:
        every = list(cases(disk))
        listed = [case for case in every if is_runnable(case)]
        left_out = [case.name for case in every if not is_runnable(case)] + [case.name for case in lost()]
        print('left to the proved program:', ', '.join(left_out + [ENDLESS.name]))
        lay(folder, listed)
        done = subprocess.run(['rt', 'try', *DATA, '--cases', folder], cwd=CRATE, stdout=subprocess.PIPE,
                              stderr=subprocess.STDOUT, stdin=subprocess.DEVNULL)
    said = done.stdout.decode(errors='replace')
    found = {int(n): line for line in said.splitlines() for n in re.findall(r'^case=c(\d+) ', line)}
    if not found:
        print(said[-3000:])
    for number, case in enumerate(listed):
        line = found.get(number, 'not run')
        good = ' status=%d ' % case.status in line and (case.expected is None or ' output=expected ' in line)
        if not good:
            print('  %s wanted' % case.name, case.status, (case.expected or b'')[:500], '\n  found', line)
        yield case.name, good


def main():
    proved = is_current()
    print('end to end, by', 'the proved program' if proved else 'the build without proof')
    results = list(by_the_proved_program() if proved else by_the_build_without_proof())
    results.append(('numbers-in-the-help', is_helped_right(proved)))
    search = subprocess.run([sys.executable, os.path.join(HERE, 'cover_search.py')], timeout=SECONDS)
    results.append(('cover.table-by-a-search-over-names', search.returncode == 0))
    if proved:
        examples = subprocess.run([sys.executable, os.path.join(HERE, 'command_examples.py')], timeout=SECONDS)
        results.append(('examples-on-the-command-line', examples.returncode == 0))
        answers = subprocess.run([sys.executable, os.path.join(HERE, 'operating.py')], timeout=SECONDS)
        results.append(('questions-of-an-operator', answers.returncode == 0))
    errors = subprocess.run([sys.executable, os.path.join(HERE, 'memory_errors.py')], timeout=SECONDS)
    results.append(('errors-of-memory-in-the-sources', errors.returncode == 0))
    told = subprocess.run([sys.executable, os.path.join(HERE, 'promise_lines.py')], timeout=SECONDS)
    results.append(('lines-of-the-promise', told.returncode == 0))
    for name, good in results:
        if not good:
            print('FAIL', name)
    failed = sum(not good for _, good in results)
    print('%d passed, %d failed' % (len(results) - failed, failed))
    return 1 if failed else 0


if __name__ == '__main__':
    sys.exit(main())
