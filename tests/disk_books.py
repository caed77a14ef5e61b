"""disk_books.py

Books on disk with what `sng check --book` says of them, for end_to_end.py: the rows of scripts of
tests/scripts behind the lines of their events, in one file and in several, with marks and with any tags; cut
off; changed, each so that it is that of no lawful history any more; and what cannot be read.
"""
import collections
import glob
import os

HERE = os.path.dirname(os.path.abspath(__file__))
MAX_LINE = 256 * 1024 * 1024
FORMAT = b'# sng book 1\n'
MARK = b'# time 20261126T120000Z\n'

# The files of a folder by their paths, the exit status, what is printed, with `{}` for the folder, and the
# paths in it that are asked about; an empty one is itself
Book = collections.namedtuple('Book', 'name files status printed asked', defaults=(('',),))


def name_of(row, at=0):
    return '%020d-20261126T12%04dZ.book' % (row, at)


def is_one_packet(line):
    """Whether a line of the broker's bytes has just one packet (MQTT 3.1.1, 2.2.3); any other line is as it
    is."""
    if not line.startswith(b'broker '):
        return True
    octets = bytes.fromhex(line[7:].decode())
    length, shift, at = 0, 0, 1
    for octet in octets[1:5]:
        length, shift, at = length + ((octet & 127) << shift), shift + 7, at + 1
        if octet < 128:
            return at + length == len(octets)
    return False


def rows_of(stem):
    """The rows of a script as a book on disk has them, each as its lines; none where a line makes no row or
    several."""
    with open(stem + '.script', 'rb') as file:
        lines = [line for line in file.read().split(b'\n') if line]
    with open(stem + '.expected', 'rb') as file:
        printed = file.read().splitlines(keepends=True)
    rows = []
    for line in printed:
        if line.startswith(b'row '):
            rows.append([])
        if not rows or line.startswith((b'refused', b'line ')):
            return []
        rows[-1].append(line)
    if len(rows) != len(lines) or not all(is_one_packet(line) for line in lines):
        return []
    return [[b'> ' + line + b'\n'] + row for line, row in zip(lines, rows)]


def tagged(rows):
    """The rows, each by another worker."""
    tags = (0, 7, 65535)
    for place, (line, first, *outs) in enumerate(rows):
        row, number, _, kind = first.split(b' ')
        yield [line, b' '.join((row, number, b'%d' % tags[place % len(tags)], kind))] + outs


def text(rows, mark=b''):
    return FORMAT + b''.join(mark + b''.join(row) for row in rows)


def split(rows, size):
    """The files of the rows, so many in each."""
    return {name_of(at + 1, at): text(rows[at:at + size]) for at in range(0, len(rows), size)}


def in_run(files, run='00000001'):
    return {'%s/%s' % (run, name): octets for name, octets in files.items()}


def lawful(rows, run='00000001', cut=None):
    """What is printed of a lawful run, whose last file was cut off behind so many lines, where `cut` is these
    and its name."""
    tail = '' if cut is None else ', cut off behind line %d of %s' % cut
    return '{}/%s: lawful %d rows%s\n' % (run, rows, tail)


def whole_books():
    """Each script's book, in one file and in several."""
    for path in sorted(glob.glob(os.path.join(HERE, 'scripts', '*.script'))):
        rows = list(tagged(rows_of(path[:-len('.script')])))
        if not rows:
            continue
        name = os.path.basename(path[:-len('.script')])
        yield Book(name, in_run({name_of(1): text(rows, MARK)}), 0, lawful(len(rows)))
        yield Book(name + '-in-files', in_run(split(rows, 3)), 0, lawful(len(rows)))


SAMPLE = os.path.join(HERE, 'scripts', 'refused-policy-leaves-the-one-before')


def sample():
    """Four rows of a script, whose second line is refused, and so is left out."""
    with open(SAMPLE + '.script', 'rb') as file:
        lines = file.read().splitlines()
    with open(SAMPLE + '.expected', 'rb') as file:
        printed = [line for line in file.read().splitlines(keepends=True) if not line.startswith(b'refused')]
    rows = []
    for line in printed:
        if line.startswith(b'row '):
            rows.append([])
        rows[-1].append(line)
    return [[b'> ' + line + b'\n'] + row for line, row in zip(lines[:1] + lines[2:], rows)]


def cut_off(rows):
    """A run whose last file ends anywhere is lawful up to its last whole row."""
    last = text(rows[2:])
    ends = len(FORMAT) + len(b''.join(rows[2])), len(last)
    for size in range(len(last) + 1):
        whole = 2 + sum(end <= size for end in ends)
        is_between = size in ends or size in (0, len(FORMAT))
        files = {name_of(1): text(rows[:2]), name_of(3): last[:size]}
        cut = None if is_between else (last[:size].count(b'\n'), name_of(3))
        yield Book('cut-off-behind-%d' % size, in_run(files), 0, lawful(whole, cut=cut))


def taken(rows):
    """Ends that the next file writes again, and runs beside one another."""
    whole = text(rows)
    yield Book('a-torn-end', in_run({name_of(1): whole[:-5], name_of(4, 1): text(rows[3:])}), 0, lawful(4))
    yield Book('an-end-of-whole-rows', in_run({name_of(1): whole, name_of(3, 1): text(rows[2:])}), 0,
               lawful(4))
    yield Book('an-end-that-is-torn-twice',
               in_run({name_of(1): whole[:-5], name_of(4, 1): b'# sn', name_of(4, 2): text(rows[3:])}), 0,
               lawful(4))
    files = dict(in_run({name_of(1): whole}), **in_run({name_of(1): text(rows[:1])}, '00000002'))
    files['lock'] = files['00000001/lock'] = b''
    yield Book('two-runs', files, 0, lawful(4) + lawful(1, '00000002'))
    yield Book('no-run', {'lock': b''}, 1, '{}: no book\n')
    yield Book('a-run-without-files', {'00000001/lock': b''}, 0, lawful(0))
    yield Book('the-folder-of-a-run', {name_of(1): whole}, 0, '{}: lawful 4 rows\n')
    yield Book('a-file', {'book': whole}, 0, '{}/book: lawful 4 rows\n', ('book',))
    yield Book('a-file-that-is-cut-off', {'book': whole[:-1]}, 0,
               '{}/book: lawful 3 rows, cut off behind line %d of {}/book\n' % (whole.count(b'\n') - 1),
               ('book',))
    yield Book('the-folder-of-a-run-of-later-rows', {name_of(3): text(rows[2:])}, 1,
               '{}/%s: row 1, line 1: missing\n' % name_of(3))


def wrong(name, files, at, row, line, said):
    printed = '{}/00000001/%s: row %d, line %d: %s\n' % (at, row, line, said)
    return Book(name, in_run(files), 1, printed)


def unlike(stands, should):
    return 'unlike\nstands: %s\nshould: %s' % (stands, should)


def changed(rows):
    """Files of which one is not that of a lawful history."""
    first, second, third = (name_of(row) for row in (1, 3, 4))
    files = {first: text(rows[:2]), second: text(rows[2:3]), third: text(rows[3:])}
    note = 'note publish 10.0.0.7 ab allowed'

    def other(name, octets, number, at, row, line, said):
        """The run with another text of one of its files."""
        return wrong(name, dict(files, **{number: octets}), at, row, line, said)
    yield other('a-changed-byte', files[second].replace(b'allowed', b'allowee'), second, second, 3, 4,
                unlike(note.replace('allowed', 'allowee'), note))
    yield other('a-changed-event', files[second].replace(b'6162', b'6163'), second, second, 3, 4,
                unlike(note, 'note publish 10.0.0.7 ac 10 MissingPub ac'))
    yield other('a-last-line-that-is-gone', FORMAT + b''.join(rows[2][:2]), second, second, 3, 4, 'missing')
    yield other('a-line-that-is-gone', FORMAT + b''.join(rows[2][:1] + rows[2][2:]), second, second, 3, 3,
                unlike(note, 'row 3 0 datagram'))
    yield other('a-line-too-many', FORMAT + b''.join(rows[3] + rows[3][-1:]), third, third, 5, 6,
                'no event\nstands: wire 3006000261623231')
    yield other('a-row-that-is-gone', text(rows[1:2]), first, first, 1, 3, unlike('row 2 0 up', 'row 1 0 up'))
    yield other('an-event-that-is-gone', FORMAT + b''.join(rows[2][1:]), second, second, 3, 2,
                'no event\nstands: row 3 0 datagram')
    yield other('a-tag-of-17-bits', files[second].replace(b'3 0 d', b'3 65536 d'), second, second, 3, 3,
                unlike('row 3 65536 datagram', 'row 3 0 datagram'))
    yield other('a-tag-with-a-zero-before', files[second].replace(b'3 0 d', b'3 01 d'), second, second, 3, 3,
                unlike('row 3 01 datagram', 'row 3 1 datagram'))
    yield wrong('a-file-that-is-gone', {first: files[first], third: files[third]}, first, 3, 6, 'missing')
    yield wrong('a-first-file-that-is-gone', {second: files[second], third: files[third]}, second, 1, 1,
                'missing')
    yield wrong('two-files-exchanged', dict(files, **{second: files[third], third: files[second]}), second, 3,
                3, unlike('row 4 0 take', 'row 3 0 take'))


def several(rows):
    """Paths of which some are at fault: the rest is checked all the same, in their order."""
    whole = text(rows)
    files = {'first/%s/%s' % ('00000001', name_of(1)): whole, 'second': text(rows[1:2]), 'third/x': b'',
             '-': whole}
    unlawful = '{}/second: row 1, line 3: unlike\nstands: row 2 0 up\nshould: row 1 0 up\n'
    first, last = '{}/first/00000001: lawful 4 rows\n', '{}/-: lawful 4 rows\n'
    none = 'cannot read {}/none: No such file or directory (os error 2)\n'
    yield Book('several', files, 0, first + last, ('first', '-'))
    yield Book('several-with-one-that-is-unlawful', files, 1, first + unlawful + last,
               ('first', 'second', '-'))
    yield Book('several-with-one-that-is-not-there', files, 1, first + none + last, ('first', 'none', '-'))
    yield Book('several-with-a-folder-of-no-book', files, 1, '{}/third: no book\n' + last, ('third', '-'))
    yield Book('several-with-a-line-that-is-too-long', dict(files, long=b'> up\nrow ' + b' ' * MAX_LINE), 1,
               '{}/long: unreadable book\n' + last, ('long', '-'))
    yield Book('runs-of-which-one-is-a-file', dict(in_run({name_of(1): whole}), **{'00000002': b''}), 1,
               'cannot read {}/00000002: Not a directory (os error 20)\n')


def books():
    rows = sample()
    yield from whole_books()
    yield from cut_off(rows)
    yield from taken(rows)
    yield from changed(rows)
    yield from several(rows)


def lay_files(folder, name, files):
    """Writes the files into a folder of this name, and answers it."""
    path = os.path.join(folder, name)
    os.makedirs(path)
    for file_name, octets in files.items():
        os.makedirs(os.path.dirname(os.path.join(path, file_name)), exist_ok=True)
        with open(os.path.join(path, file_name), 'wb') as file:
            file.write(octets)
    return path


def lay(folder, book):
    """Writes the files of the book into a folder of its name, and answers that folder and the paths that are
    asked about."""
    path = lay_files(folder, book.name, book.files)
    return path, [os.path.join(path, asked) if asked else path for asked in book.asked]
