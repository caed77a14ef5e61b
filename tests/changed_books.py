"""Books that were changed, for lawful_books.py and checked_books.py: by one byte, out, row or order of two,
cut off, or going on behind their end. Each way answers the text, or none where there is nothing to change.
"""
import itertools
import random
from dataclasses import dataclass

OUTS = (b'note ', b'send ', b'wire ')
UNLIKE, CUT, ON = 'unlike', 'cut off', 'goes on'


def lines_of(text):
    """The lines of a text, each with its line feed; only the last may lack it."""
    *lines, rest = text.split(b'\n')
    return [line + b'\n' for line in lines] + [rest] * bool(rest)


def rows_of(lines):
    """What stands before the first row, and the lines of each row with what is told behind it."""
    begins = [place for place, line in enumerate(lines) if line.startswith(b'row ')] + [len(lines)]
    return lines[:begins[0]], [lines[begin:end] for begin, end in zip(begins, begins[1:])]


def numbered(before, rows):
    """The same with the rows counted anew from 1."""
    return [before] + [[b'row %d %s' % (number, begin.split(b' ', 2)[2]), *outs]
                       for number, (begin, *outs) in enumerate(rows, 1)]


def joined(parts):
    return b''.join(itertools.chain(*parts))


def other_byte(draw, lines):
    """One byte becomes another, any but the line feed at the end."""
    text = b''.join(lines)
    at = draw.randrange(len(text) - 1)
    octet = draw.choice([octet for octet in range(256) if octet != text[at]])
    return text[:at] + bytes([octet]) + text[at + 1:]


def other_out(draw, lines):
    """An out is left out, stands twice, or is one of another place."""
    outs = [place for place, line in enumerate(lines) if line.startswith(OUTS)]
    if not outs:
        return None
    place = draw.choice(outs)
    line = draw.choice(([], [lines[place]] * 2, [lines[draw.choice(outs)]]))
    return b''.join(lines[:place] + line + lines[place + 1:])


def other_row(draw, lines):
    """A row is left out or stands twice, and those behind it are counted on, or are not."""
    before, rows = rows_of(lines)
    if not rows:
        return None
    at = draw.randrange(len(rows))
    changed = rows[:at] + [rows[at]] * draw.choice((0, 2)) + rows[at + 1:]
    return joined(numbered(before, changed) if draw.random() < 0.5 else [before, *changed])


def other_order(draw, lines):
    """Two lines that follow one another are exchanged, mostly two outs of a row."""
    pairs = list(range(len(lines) - 1))
    outs = [place for place in pairs if lines[place].startswith(OUTS) and lines[place + 1].startswith(OUTS)]
    if not pairs:
        return None
    place = draw.choice(outs if outs and draw.random() < 0.8 else pairs)
    return b''.join(lines[:place] + [lines[place + 1], lines[place]] + lines[place + 2:])


def other_order_of_rows(draw, lines):
    """Two rows that follow one another are exchanged, with their numbers or without."""
    before, rows = rows_of(lines)
    if len(rows) < 2:
        return None
    at = draw.randrange(len(rows) - 1)
    changed = rows[:at] + [rows[at + 1], rows[at]] + rows[at + 2:]
    return joined(numbered(before, changed) if draw.random() < 0.5 else [before, *changed])


def other_order_of_exits(draw, lines):
    """Two outs that follow one another at a take, or as a connection begins, are exchanged: a packet and a
    note, two packets or two notes."""
    pairs, kind = [], None
    for place, line in enumerate(lines[:-1]):
        kind = line.split()[-1] if line.startswith(b'row ') else kind
        if kind in (b'up', b'take') and line.startswith(OUTS) and lines[place + 1].startswith(OUTS):
            pairs.append(place)
    if not pairs:
        return None
    place = draw.choice(pairs)
    return b''.join(lines[:place] + [lines[place + 1], lines[place]] + lines[place + 2:])


def other_topic_id(draw, lines):
    """A REGACK, a SUBACK or a REGISTER of an announcement tells another topic id."""
    told = [place for place, line in enumerate(lines) if line.startswith(b'send ') and id_at(line)]
    if not told:
        return None
    place = draw.choice(told)
    *before, datagram = lines[place].split()
    at = id_at(lines[place])
    topic_id = draw.choice([number for number in range(8) if b'%04x' % number != datagram[at:at + 4]])
    changed = b' '.join([*before, datagram[:at] + b'%04x' % topic_id + datagram[at + 4:]]) + b'\n'
    return b''.join(lines[:place] + [changed] + lines[place + 1:])


def id_at(line):
    """Where the topic id begins in the datagram that is sent, in hexadecimal digits; none where it tells no
    id, or its Length has three octets."""
    datagram = line.split()[-1]
    return None if datagram.startswith(b'01') else {b'0a': 4, b'0b': 4, b'13': 6}.get(datagram[2:4])


def other_msg_id(draw, lines):
    """A PUBREC or PUBCOMP has another MsgId, or is the other one of the two."""
    sent = [place for place, line in enumerate(lines)
            if line.startswith(b'send ') and line.split()[-1][:4] in (b'040f', b'040e')]
    if not sent:
        return None
    place = draw.choice(sent)
    *before, datagram = lines[place].split()
    msg_id = draw.choice((b'%04x' % draw.randrange(65_536), datagram[4:]))
    kind = datagram[:4] if msg_id != datagram[4:] else draw.choice((b'040e', b'040f'))
    changed = b' '.join([*before, kind + msg_id]) + b'\n'
    return b''.join(lines[:place] + [changed] + lines[place + 1:])


def cut_off(draw, lines):
    """The book ends before its end: behind a line, or within one."""
    place = draw.randrange(len(lines))
    return b''.join(lines[:place]) + lines[place][:draw.randrange(len(lines[place]))]


def gone_on(draw, lines):
    """A line more stands behind the last one, or a part of one."""
    line = draw.choice((draw.choice(lines), b'row %d 0 take\n' % (len(rows_of(lines)[1]) + 1)))
    return b''.join(lines) + line[:draw.choice((len(line), draw.randrange(1, len(line) + 1)))]


KINDS = (other_byte, other_out, other_row, other_order, other_order_of_rows, other_order_of_exits,
         other_topic_id, other_msg_id, cut_off, gone_on)


@dataclass
class Changed:
    """A changed book with its script, whose book it was, and how it was changed."""
    whose: object
    script: bytes
    how: str
    book: bytes
    place: object


@dataclass
class Place:
    """The first line of a book that is not as it should be, counted from 1: how it is wrong, what stands
    there and what should, each without a line feed, and none where there is no line. The row is the one that
    began last before it, or the next one, where a row should begin there and no out stands there, or where
    nothing more should stand and a row does."""
    line: int
    row: int
    kind: str
    stands: bytes
    should: bytes


def place_of(book, whole):
    """Where a book is not like the whole one; none where it is."""
    found, wanted = lines_of(book), lines_of(whole)
    same = 0
    while same < min(len(found), len(wanted)) and found[same] == wanted[same]:
        same += 1
    if same == len(found) == len(wanted):
        return None
    there = [lines[same] if same < len(lines) else None for lines in (found, wanted)]
    row = sum(line.startswith(b'row ') for line in wanted[:same]) + is_of_next_row(*there)
    stands, should = [line if line is None else line.removesuffix(b'\n') for line in there]
    return Place(same + 1, row, kind_of(*there), stands, should)


def is_of_next_row(stands, should):
    if should is None:
        return stands.startswith(b'row ')
    return should.startswith(b'row ') and not (stands or b'').startswith(OUTS)


def kind_of(stands, should):
    if should is None:
        return ON
    return CUT if stands is None or not stands.endswith(b'\n') else UNLIKE


def changed_books(books, many):
    """So many changed books, of those that are given each with its name, its script and what is printed for
    it; each way comes as often as the others. The same ones are drawn for the same books."""
    draw, found = random.Random(many), 0
    while found < many:
        whose, script, printed = draw.choice(books)
        change = KINDS[found % len(KINDS)]
        lines = lines_of(printed)
        book = change(draw, lines) if lines else None
        place = None if book is None else place_of(book, printed)
        if place is not None:
            found += 1
            yield Changed(whose, script, change.__name__, book, place)
