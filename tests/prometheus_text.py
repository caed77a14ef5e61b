#!/usr/bin/env python3
"""prometheus_text.py [FILE]

Reads a page of the text format of Prometheus, 0.0.4, as its description has it ("Exposition formats"), and
tells what `promtool check metrics` would complain of. `parse` gives the families of a page by name, or raises
a PageError with the line that is wrong; `complaints` says what of the families breaks promtool's rules. By
itself it reads FILE, or, without one, tries itself on pages that are right and pages that are wrong. Exit
status 1 where something is wrong."""
import re
import sys
from dataclasses import dataclass, field

TYPES = ('counter', 'gauge', 'histogram', 'summary', 'untyped')
METRIC = re.compile(r'[a-zA-Z_:][a-zA-Z0-9_:]*')
LABEL = re.compile(r'[a-zA-Z_][a-zA-Z0-9_]*')
# As Go's ParseFloat takes it.
NUMBER = re.compile(r'[+-]?(inf(inity)?|nan|0x[0-9a-f]*\.?[0-9a-f]+p[+-]?\d+|(\d+\.?\d*|\.\d+)(e[+-]?\d+)?)', re.I)
BLANKS = ' \t'

# What a unit is to be told in, and how else it is told: promtool's lists, as far as our page may meet them.
ABBREVIATIONS = {'s', 'ms', 'us', 'ns', 'sec', 'b', 'kb', 'mb', 'gb', 'tb', 'pb', 'm', 'h', 'd'}
PREFIXES = ('pico', 'nano', 'micro', 'milli', 'centi', 'deci', 'deca', 'hecto', 'kilo', 'kibi', 'mega', 'mibi',
            'mebi', 'giga', 'gibi', 'tera', 'tebi', 'peta', 'pebi')
BASES = ('amperes', 'bytes', 'celsius', 'grams', 'joules', 'kelvins', 'meters', 'metres', 'seconds', 'volts')
NOT_BASE = {prefix + base: base for prefix in PREFIXES for base in BASES}
NOT_BASE.update({'minutes': 'seconds', 'hours': 'seconds', 'days': 'seconds', 'weeks': 'seconds', 'bits': 'bytes',
                 'fahrenheit': 'celsius', 'inches': 'meters', 'yards': 'meters', 'miles': 'meters'})


class PageError(Exception):
    """What is wrong with a page, and in which line."""


@dataclass
class Family:
    """What a page says under one name."""
    name: str
    help: str = None
    type: str = None
    samples: list = field(default_factory=list)  # (name, labels, value) in the order of the page


class Cursor:
    """A line of a page, token by token. Blanks and tabs may stand between tokens."""

    def __init__(self, text):
        self.text, self.at = text, 0

    def blanks(self):
        began = self.at
        while self.at < len(self.text) and self.text[self.at] in BLANKS:
            self.at += 1
        return self.at > began

    def is_over(self):
        self.blanks()
        return self.at == len(self.text)

    def rest(self):
        self.blanks()
        return self.text[self.at:]

    def takes(self, char):
        self.blanks()
        found = self.text.startswith(char, self.at)
        self.at += found
        return found

    def wants(self, char):
        if not self.takes(char):
            raise PageError('%r is missing' % char)

    def name(self, pattern, what):
        self.blanks()
        found = pattern.match(self.text, self.at)
        if not found:
            raise PageError('no name of a %s' % what)
        self.at = found.end()
        return found.group()

    def word(self):
        self.blanks()
        began = self.at
        while self.at < len(self.text) and self.text[self.at] not in BLANKS:
            self.at += 1
        return self.text[began:self.at]

    def quoted(self):
        """The value of a label: a backslash, a quote and a line feed are escaped, and nothing else is."""
        self.wants('"')
        value = ''
        while True:
            char = self.text[self.at:self.at + 1]
            self.at += 1
            if char == '"':
                return value
            if char == '':
                raise PageError('the value of a label has no end')
            if char == '\\':
                char = self.escaped({'\\': '\\', '"': '"', 'n': '\n'})
            value += char

    def escaped(self, known):
        char = self.text[self.at:self.at + 1]
        self.at += 1
        if char not in known:
            raise PageError('no such escape: \\%s' % char)
        return known[char]


def unescaped(text):
    """A help text: a backslash and a line feed are escaped."""
    cursor, said = Cursor(text), ''
    while cursor.at < len(text):
        char = text[cursor.at]
        cursor.at += 1
        said += cursor.escaped({'\\': '\\', 'n': '\n'}) if char == '\\' else char
    return said


class Page:
    """A page, line by line."""

    def __init__(self):
        self.families, self.present, self.seen = {}, None, set()

    def family(self, name):
        """The family of this name, whose lines have to stand together."""
        if self.present is not None and self.present.name == name:
            return self.present
        if name in self.families:
            raise PageError('the lines of %s do not stand together' % name)
        self.present = self.families[name] = Family(name)
        return self.present

    def owner(self, name):
        """The name of the family to which a sample of this name belongs."""
        if self.present is not None and self.present.type in ('histogram', 'summary'):
            endings = ('_sum', '_count') + (('_bucket',) if self.present.type == 'histogram' else ())
            if name in [self.present.name + ending for ending in endings]:
                return self.present.name
        return name

    def line(self, text):
        cursor = Cursor(text)
        if cursor.is_over():
            return
        if cursor.takes('#'):
            self.comment(cursor)
        else:
            self.sample(cursor)

    def comment(self, cursor):
        word = cursor.word()
        if word == 'HELP':
            family = self.family(cursor.name(METRIC, 'metric'))
            if family.help is not None:
                raise PageError('two help texts of %s' % family.name)
            family.help = unescaped(cursor.rest())
        elif word == 'TYPE':
            family = self.family(cursor.name(METRIC, 'metric'))
            kind = cursor.word()
            if kind not in TYPES or not cursor.is_over():
                raise PageError('no type: %r' % (kind + cursor.rest()))
            if family.type is not None:
                raise PageError('two types of %s' % family.name)
            if family.samples:
                raise PageError('the type of %s stands behind a sample' % family.name)
            family.type = kind

    def sample(self, cursor):
        name = cursor.name(METRIC, 'metric')
        labels = self.labels(cursor) if cursor.takes('{') else {}
        value = cursor.word()
        if not NUMBER.fullmatch(value):
            raise PageError('no number: %r' % value)
        if not cursor.is_over():
            stamp = cursor.word()
            if not re.fullmatch(r'-?\d+', stamp) or not cursor.is_over():
                raise PageError('no timestamp: %r' % (stamp + cursor.rest()))
        family = self.family(self.owner(name))
        key = (name, tuple(sorted(labels.items())))
        if key in self.seen:
            raise PageError('two samples of %s with the same labels' % name)
        self.seen.add(key)
        number = float.fromhex(value) if 'x' in value.lower() else float(value)
        family.samples.append((name, labels, number))

    def labels(self, cursor):
        found = {}
        while not cursor.takes('}'):
            name = cursor.name(LABEL, 'label')
            cursor.wants('=')
            value = cursor.quoted()
            if name in found:
                raise PageError('two labels %s' % name)
            found[name] = value
            if not cursor.takes(','):
                cursor.wants('}')
                break
        return found


def parse(text):
    """The families of the page by name, in its order. `text` may be bytes, which have to be UTF-8."""
    if isinstance(text, bytes):
        try:
            text = text.decode('utf-8')
        except UnicodeDecodeError as error:
            raise PageError('the page is not UTF-8: %s' % error) from None
    if not text.endswith('\n'):
        raise PageError('the last line has no line feed')
    page = Page()
    for number, line in enumerate(text.split('\n')[:-1], 1):
        try:
            page.line(line)
        except PageError as error:
            raise PageError('line %d: %s: %r' % (number, error, line)) from None
    return page.families


def complaints_of_units(name):
    for word in name.split('_'):
        if word in ABBREVIATIONS:
            yield 'metric names should not contain abbreviated units'
        if word in NOT_BASE:
            yield 'use base unit "%s" instead of "%s"' % (NOT_BASE[word], word)


def complaints_of_type(family):
    name, kind = family.name, family.type
    if kind == 'counter' and not name.endswith('_total'):
        yield 'counter metrics should have "_total" suffix'
    if kind != 'counter' and name.endswith('_total'):
        yield 'non-counter metrics should not have "_total" suffix'
    if kind != 'histogram' and name.endswith('_bucket'):
        yield 'non-histogram metrics should not have "_bucket" suffix'
    if kind not in ('histogram', 'summary') and name.endswith(('_count', '_sum')):
        yield 'non-histogram and non-summary metrics should not have "_count" or "_sum" suffix'
    if kind in name.split('_'):
        yield 'metric name should not include type "%s"' % kind


def complaints_of_labels(family):
    names = {name for _, labels, _ in family.samples for name in labels}
    if family.type != 'histogram' and 'le' in names:
        yield 'non-histogram metrics should not have "le" label'
    if family.type != 'summary' and 'quantile' in names:
        yield 'non-summary metrics should not have "quantile" label'
    for name in sorted(names):
        if re.search('[a-z][A-Z]', name):
            yield 'label names should be written in "snake_case" not "camelCase": %s' % name


def complaints_of(family):
    if not family.help:
        yield 'no help text'
    if family.type is None:
        yield 'no type'
    if ':' in family.name:
        yield 'metric names should not contain ":"'
    if re.search('[a-z][A-Z]', family.name):
        yield 'metric names should be written in "snake_case" not "camelCase"'
    yield from complaints_of_units(family.name)
    yield from complaints_of_type(family)
    yield from complaints_of_labels(family)


def complaints(families):
    """What promtool says of the families: a text for each complaint."""
    return ['%s: %s' % (family.name, text) for family in families.values() for text in complaints_of(family)]


def value_of(families, name, **labels):
    """The value of the sample with this name and just these labels."""
    found = [value for family in families.values() for (sample, its, value) in family.samples
             if sample == name and its == labels]
    if len(found) != 1:
        raise PageError('%d samples of %s with %r' % (len(found), name, labels))
    return found[0]


# ---- pages that are right, each with how many samples it has, and pages that are wrong

RIGHT = [
    ('\n', 0),
    ('\n\n# a comment\n#\n#HELPless\n# HELP\tx_total  two  words \n# TYPE x_total counter\nx_total 1\n', 1),
    ('a 1\nb 2\n', 2),
    ('a{} 1\na{b="c",} 2 1395066363000\na{b="d" , e = "f"} +Inf -5\n', 3),
    (r'a{path="C:\\DIR",error="a \"b\"\nc"} 1.5e+9' + '\n', 1),
    ('# HELP a two\\nlines \\\\\n# TYPE a gauge\n  a\t-0x1p-3  \n', 1),
    ('# TYPE h histogram\nh_bucket{le="+Inf"} 3\nh_sum 5\nh_count 3\n', 3),
    ('# TYPE s summary\ns{quantile="0.5"} NaN\ns_sum 5\ns_count 3\n', 3),
    ('a{b="\u00e4}{,="} 1\n', 1),
]
WRONG = [
    ('', 'no line feed'),
    ('a 1', 'no line feed'),
    ('a 1\nb 2', 'no line feed'),
    ('a\n', 'no number'),
    ('a one\n', 'no number'),
    ('a 1_000\n', 'no number'),
    ('a 1 2.5\n', 'no timestamp'),
    ('a 1 2 3\n', 'no timestamp'),
    ('1a 1\n', 'no name of a metric'),
    ('{a="b"} 1\n', 'no name of a metric'),
    ('a-b 1\n', 'no number'),
    ('a{b:c="d"} 1\n', "'=' is missing"),
    ('a{1="d"} 1\n', 'no name of a label'),
    ('a{,} 1\n', 'no name of a label'),
    ('a{b=c} 1\n', '\'"\' is missing'),
    ('a{b="c} 1\n', 'has no end'),
    ('a{b="c"\n', "'}' is missing"),
    ('a{b="c" d="e"} 1\n', "'}' is missing"),
    ('a{b="\\t"} 1\n', 'no such escape'),
    ('a{b="c\nd"} 1\n', 'has no end'),
    ('a{b="c",b="d"} 1\n', 'two labels b'),
    ('a{b="c"} 1\na{b="c"} 2\n', 'two samples'),
    ('a{b="c",d="e"} 1\na{d="e",b="c"} 2\n', 'two samples'),
    ('a 1\nb 1\na{c="d"} 1\n', 'do not stand together'),
    ('# HELP a x\nb 1\n# TYPE a gauge\n', 'do not stand together'),
    ('# HELP a x\n# HELP a x\na 1\n', 'two help texts'),
    ('# HELP a \\x\na 1\n', 'no such escape'),
    ('# HELP 1 x\n', 'no name of a metric'),
    ('# TYPE a gauge\n# TYPE a gauge\n', 'two types'),
    ('a 1\n# TYPE a gauge\n', 'behind a sample'),
    ('# TYPE a meter\n', 'no type'),
    ('# TYPE a\n', 'no type'),
    ('# TYPE a gauge x\n', 'no type'),
    (b'a{b="\xff"} 1\n', 'not UTF-8'),
]
TITLES = '# HELP %s x\n# TYPE %s %s\n'
LINTED = [
    ('a_total', 'counter', '', None),
    ('a_seconds', 'gauge', 'a_seconds 1\n', None),
    ('a', 'counter', '', '"_total" suffix'),
    ('a_total', 'gauge', '', '"_total" suffix'),
    ('a_count', 'gauge', '', '"_count"'),
    ('a_bucket', 'gauge', '', '"_bucket"'),
    ('a_gauge', 'gauge', '', 'include type'),
    ('a:b', 'gauge', '', 'contain ":"'),
    ('aB', 'gauge', '', 'snake_case'),
    ('a_ms', 'gauge', '', 'abbreviated'),
    ('a_milliseconds', 'gauge', '', 'base unit "seconds"'),
    ('a_hours_total', 'counter', '', 'base unit "seconds"'),
    ('a', 'gauge', 'a{le="1"} 1\n', '"le"'),
    ('a', 'gauge', 'a{quantile="1"} 1\n', '"quantile"'),
    ('a', 'gauge', 'a{aB="1"} 1\n', 'label names'),
]


def failures():
    """What the parser says otherwise than it should, of the pages above."""
    for text, count in RIGHT:
        try:
            families = parse(text)
            if count != sum(len(family.samples) for family in families.values()):
                yield 'not %s samples: %r' % (count, text)
        except PageError as error:
            yield 'refused: %r: %s' % (text, error)
    for text, said in WRONG:
        try:
            parse(text)
            yield 'accepted: %r' % (text,)
        except PageError as error:
            if said not in str(error):
                yield 'refused otherwise: %r: %s' % (text, error)
    for name, kind, samples, said in LINTED:
        found = complaints(parse(TITLES % (name, name, kind) + samples))
        if (said is None) == bool(found) or (said and not any(said in text for text in found)):
            yield 'not %r of %s: %r' % (said, name, found)
    if complaints(parse('a 1\n')) != ['a: no help text', 'a: no type']:
        yield 'a sample without a help text and a type'


def main():
    if sys.argv[1:]:
        with open(sys.argv[1], 'rb') as file:
            try:
                found = complaints(parse(file.read()))
            except PageError as error:
                found = [str(error)]
    else:
        found = list(failures())
        print('%d pages tried, %d failed' % (len(RIGHT) + len(WRONG) + len(LINTED) + 1, len(found)))
    for text in found:
        print(text)
    return 1 if found else 0


if __name__ == '__main__':
    sys.exit(main())
