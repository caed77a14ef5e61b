"""Makes roff of the Markdown that the documents of this repository are written in: headings, paragraphs,
lists, tables, code, and in a line bold, emphasis, code and links."""
import re

MARK = re.compile(r'\*\*(.+?)\*\*|`([^`]+)`|(?<![\w*])\*([^*\s][^*]*)\*(?!\w)|\[([^\]]+)\]\([^)\s]*\)')


def escaped(text):
    return text.replace('\\', '\\e').replace('-', '\\-').replace('~', '\\(ti').replace('^', '\\(ha')


def guarded(line):
    """A line of text that is no request."""
    return '\\&' + line if line[:1] in ('.', "'") else line


def inline(text):
    """A text with its marks: code is bold and a link is its words."""
    text = re.sub(r'<a id="[^"]*"></a>', '', text).strip()
    out, at = [], 0
    for mark in MARK.finditer(text):
        out.append(plain(text[at:mark.start()]))
        bold, code, emphasis, link = mark.groups()
        if code is not None:
            out.append('\\fB%s\\fR' % escaped(code))
        elif bold is not None:
            out.append('\\fB%s\\fR' % inline(bold).replace('\\fB', '').replace('\\fR', ''))
        elif emphasis is not None:
            out.append('\\fI%s\\fR' % plain(emphasis))
        else:
            out.append(inline(link))
        at = mark.end()
    return ''.join(out) + plain(text[at:])


def plain(text):
    """A text without marks: a hyphen in a word stays a hyphen, an option is told by its dashes."""
    return re.sub(r'(?<!\w)-|-(?!\w)', '\\\\-', text.replace('\\', '\\e'))


def cells(line):
    return [cell.strip() for cell in line.strip().strip('|').split('|')]


def table(lines):
    """Each row under its first cell; where there are more than two, the others under their headings."""
    heads, out = cells(lines[0]), []
    if heads[0] == 'Status':
        out = ['.PP', 'Exit status:']
    for line in lines[2:]:
        row = cells(line)
        rest = [cell if len(row) == 2 else '%s: %s.' % (head, cell.rstrip('.'))
                for head, cell in list(zip(heads, row))[1:] if cell]
        out += ['.TP', guarded(inline(row[0]) or '\\&'), guarded(inline(' '.join(rest)) or '\\&')]
    return out + ['.PP']


def code(lines):
    return ['.PP', '.RS 4', '.nf', *(guarded(escaped(line)) for line in lines), '.fi', '.RE', '.PP']


def blocks(text):
    """The blocks of a document: what each is, and its lines."""
    found, kind = [], None
    for line in text.split('\n'):
        if kind == 'code':
            if line.startswith('```'):
                kind = None
            else:
                found[-1][1].append(line)
        elif line.startswith('```'):
            kind = 'code'
            found.append(('code', []))
        elif not line.strip():
            kind = None
        elif line.startswith('#'):
            kind = None
            found.append(('heading', [line]))
        elif re.match(r'- |\d+\. ', line):
            kind = 'item'
            found.append(('item', [line]))
        elif kind is None:
            kind = 'table' if line.startswith('|') else 'paragraph'
            found.append((kind, [line]))
        else:
            found[-1][1].append(line)
    return found


def roff(text, top=2):
    """The document as roff. A heading of that depth is a section, a deeper one is one below it."""
    out = []
    for kind, lines in blocks(text):
        whole = ' '.join(line.strip() for line in lines)
        if kind == 'heading':
            depth, words = re.match(r'(#+) (.*)', lines[0]).groups()
            words = plain(re.sub(r'[`*]', '', words))
            out.append('.SH ' + words.upper() if len(depth) == top else '.SS ' + words)
        elif kind == 'code':
            out += code(lines)
        elif kind == 'table':
            out += table(lines)
        elif kind == 'item':
            mark, words = re.match(r'(-|\d+\.) (.*)', whole).groups()
            out += ['.IP %s 4' % ('\\(bu' if mark == '-' else mark), guarded(inline(words))]
        else:
            out += ['.PP', guarded(inline(whole))]
    return out
