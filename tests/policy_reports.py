"""policy_reports.py

Policy texts with what `sng policy` prints of them, for end_to_end.py: those of tests/places.table and of
tests/warnings.table, and those at the limits of a policy and one past them, which are too long for a table.
For `sng policy --print`, the canonical text of each policy text that is accepted, as Python's json writes it.
"""
import base64
import datetime
import json
import os
from collections import namedtuple

import policy_texts
from policy_texts import CLIENTS, PAIRS, SOURCES, TOPICS, encoded, policy, scope

HERE = os.path.dirname(os.path.abspath(__file__))
FILTER, NAME, SHOWN = 200, 65535, 200
EPOCH = datetime.datetime(1970, 1, 1)
# The sentence of each fault
SENTENCES = {
    '1 NotJson': 'the text is not JSON in UTF-8, or a scope given as a text does not decode to such'
                 ' JSON',
    '2 Shape': 'the text is JSON, but not of the shape of a policy of version 1, 2 or 4 or'
               ' of a scope',
    '3 BadFilter': 'a filter in a scope is not a valid topic filter, or is too long',
    '4 BadPermission': 'a permission in a scope is neither `pub` nor `sub`',
    '5 BadBase64': 'a scope given as a text is not base64url without padding',
    '6 BadClientId': 'a name under `clients` is not a client id: it is empty, too long or has U+0000',
    '7 BadSource': 'a name under `sources` is not an IPv4 address in decimal without leading zeros',
    '8 BadTopicId': 'under `topics` a name is not a topic id without leading zeros, or its text is not a '
                    'topic name',
    '9 TooMany': 'there are more clients, sources, topics or pairs in a scope than a policy may have',
}

# A policy text, the exit status, and what is printed on standard output and on standard error
Report = namedtuple('Report', 'name text status printed warned')


def lines(name):
    with open(os.path.join(HERE, name), encoding='utf-8', newline='\n') as file:
        for number, line in enumerate(file.read().split('\n')[:-1], 1):
            if not line.startswith('#'):
                yield '%s:%d' % (name, number), line


def refused(name, fault, place, text):
    printed = 'refused policy %s\n%s\nat %s\n' % (fault, SENTENCES[fault], place)
    return Report(name, text.encode(), 1, printed.encode(), b'')


def accepted(name, text, clients, sources, topics, warned, ends=''):
    printed = 'policy ok: %d clients, %d sources, %d topics%s\n' % (clients, sources, topics, ends)
    return Report(name, text.encode(), 0, printed.encode(), warned)


def ends():
    """Texts of version 2: how many scopes end, and the first end, dated as Python's datetime does."""
    for name, found in (('no-scope', [None, None]), ('one-scope', [None, 5000]),
                        ('two-scopes', [1798761600000, 1798761599999]), ('a-scope-at-0', [0, 2 ** 64 - 1]),
                        ('the-last-date', [253402207200999]), ('no-date', [253402207201000]),
                        ('the-last-ms', [2 ** 64 - 1])):
        clients = {'c%d' % k: dict([('scope', [['a', ['pub']]])] + [('exp', end)] * (end is not None))
                   for k, end in enumerate(found)}
        ending = [end for end in found if end is not None]
        shown = ''
        if ending:
            shown = '; %d scopes end, the first at %d ms of Unix time%s' % (len(ending), min(ending),
                                                                        date_of(min(ending)))
        text = json.dumps({'version': 2, 'clients': clients})
        yield accepted('that-ends-at-' + name, text, len(found), 0, 0, None, shown)


def date_of(end):
    """The date of an end, up to the last ms at which it is before the year 10000 everywhere."""
    if end > 253402207200999:
        return ''
    shown = EPOCH + datetime.timedelta(milliseconds=end)
    fraction = ('.%03d' % (end % 1000)).rstrip('0').rstrip('.')
    return ', ' + shown.strftime('%Y-%m-%dT%H:%M:%S') + fraction + 'Z'


def faults():
    """The texts of the table that are refused."""
    for name, line in lines('places.table'):
        fault, place, text = line.split('|', 2)
        yield refused(name, fault, place, text.replace('\\n', '\n'))


def limits():
    """Texts one past a limit, and one at all of them."""
    long_filter, long_name = 'a' * (FILTER + 1), 'a' * (NAME + 1)
    for name, place, text in (
            ('clients', 'clients: 257 clients, at most 256', policy(clients=CLIENTS + 1)),
            ('sources', 'sources: 257 sources, at most 256', policy(sources=SOURCES + 1)),
            ('topics', 'topics: 1025 topics, at most 1024', policy(topics=TOPICS + 1)),
            ('pairs', 'clients.c0: 65 pairs, at most 64', policy(1, scope(PAIRS + 1))),
            ('decoded-pairs', 'clients.c0 (decoded): 65 pairs, at most 64',
             policy(1, encoded(scope(PAIRS + 1))))):
        yield refused('too-many-' + name, '9 TooMany', place, text)
    yield refused('a-filter-of-201-bytes', '3 BadFilter',
                  'clients.c0[0][0]: "%s..": 201 bytes, at most 200' % long_filter[:SHOWN],
                  policy(1, '[["%s",["pub"]]]' % long_filter))
    yield refused('a-name-of-65536-bytes', '8 BadTopicId',
                  'topics.1: "%s..": 65536 bytes, at most 65535' % long_name[:SHOWN],
                  '{"version":1,"topics":{"1":"%s"}}' % long_name)
    yield accepted('at-the-limits', policy(CLIENTS, scope(PAIRS), SOURCES, TOPICS), CLIENTS, SOURCES, TOPICS,
                   None)


def warnings():
    """The texts of the table that are accepted, with their warnings."""
    for name, line in lines('warnings.table'):
        said, text = line.split('|', 1)
        warned = ''.join('warning: %s\n' % warning for warning in said.split(' ; ') if warning)
        yield Report(name, text.encode(), 0, None, warned.encode())


def all_texts():
    """Each policy text of the tests of `sng play`: both commands accept or refuse it."""
    for name, said, text in policy_texts.all_texts():
        yield Report('check-' + name, text, 0 if said == policy_texts.ACCEPTED else 1, None, None)


def reports():
    yield from faults()
    yield from limits()
    yield from ends()
    yield from warnings()
    yield from all_texts()


def pairs_of(scope_value):
    """The pairs of a scope, which may be a text of unpadded base64url, with `pub` before `sub`."""
    if isinstance(scope_value, str):
        scope_value = json.loads(base64.urlsafe_b64decode(scope_value + '=' * (-len(scope_value) % 4)))
    return [[asked, [word for word in ('pub', 'sub') if word in words]] for asked, words in scope_value]


def grant_of(given):
    """The scope, with its end where it has one."""
    if not isinstance(given, dict):
        return pairs_of(given)
    pairs = pairs_of(given['scope'])
    return {'exp': given['exp'], 'scope': pairs} if 'exp' in given else pairs


def canonical(text):
    """The canonical text of an accepted policy, as bytes."""
    value = json.loads(text)
    parts = {part: value.get(part, {}) for part in ('clients', 'sources', 'topics')}
    for part in ('clients', 'sources'):
        parts[part] = {name: grant_of(given) for name, given in parts[part].items()}
    grants = [grant for part in ('clients', 'sources') for grant in parts[part].values()]
    parts['version'] = 2 if any(isinstance(grant, dict) for grant in grants) else 1
    set_to = {**policy_texts.LIMITS, **value.get('limits', {})}
    if set_to != policy_texts.LIMITS:
        parts.update(version=4, limits=set_to)
    return json.dumps(parts, ensure_ascii=False, separators=(',', ':'), sort_keys=True).encode() + b'\n'


def prints():
    """What `--print` makes of each policy text: the canonical text, which prints itself, or the report."""
    for name, said, text in policy_texts.all_texts():
        if said == policy_texts.ACCEPTED:
            printed = canonical(text)
            yield Report('print-' + name, text, 0, printed, None)
            yield Report('print-again-' + name, printed, 0, printed, None)
        else:
            yield Report('print-' + name, text, 1, None, None)
    for report in faults():
        yield report._replace(name='print-' + report.name)
    for report in [*ends(), *warnings()]:
        yield report._replace(name='print-' + report.name, printed=canonical(report.text))
