"""policy_texts.py

Policy texts with what the program is to say of them, for end_to_end.py: those of tests/policies.table, and
those that are too long for a table, at the limits of a policy and one past them, and nested as deep as a
text may be and deeper.
"""
import base64
import json
import os

HERE = os.path.dirname(os.path.abspath(__file__))
ACCEPTED = 'accepted'
PAIRS, CLIENTS, SOURCES, TOPICS, DEPTH = 64, 256, 256, 1024, 127
# Each limit as it is where a policy does not set it
LIMITS = {'clients': CLIENTS, 'sources': SOURCES, 'topics': TOPICS, 'waiting': 512, 'in_flight': 128}


def table():
    """Each text of the table: its name, what is said of it, the text."""
    with open(os.path.join(HERE, 'policies.table'), encoding='utf-8', newline='\n') as file:
        for number, line in enumerate(file.read().split('\n')[:-1], 1):
            if not line.startswith('#'):
                said, text = line.split('|', 1)
                yield 'policies.table:%d' % number, said, text.encode()


def scope(pairs):
    return '[%s]' % ','.join(['["a",["pub"]]'] * pairs)


def policy(clients=0, each='[]', sources=0, topics=0, begin='"version":1'):
    """The text of a policy of so many clients, each with this scope, so many sources and so many topics."""
    return '{%s,"clients":{%s},"sources":{%s},"topics":{%s}}' % (
        begin,
        ','.join('"c%d":%s' % (i, each) for i in range(clients)),
        ','.join('"10.0.%d.%d":[]' % (i // 256, i % 256) for i in range(sources)),
        ','.join('"1%d":"t/%d"' % (i, i) for i in range(topics)))


def encoded(text):
    """The text as a JSON text of unpadded base64url."""
    return '"%s"' % base64.urlsafe_b64encode(text.encode()).decode().rstrip('=')


def nested(depth):
    return '[' * depth + ']' * depth


def long_texts():
    """Each text that is built: its name, what is said of it, the text."""
    cases = [
        ('at-its-limits', ACCEPTED, policy(CLIENTS, scope(PAIRS), SOURCES, TOPICS)),
        ('one-client-too-many', '9 TooMany', policy(clients=CLIENTS + 1)),
        ('one-source-too-many', '9 TooMany', policy(sources=SOURCES + 1)),
        ('one-topic-too-many', '9 TooMany', policy(topics=TOPICS + 1)),
        ('one-pair-too-many', '9 TooMany', policy(1, scope(PAIRS + 1))),
        ('one-pair-too-many-encoded', '9 TooMany', policy(1, encoded(scope(PAIRS + 1)))),
        ('the-count-before-the-members', '9 TooMany', policy(CLIENTS + 1, '7')),
        ('the-count-of-another-member-later', '2 Shape', policy(CLIENTS, '7', SOURCES + 1)),
        ('nested-as-deep-as-may-be', '2 Shape', nested(DEPTH)),
        ('nested-too-deep', '1 NotJson', nested(DEPTH + 1)),
        ('nested-far-too-deep', '1 NotJson', nested(100000)),
        ('a-scope-nested-too-deep', '1 NotJson', policy(1, nested(DEPTH - 1))),
        ('an-encoded-scope-nested-as-deep-as-may-be', '2 Shape', policy(1, encoded(nested(DEPTH)))),
        ('an-encoded-scope-nested-too-deep', '1 NotJson', policy(1, encoded(nested(DEPTH + 1)))),
        ('an-encoded-scope-nested-far-too-deep', '1 NotJson', policy(1, encoded(nested(100000)))),
    ]
    cases += limited_texts()
    for name, said, text in cases:
        yield name, said, text.encode()
    yield 'not-utf8', '1 NotJson', b'\xff'
    yield 'a-name-that-is-not-utf8', '1 NotJson', b'{"version":1,"\xff":1}'


def limited(**limits):
    """How a policy of version 4 with these limits begins."""
    return '"version":4,"limits":%s' % json.dumps(limits)


def limited_texts():
    """Texts at the limits that they set themselves, and one past them."""
    more = limited(clients=CLIENTS + 1, sources=SOURCES + 1, topics=TOPICS + 1)
    return [
        ('at-limits-that-are-set', ACCEPTED, policy(CLIENTS + 1, '[]', SOURCES + 1, TOPICS + 1, more)),
        ('one-client-past-a-limit-that-is-set', '9 TooMany', policy(CLIENTS + 2, begin=more)),
        ('one-source-past-a-limit-that-is-set', '9 TooMany', policy(sources=SOURCES + 2, begin=more)),
        ('one-topic-past-a-limit-that-is-set', '9 TooMany', policy(topics=TOPICS + 2, begin=more)),
        ('one-client-past-a-lesser-limit', '9 TooMany', policy(2, begin=limited(clients=1))),
        ('as-many-clients-as-a-lesser-limit', ACCEPTED, policy(1, begin=limited(clients=1))),
        ('a-source-where-none-may-be', '9 TooMany', policy(sources=1, begin=limited(sources=0))),
        ('a-topic-where-none-may-be', '9 TooMany', policy(topics=1, begin=limited(topics=0))),
        ('no-source-where-none-may-be', ACCEPTED, policy(begin=limited(sources=0, topics=0))),
        ('a-limit-that-is-not-set', '9 TooMany', policy(CLIENTS + 1, begin=limited(sources=SOURCES + 1))),
        ('limits-before-the-count', '2 Shape', policy(CLIENTS + 1, begin=limited(clients=0))),
    ]


def all_texts():
    yield from table()
    yield from long_texts()


def script(texts):
    """One script that puts all texts in force, and what `sng play` prints for it."""
    lines, printed, rows = [], [], 0
    for _, said, text in texts:
        lines.append(b'policy ' + text + b'\n')
        if said == ACCEPTED:
            rows += 1
            printed.append('row %d 0 replace\n' % rows)
        else:
            printed.append('refused policy %s\n' % said)
    return b''.join(lines), ''.join(printed).encode()
