"""The text of a policy, its refusals, and what a policy grants (docs/policy.md; RFC 9431, 2.3; RFC 9237,
2)."""
import base64
import binascii
import json
import math
import re
from dataclasses import dataclass, field

from laws.texts import gap, is_client_id, is_filter, is_name, matches, shown

MOST_PAIRS, MOST_NESTED = 64, 127
# Of each limit that a policy may set what it is where it does not, and the least and the most that it may be
LIMITS = {'clients': (256, 1, 65_000), 'sources': (256, 0, 65_000), 'topics': (1024, 0, 65_534),
          'waiting': (512, 512, 65_000), 'in_flight': (128, 128, 16_000)}
MOST_END = 2 ** 64 - 1
NUMBERS = {'NotJson': 1, 'Shape': 2, 'BadFilter': 3, 'BadPermission': 4, 'BadBase64': 5, 'BadClientId': 6,
           'BadSource': 7, 'BadTopicId': 8, 'TooMany': 9}


class Refused(Exception):
    """A text is no policy: its first fault."""

    def __str__(self):
        return '%d %s' % (NUMBERS[self.args[0]], self.args[0])


@dataclass
class Policy:
    """Clients and sources, each with pairs of a filter and its permissions; the topics by their ids; when which
    of the clients (bytes) and sources (str) end; and the limits."""
    clients: dict = field(default_factory=dict)
    sources: dict = field(default_factory=dict)
    topics: dict = field(default_factory=dict)
    ends: dict = field(default_factory=dict)
    limits: dict = field(default_factory=lambda: read_limits({}))

    def at(self, clock):
        """What is left of it at a clock: whose end that has reached is not listed."""
        def left(scopes):
            return {who: pairs for who, pairs in scopes.items() if self.ends.get(who, clock + 1) > clock}
        return Policy(left(self.clients), left(self.sources), self.topics, self.ends, self.limits)

    def publish_outcome(self, origin, name):
        """What the policy says of a publish of a client (bytes) or a source (str) under a name."""
        if isinstance(origin, str):
            if origin not in self.sources:
                return '5 UnknownSource'
            scope = self.sources[origin]
        elif origin not in self.clients:
            return '3 NoScope ' + shown(origin)
        else:
            scope = self.clients[origin]
        return 'allowed' if grants(scope, 'pub', name) else '10 MissingPub ' + shown(name)

    def receive_outcome(self, client, name):
        if client not in self.clients:
            return '3 NoScope ' + shown(client)
        return 'allowed' if grants(self.clients[client], 'sub', name) else '11 MissingSub ' + shown(name)

    def subscribe_outcome(self, client, pattern):
        if client not in self.clients:
            return '3 NoScope ' + shown(client)
        leak = gap(pattern, [granted for granted, words in self.clients[client] if 'sub' in words])
        return 'allowed' if leak is None else '12 Uncovered %s %s' % (shown(pattern), shown(leak))

    def topic_id(self, name):
        """The least predefined id of a name, if there is one."""
        return min((number for number, topic in self.topics.items() if topic == name), default=None)


def grants(scope, word, name):
    return any(word in words and matches(pattern, name) for pattern, words in scope)


def read_policy(text):
    value = read_json(text)
    need(isinstance(value, dict) and type(value.get('version')) is int and value['version'] in (1, 2, 4), 'Shape')
    known = ('version', 'clients', 'sources', 'topics') + (('limits',) if value['version'] == 4 else ())
    need(set(value) <= set(known), 'Shape')
    limits, ending = read_limits(value.get('limits', {})), value['version'] > 1
    listed = (members(value, 'clients', limits['clients'], lambda key, it: read_client(key, it, ending)),
              members(value, 'sources', limits['sources'], lambda key, it: read_source(key, it, ending)))
    clients, sources = ({who: pairs for who, (pairs, _) in part} for part in listed)
    ends = {who: end for part in listed for who, (_, end) in part if end is not None}
    topics = dict(members(value, 'topics', limits['topics'], read_topic))
    return Policy(clients, sources, topics, ends, limits)


def read_limits(given):
    """All limits, those that are given among them."""
    need(isinstance(given, dict) and set(given) <= set(LIMITS), 'Shape')
    need(all(type(given[name]) is int and LIMITS[name][1] <= given[name] <= LIMITS[name][2] for name in given),
         'Shape')
    return {name: given.get(name, usual) for name, (usual, _, _) in LIMITS.items()}


def members(value, name, most, read):
    """What `read` makes of each member of a part, in the byte order of the keys."""
    part = value.get(name, {})
    need(isinstance(part, dict), 'Shape')
    need(len(part) <= most, 'TooMany')
    return [read(key, part[key]) for key in sorted(part, key=str.encode)]


def read_client(key, value, ending):
    need(is_client_id(key.encode()), 'BadClientId')
    return key.encode(), read_ending(value, ending)


def read_source(key, value, ending):
    need(is_ip(key), 'BadSource')
    return key, read_ending(value, ending)


def read_topic(key, value):
    need(re.fullmatch(r'[1-9][0-9]{0,4}', key, re.A) and int(key) <= 65_534, 'BadTopicId')
    need(isinstance(value, str), 'Shape')
    need(is_name(value.encode()), 'BadTopicId')
    return int(key), value.encode()


def is_ip(text):
    """Four decimal numbers from 0 to 255 without leading zeros."""
    parts = text.split('.')
    return len(parts) == 4 and all(
        re.fullmatch(r'0|[1-9][0-9]{0,2}', part, re.A) and int(part) <= 255 for part in parts)


def read_ending(value, ending):
    """A scope with its end or None. In versions 2 and 4 it may be an object that has both as members."""
    if not (ending and isinstance(value, dict)):
        return read_scope(value), None
    need('scope' in value and all(name in ('scope', 'exp') for name in value), 'Shape')
    need('exp' not in value or (type(value['exp']) is int and 0 <= value['exp'] <= MOST_END), 'Shape')
    return read_scope(value['scope']), value.get('exp')


def read_scope(value):
    if isinstance(value, str):
        value = read_json(read_base64(value))
        need(isinstance(value, list), 'Shape')
    need(isinstance(value, list), 'Shape')
    need(len(value) <= MOST_PAIRS, 'TooMany')
    return [read_pair(pair) for pair in value]


def read_pair(pair):
    need(isinstance(pair, list) and len(pair) == 2 and isinstance(pair[0], str) and isinstance(pair[1], list)
         and all(isinstance(word, str) for word in pair[1]), 'Shape')
    need(is_filter(pair[0].encode()), 'BadFilter')
    need(set(pair[1]) <= {'pub', 'sub'}, 'BadPermission')
    return pair[0].encode(), set(pair[1])


def read_base64(text):
    """RFC 4648, 5, without padding; what is left of the last character is zero."""
    need(re.fullmatch(r'[A-Za-z0-9_-]*', text, re.A) and len(text) % 4 != 1, 'BadBase64')
    try:
        octets = base64.urlsafe_b64decode(text + '=' * (-len(text) % 4))
    except binascii.Error:
        raise Refused('BadBase64')
    need(base64.urlsafe_b64encode(octets).decode().rstrip('=') == text, 'BadBase64')
    return octets


def read_json(text):
    """The JSON value of a text (RFC 8259) that is UTF-8, without a byte order mark, without halves of a
    pair of surrogates, without numbers beyond a double, and nested 127 deep at most."""
    try:
        text = text.decode()
        need(not text.startswith('\ufeff') and depth_of(text) <= MOST_NESTED, 'NotJson')
        value = json.loads(text, parse_int=whole, parse_float=finite, parse_constant=no_constant,
                           object_pairs_hook=lambda pairs: dict((encodable(key), it) for key, it in pairs))
        json.dumps(value, ensure_ascii=False).encode()
    except (ValueError, RecursionError):
        raise Refused('NotJson')
    return value


def depth_of(text):
    deepest = depth = 0
    for mark in re.findall(r'"(?:[^"\\]|\\.)*"?|[\[\]{}]', text, re.S):
        depth += {'[': 1, '{': 1, ']': -1, '}': -1}.get(mark, 0)
        deepest = max(deepest, depth)
    return deepest


def whole(digits):
    if len(digits) > 20:
        return finite(digits)
    return 0.0 if digits == '-0' else int(digits)


def finite(digits):
    value = float(digits)
    if math.isinf(value):
        raise ValueError(digits)
    return value


def no_constant(word):
    raise ValueError(word)


def encodable(text):
    text.encode()
    return text


def need(holds, fault):
    if not holds:
        raise Refused(fault)
