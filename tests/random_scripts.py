#!/usr/bin/env python3
"""random_scripts.py [--scripts N] [--first SEED] [SNG]
random_scripts.py --show SEED

Plays random scripts through SNG (if none is given, through the proved program where it lies in crates/sng/out
and is newer than every source, and else through one build without proof) and compares all that it prints,
and its exit status, with what the model in gateway_model.py says. The scripts are those of the seeds from
SEED (0) on, N (300) of them, so that each run plays the same ones; with --show one of them is printed.

A few addresses, clients and names meet often, and a few long scripts fill what is limited. Some lines need
to fit what the lines before them led to, as an answer of a client has to fit what it was sent: the model
tells that, too. A script that is answered otherwise is printed with its seed and the first line that differs,
and the exit status is 1. So it is where the first 300 scripts meet not all of MET, here and in
replacements.py: then they are too tame. A new kind of line is a function of World here, with its line in
WEIGHTS, and a method of the model.
"""
import argparse
import base64
import json
import os
import random
import re
import shutil
import subprocess
import sys
import tempfile

sys.dont_write_bytecode = True
import end_to_end
import gateway_model
import replacements

SCRIPTS, SECONDS, MOST_SHOWN = 300, 120, 1000
# `rt try` gives no answer beyond 1 MiB of output
MOST_PRINTED = 1024 * 1024
# What the scripts of the gate have to meet: how some line begins, with a star for any letters of a word, or
# how lines begin that follow one another, with a bar between them
MET = """
row * 0 replace
row * 0 up
row * 0 down
row * 0 take
row * 0 datagram
row * 0 broker
row * 0 tick
line * unreadable
refused policy *
refused broker 1
refused broker 2
refused broker 3
refused broker 4
note frame * - 1
note frame * - 2
note frame * - 4
note frame * - 15
note frame broker - 2
note frame broker - 6
note outbox broker - 22 Full Outbox
row * 0 tick | note outbox broker - 22 Full Outbox
note connect * - allowed
note connect * - 2
note connect * - 3
note connect * - 22 Full Clients
note left * - done
note lost * - done
note lost * - done | note hand * * 24
note lost * - done | note will * * 22 Full InFlight
note lost * - done | note will * * 22 Full Outbox
note lost * - done | note lost * - done
note hand * * 24 | note will * * 22
note connect * - allowed | send * 0206
note will * * allowed | send * 0208
note will * * allowed | send * 030500
note will * * allowed | send * 030500 | note announce * *
note will * * allowed | send * 030500 | note hand * * allowed
note will * * allowed | send * 030500 | note hand * * 11
note will * - allowed | send * 030500
note will * - allowed | send * 030500 | note announce * *
note will * - 3
note will * - 3 * | send * 030503 | note left * - done
note will * - 3 * | send * 030503 | note left * - done | note hand * * 24
note will * - 4
note will * - 6
note will * - 6 * | send * 030503 | note left * - done
note will * * 10
note will * * 10 * * | send * 030503 | note left * - done
note will * * 10 * * | send * 030503 | note left * - done | note hand * * 24
note will * - 15
note will * * allowed | send * 031b00
note will * - allowed | send * 031b00
note will * * allowed | send * 031d00
note will * - 3 * | send * 031b03
note will * - 6 * | send * 031b03
note will * * 10 * * | send * 031b03
note will * - 15 * | send * 031b03
note will * - 3 * | send * 031d03
note will * * 10 * * | send * 031d03
note will * - 15 * | send * 031d03
note register * - 15
note publish * - 15
note subscribe * - 15
note unsubscribe * - 15
row * 0 datagram | send * 0218
row * 0 datagram | send * 0217
row * 0 datagram | note hand * * 3 * | send * 0217
row * 0 datagram | note hand * * 11 * | send * 0217
row * 0 datagram | note hand * * 13 * | send * 0217
row * 0 datagram | note hand * * 11 * | note announce * *
row * 0 datagram | note hand * * allowed | send * 080c0* | send * 0217
row * 0 tick | note end * * 3
row * 0 tick | note end * * 3 * | note end * * 3
row * 0 tick | note end * * 3 * | note lost * - done
row * 0 tick | note end * * 3 * | note hand * * 3
row * 0 tick | note end * * 3 * | note retry * *
row * 0 tick | note hand * * 3
row * 0 tick | note hand * * 11
row * 0 tick | note hand * * 3 * | send * 0217
row * 0 tick | note hand * * 11 * | send * 0217
row * 0 tick | note hand * * 11 * | note announce * *
row * 0 tick | note hand * * 11 * | note hand * * allowed
note retry * * allowed
note retry * * 3
note retry * * 11
note retry * * 11 * | send * 0217
note retry * * 11 * | note hand * * 11
note retry * * 11 * | note hand * * allowed
note retry * * 11 * | note announce * *
note retry * * allowed | send * 090a*
note retry * * allowed | send * 080ca0*
note retry * * allowed | send * 080ca1*
note retry * * allowed | send * 080ca2*
note retry * * allowed | send * 080cb*
note retry * * allowed | send * * | note lost * - done
note retry * * allowed | send * * | note retry * *
wire c000
wire 30*676f6e65
wire 31*676f6e65
wire 32*676f6e65
wire 33*676f6e65
note register * * allowed
note register * - 3
note register * - 4
note register * - 6
note register * * 10
note register * * 22 Full Ids
note publish * * allowed
note publish * * allowed | send * 040f*
row * 0 datagram | send * 040f*
row * 0 datagram | send * 040e*
row * 0 datagram | send * 040e* | row * 0 datagram | send * 040e*
note publish * - 3
note publish * - 4
note publish * - 5
note publish * - 6
note publish * - 8
note publish * - 9 UnknownId normal
note publish * - 9 UnknownId predefined
note publish * * 10
note publish * * 21
note publish * * 22 Full Exchanges
note publish * * 22 Full InFlight
note publish * * 22 Full Outbox
note subscribe * * allowed
note subscribe * - 3
note subscribe * - 4
note subscribe * - 6
note subscribe * - 7
note subscribe * - 8
note subscribe * - 9 UnknownId predefined
note subscribe * * 12
note subscribe * * 21
note subscribe * * 22 Full Ids
note subscribe * * 22 Full Subscriptions
note subscribe * * 22 Full Outbox
note unsubscribe * * allowed
note unsubscribe * - 4
note unsubscribe * - 6
note unsubscribe * - 7
note unsubscribe * - 8
note unsubscribe * - 9 UnknownId predefined
note end * * 3
note end * * 12
note end * * 14
wire 82*
wire a2*
note forward * * allowed
note forward * * 3
note forward * * 5
note forward * * 10
note again * * allowed
note again * * 3
note again * * 10
note announce * * allowed
note hand * * allowed
note hand * * 3
note hand * * 11
note hand * * 13
note hand * * 22 Full Ids
note hand * * 22 Full Queue
note hand * * 23
note hand * * 24
send * 080c00*
send * 080c01*
send * 080c02*
send * 080c10*
send * 080c20*
send * 080c21*
send * 080c22*
""".strip().splitlines()
NAMES = ['ab', 'a/b', 'a/b/c', 't/1', 't', 'é', '$SYS/x', 'x y', '/', 'n%', 'a//b', 'm' * 130, 'l' * 300]
BAD_NAMES = [b'', b'a+', b'+', b'#', b'a/#', b'a\0', b'\xff', b'\xed\xa0\x80']
BAD_SHORT = [b'a+', b'#a', b'\0a', b'\xff\xff', b'\xc3a']
BAD_FILTERS = [b'', b'a+', b'+a', b'##', b'#/a', b'a/#/b', b'a\0', b'\xff', b'\xed\xa0\x80', b'f' * 201]
FILTERS = ['#', '+', 'a/#', 'a/+', '+/b', 't/+', '+/+/+', '$SYS/#', '/#', 'a/b/#', 'x', '+/#', 'a', 'a/+/#',
           '+/x', 'xx/+', 'x/#', 'f' * 200, 'w/' * 80 + '+']
ADDRESSES = ['10.0.0.7:4000', '10.0.0.7:4001', '10.0.0.8:4000', '10.0.0.9:4000']
CLIENTS = ['s1', 's2', 's3', 'ü', 'a client of 23 charact.']
BAD_POLICIES = [
    '', '{', '[]', '{"version":3}', '{"version":1.0}', '{"version":1,"client":{}}', '{"clients":{}}',
    '{"version":1,"clients":{"s1":[["a+",["pub"]]]}}', '{"version":1,"clients":{"s1":[["a",["get"]]]}}',
    '{"version":1,"clients":{"s1":"W1siYWIiLFsicHViIl1dXQ=="}}', '{"version":1,"clients":{"":[]}}',
    '{"version":1,"sources":{"10.0.0.07":[]}}', '{"version":1,"topics":{"65535":"a"}}',
    '{"version":1,"topics":{"1":"a/#"}}', '{"version":1,"clients":{"s1":[%s]}}' % ','.join(['["a",[]]'] * 65),
    '{"version":1,"clients":{"s1":{"scope":[]}}}', '{"version":2,"clients":{"s1":{"exp":1}}}',
    '{"version":2,"clients":{"s1":{"scope":[],"exp":1.0}}}', '{"version":2,"sources":{"1.2.3.4":{"scope":{}}}}',
    '{"version":2,"clients":{"s1":{"scope":[["a+",[]]],"exp":18446744073709551616}}}', '{"version":2,"limits":{}}',
    '{"version":4,"limits":{"clients":1},"clients":{"s1":[],"s2":[]}}', '{"version":4,"limits":{"clients":0}}',
    '{"version":4,"limits":{"waiting":511}}', '{"version":4,"limits":{"queue":64}}', '{"version":4,"limits":[]}',
]
WORDS = [['pub'], ['pub'], ['pub', 'sub'], ['sub', 'pub', 'pub'], ['sub'], ['sub'], []]
UNREADABLE = ['x', 'up ', 'take now', 'from 10.0.0.9:4000', 'from 10.0.0.9 0216', 'from 10.0.0.9:65536 0216',
              'from 10.0.0.9:4000 021', 'from 10.0.0.9:4000 02 16', 'from 10.0.0.09:4000 0216', 'policy',
              'broker', 'broker -', 'broker d', 'broker d0 00', 'broker 0x', 'tick', 'tick ', 'tick -1',
              'tick 1 ', 'tick 0x1', 'tick 18446744073709551616']
# Which kinds of lines a script has, and how often one comes beside another
WEIGHTS = {
    'policy': 4, 'up': 6, 'take': 9, 'connect': 8, 'register': 12, 'publish': 30, 'subscribe': 20,
    'bad_policy': 1, 'down': 2, 'bad_connect': 1.5, 'disconnect': 2, 'pingreq': 3, 'fresh_register': 1,
    'source_publish': 8, 'unsubscribe': 6, 'fresh_subscribe': 1, 'other_frame': 4, 'malformed': 2,
    'broker_puback': 6, 'broker_publish': 6, 'broker_suback': 6, 'broker_other': 2, 'broker_cut': 2,
    'broker_fault': 2, 'turn': 4, 'empty': 0.5, 'answer': 6, 'delivery': 18, 'burst': 0.4,
    'busy_connect': 1, 'busy_disconnect': 0.5, 'tick': 3, 'lapse': 0.5, 'will_connect': 3, 'will_update': 3,
    'stray_will': 1, 'last_will': 0.5, 'published_will': 1.5, 'sign_of_life': 1, 'sleep': 2, 'wake': 4,
    'nap': 5, 'late': 1.5, 'late_and_denied': 1, 'withdrawal': 3, 'qos_2_publish': 4, 'release': 2,
    'repeated': 3, 'ending_policy': 2, 'end': 2,
}
# Those that no script leaves out, and those that some scripts are about
ALWAYS = ('policy', 'up', 'take', 'connect', 'register', 'publish', 'subscribe')
SUBSCRIBING = ('policy', 'subscribe', 'unsubscribe', 'broker_suback', 'take', 'ending_policy', 'end')
STATING_WILLS = ('policy', 'tick', 'lapse', 'connect', 'will_connect', 'will_update', 'published_will',
                 'delivery')
SLEEPING = ('policy', 'withdrawal', 'subscribe', 'delivery', 'wake', 'nap', 'late', 'late_and_denied')
# What decides over what waits for the broker, is in flight there or stands, and over what waits for clients
TURNS = ('publish', 'source_publish', 'policy', 'withdrawal', 'take', 'down', 'up', 'subscribe',
         'unsubscribe', 'broker_suback', 'end')
FATES = ('policy', 'policy', 'less_policy', 'less_policy', 'withdrawal', 'withdrawal', 'busy_connect',
         'busy_connect', 'busy_disconnect', 'unsubscribe', 'broker_suback', 'broker_publish',
         'broker_publish', 'register', 'subscribe', 'answer', 'lapse', 'will_connect', 'late', 'late', 'late',
         'sleep', 'wake', 'wake', 'ending_policy', 'end')
# What may come between the frames of a dialogue about a will
BREAKS = ('policy',) * 3 + ('less_policy',) * 9 + (
    'busy_connect', 'busy_disconnect', 'lapse', 'tick', 'pingreq', 'register', 'publish', 'subscribe',
    'unsubscribe', 'will_update', 'broker_publish', 'answer')
# What may come between two policies, and what behind them
BETWEEN = ('answer', 'late', 'take', 'wake', 'sleep', 'broker_publish')
BEHIND = ('answer', 'answer', 'answer', 'late', 'late', 'sleep', 'wake', 'take')
# What may come just before a client is lost, whether it is heard by that or not
SIGNS = ('source_publish', 'source_publish', 'malformed', 'other_frame', 'pingreq', 'register', 'bad_connect',
         'answer')
# What may come between a publish at QoS 2 and its repeat, beside an absence of the client
BEFORE_A_REPEAT = ('policy', 'less_policy', 'withdrawal', 'take', 'down', 'up', 'tick', 'publish', 'register',
                   'qos_2_publish', 'release', 'busy_connect', 'delivery')
# What may become of a will that waits for the broker
PUBLISHED = (['take'], ['policy', 'take'], ['withdrawal', 'take'], ['down', 'up', 'take'],
             ['take', 'policy', 'up'])


def frame(kind, *parts, is_long=False):
    """A frame of this MsgType: in the spelling of three octets where the other does not do, or is_long."""
    body = bytes([kind]) + b''.join(parts)
    if is_long or len(body) + 1 > 255:
        return b'\1' + (len(body) + 3).to_bytes(2, 'big') + body
    return bytes([len(body) + 1]) + body


def packet(first, body, spare=0):
    """An MQTT packet, its Remaining Length with so many spare bytes."""
    length = gateway_model.remaining_length(len(body))
    if spare:
        length = length[:-1] + bytes([length[-1] | 0x80]) + b'\x80' * (spare - 1) + b'\0'
    return bytes([first]) + length + body


def number(value):
    return value.to_bytes(2, 'big')


def sized(text):
    return number(len(text)) + text


class World:
    """What the lines of one script are drawn from. Each method of a name in WEIGHTS answers a line, or none
    where it has said several lines itself."""

    def __init__(self, seed):
        self.random = random.Random(seed)
        # What limits are drawn from, so that all else is drawn alike with them and without
        self.limiting = random.Random('limits %d' % seed)
        self.addresses = self.random.sample(ADDRESSES, self.one((2, 2, 3, 4)))
        self.clients = self.random.sample(CLIENTS, self.one((2, 3, 4)))
        self.names = self.random.sample(NAMES, self.among(3, 5))
        self.filters = [name for name in self.names if len(name) <= 200]
        self.filters += self.random.sample(FILTERS, self.among(3, 5))
        # How many fresh names were drawn, and how often the broker publishes under one; which packet ids it
        # answers as those of SUBSCRIBEs; how many topics are predefined; the scopes that were given to whom
        self.fresh, self.fresh_published, self.most_suback = 0, 0.2, 12
        self.predefined = self.one((0.2, 0.4, 0.8))
        self.given = {}
        self.is_generous = False
        # The lines so far, and the gateway behind the first of them, as the model says
        self.lines, self.played, self.gateway = [], 0, gateway_model.Gateway()
        # Each script leaves some kinds out and has others more often, so that scripts are unlike one another
        self.weights = {kind: weight * self.one((1, 1, 1, 2) if kind in ALWAYS else (0, 1, 1, 1, 2, 4))
                        for kind, weight in WEIGHTS.items()}
        if self.chance(0.35):
            self.weights.update((kind, 3 * self.weights[kind]) for kind in SUBSCRIBING)
        elif self.chance(0.65):
            theme = self.one((STATING_WILLS, SLEEPING))
            self.weights.update((kind, 4 * WEIGHTS[kind]) for kind in theme)

    def among(self, low, high):
        return self.random.randint(low, high)

    def one(self, values):
        return self.random.choice(values)

    def chance(self, share):
        return self.random.random() < share

    def say(self, *kinds):
        """A line of each of these kinds, one behind the other."""
        for kind in kinds:
            line = getattr(self, kind)()
            if line is not None:
                self.lines.append(line)

    def go_on(self, lines):
        """So many lines, of kinds by their weights."""
        for _ in range(lines):
            kinds = list(self.weights)
            self.say(self.random.choices(kinds, [self.weights[kind] for kind in kinds])[0])

    def present(self):
        """The clients with a session behind the lines so far."""
        further = '\n'.join(self.lines[self.played:]).encode()
        self.played = len(self.lines)
        gateway_model.play(further, self.gateway)
        self.gateway.printed.clear()
        return [client for client in self.gateway.clients.values() if client.address]

    def busy(self):
        """A client that has not answered yet what it was sent, if there is one; mostly one that has not stated
        its will."""
        present = self.present()
        stating = [client for client in present if client.state == gateway_model.DIALOGUE]
        clients = [client for client in present if client.exchange] + stating * 9
        return self.one(clients) if clients else None

    def held(self):
        """The names that a filter matches that stands for a client with a session."""
        filters = [pattern for client in self.present() for pattern in client.subscriptions]
        names = [name.encode() for name in self.names]
        return [name for name in names if any(gateway_model.matches(pattern, name) for pattern in filters)]

    # Words of lines

    def datagram(self, octets, address=None):
        word = octets.hex() or '-'
        if address is None:
            address = self.one(self.addresses[:len(self.clients)] * 8 + self.addresses)
        return 'from %s %s' % (address, word.upper() if self.chance(0.1) else word)

    def sent(self, kind, *parts, address=None):
        return self.datagram(frame(kind, *parts, is_long=self.chance(0.1)), address)

    def name(self, bad=0.1):
        return self.one(BAD_NAMES) if self.chance(bad) else self.one(self.names).encode()

    def message_id(self):
        return number(self.one((0, 1, 2, 5, 0x1234, 65_535)))

    def payload(self):
        if self.chance(0.05):
            return b'p' * self.one((110, 120, 240, 250, 2035, 2036, 2037, 2038, 2039, 2040))
        return b'payload'[:self.among(0, 4)]

    def client(self):
        return self.one(self.clients).encode()

    def duration(self):
        """In seconds, for how long a client may be silent. 0 is no limit."""
        return number(self.one((0, 0, 0, 1, 5, 20, 60, 60, 300, 300, 0x1234, 0x1234, 65_535)))

    def publishable(self, client):
        """A name under which a client may publish, if there is one, and now and then any other."""
        pairs = self.pairs_of(client)
        names = [name.encode() for name in self.names if gateway_model.grants(pairs, 'pub', name.encode())]
        return self.one(names) if names and self.chance(0.8) else self.name(0.3)

    # The policy

    def pairs_of(self, client):
        """What is granted to a client as the clock stands."""
        return self.gateway.policy.pairs_of(False, client, self.gateway.clock) or []

    def pair(self):
        return [self.one(self.filters), self.one(WORDS)]

    def pairs(self, whose):
        """The pairs of a scope: new ones, or what was given before, perhaps with a change."""
        earlier = self.given.get(whose)
        if self.is_generous:
            return [['#', ['pub'] if earlier and self.chance(0.3) else ['pub', 'sub']], ['$SYS/#', ['pub']]]
        if not earlier or self.chance(0.4):
            some = [self.pair() for _ in range(self.one((0, 2, 3, 4, 5)))]
            return [['#', ['pub', 'sub']], ['$SYS/#', ['pub']]] if self.chance(0.4) else some
        pairs = list(self.one((earlier[-1], earlier[-1], self.one(earlier))))
        change = self.one(('none', 'less', 'less', 'more'))
        if change == 'less' and pairs:
            pairs.remove(self.one(pairs))
        return pairs + [self.pair()] * (change == 'more')

    def scope(self, whose):
        pairs = self.pairs(whose)
        self.given.setdefault(whose, []).append(pairs)
        if self.chance(0.1):
            return base64.urlsafe_b64encode(json.dumps(pairs).encode()).decode().rstrip('=')
        return pairs

    def policy(self):
        clients = {name: self.scope(name) for name in self.clients if self.is_generous or self.chance(0.85)}
        ips = sorted({address.split(':')[0] for address in self.addresses})
        sources = {ip: self.scope(ip) for ip in ips if self.is_generous or self.chance(0.8)}
        topics = {str(number): self.one(self.names) for number in range(1, 5)
                  if self.chance(self.predefined)}
        return self.policy_of(clients, sources, topics)

    def receivable(self, client):
        """A filter that a client was granted, if there is one."""
        granted = [pattern for pattern, words in self.pairs_of(client.name) if 'sub' in words]
        return self.one(granted or [b'#'])

    def less_policy(self, name=None):
        """The policy in force, in which this client, or else mostly one that has to answer something, is not
        listed any more, has lost one of the permissions, or has only some names left."""
        busy = self.busy()
        name = name or (busy.name if busy and self.chance(0.7) else self.client())
        kept, change = {'pub', 'sub'}, self.one(('unlisted', 'pub', 'sub', 'names', 'names', 'names'))
        clients, sources, topics = self.in_force()
        scope = clients.pop(name.decode(), [])
        scope = scope['scope'] if isinstance(scope, dict) else scope
        if change == 'names':
            names = self.names + ['n/%d' % it for it in range(1, self.fresh + 4)]
            scope = [[name, ['pub', 'sub']] for name in names if len(name) <= 200 and self.chance(0.5)]
        if change != 'unlisted':
            kept = {change} if change in kept else kept
            clients[name.decode()] = [[pattern, sorted(kept.intersection(words))] for pattern, words in scope]
        return self.policy_of(clients, sources, topics)

    def in_force(self):
        """The clients, sources and topics of the policy in force."""
        policy = self.gateway.policy
        clients, sources = [{who.decode(): self.written(scope) for who, scope in scopes.items()}
                            for scopes in (policy.clients, policy.sources)]
        return clients, sources, {str(it): name.decode() for it, name in policy.topics.items()}

    def written(self, scope):
        pairs = [[pattern.decode(), sorted(words)] for pattern, words in scope.pairs]
        return pairs if scope.until is None else {'scope': pairs, 'exp': scope.until}

    def ending_policy(self):
        """The policy in force, in which some scopes end: now, soon, at the time when something else is due as
        well, or as late as can be; and perhaps what such an end decides about."""
        clients, sources, topics = self.in_force()
        busy, clock = self.busy(), self.gateway.clock
        ends = [clock + it for it in (0, 1, 1, 500, 1000, 1500, 10_000)] + [0, gateway_model.MOST_CLOCK]
        ends += [client.exchange.sent + gateway_model.MS_TO_ANSWER for client in self.present()
                 if client.exchange] * 3
        ends += [self.end_of(client) for client in self.present() if client.duration] * 2
        for scopes in (clients, sources):
            for who, scope in scopes.items():
                likely = 0.9 if busy and who == busy.name.decode() else 0.4
                pairs = scope['scope'] if isinstance(scope, dict) else scope
                if self.chance(likely):
                    scopes[who] = {'scope': pairs, 'exp': min(self.one(ends), gateway_model.MOST_CLOCK)}
        self.lines.append(self.policy_of(clients, sources, topics))
        if self.chance(0.5):
            self.say(self.one(('subscribe', 'delivery', 'publish', 'will_connect')))
        return self.end() if self.chance(0.7) else None

    def end(self):
        """The time of the next end has come, or has almost, or has passed."""
        policy, clock = self.gateway.policy, self.gateway.clock
        ends = [scope.until for part in (policy.clients, policy.sources) for scope in part.values()
                if scope.until is not None and scope.until > clock]
        if not ends:
            return self.tick()
        end = min(ends)
        if self.chance(0.3):
            self.lines.append(self.ticked(end - 1))
        return self.ticked(end + self.one((0, 0, 0, 0, 1, 10_000)))

    def withdrawal(self):
        """A policy takes away from a client with which something is under way, if there is one, and mostly
        another one gives it back. Then what decides about that may come, and may come between the two."""
        busy = self.busy()
        waited_for = [client for client in self.present() if client.queue]
        client = busy if busy and self.chance(0.7) else self.one(waited_for or [busy])
        given = self.policy_of(*self.in_force())
        self.lines.append(self.less_policy(client and client.name))
        if self.chance(0.2):
            self.say(self.one(BETWEEN))
        if self.chance(0.7):
            self.lines.append(given)
        self.say(*[self.one(BEHIND)] * self.chance(0.6))

    def policy_of(self, clients, sources, topics):
        scopes = list(clients.values()) + list(sources.values())
        version = 2 if any(isinstance(scope, dict) for scope in scopes) or self.chance(0.1) else 1
        parts = {'version': version, 'clients': clients, 'sources': sources, 'topics': topics}
        if self.limiting.random() < 0.15:
            parts.update(version=4, limits=self.limits(clients=clients, sources=sources, topics=topics))
        return 'policy ' + json.dumps(parts, ensure_ascii=self.chance(0.5))

    def limits(self, **listed):
        """Some limits, mostly just enough for what the policy lists."""
        one = self.limiting.choice
        limits = {'waiting': one((512, 513, 600, 65_000)), 'in_flight': one((128, 129, 150, 16_000))}
        for part, entries in listed.items():
            limits[part] = max(len(entries) + one((0, 0, 0, 1, 100)), gateway_model.LIMITS[part][1])
        return {part: limit for part, limit in limits.items() if one((True, True, False))}

    def bad_policy(self):
        return 'policy ' + self.one(BAD_POLICIES)

    # The connection

    def up(self):
        return 'up'

    def down(self):
        return 'down'

    def take(self):
        return 'take'

    def turn(self):
        """A few lines at once that decide over what waits, what is in flight and what stands."""
        if self.chance(0.5):
            self.say('publish', 'publish', self.one(('take', 'take', 'source_publish')), 'policy')
        self.say(*(self.one(TURNS) for _ in range(self.among(1, 3))))

    def delivery(self):
        """Messages for clients, perhaps what decides over them as they wait, and answers of clients."""
        self.say('broker_publish')
        for kind in [self.one(FATES) for _ in range(self.one((0, 1, 1, 2)))] + ['answer'] * self.among(0, 5):
            if self.busy():
                self.say(kind)

    def empty(self):
        return ''

    # The clock

    def tick(self):
        """A tick, often of about the time when the next client is lost or the broker is pinged. Now and then
        it is behind the clock, or as late as can be."""
        clients, gateway = self.present(), self.gateway
        ends = [self.end_of(client) for client in clients if client.duration]
        if gateway.is_up:
            ends.append(gateway.pinged + gateway_model.MS_BETWEEN_PINGS)
        clock = gateway.clock + self.one((-30_000, -1000, -1, 0, 1, 500, 1500, 5000, 10_000, 30_000))
        if ends and self.chance(0.6):
            clock = min(ends) + self.one((-1, 0, 0, 0, 1))
        elif self.chance(0.01):
            clock = gateway_model.MOST_CLOCK
        return self.ticked(clock)

    def lapse(self):
        """The time has come when a client is lost that has to answer something."""
        busy = self.busy()
        return self.ticked(self.end_of(busy)) if busy and busy.duration else self.tick()

    def sign_of_life(self):
        """Something comes from where a client is, just before that is lost, and then it is, or not."""
        clients = [client for client in self.present() if client.duration]
        if not clients:
            return self.connect()
        client = min(clients, key=self.end_of)
        end, line = self.end_of(client), getattr(self, self.one(SIGNS))()
        octets = line.split(' ')[2]
        self.lines += [self.ticked(end - 1), 'from %s %s' % (client.address.decode(), octets)]
        return self.ticked(end)

    def late(self):
        """The time has come, once or more often, when something is sent again, if there is such a thing."""
        for turn in range(self.one((1, 1, 2, 4))):
            sent = [client.exchange.sent for client in self.present() if client.exchange]
            if not sent:
                return None if turn else self.tick()
            self.lines.append(self.ticked(min(sent) + gateway_model.MS_TO_ANSWER - self.chance(0.1)))
            if self.chance(0.3):
                self.say(self.one(('less_policy', 'policy', 'policy')))

    def late_and_denied(self):
        """The time has come when something were sent again that is not allowed any more, now and then for one
        time too many."""
        busy = self.busy()
        if not busy or not busy.exchange:
            return self.late()
        turns = self.one(((1,), (1,), (1, 2, 3, 4)))
        late = [busy.exchange.sent + gateway_model.MS_TO_ANSWER * turn for turn in turns]
        self.lines += [self.ticked(clock) for clock in late[:-1]]
        self.lines += [self.less_policy(busy.name), self.ticked(late[-1])]
        return self.policy() if self.chance(0.5) else None

    def end_of(self, client):
        return client.heard + client.duration * gateway_model.SILENCE_FOR_A_SECOND

    def ticked(self, clock):
        return 'tick %d' % min(max(clock, 0), gateway_model.MOST_CLOCK)

    # Messages of clients

    def connect(self):
        """A CONNECT, mostly from where this client mostly is, and of one that has no session."""
        place = self.among(0, len(self.clients) - 1)
        here = [client.name.decode() for client in self.present()]
        absent = [place for place, client in enumerate(self.clients) if client not in here]
        if absent and self.chance(0.5):
            place = self.one(absent)
        home = self.addresses[place % len(self.addresses)] if self.chance(0.9) else None
        flags = bytes([self.one((0, 0, 0, 0xf3, 4, 0xe7))])
        return self.sent(4, flags, b'\1', self.duration(), self.clients[place].encode(), address=home)

    def bad_connect(self):
        client = self.one((self.client(), self.client(), b'nobody', b'', b'x' * 24, b'\0', 'ü'.encode() * 23))
        return self.sent(4, bytes([self.one((4, 8, 12))]), bytes([self.one((0, 1, 1, 2))]), b'\0\0', client)

    def busy_connect(self):
        """A client that has to answer something connects anew, from there or elsewhere, or is put out."""
        busy = self.busy()
        if busy is None:
            return self.connect()
        home = busy.address.decode() if self.chance(0.8) else self.one(self.addresses)
        client = busy.name if self.chance(0.7) else self.client()
        flags = bytes([self.one((0, 0, 4, 8, 8, 12))])
        return self.sent(4, flags, b'\1', self.duration(), client, address=home)

    def busy_disconnect(self):
        """A client that has to answer something leaves."""
        busy = self.busy()
        return self.sent(0x18, address=busy.address.decode()) if busy else self.disconnect()

    def will_connect(self):
        """A client connects that has a will, and states it, or something comes between."""
        place, busy = self.among(0, len(self.clients) - 1), self.busy()
        name, home = self.clients[place].encode(), self.addresses[place % len(self.addresses)]
        if busy and self.chance(0.6):
            name, home = busy.name, busy.address.decode()
        flags = bytes([self.one((8, 8, 8, 12, 0xfb))])
        self.lines.append(self.sent(4, flags, b'\1', self.duration(), name, address=home))
        for _ in range(self.one((0, 1, 2, 2, 2, 2))):
            if self.chance(0.4):
                self.say(self.one(BREAKS))
            for client in self.present():
                if client.name == name and client.state == gateway_model.DIALOGUE:
                    self.lines.append(self.state_will(client))

    def state_will(self, client):
        """A WILLTOPIC or WILLMSG, mostly the one that was asked for."""
        kinds = (0x07, 0x09) if client.stated is None else (0x09, 0x07)
        address = client.address.decode() if self.chance(0.97) else None
        if self.one(kinds[:1] * 12 + kinds) == 0x07:
            return self.sent(0x07, *self.will_topic(client), address=address)
        return self.sent(0x09, self.last_words(), address=address)

    def will_topic(self, client):
        """Flags and a name, or nothing at all."""
        if self.chance(0.15):
            return []
        flags = self.among(0, 3) << 5 | self.one((0, 0x10, 0x10, 0x8f))
        return bytes([flags]), self.publishable(client.name)

    def last_words(self):
        if self.chance(0.03):
            return b'p' * self.one((120, 252, 253, 2046))
        return self.one((b'', b'gone', b'gone'))

    def will_update(self):
        """WILLTOPICUPD or WILLMSGUPD, mostly of a client that is active."""
        clients = self.present()
        if not clients:
            return self.sent(0x1a, b'\0w/1')
        client = self.one(clients)
        address = client.address.decode() if self.chance(0.95) else None
        if client.will and self.chance(0.4):
            self.lines.append(self.less_policy(client.name))
        if self.chance(0.1):
            return self.sent(0x1a, address=address)
        if self.chance(0.4):
            return self.sent(0x1c, self.last_words(), address=address)
        return self.sent(0x1a, *self.will_topic(client), address=address)

    def stray_will(self):
        """A message about a will from wherever, whether it is in turn or not."""
        kind = self.one((0x07, 0x09, 0x1a, 0x1c))
        words = b'\0' + self.name() if kind in (0x07, 0x1a) and self.chance(0.7) else b''
        return self.sent(kind, words)

    def last_will(self):
        """The next client to be lost, if there is one, states a will anew and is lost."""
        clients = [client for client in self.present() if client.duration]
        if not clients:
            return self.connect()
        client = min(clients, key=self.end_of)
        address = client.address.decode()
        topic = self.sent(0x1a, *self.will_topic(client), address=address)
        message = self.sent(0x1c, self.last_words(), address=address)
        self.lines += self.one(([topic], [topic, message], [topic, message], [message, topic]))
        if self.chance(0.5):
            self.say(self.one(FATES))
        return self.ticked(self.end_of(client)) if client in self.present() else None

    def published_will(self):
        """The same, and then the will leaves, or what decides over it comes before."""
        self.say('last_will', *self.one(PUBLISHED))

    def answer(self):
        """A REGACK or PUBACK, mostly of a client that has to send just this one. One in a dialogue states its
        will."""
        busy = self.busy()
        if busy and busy.state == gateway_model.DIALOGUE:
            return self.state_will(busy)
        address, code = None, self.one((b'\0', b'\0', b'\0', b'\0', b'\0', b'\1', b'\2', b'\3', b'\xff'))
        kind, topic_id, msg_id = self.one((0x0b, 0x0d)), number(self.among(0, 3)), number(self.among(0, 9))
        if busy:
            exchange = busy.exchange
            kind, topic_id, msg_id = 0x0b if exchange.announces else 0x0d, exchange.topic_id, exchange.msg_id
            address = busy.address.decode()
            change = self.one(('none',) * 12 + ('kind', 'kind', 'topic', 'message', 'address'))
            if change == 'kind':
                kind ^= 0x0b ^ 0x0d
            elif change == 'topic':
                topic_id = number(self.among(0, 4))
            elif change == 'message':
                msg_id = number((int.from_bytes(msg_id, 'big') + self.one((-1, 1))) % 65_536)
            elif change == 'address':
                address = self.one(self.addresses)
        return self.sent(kind, topic_id, msg_id, code, address=address)

    def sleep(self):
        """A client that has a session sleeps, if there is one, at times one that has to answer something."""
        present, busy = self.present(), self.busy()
        client = busy if busy and self.chance(0.5) else self.one(present or [None])
        address = client.address.decode() if client else None
        return self.sent(0x18, self.duration(), address=address)

    def wake(self):
        """A client that sleeps wakes up, mostly one for which messages wait."""
        asleep = [client for client in self.present() if client.state == gateway_model.ASLEEP]
        waited_for = [client for client in asleep if client.queue]
        if not asleep:
            return self.pingreq()
        client = self.one(waited_for if waited_for and self.chance(0.8) else asleep)
        name = self.one((client.name, client.name, client.name, client.name, b'', self.client()))
        return self.sent(0x16, name, address=client.address.decode())

    def nap(self):
        """A client, if there is one, sleeps while messages come, wakes up under whatever is allowed then, and
        mostly connects anew in the end."""
        clients = self.present()
        if not clients:
            return self.connect()
        client = self.one(clients)
        address = client.address.decode()
        duration = number(self.one((0, 0, 5, 60, 300, 300)))
        again = self.sent(4, b'\0\1', duration, client.name, address=address)
        if not client.subscriptions:
            if self.is_generous:
                self.say('policy')
            self.present()
            self.lines += [again, self.sent(0x12, self.flags(self.one((0, 1, 1)), 0), self.message_id(),
                                            self.receivable(client), address=address)]
        self.lines.append(self.sent(0x18, duration, address=address))
        self.say(*['broker_publish'] * self.among(1, 4))
        if self.chance(0.3):
            self.say(self.one(FATES))
        if self.chance(0.4):
            self.lines.append(self.less_policy(client.name))
        self.lines.append(self.sent(0x16, client.name, address=address))
        ends = self.one((['late_and_denied'], ['late_and_denied'], ['late'], ['late'], [self.one(FATES)]))
        for kind in ['answer'] * self.one((0, 1, 1, 2, 3)) + ends:
            if self.busy():
                self.say(kind)
        return again if self.chance(0.6) else None

    def disconnect(self):
        return self.sent(0x18, self.one((b'', b'', b'', b'\0\0', b'\1\2', b'\1')))

    def pingreq(self):
        return self.sent(0x16, self.one((b'', b'', self.client(), self.client(), b'nobody', b'\0')))

    def register(self):
        return self.sent(0x0a, number(self.among(0, 2)), self.message_id(), self.name())

    def fresh_register(self):
        self.fresh += 1
        return self.sent(0x0a, b'\0\0', self.message_id(), b'n/%d' % self.fresh)

    def topic(self, id_type):
        """Two octets for a topic id of this type."""
        if id_type == gateway_model.SHORT and self.chance(0.9):
            short = [name.encode() for name in self.names if len(name.encode()) == 2]
            return self.one(BAD_SHORT if self.chance(0.1) else short + [b'ab', b't/'])
        return number(self.one((0, 9, 65_535)) if self.chance(0.05) else self.one((1, 1, 2, 2, 3, 4)))

    def flags(self, qos, id_type):
        return bytes([qos << 5 | self.one((0, 0, 0x10, 0x80, 0x1c)) | id_type])

    def publish(self):
        qos = self.one((0, 0, 0, 0, 0, 0, 1, 1, 1, 1, 1, 1, 1, 1, 2))
        id_type = self.one((0, 0, 0, 0, 0, 0, 1, 1, 1, 1, 1, 1, 2, 2, 2, 2, 3))
        return self.sent(0x0c, self.flags(qos, id_type), self.topic(id_type), self.message_id(),
                         self.payload())

    def published_by(self, client, qos, msg_id):
        """A PUBLISH of a client, mostly under a topic id by which it may."""
        policy = self.gateway.policy
        ids = [(gateway_model.NORMAL, number(place), name) for place, name in enumerate(client.topics, 1)]
        ids += [(gateway_model.PREDEFINED, number(it), name) for it, name in policy.topics.items()]
        ids += [(gateway_model.SHORT, name.encode(), name.encode()) for name in self.names
                if len(name.encode()) == 2]
        granted = [(id_type, topic) for id_type, topic, name in ids
                   if gateway_model.grants(self.pairs_of(client.name), 'pub', name)]
        id_type = self.one((0, 1, 2, 3))
        if granted and self.chance(0.9):
            id_type, topic = self.one(granted)
        else:
            topic = self.topic(id_type)
        return self.sent(0x0c, self.flags(qos, id_type), topic, msg_id, self.payload(),
                         address=client.address.decode())

    def publisher(self):
        """A client that may publish now, if there is one, mostly one with open MsgIds."""
        active = [client for client in self.present() if gateway_model.is_active(client)]
        counting = [client for client in active if client.open]
        return self.one(counting if counting and self.chance(0.6) else active or [None])

    def open_id(self, client):
        """A MsgId that is open, if there is one."""
        return self.one(sorted(client.open) or [self.message_id()])

    def qos_2_publish(self):
        """A PUBLISH at QoS 2, now and then a repeat, or one at another QoS with an open MsgId."""
        client = self.publisher()
        if client is None:
            return self.connect()
        msg_id = self.open_id(client) if self.chance(0.3) else self.message_id()
        return self.published_by(client, self.one((2, 2, 2, 2, 2, 2, 1, 0)), msg_id)

    def many_qos_2_publishes(self):
        """A client publishes under many MsgIds in a row, and repeats the last of them at times."""
        client = self.publisher()
        if client is None:
            return self.connect()
        first = self.among(0, 40)
        for it in range(first, first + self.among(8, 20)):
            line = self.published_by(client, 2, number(it))
            self.lines += [line] * self.one((1, 1, 1, 1, 2))
        return self.release()

    def release(self):
        """A PUBREL, mostly of a MsgId that is open, now and then twice, or from elsewhere."""
        client = self.publisher()
        if client is None:
            return self.sent(0x10, self.message_id())
        msg_id = self.open_id(client) if self.chance(0.8) else self.message_id()
        line = self.sent(0x10, msg_id, address=None if self.chance(0.1) else client.address.decode())
        self.lines += [line] * self.chance(0.3)
        return line

    def repeated(self):
        """A client publishes at QoS 2, and mostly repeats that once something came between; then it releases
        the MsgId, or connects clean, and uses it anew, or leaves it open."""
        client = self.publisher()
        if client is None:
            return self.connect()
        msg_id, place = self.open_id(client) if self.chance(0.2) else self.message_id(), len(self.lines)
        self.lines.append(self.published_by(client, 2, msg_id))
        if self.chance(0.5):
            self.absence(client, msg_id)
        else:
            self.say(*(self.one(BEFORE_A_REPEAT) for _ in range(self.one((0, 1, 1, 2)))))
        if self.chance(0.4):
            self.lines.append(self.less_policy(client.name))
        client = self.gateway.clients[client.name]
        if client not in self.present():
            return None
        again = self.lines[place] if self.chance(0.3) else self.published_by(client, 2, msg_id)
        self.lines.append(again)
        end = self.one(('open', 'released', 'released', 'released twice', 'cleaned'))
        address = client.address.decode()
        if end.startswith('released'):
            self.lines += [self.sent(0x10, msg_id, address=address)] * (1 + end.endswith('twice'))
        elif end == 'cleaned':
            self.lines.append(self.sent(4, b'\4\1', self.duration(), client.name, address=address))
        return again if end != 'open' and self.chance(0.6) else None

    def absence(self, client, msg_id):
        """A client sleeps, leaves, is put out or is lost; mostly it connects again, and its MsgIds are those
        of before. Meanwhile it may publish and release, which is out of turn, or has no session."""
        address = client.address.decode()
        other = self.client()
        ways = [self.sent(0x18, number(300), address=address), self.sent(0x18, address=address),
                self.sent(4, b'\0\1', self.duration(), other, address=address)]
        ways += [self.ticked(self.end_of(client))] if client.duration else []
        self.lines.append(self.one(ways))
        if self.chance(0.5):
            self.lines.append(self.sent(0x0c, self.flags(2, 0), number(1), msg_id, address=address))
        if self.chance(0.5):
            self.lines.append(self.sent(0x10, msg_id, address=address))
        if self.chance(0.9):
            flags = bytes([self.one((0, 0, 0, 0, 4))])
            self.lines.append(self.sent(4, flags, b'\1', self.duration(), client.name, address=address))

    def flood(self):
        """A client, if there is one, publishes the same many times."""
        clients = [client for client in self.present() if gateway_model.is_active(client)]
        if clients:
            datagram = self.sent(0x0c, self.flags(self.among(0, 1), 2), b'ab', self.message_id(), b'x',
                                 address=self.one(clients).address.decode())
            self.lines += [datagram] * self.among(60, 140)

    def source_publish(self):
        id_type = self.one((0, 1, 1, 1, 1, 2, 2, 2, 2, 3))
        return self.sent(0x0c, self.flags(3, id_type), self.topic(id_type), b'\0\0', self.payload())

    def filter(self):
        """The text of a filter, often of one that is granted to somebody, and at times what is none."""
        if self.chance(0.08):
            return self.one(BAD_FILTERS)
        if self.fresh and self.chance(0.15):
            return b'n/%d' % self.among(1, self.fresh)
        granted = [pattern for whose in self.clients for pattern, words in self.given.get(whose, [[]])[-1]
                   if 'sub' in words]
        return self.one(granted if granted and self.chance(0.6) else self.filters + FILTERS[:4]).encode()

    def ask_for_filter(self, kind):
        """A SUBSCRIBE or UNSUBSCRIBE, mostly of a text."""
        id_type = self.one((0, 0, 0, 0, 0, 0, 0, 0, 0, 0, 1, 1, 1, 2, 2, 2, 3))
        topic = self.topic(id_type) if id_type in (1, 2) else self.filter()
        return self.sent(kind, self.flags(self.among(0, 3), id_type), self.message_id(), topic)

    def subscribe(self):
        return self.ask_for_filter(0x12)

    def subscribe_to_all(self):
        return self.sent(0x12, self.flags(self.among(0, 1), 0), self.message_id(), b'#')

    def unsubscribe(self):
        return self.ask_for_filter(0x14)

    def fresh_subscribe(self):
        self.fresh += 1
        name = b'n/%d' % self.fresh + self.one((b'', b'', b'/+'))
        return self.sent(0x12, self.flags(self.among(0, 3), 0), self.message_id(), name)

    def other_frame(self):
        """A message that is not taken, or one that only a gateway sends."""
        kind, part = self.one([
            (0x05, b'\0'), (0x06, b''), (0x08, b''), (0x0e, b'\0\1'), (0x0f, b'\0\1'),
            (0x13, b'\0\0\1\0\1\0'), (0x15, b'\0\1'), (0x17, b''), (0x1b, b'\0'), (0x1d, b'\0'),
            (0x00, b'\1\0\0'), (0x01, b'\0'), (0x02, b'\1'), (0xfe, b'\1\2\3'),
        ])
        return self.sent(kind, part)

    def malformed(self):
        """Octets that are mostly no frame: those of a frame, with some lost, added or changed."""
        octets = bytearray(self.one((frame(4, b'\4\1\0\0s1'), frame(0x0c, b'\x62ab\0\0x'), frame(0x16),
                                     frame(0x16, is_long=True), frame(0x12, b'\1\0\1abc'), frame(0xfe),
                                     frame(0x03), frame(0x00, b'\1'), b'\1', b'\1\0\3', b'\1\xfe',
                                     frame(0x0c, b'\x62ab\0\0', b'x' * 2039), frame(0xfe, b'x' * 2050))))
        change = self.among(0, 3)
        if change == 0 and octets:
            octets.pop()
        elif change == 1:
            octets += b'x'
        elif change == 2:
            octets[self.among(0, len(octets) - 1)] = self.among(0, 255)
        return self.datagram(bytes(octets))

    # Packets of the broker

    def puback(self):
        return packet(0x40, number(self.among(1, 8)), self.one((0, 0, 0, 1)))

    def published(self):
        """A PUBLISH, now and then of what just fits into a datagram of a client, or does not."""
        qos = self.one((0, 1, 1))
        name, payload = self.name(0.04), self.payload()
        if self.chance(self.fresh_published):
            name = b'n/%d' % self.among(1, self.fresh + 3)
        elif self.chance(0.7):
            name = self.one(self.held() or [name])
        if self.chance(0.03):
            name = b'n' * self.one((2039, 2040, 2041, 5000))
        if self.chance(0.03):
            payload = b'p' * self.one((247, 248, 2039, 2040, 5000))
        body = sized(name) + (number(self.among(1, 9)) if qos else b'') + payload
        return packet(0x30 | qos << 1 | self.one((0, 0, 1, 8, 9)), body, self.one((0, 0, 0, 1)))

    def suback(self, packet_id):
        """An answer to a SUBSCRIBE, which as often as not refuses it; only its first code counts."""
        codes = self.one((b'\0', b'\1', b'\1', b'\2', b'\x80', b'\x80', b'\x80', b'\x80\1', b'\1\x80'))
        return packet(0x90, number(packet_id) + codes, self.one((0, 0, 0, 2)))

    def other_packet(self):
        return self.one((
            packet(0x10, b'\0\4MQTT\4\2\0\x3c\0\2gw'), packet(0x20, b'\0\0'), packet(0x20, b'\1\5'),
            packet(0x82, b'\0\1\0\1a\1'), packet(0xa2, b'\0\1\0\3a/#'), packet(0xb0, b'\0\1'),
            packet(0xc0, b''), packet(0xd0, b'', 3), packet(0xd0, b''), packet(0xe0, b'')))

    def faulty_packet(self):
        return self.one((
            b'\x36\x02', b'\x30\xff\xff\xff\xff', b'\x30\xf1\xa2\x04', b'\x32\xed\xa2\x04', b'\x00\x00',
            packet(0x34, b'\0\1a\0\1'), packet(0x3d, b''), packet(0x50, b'\0\1'), packet(0x62, b'\0\1'),
            packet(0x70, b'\0\1'), packet(0x10, b'\0\4MQTT\4\xc2'), packet(0x10, b'\0\4MQTT\5\2\0\0\0\0'),
            packet(0x10, b'\0\4MQTT\4\2\0\0\0\2g'), packet(0x20, b'\2\0'), packet(0x20, b'\0'),
            packet(0x30, b'\0'), packet(0x30, b'\0\2a'), packet(0x32, b'\0\1a\0\0'), packet(0x32, b'\0\1a\0'),
            packet(0x40, b'\0\0'), packet(0x40, b'\0\1\0'), packet(0x82, b'\0\1'), packet(0x82, b'\0\1\0\1a'),
            packet(0x82, b'\0\1\0\1a\3'), packet(0x90, b'\0\1'), packet(0x90, b'\0\1\3'),
            packet(0xa2, b'\0\1'), packet(0xa2, b'\0\1\0\2a'), packet(0xb0, b'\0'), packet(0xc0, b'x'),
            packet(0xd1, b'')))

    def piece(self, *packets):
        return 'broker ' + b''.join(packets).hex()

    def broker_puback(self):
        return self.piece(*(self.puback() for _ in range(self.one((1, 1, 1, 3)))))

    def broker_publish(self):
        return self.piece(*(self.published() for _ in range(self.one((1, 1, 1, 2, 5)))))

    def burst(self):
        """More messages at once than may wait for a client."""
        names = [self.one(self.names).encode() for _ in range(self.among(64, 70))]
        return self.piece(*(packet(0x30, sized(name) + b'x') for name in names))

    def broker_suback(self):
        """Answers to the SUBSCRIBEs of some packet ids in a row, if there are such."""
        first, many = self.among(1, self.most_suback), self.one((1, 1, 2, self.most_suback // 3))
        return self.piece(*(self.suback(first + place) for place in range(many)))

    def broker_other(self):
        return self.piece(self.other_packet())

    def broker_cut(self):
        """Two lines, between which a packet is cut, and perhaps a third between them."""
        whole = self.one((self.published(), self.suback(self.among(1, self.most_suback)))) + self.puback()
        place = self.among(1, len(whole) - 1)
        self.lines.append(self.piece(whole[:place]))
        if self.chance(0.3):
            self.go_on(1)
        return self.piece(whole[place:])

    def broker_fault(self):
        before = [self.puback()] if self.chance(0.5) else []
        return self.piece(*before, self.faulty_packet(), *before)


# Whole scripts


def begun(world):
    """Mostly clients connect and subscribe first."""
    if world.chance(0.9):
        world.say('policy', 'up', *['connect'] * 3 * len(world.clients))
        if world.chance(0.7):
            world.say(*['subscribe'] * world.among(2, 8), 'take')


def mixed(world):
    """A short script of everything."""
    begun(world)
    world.go_on(world.among(30, 80))
    if world.chance(0.05):
        world.lines += [world.one(UNREADABLE), 'up']


def heavy(world, lines, **weights):
    """A long script in which everything is granted: many lines of these kinds, and then some of all kinds."""
    world.is_generous = True
    world.weights = {'policy': 0.3, 'register': 2, 'publish': 2, 'pingreq': 1, 'subscribe': 1,
                     'unsubscribe': 0.5, 'other_frame': 1, **weights}
    world.say('policy', 'up', *['connect'] * 6)
    world.go_on(lines)
    world.weights = WEIGHTS
    world.go_on(60)


def many_ids(world):
    """A client is told as many names as it may have ids, by announcements too."""
    world.clients, world.addresses = world.clients[:1], world.addresses[:1]
    world.fresh_published = 0.8
    heavy(world, 400, fresh_register=40, register=5, fresh_subscribe=5, subscribe=5, subscribe_to_all=2,
          unsubscribe=2, broker_publish=20, answer=20)


def many_subscriptions(world):
    """A client holds as many filters as it may, and gives some of them up."""
    world.clients, world.addresses = world.clients[:1], world.addresses[:1]
    heavy(world, 250, fresh_subscribe=20, subscribe=5, unsubscribe=4, take=4, broker_suback=1, up=0.5)


def many_holders(world):
    """A few clients hold a few filters, the same ones mostly, which begin and end in any order."""
    world.most_suback = 60
    heavy(world, 300, subscribe=30, unsubscribe=10, connect=4, take=8, up=2, down=0.5, broker_suback=5,
          policy=1, broker_publish=3, answer=3, tick=1, will_connect=1)


def many_messages(world):
    """Clients hold a few filters, and the broker publishes more than they answer at times."""
    heavy(world, 400, subscribe=4, subscribe_to_all=2, connect=1, broker_publish=20, burst=0.5, answer=40,
          policy=1, busy_connect=1, busy_disconnect=0.5, delivery=5, tick=2, lapse=0.5, will_connect=0.5,
          sleep=1, wake=2, late=2, late_and_denied=0.5, withdrawal=2)


def many_wills(world):
    """Clients for which messages wait state a will, and policies change beside that."""
    heavy(world, 400, policy=1, connect=3, subscribe_to_all=6, broker_publish=25, answer=1, will_connect=20,
          will_update=4, published_will=0.5, lapse=0.3, less_policy=1)


def many_naps(world):
    """Clients sleep and wake up, and answer late, and policies change beside that."""
    heavy(world, 400, policy=3, connect=3, subscribe_to_all=4, broker_publish=5, answer=5, nap=20, sleep=1,
          wake=2, late=3, late_and_denied=3, withdrawal=3)


def many_open_ids(world):
    """Clients publish at QoS 2 under as many MsgIds as may be open, repeat some and release some; they sleep
    and are lost, and policies change."""
    world.predefined = 0.8
    heavy(world, 400, policy=2, register=10, publish=5, qos_2_publish=40, many_qos_2_publishes=6, release=12,
          repeated=12, take=4, broker_puback=3, up=1, down=0.3, connect=3, tick=1, withdrawal=1)


def many_in_flight(world):
    """Publishes of QoS 1 wait and are in flight, as many as may be; clients with a will are lost beside
    them."""
    world.predefined = 0.8
    heavy(world, 600, publish=70, take=5, broker_puback=3, up=1, down=0.2, policy=1, register=10, tick=1,
          last_will=1.5, connect=5, broker_publish=3, flood=0.7)


def many_items(world):
    """The outbox fills, with publishes, with what acknowledges the broker's and with subscriptions that begin
    and end. Clients with a will are lost then, and the broker is not pinged."""
    world.predefined = 0.8
    heavy(world, 800, publish=40, source_publish=10, broker_publish=20, broker_puback=2, subscribe=20,
          unsubscribe=4, connect=4, policy=1, tick=1, last_will=2, flood=0.7)


def many_clients(world):
    """More clients come than are ever accepted, under two policies."""
    clients = ['c%d' % count for count in range(300)]
    world.random.shuffle(clients)
    world.is_generous = True
    for part in (clients[:200], clients[150:]):
        world.clients = part
        world.say('policy')
        for name in world.random.sample(part, len(part)):
            world.lines.append(world.sent(4, b'\4\1', world.duration(), name.encode()))
            if world.chance(0.2):
                world.go_on(1)


def many_packet_ids(world):
    """Packet ids begin anew, and skip those of a few publishes that are in flight and of a few SUBSCRIBEs
    that are open from before; the first of these is that of the very filter that is asked for anew then. At
    last all that is in flight is sent again, which is not in the order of the ids."""
    name = world.one([name for name in world.names if len(name) <= 200])
    address = world.one(world.addresses)
    scope = [['#', ['pub', 'sub']], [name, ['pub']]]
    policy = {'version': 1, 'clients': {'s1': scope}, 'topics': {'1': name}}
    lines = ['policy ' + json.dumps(policy), 'up', 'from %s 08040401000a7331' % address]
    publish = 'from %s 080c21000100%%02x78' % address
    subscribe, unsubscribe = ['from %s 07%s20000166%%02x' % (address, kind) for kind in ('12', '14')]
    lines += [subscribe % it for it in range(0x31, 0x37)] + ['take', 'broker 90030002019003000502']
    lines += [unsubscribe % 0x33, 'take']
    kept = {world.among(8, 40) for _ in range(6)} | {65_535}
    count, batch = 7, 40
    while count < 65_535:
        ids = range(count + 1, min(count + batch, 65_535) + 1)
        lines += [publish % turn for turn in range(len(ids))] + ['take']
        lines.append('broker ' + b''.join(packet(0x40, number(it)) for it in ids if it not in kept).hex())
        count += batch
    lines += [subscribe % 0x31] + [publish % turn for turn in range(batch)] + ['take']
    world.lines = lines + ['from %s 080c210001000178' % address, 'take', 'down', 'up', 'take', 'up']


# The kinds of the first scripts; all others are mixed
LONG = ([many_ids] * 2 + [many_subscriptions] * 2 + [many_holders] * 3 + [many_in_flight] * 2
        + [many_items] * 3 + [many_messages] * 3 + [many_wills] * 6 + [many_naps] * 8
        + [many_clients, many_packet_ids] + [many_open_ids] * 3)


def script(seed):
    world = World(seed)
    (LONG[seed] if seed < len(LONG) else mixed)(world)
    return text_of(world)


def script_of_lines(seed, lines):
    """A script of everything that has so many lines."""
    world = World(seed)
    world.is_generous = world.chance(0.2)
    begun(world)
    while len(world.lines) < lines:
        world.go_on(min(lines - len(world.lines), 20))
    ends = [world.one(UNREADABLE), 'up'] * world.chance(0.05)
    world.lines = world.lines[:lines - len(ends)] + ends
    return text_of(world)


def text_of(world):
    return '\n'.join(world.lines).encode() + b'\n' * world.chance(0.9)


# Playing them


def by_program(program, scripts):
    """The status and the output of each script, by a program that is built; no status where it hangs."""
    for text in scripts:
        try:
            done = subprocess.run([program, 'play'], input=text, stdout=subprocess.PIPE, timeout=SECONDS)
            yield done.returncode, done.stdout
        except subprocess.TimeoutExpired:
            yield None, b''


def lay_crate(room):
    """A crate that only plays, beside a copy of the code, as `sample` lays it: it builds twice as fast."""
    for source in sorted(os.listdir(os.path.join(end_to_end.ROOT, 'crates'))):
        path = os.path.join('crates', source, 'src')
        shutil.copytree(os.path.join(end_to_end.ROOT, path), os.path.join(room, path))
    shutil.copy(os.path.join(end_to_end.ROOT, 'HANDLES'), room)
    with open(os.path.join(end_to_end.ROOT, 'sample')) as file:
        main = re.search(r"<<'END'\n(.*?)\nEND\n", file.read(), re.S)[1]
    crate = os.path.join(room, 'crates', 'first_look')
    os.makedirs(os.path.join(crate, 'src'))
    with open(os.path.join(crate, 'src', 'main.rt'), 'w') as file:
        file.write(main + '\n')
    with open(os.path.join(end_to_end.ROOT, 'crates.txt')) as file:
        crates = file.read()
    with open(os.path.join(room, 'crates.txt'), 'w') as file:
        file.write(crates + 'first_look: sng_gateway\n')
    subprocess.run(['git', 'init', '-q', room], check=True)
    return crate


def by_build_without_proof(scripts, more=()):
    """The status and the output of each script, or none where it gave no answer, by one build without proof.
    The build is told `more` flags of `rt try`."""
    with tempfile.TemporaryDirectory() as room, tempfile.TemporaryDirectory() as cases:
        for place, text in enumerate(scripts):
            with open(os.path.join(cases, 'c%05d' % place), 'wb') as file:
                file.write(text)
        done = subprocess.run(['rt', 'try', *more, '--cases', cases], cwd=lay_crate(room),
                              stdin=subprocess.DEVNULL, stdout=subprocess.PIPE, stderr=subprocess.PIPE)
    ended = re.findall(rb'^case=c(\d+) run=ended status=(\d+) ', done.stderr, re.M)
    if not ended:
        raise SystemExit('the scripts were not played\n' + done.stderr.decode(errors='replace')[-3000:])
    status = {int(place): int(found) for place, found in ended}
    parts = re.split(rb'^== c(\d+)\n', done.stdout, flags=re.M)[1:]
    printed = {int(place): text for place, text in zip(parts[::2], parts[1::2])}
    for place in range(len(scripts)):
        yield status.get(place), printed.get(place, b'')


def difference(found, wanted):
    """The first line of two outputs that is not the same, with its number."""
    found, wanted = found.split(b'\n'), wanted.split(b'\n')
    ends = b'(the end)'
    for place in range(max(len(found), len(wanted)) + 1):
        one, other = [lines[place] if place < len(lines) else ends for lines in (found, wanted)]
        if one != other or one == ends:
            return place + 1, one, other


def report(seed, text, found, wanted):
    """Prints a script that was answered otherwise."""
    lines = text.decode().split('\n')
    print('seed %d: this script' % seed)
    print('\n'.join(line[:200] for line in lines[:MOST_SHOWN]))
    if len(lines) > MOST_SHOWN:
        print('.. (%d lines more; --show %d prints them)' % (len(lines) - MOST_SHOWN, seed))
    place, one, other = difference(found[1], wanted[1])
    print('seed %d: status %s, wanted %d; line %d of the output' % (seed, found[0], wanted[0], place))
    print('  found  %s\n  wanted %s' % (one.decode(errors='replace')[:500], other.decode()[:500]))


def unmet(outputs):
    """What the outputs of the gate's scripts have to show and do not, the longest outputs aside."""
    printed = b''.join(output for output in outputs if len(output) < MOST_PRINTED).decode()
    return [begins for begins in MET if not re.search(pattern_of(begins), printed, re.M)]


def pattern_of(begins):
    lines = [re.escape(begin).replace('\\*', '\\S+') + '\\b' for begin in begins.split(' | ')]
    return '^' + '.*\n'.join(lines)


def read_arguments():
    reader = argparse.ArgumentParser(description='Plays random scripts, and compares them with a model.')
    reader.add_argument('program', metavar='SNG', nargs='?')
    reader.add_argument('--scripts', type=int, default=SCRIPTS)
    reader.add_argument('--first', type=int, default=0)
    reader.add_argument('--show', type=int)
    return reader.parse_args()


def played(program, texts):
    return by_program(program, texts) if program else by_build_without_proof(texts)


def main():
    given = read_arguments()
    if given.show is not None:
        sys.stdout.buffer.write(script(given.show))
        return 0
    program = given.program or (end_to_end.PROVED if end_to_end.is_current() else None)
    print('random scripts, by', program or 'a build without proof', flush=True)
    scripts = {seed: script(seed) for seed in range(given.first, given.first + given.scripts)}
    watched = {seed: replacements.Watched() for seed in scripts}
    wanted = {seed: gateway_model.play(text, watched[seed]) for seed, text in scripts.items()}
    missing = []
    if list(scripts) == list(range(SCRIPTS)):
        missing = unmet(output for _, output in wanted.values()) + replacements.unmet(watched.values())
    for what in missing:
        print('no script meets:', what)
    seeds = [seed for seed in scripts if program or len(wanted[seed][1]) < MOST_PRINTED]
    if len(seeds) < len(scripts):
        print('left to the proved program: seeds', [seed for seed in scripts if seed not in seeds])
    failed = 0
    for seed, found in zip(seeds, played(program, [scripts[seed] for seed in seeds])):
        if found != wanted[seed]:
            failed += 1
            report(seed, scripts[seed], found, wanted[seed])
    print('%d passed, %d failed' % (len(seeds) - failed, failed))
    return 1 if failed or missing else 0


if __name__ == '__main__':
    sys.exit(main())
