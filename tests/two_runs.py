#!/usr/bin/env python3
"""two_runs.py [--pairs N] [--first SEED] [--model]

Tries to break the promise that clients are apart (docs/promise.md): two runs that look the same to a client
leave the same trace of it, whatever other clients send.

Each seed makes a script with random_scripts.py, and for each of its clients a second one that looks the same
to that client: all datagrams of others are left out, doubled, mixed with new ones or drawn anew, and what each
policy says of others is drawn anew. Both are played by the model of gateway_model.py. For each pair it is
found which premises hold of its rows. Where those of the law do, the traces have to agree; and behind each
line that both have, so has all that is kept of the client, what the policy says to it, the clock, the
connection and its publishes that wait, and behind each datagram of others all of these have to be as they
were. So each step of the proof is tried, and not just its end.

Then come pairs that break one premise each, by hand and at random, and how many of their traces differ: where
none does, the premise would not be needed.

`two_runs` of sng_two_runs is called with the first CALLED pairs and with each that breaks one premise, by a
program (two_runs.rt.in) that `rt try` builds: it has to answer true just where the traces of the model agree.
With --model it is not called.

The exit status is 1 where the law is broken, where fewer of the pairs than WANTED meet its premises, where a
premise is not needed, or where the call says something else of a pair than the model.
"""
import argparse
import collections
import copy
import glob
import json
import os
import random
import shutil
import subprocess
import sys
import tempfile

sys.dont_write_bytecode = True
import calls
import gateway_model
import random_scripts
from gateway_model import Publish, shown

# How many pairs are tried, for how many of a hundred the premises have to hold, and how many are tried in which
# they mostly do not
PAIRS, WANTED, BREAKING = 1500, 90, 600
# For how many of the pairs the call is made, too: it takes half a second for each, most of it to read policies
CALLED = 300
MOST_SHOWN = 400
# The notes by which a client is told that a place is full that all clients share
SHARED = ('22 Full Clients', '22 Full InFlight', '22 Full Outbox')
# The places where a client of a script may come from, apart from those of all others, and those of strangers
HOMES = {client: ['10.0.1.%d:4000' % (place + 1), '10.0.1.%d:4001' % (place + 1)]
         for place, client in enumerate(random_scripts.CLIENTS)}
STRANGERS = ['10.0.0.7:4000', '10.0.0.8:4000', '10.0.1.1:4999']


# Scripts in which each client has addresses of its own


def frame_of(line):
    """The frame of a line with a datagram, or none."""
    words = line.split(' ')
    if words[0] != 'from' or len(words) != 3:
        return None
    try:
        return gateway_model.read_frame(b'' if words[2] == '-' else bytes.fromhex(words[2]))
    except (gateway_model.Denied, ValueError):
        return None


def connects(line):
    """The client that the datagram of a line is a CONNECT of, or none."""
    frame = frame_of(line)
    return frame.client if frame and frame.message == 'connect' else None


class Apart(random_scripts.World):
    """A World in which a CONNECT comes from where just its client does."""

    def __init__(self, seed, share_of_strays=0.0, may_refuse=False):
        super().__init__(seed)
        self.share_of_strays, self.may_refuse = share_of_strays, may_refuse
        self.addresses = [address for client in self.clients for address in HOMES[client]][:6] + STRANGERS[:2]
        self.random.shuffle(self.addresses)

    def datagram(self, octets, address=None):
        line = super().datagram(octets, address)
        client = connects(line)
        if client is None or self.chance(self.share_of_strays):
            return line
        homes = HOMES.get(client.decode(), STRANGERS)
        return line if line.split(' ')[1] in homes else super().datagram(octets, self.one(homes))

    def suback(self, packet_id):
        line = super().suback(packet_id)
        while not self.may_refuse and line[line.index(packet_id.to_bytes(2, 'big')) + 2] == 0x80:
            line = super().suback(packet_id)
        return line


def script(world):
    kinds = random_scripts.LONG
    place = world.among(0, 40 * len(kinds))
    if place < len(kinds) and kinds[place].__name__ not in ('many_clients', 'many_packet_ids'):
        kinds[place](world)
    else:
        random_scripts.mixed(world)
    return [line for line in world.lines if line not in random_scripts.UNREADABLE]


# What a client sees of a script


def own_of(client, *scripts):
    """The addresses from which a CONNECT of the client comes."""
    return {line.split(' ')[1] for lines in scripts for line in lines if connects(line) == client}


def is_hidden(line, own):
    """It is a datagram from elsewhere."""
    return line.startswith('from ') and line.split(' ')[1] not in own


class Other:
    """Another script that looks the same to a client: how it is made of the lines of the first."""

    def __init__(self, world, client, lines):
        self.random, self.client, self.lines = world.random, client, lines
        self.own = own_of(client, lines)
        self.way = world.one(('none', 'doubled', 'anew', 'anew', 'anew', 'mixed', 'mixed', 'same'))
        # A world in which others do something else, beside the same client
        self.guide = Apart(world.among(0, 2 ** 32))
        self.guide.clients, self.guide.names = world.clients, world.names
        self.guide.filters, self.guide.addresses = world.filters, world.addresses
        self.guide.is_generous = world.is_generous or world.chance(0.3)
        self.keeps_policies = world.chance(0.2)

    def made(self):
        return [line for old in self.lines for line in self.instead(old)]

    def instead(self, line):
        """What stands in the place of a line."""
        if not is_hidden(line, self.own):
            kept = self.policy(line) if line.startswith('policy ') else line
            self.guide.lines.append(kept)
            return self.drawn(0.5) + [kept] if self.way in ('anew', 'mixed') else [kept]
        if self.way == 'none' or self.way == 'anew':
            return []
        if self.way == 'doubled':
            return [line, line]
        return [line] + (self.drawn(0.3) if self.way == 'mixed' else [])

    def drawn(self, chance):
        """New datagrams of others, that fit what the lines before led to."""
        lines = []
        while self.random.random() < chance:
            place = len(self.guide.lines)
            self.guide.go_on(1)
            new = [line for line in self.guide.lines[place:]
                   if is_hidden(line, self.own) and connects(line) != self.client]
            # What the guide's own gateway has played stays played; it is but a guide
            del self.guide.lines[place:]
            self.guide.lines += new
            self.guide.played = min(self.guide.played, len(self.guide.lines))
            lines += new
        return lines

    def policy(self, line):
        """The policy with other grants to others."""
        text = line[len('policy '):]
        try:
            gateway_model.read_policy(text.encode())
        except gateway_model.Denied:
            return line
        if self.keeps_policies:
            return line
        whole, mine = json.loads(text), self.client.decode()
        clients = {name: self.ending(self.guide.scope(name)) for name in self.guide.clients
                   if name != mine and self.random.random() < 0.8}
        sources = {ip: self.ending(self.guide.scope(ip))
                   for ip in sorted({address.split(':')[0] for address in self.guide.addresses})
                   if self.random.random() < 0.7}
        if mine in whole.get('clients', {}):
            clients[mine] = whole['clients'][mine]
        scopes = list(clients.values()) + list(sources.values())
        version = 2 if any(isinstance(scope, dict) for scope in scopes) else 1
        return 'policy ' + json.dumps({'version': version, 'clients': clients, 'sources': sources,
                                       'topics': whole.get('topics', {})})

    def ending(self, scope):
        """The scope, which ends at times."""
        if self.random.random() < 0.7:
            return scope
        clock = self.guide.gateway.clock
        end = clock + self.random.choice((0, 1, 1000, 10_000, 60_000))
        return {'scope': scope, 'exp': min(end, gateway_model.MOST_CLOCK)}


# Played, with all that a law speaks of


class Told(gateway_model.Gateway):
    """The model, which also keeps its outs as values, and the packets of the broker."""

    def __init__(self):
        super().__init__()
        self.outs, self.packets = [], []

    def note(self, kind, who, about, outcome):
        self.outs.append(('note', kind, who, about, outcome))

    def send(self, address, octets):
        self.outs.append(('send', address.decode(), octets))

    def wire(self, octets):
        pass

    def row(self, kind):
        pass

    def broker_suback(self, packet):
        self.packets.append(packet)
        super().broker_suback(packet)


def kept_of(client, gateway):
    """All that is kept of a client, apart from what it shares with others: what two runs have to agree in."""
    scope = gateway.policy.clients.get(client)
    if scope is not None and scope.has_ended(gateway.clock):
        scope = None
    entry = gateway.clients.get(client)
    publishes = [item for item in gateway.outbox
                 if isinstance(item, Publish) and not item.of_source and item.who == client]
    return (copy.deepcopy(entry), list(entry.subscriptions.items()) if entry else None,
            copy.deepcopy(scope), dict(gateway.policy.topics), gateway.clock, gateway.is_up, publishes)


class Run:
    """A script that was played: the trace of a client, what was kept of it behind each line, and what of the
    premises broke. `foreign` are the datagrams from elsewhere that the client could tell, and `strays` the
    CONNECTs of others from its addresses."""

    def __init__(self, client, own, lines):
        self.client, self.own = client, own
        self.trace, self.kept, self.notes, self.refusals = [], [], [], 0
        self.foreign, self.strays = [], []
        gateway = Told()
        for line in lines:
            before = None
            if is_hidden(line, own):
                before = kept_of(client, gateway)
            elif connects(line) not in (None, client):
                self.strays.append(line)
            try:
                if line:
                    gateway_model.play_line(gateway, line.encode())
            except ValueError:
                break
            self.take(line, gateway, before)
        self.refusals = sum(packet.code == gateway_model.REFUSED for packet in gateway.packets)

    def take(self, line, gateway, before):
        outs, gateway.outs = gateway.outs, []
        gateway.printed.clear()
        mine = [out for out in outs if self.is_mine(out)]
        self.trace += mine
        self.notes += [out for out in outs if out[0] == 'note']
        now = kept_of(self.client, gateway)
        if before is None:
            self.kept.append((line, now))
        elif mine or now != before:
            self.foreign.append((line, mine, before, now))
        for other in gateway.clients.values():
            if other.name != self.client and other.address and other.address.decode() in self.own:
                self.strays.append('%s is at %s' % (shown(other.name), other.address.decode()))

    def is_mine(self, out):
        if out[0] == 'send':
            return out[1] in self.own
        return out[2] == self.client and out[1] != 'again'

    @property
    def is_free(self):
        """No note 21 to 23 of anybody."""
        return not any(out[4].split(' ')[0] in ('21', '22', '23') for out in self.notes)

    @property
    def has_room(self):
        """The client was not told that a place is full that all share."""
        return not any(out[2] == self.client and out[4] in SHARED for out in self.notes)


def premises(first, second):
    """Which premises do not hold."""
    broken = set()
    if not (first.has_room and second.has_room):
        broken.add('room')
    if not (first.is_free and second.is_free):
        broken.add('free')
    if first.refusals or second.refusals:
        broken.add('refusals')
    if first.strays or second.strays:
        broken.add('strays')
    return broken


def faults(first, second):
    """What is not as the law, and the relation under it, says, where its premises hold."""
    found = []
    if first.trace != second.trace:
        found.append('the traces differ: %s' % difference(first.trace, second.trace))
    for line, mine, before, now in first.foreign + second.foreign:
        found.append('%s is not hidden: %s %s' % (line[:80], mine, changed(before, now)))
    for (line, one), (_, other) in zip(first.kept, second.kept):
        if one != other:
            found.append('behind %s: %s' % (line[:80], changed(one, other)))
            break
    if len(first.kept) != len(second.kept):
        found.append('the views differ')
    return found


def difference(one, other):
    for place in range(max(len(one), len(other))):
        a, b = [trace[place] if place < len(trace) else None for trace in (one, other)]
        if a != b:
            return '%d: %s, %s' % (place, a, b)
    return 'nothing'


def changed(one, other):
    return [(a, b) for a, b in zip(one, other) if a != b]


def pairs_of(seed, **how):
    """For each client of the script of a seed two runs that look the same to it."""
    world = Apart(seed, **how)
    lines = script(world)
    for client in [name.encode() for name in world.clients]:
        yield client, lines, Other(world, client, lines).made()


def runs_of(client, one, other):
    own = own_of(client, one, other)
    return Run(client, own, one), Run(client, own, other)


# Pairs that break one premise each, by hand

HERE, THERE = '10.0.0.9:4000', '10.0.0.9:4001'
GRANTS = {'version': 1, 'clients': {
    's1': [['t/1', ['pub']], ['#', ['sub']]], 's2': [['#', ['pub', 'sub']]]}, 'topics': {'1': 't/1'}}
BEGIN = ['policy ' + json.dumps(GRANTS), 'up']


def sent(address, kind, *parts):
    return 'from %s %s' % (address, random_scripts.frame(kind, *parts).hex())


def connect(address, client):
    return sent(address, 4, b'\4\1\0\0', client)


def publish(address, qos):
    """Under the predefined id 1, or under the short name ab where that is another client's."""
    topic = b'\1\0\1' if address == HERE else b'\2ab'
    return sent(address, 0x0c, bytes([qos << 5 | topic[0]]) + topic[1:] + b'\0\7', b'x')


def subscribe(address, text):
    return sent(address, 0x12, b'\x20\0\3', text)


def listing(count):
    """A policy of so many other clients."""
    return 'policy ' + json.dumps({'version': 1, 'clients': {'c%d' % it: [] for it in range(count)}})


def by_hand():
    """A premise, and two runs of s1 that break just that one and differ."""
    mine, other = connect(HERE, b's1'), connect(THERE, b's2')
    begin = BEGIN + [mine]
    yield 'room', begin + [publish(HERE, 0)], begin + [other] + [publish(THERE, 0)] * 512 + [publish(HERE, 0)]
    yield 'room', begin + [publish(HERE, 1)], begin + [other] + [publish(THERE, 1)] * 128 + [publish(HERE, 1)]
    yield 'room', begin + [subscribe(HERE, b'a')], (
        begin + [other] + [publish(THERE, 0)] * 512 + [subscribe(HERE, b'a')])
    crowd = [connect('10.0.1.1:%d' % (5000 + it), b'c%d' % it) for it in range(256)]
    yield 'room', [listing(256)] + begin, [listing(256)] + crowd + begin
    refusal = 'broker 9003000180'
    yield 'refusals', begin + [subscribe(HERE, b'a/#'), 'take', refusal], (
        begin + [other, subscribe(THERE, b'b/#'), subscribe(HERE, b'a/#'), 'take', refusal])
    yield 'strays', begin + [sent(HERE, 0x16)], begin + [connect(HERE, b's2'), sent(HERE, 0x16)]
    wills = [sent(HERE, 4, b'\x0c\1\0\1', b's1'), sent(HERE, 7, b'\0t/1'), sent(HERE, 9, b'gone')]
    yield 'room', BEGIN + wills + ['tick 1500'], (
        BEGIN + [other] + wills + [publish(THERE, 0)] * 512 + ['tick 1500'])


def again_differs():
    """Why the notes of publishes that are sent again are no part of a trace: the packet ids that the broker
    acknowledges are shared. Answers the notes of s1 that two runs do not share."""
    begin = BEGIN + [connect(HERE, b's1')]
    end = [publish(HERE, 1), 'take', 'broker 40020001', 'down', 'up']
    one, other = [gateway_model.play('\n'.join(lines).encode())[1].decode().split('\n')
                  for lines in (begin + end, begin + [connect(THERE, b's2'), publish(THERE, 1)] + end)]
    return [line for line in other if line.startswith('note again s1') and line not in one]


# The call


class Called:
    """The pairs for which the call is made, each with whether its traces agree in the model; and the program
    that makes it, while the model goes on."""

    PROGRAM, SECONDS = 'two_runs', '900'

    def __init__(self, is_wanted):
        self.is_wanted, self.pairs = is_wanted, []
        self.room, self.tried = tempfile.TemporaryDirectory(), None

    def add(self, client, one, other, run, second):
        if not self.tried:
            self.pairs.append((client, one, other, run.trace == second.trace))

    def begin(self):
        """Makes the call for the pairs so far, where that is wanted, and takes no more of them."""
        if self.tried or not self.is_wanted:
            return
        lines = []
        for client, one, other, _ in self.pairs:
            lines += ['pair ' + client.decode(), *one, 'beside', *other, 'end']
        with open(os.path.join(self.room.name, 'pairs'), 'w+') as file:
            file.write('\n'.join(lines) + '\n')
            file.seek(0)
            self.tried = subprocess.Popen(
                ['rt', 'try', '--steps', '1', '--seconds', self.SECONDS], cwd=self.lay(), stdin=file, text=True,
                stdout=subprocess.PIPE, stderr=subprocess.PIPE)

    def lay(self):
        """The program's crate beside a copy of the code."""
        for source in glob.glob(os.path.join(calls.ROOT, 'crates', '*', 'src')):
            shutil.copytree(source, os.path.join(self.room.name, os.path.relpath(source, calls.ROOT)))
        shutil.copy(os.path.join(calls.ROOT, 'HANDLES'), self.room.name)
        crate = os.path.join(self.room.name, 'crates', self.PROGRAM)
        os.makedirs(os.path.join(crate, 'src'))
        text = os.path.join(calls.HERE, self.PROGRAM + calls.ENDING)
        shutil.copy(text, os.path.join(crate, 'src', 'main.rt'))
        with open(os.path.join(calls.ROOT, 'crates.txt')) as file, open(text) as main:
            crates = file.read()
            needed = calls.libraries([main.read()], crates)
        with open(os.path.join(self.room.name, 'crates.txt'), 'w') as file:
            file.write('%s\n%s: %s\n' % (crates, self.PROGRAM, ' '.join(needed)))
        subprocess.run(['git', 'init', '-q', self.room.name], check=True)
        return crate

    def answers(self):
        """What the call answers for each pair."""
        printed, said = self.tried.communicate()
        answers = printed.split('\n')[:-1]
        if len(answers) != len(self.pairs):
            raise SystemExit('the call was made for %d of %d pairs\n%s' % (
                len(answers), len(self.pairs), said[-3000:]))
        return answers

    def judge(self):
        """How many answers are not what the model says."""
        self.begin()
        if not self.tried:
            return 0
        wrong = 0
        for (client, one, other, agree), answer in zip(self.pairs, self.answers()):
            if answer != str(agree).lower():
                wrong += 1
                report('of a pair of the call', client, one, other, ['the call says ' + answer])
        print('%7d pairs of the call, of which %d differ; %d answers are wrong' % (
            len(self.pairs), sum(not agree for _, _, _, agree in self.pairs), wrong))
        return wrong


# Tried


def report(seed, client, one, other, found):
    print('seed %s, client %s: %s' % (seed, shown(client), found[0]))
    for name, lines in (('one', one), ('other', other)):
        print('-- %s\n%s' % (name, '\n'.join(line[:200] for line in lines[:MOST_SHOWN])))


def tried(pairs, first, called):
    """Tries so many pairs: counts of what they met, and how many broke the law."""
    counts, failed, seed = collections.Counter(), 0, first
    while counts['pairs'] < pairs:
        for client, one, other in pairs_of(seed):
            run, second = runs_of(client, one, other)
            called.add(client, one, other, run, second)
            broken = premises(run, second)
            counts['pairs'] += 1
            if counts['pairs'] == CALLED:
                called.begin()
            counts['meet the premises'] += not broken - {'free'}
            counts['meet them, and nobody is told that a place is full'] += not broken
            if broken - {'free'}:
                continue
            counts['outs in traces'] += len(run.trace)
            counts['traces without any'] += not run.trace
            counts['datagrams of others'] += len(one) + len(other) - 2 * len(run.kept)
            found = faults(run, second)
            if found:
                failed += 1
                report(seed, client, one, other, found)
        seed += 1
    return counts, failed


def broken_pairs(pairs, first, called):
    """How many pairs break one premise alone, by hand and at random, and in how many of these traces differ."""
    counts = collections.Counter()
    cases = [(b's1', one, other) for _, one, other in by_hand()]
    for seed in range(first, first + pairs):
        cases += pairs_of(seed, share_of_strays=0.2, may_refuse=True)
    for client, one, other in cases:
        run, second = runs_of(client, one, other)
        broken = premises(run, second) - {'free'}
        if len(broken) == 1:
            called.add(client, one, other, run, second)
            what = broken.pop()
            counts[what] += 1
            counts[what, 'differ'] += run.trace != second.trace
    return counts


def main():
    reader = argparse.ArgumentParser(description='Tries to break the promise that clients are apart.')
    reader.add_argument('--pairs', type=int, default=PAIRS)
    reader.add_argument('--first', type=int, default=0)
    reader.add_argument('--model', action='store_true', help='without the call')
    given = reader.parse_args()
    called = Called(not given.model)
    breaks = broken_pairs(given.pairs * BREAKING // PAIRS // 4, given.first, called)
    counts, failed = tried(given.pairs, given.first, called)
    for what, many in sorted(counts.items()):
        print('%7d %s' % (many, what))
    tame = counts['meet the premises'] * 100 < WANTED * counts['pairs']
    if tame:
        print('too few pairs meet the premises')
    for what, one, other in by_hand():
        run, second = runs_of(b's1', one, other)
        if premises(run, second) - {'free'} != {what} or run.trace == second.trace:
            failed += 1
            print('a pair does not break just %s, or its traces agree' % what)
    for what in ('room', 'refusals', 'strays'):
        print('%7d break no premise but %s; the traces of %d differ' % (
            breaks[what], what, breaks[what, 'differ']))
        tame |= not breaks[what, 'differ']
    print('%7d notes of publishes that are sent again differ in two runs' % len(again_differs()))
    failed += called.judge()
    print('%d failed' % failed)
    return 1 if failed or tame or not again_differs() else 0


if __name__ == '__main__':
    sys.exit(main())
