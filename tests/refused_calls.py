#!/usr/bin/env python3
"""refused_calls.py [--all] [--lanes N]

Refuses memory to the calls that take it, one allocation a run, and makes each call that met it again:
tests/refused/ is a program without proof that does this, and looks at what is behind the refusal. A refused
step or act leaves the state the same as a copy from before, and the book without a new row; a refused cut
leaves the book; the same call, made again, answers what it would have answered, as this script finds by what
is printed then.

Each run plays one input, and one allocation of it is refused: `rt try --fail-alloc` refuses that of a fixed
number, and the program first takes and gives back memory so often that it is the one that is wanted. So every
allocation of an input is refused in turn, up to a run whose calls meet no refusal: behind them the program
goes on until one is refused, which tells how many allocations the input makes. A call may withstand a refusal
and tell of none: a table that grows asks for less where more is refused. Then, too, all has to be printed.

The inputs are a script in which each kind of event comes (refused_kinds.py), and random scripts, each for the
steps of a core, for the acts and cuts of a desk with the gathering behind them, and for a run over all events
at once; a few ticks for a ledger; and lines with policy texts, scopes, questions about filters, datagrams and
packets. What is printed has to be what the model says, or what stands beside the line here.

Without --all the steps of the script of each kind, the ledger and the lines are tried as a whole, and of all
else DRAWN allocations, which are drawn from SEED; the gate does this. The last lines say how many allocations
were refused to each call by the kind of its event or of what it was about, and which calls take no memory.
The exit status is 1 where something is wrong, or where an input that was tried as a whole left a call without
a refusal that is not one of FREE.

Each processor builds once, and with --all once more before, to count the allocations of each input; with
--lanes no more than N of them are used. A build takes some three minutes, and each run a second or two, nearly
all of which the start of its process takes: so what an input makes at most is said closely."""
import collections
import os
import random
import re
import shutil
import subprocess
import sys
import tempfile
from concurrent import futures

sys.dont_write_bytecode = True
import calls
import end_to_end
import gateway_model
import random_scripts
import refused_kinds

SOURCES = os.path.join(end_to_end.HERE, 'refused')
NAME = 'refused_calls'
DRAWN, SEED = 100, 1
# The allocation that is refused; the program makes some before it burns any
REFUSED, BEFORE = 4000, 3
# No input makes so many allocations
MOST = 3000
# So many processors are used at most, where the command says no number: each build takes some memory
MOST_LANES = 4
# Random scripts of so many lines, no longer than this, are those of these seeds; the gate takes the first few
LINES, MOST_BYTES, SEEDS, FEW = 24, 12_000, range(5000, 6000), 6
# Letters of the program: steps, compared with a core that the same events led to or with a copy from before;
# acts, a run, a ledger, and calls one by one
STEPS, COPIED_STEPS, ACTS, RUN, LEDGER, ONE_BY_ONE = 's', 'k', 'a', 'r', 'l', 'p'
# By the letter of an input the calls that are made for each of its rows, and the others
BY_ROW = {STEPS: ('Core::step',), COPIED_STEPS: ('Core::step',), ACTS: ('Desk::act',), RUN: (),
          LEDGER: ()}
OTHERS = {STEPS: ('Core::new', 'line_of', 'Stream::feed'), COPIED_STEPS: ('Core::copy', 'Event::copy'),
          ACTS: ('Desk::new', 'Desk::cut', 'gather'), RUN: ('run', 'print_row'),
          LEDGER: ('Ledger::new', 'Ledger::take_piece', 'Ledger::take_volume', 'Ledger::give_out',
                   'Ledger::close')}
NOTHING, WITHSTOOD = 'nothing', 'withstood'
# Memory of the program itself
OWN = ('Vec', 'TopicFilter::read')
# What takes no memory: `gather`, giving rows out of a ledger and its end, steps without outs that keep
# nothing new, an inclusion that holds, and reading and writing what has no text or a short id
FREE = {
    'gather', 'Ledger::give_out', 'Ledger::close', 'cover of what is included',
    *('Core::step of ' + kind for kind in (
        'Down', 'PINGRESP of the broker', 'PUBACK of the broker', 'Replace', 'SUBACK of the broker',
        'Take of nothing', 'UNSUBACK of the broker')),
    *('sng_frames::%s of %s' % (call, kind) for call in ('decode', 'encode') for kind in (
        'CONNACK', 'CONNECT, clean', 'DISCONNECT', 'DISCONNECT with a Duration', 'PINGREQ', 'PINGREQ with an id',
        'PINGRESP', 'PUBACK', 'PUBCOMP', 'PUBREC', 'PUBREL', 'REGACK', 'SUBACK', 'UNSUBACK', 'WILLMSGREQ',
        'WILLMSGRESP', 'WILLTOPICREQ', 'WILLTOPICRESP')),
}

# What the ledger is tried at: a few rows, cut into three volumes
TICKS = b''.join(b'tick %d\n' % (1000 * count) for count in range(1, 8))

# Lines for calls one by one, each with what it prints
POLICIES = (
    ('{"version":1,"clients":{"s1":[["t/1",["pub"]],["a/#",["sub"]]],"s2":"W1siYWIiLFsicHViIl1dXQ"},'
     '"sources":{"10.0.0.7":[["ab",["pub"]]]},"topics":{"1":"a/b","9":"c"}}',
     '{"clients":{"s1":[["t/1",["pub"]],["a/#",["sub"]]],"s2":[["ab",["pub"]]]},'
     '"sources":{"10.0.0.7":[["ab",["pub"]]]},"topics":{"1":"a/b","9":"c"},"version":1}'),
    ('{"version":1,"clients":{"s1":[["a+",["pub"]]]}}', 'BadFilter'),
    ('{"version":1,"topics":{"65535":"a"}}', 'BadTopicId'),
)
SCOPES = (('[["a/+",["sub","sub"]],["b",[]],["c",["sub","pub"]]]', 'a/+ -s b -- c ps '),
          ('[["a",["get"]]]', 'BadPermission'))
INCLUSIONS = (('a/# a a/+ a/+/+/+/#', 'uncovered a/x/x'), ('# +/#', 'included'),
              ('$SYS/# #', 'uncovered $SYS'))
FRAMES = ('08040401003c7331', '0816732d312d3233', '04070061', '030500', '080a000100017431',
          '070b0001000200', '090c2000010002686f', '070d0001000700', '0812200005742f23', '0813200000000500',
          '0814000006742f23', '04150006', '0216', '0217', '0218', '0418003c', '061a10772f31', '031b00',
          '051c6f6666', '031d00', '0206', '0208', '0409616f', '040e0007', '040f0007', '04100007')
# Each message with a text or data once more, with as many octets as take memory, alone and in its frame
LONG = ('t/' + 48 * 'x').encode().hex()
FRAMES += tuple(front + LONG for front in ('380a00010001', '390c2000010002', '3712200005', '3714000006', '351a10',
                                           '341c', '350700', '3409'))
PACKETS = ('100f00044d5154540402003c0003677731', '20020000', '30060003742f3178', '32080003742f31000178',
           '40020001', '820800020003742f2301', '9003000201', 'a20700020003742f23', 'b0020002', 'c000', 'd000',
           'e000')

# What is played: the letter, the input, what is to be printed, the calls of each of its rows, all calls that
# are made, and how many allocations are refused in turn at most
Input = collections.namedtuple('Input', 'letter text printed by_row calls most')
# Which call met a refusal, for which row; how many allocations behind all calls that was; what is wrong
Met = collections.namedtuple('Met', 'call row behind fault')


def pieces(octets):
    """The same octets in two pieces, the second of one byte."""
    return octets[:-2] + ' ' + octets[-2:]


def frame_lines(octets):
    """The line of a datagram, and the calls that it makes."""
    kind = refused_kinds.frame_kind(bytes.fromhex(octets))
    return 'd ' + octets, octets, ['sng_frames::%s of %s' % (name, kind) for name in ('decode', 'encode')]


def packet_lines(octets, given):
    """The line of a packet that is fed as is `given`, and the calls that it makes."""
    packets, _ = gateway_model.Stream().feed(bytes.fromhex(octets))
    kind = refused_kinds.packet_kind(packets[0])
    return 'm ' + given, octets, ['Stream::feed of ' + kind, 'mqtt_frames::encode of ' + kind]


def one_by_one():
    """The lines of the calls that keep nothing."""
    lines = []
    for text, said in POLICIES:
        is_read = said.startswith('{')
        lines.append(('p ' + text, said, ['read_policy of ' + ('a policy' if is_read else said)]
                      + ['write_policy'] * is_read))
    lines += [('s ' + text, said, ['read_scope of ' + (said if said.startswith('Bad') else 'a scope')])
              for text, said in SCOPES]
    lines += [('c ' + text, said, ['cover of what is ' + said.split(' ')[0]]) for text, said in INCLUSIONS]
    lines += [frame_lines(octets) for octets in FRAMES]
    lines += [packet_lines(octets, given) for octets in PACKETS for given in (octets, pieces(octets))]
    text, printed = [''.join(line[place] + '\n' for line in lines).encode() for place in (0, 1)]
    rows = [made for _, _, made in lines]
    return Input(ONE_BY_ONE, text, printed, rows, {call for made in rows for call in made}, 400)


def plays(letter, text, printed, most):
    """A script, played in the way of this letter."""
    rows = [['%s of %s' % (call, kind) for call in BY_ROW[letter]] for kind in refused_kinds.row_kinds(text)]
    made = {*OTHERS[letter], *(call for row in rows for call in row)}
    return Input(letter, text, printed, rows, made, most)


def is_fit(text, printed):
    """Whether a script says nothing but events, and is short enough."""
    return (len(text) <= MOST_BYTES and b'refused ' not in printed and b'line ' not in printed
            and b'\n\n' not in text)


def scripts(most):
    """Random scripts with what the model prints for them, so many at most. Each has a kind of event that none
    before it has; together they have each kind, if they may be so many."""
    missing = set(refused_kinds.row_kinds(refused_kinds.every_kind()))
    found = []
    for seed in SEEDS:
        text = random_scripts.script_of_lines(seed, LINES)
        status, printed = gateway_model.play(text)
        if status == 0 and is_fit(text, printed):
            kinds = set(refused_kinds.row_kinds(text))
            if kinds & missing:
                missing -= kinds
                found.append((text, printed))
        if not missing or len(found) == most:
            break
    return found


def inputs(most_scripts):
    """The inputs by their names: those that the gate tries as a whole, and the others."""
    each = refused_kinds.every_kind()
    printed = gateway_model.play(each)[1]
    whole = {'steps of each kind': plays(STEPS, each, printed, 900), 'calls': one_by_one(),
             'a ledger': plays(LEDGER, TICKS, gateway_model.play(TICKS)[1], 50)}
    drawn = {'acts of each kind': plays(ACTS, each, printed, 1250),
             'a run of each kind': plays(RUN, each, printed, 1250)}
    for place, (text, printed) in enumerate(scripts(most_scripts), 1):
        drawn['steps %d' % place] = plays(STEPS, text, printed, 350)
        if place <= FEW:
            drawn['acts %d' % place] = plays(ACTS, text, printed, 500)
        if place <= FEW // 2:
            drawn['steps with copies %d' % place] = plays(COPIED_STEPS, text, printed, 900)
    return whole, drawn


def lay(room):
    """The program's crate beside a copy of the code."""
    for source in os.listdir(os.path.join(end_to_end.ROOT, 'crates')):
        path = os.path.join('crates', source, 'src')
        shutil.copytree(os.path.join(end_to_end.ROOT, path), os.path.join(room, path))
    shutil.copy(os.path.join(end_to_end.ROOT, 'HANDLES'), room)
    crate = os.path.join(room, 'crates', NAME)
    os.makedirs(os.path.join(crate, 'src'))
    texts = []
    for name in os.listdir(SOURCES):
        shutil.copy(os.path.join(SOURCES, name), os.path.join(crate, 'src', name[:-len('.in')]))
        texts.append(end_to_end.read(os.path.join(SOURCES, name)).decode())
    with open(os.path.join(end_to_end.ROOT, 'crates.txt')) as file:
        crates = file.read()
    with open(os.path.join(room, 'crates.txt'), 'w') as file:
        file.write('%s%s: %s\n' % (crates, NAME, ' '.join(calls.libraries(texts, crates))))
    subprocess.run(['git', 'init', '-q', room], check=True)
    return crate


def run_some(numbered):
    """By its number what is printed for each of these cases: each is an input, and the place of the allocation
    of it that is refused."""
    with tempfile.TemporaryDirectory() as room, tempfile.TemporaryDirectory() as folder:
        for number, (one, place) in numbered:
            path = os.path.join(folder, 'c%06d' % number)
            with open(path, 'wb') as file:
                file.write(one.text)
            with open(path + '.args', 'w') as file:
                file.write('%d\n%s\n' % (REFUSED - BEFORE - place, one.letter))
        words = ['rt', 'try', '--steps', '1', '--fail-alloc', str(REFUSED), '--cases', folder]
        done = subprocess.run(words, cwd=lay(room), stdin=subprocess.DEVNULL, stdout=subprocess.PIPE,
                              stderr=subprocess.PIPE)
    if not re.search(rb'^case=', done.stderr, re.M):
        raise SystemExit('the cases were not run\n' + done.stderr.decode(errors='replace')[-3000:])
    parts = re.split(rb'^== c(\d+)\n', done.stdout, flags=re.M)[1:]
    return dict(zip(map(int, parts[::2]), parts[1::2]))


def lanes_to_use():
    """How many processors are used."""
    most = int(sys.argv[sys.argv.index('--lanes') + 1]) if '--lanes' in sys.argv else MOST_LANES
    return min(len(os.sched_getaffinity(0)), most)


def run_all(cases):
    """What is printed for each case, in order, where each processor builds once and runs its share of them."""
    lanes = lanes_to_use()
    numbered = list(enumerate(cases))
    shares = [numbered[lane::lanes] for lane in range(min(lanes, len(cases)))]
    printed = {}
    with futures.ThreadPoolExecutor(lanes) as pool:
        for share in pool.map(run_some, shares):
            printed.update(share)
    return [printed.get(number, b'') for number in range(len(cases))]


def judge(one, place, printed):
    """What a run met."""
    text, _, met = printed.rpartition(b'met ')
    said = re.fullmatch(r'(\S+) (\d+) (\d+)(?: wrong (.*))?\n', met.decode(errors='replace'))
    if not said:
        return Met(NOTHING, 0, 0, 'no end: %r' % printed[-200:])
    call, row, behind, wrong = said[1], int(said[2]), int(said[3]), said[4]
    if not wrong and text != one.printed:
        wrong = 'line %d is %.200r, and not %.200r' % random_scripts.difference(text, one.printed)
    if call == NOTHING and not behind:
        call = WITHSTOOD
    if row:
        call = next((name for name in one.by_row[row - 1] if name.split(' of ')[0] == call), call)
    return Met(call, row, behind, wrong and '%s at row %d: %s' % (call, row, wrong))


def all_places(given):
    """Each allocation of these inputs that is to be refused, up to one behind their last."""
    return [(name, place) for name, one in given.items() for place in range(1, one.most + 1)]


def drawn_places(whole, drawn):
    """Those of the gate."""
    return all_places(whole) + random.Random(SEED).sample(all_places(drawn), DRAWN)


def tried(given, places):
    """What the run of each of these places met."""
    printed = run_all([(given[name], place) for name, place in places])
    return [judge(given[name], place, text) for (name, place), text in zip(places, printed)]


def counted(given):
    """The inputs, each with one refusal more than it makes allocations, by runs whose calls meet none."""
    places = [(name, MOST) for name in given]
    found = tried(given, places)
    faults = list(faults_of(places, found))
    if faults:
        raise SystemExit('\n'.join(faults))
    return {name: given[name]._replace(most=MOST - met.behind + 1) for (name, _), met in zip(places, found)}


def unknown_kinds(given):
    """Kinds of events of random scripts that the script of each kind lacks."""
    known = set(refused_kinds.row_kinds(refused_kinds.every_kind()))
    for one in given.values():
        for call in one.calls:
            name, _, kind = call.partition(' of ')
            if name in ('Core::step', 'Desk::act') and kind not in known:
                yield 'a kind of event that refused_kinds.py does not say: ' + kind


def faults_of(places, found):
    for (name, place), met in zip(places, found):
        if met.fault:
            yield '%s, allocation %d: %s' % (name, place, met.fault)


def withstood(places, found):
    """By which call each refusal was withstood that none told of: as those of the allocations before it and
    behind it say, where these were refused, too."""
    met = dict(zip(places, found))
    for name, place in places:
        if met[name, place].call == WITHSTOOD:
            before = next((met[name, other].call for other in range(place, 0, -1)
                           if met.get((name, other)) and met[name, other].call != WITHSTOOD), NOTHING)
            behind = next((met[name, other].call for other in range(place, MOST)
                           if met.get((name, other)) and met[name, other].call != WITHSTOOD), NOTHING)
            yield before if before == behind else 'between %s and %s' % (before, behind)


def cut_short(given, places, found):
    """The inputs that were to be tried as a whole, and are not: their last run met a refusal, too."""
    met = dict(zip(places, found))
    return ['%s makes more than %d allocations' % (name, one.most) for name, one in given.items()
            if met[name, one.most].call != NOTHING]


def report(refused, wanted):
    """Prints how often memory was refused to each call, and answers what is wrong with that: `wanted` are
    the calls of the inputs that were tried as a whole."""
    for call, times in sorted(refused.items()):
        print('%s: %d' % (call, times))
    for call in sorted(wanted & FREE):
        print('%s: takes no memory' % call)
    return (['no refusal: ' + call for call in sorted(wanted - FREE) if not refused[call]]
            + ['takes memory: ' + call for call in sorted(FREE) if refused[call]])


def main():
    is_all = '--all' in sys.argv[1:]
    whole, drawn = inputs(len(SEEDS) if is_all else FEW)
    if is_all:
        whole, drawn = counted({**whole, **drawn}), {}
    given = {**whole, **drawn}
    places = all_places(whole) if is_all else drawn_places(whole, drawn)
    found = tried(given, places)
    refused = collections.Counter(met.call for met in found if met.call not in (NOTHING, WITHSTOOD, *OWN))
    for call, times in sorted(collections.Counter(withstood(places, found)).items()):
        print('withstood, %s: %d' % (call, times))
    faults = [*faults_of(places, found), *cut_short(whole, places, found), *unknown_kinds(given),
              *report(refused, {call for one in whole.values() for call in one.calls})]
    for fault in faults:
        print(fault)
    print('%d allocations refused in %d runs over %d inputs'
          % (sum(refused.values()), len(places), len(given)))
    print('%d passed, %d failed' % (len(places), len(faults)))
    return 1 if faults or not refused else 0


if __name__ == '__main__':
    sys.exit(main())
