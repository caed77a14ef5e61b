#!/usr/bin/env python3
"""hostile_input.py [SNG]

Plays hostile datagrams and packets, one behind the other, and compares all that is printed with what the
model in gateway_model.py says. What plays them is SNG, or else the proved program or a build without proof,
as in random_scripts.py.

Datagrams: of every length from 2 to 12 octets, with a right Length of one octet, and each MsgType; the other
octets are all 00, all FF, and all 42, which is a PUBLISH at QoS 2 that is allowed. Each comes from each of
PLACES: from a client in each of the four states with a session, and from one with a publish at QoS 2 that
waits for PUBREL; from where one left or was lost, and from where none ever was. Behind each a PINGREQ shows
where that left the client.

Packets: every first byte, with Remaining Lengths of one to four bytes at their edges, with lengths that are
spelled too long, and at the longest packet that is taken; whole, and cut at each place (of a long body:
within its front and before its end); and a packet of each kind that MQTT 3.1.1 has, cut at each place, and
byte by byte. Each begins over a connection of its own.

The last lines say how many inputs were tried; the exit status is 1 where a script is answered otherwise."""
import itertools
import sys

sys.dont_write_bytecode = True
import end_to_end
import gateway_model
import random_scripts
from gateway_model import ACTIVE, ASLEEP, AWAKE, DIALOGUE, remaining_length

# As the octets of a PUBLISH the last of these is QoS 2, the short name `BB` and the MsgId 0x4242
LENGTHS, FILLINGS = range(2, 13), (0x00, 0xff, 0x42)
AT, ELSEWHERE = '10.0.0.9:4000', '10.0.0.9:4001'
BEGIN = ('policy {"version":1,"clients":{"s1":[["t/#",["pub","sub"]],["BB",["pub"]]]},'
         '"sources":{"10.0.0.9":[["#",["pub"]]]},"topics":{"1":"t/1"}}', 'up')
PING = '0216'
# What a client says: CONNECT, with a will, with a Duration of 1 s, SUBSCRIBE t/#, DISCONNECT, with a Duration
CONNECT, STATES_A_WILL, CONNECT_FOR_A_SECOND = '08040401003c7331', '08040c01003c7331', '0804040100017331'
SUBSCRIBE, DISCONNECT, SLEEP, WAKE = '0812200002742f23', '0218', '0418003c', '04167331'
MESSAGE = '32080003742f31000178'
# Without a clean session, so that what is open stays so, and a publish at QoS 2
CONNECT_AGAIN, PUBLISH_ONCE = '08040001003c7331', '090c42424242426869'
# The state of a client that is active, with a publish at QoS 2 that waits for PUBREL
OPEN = 'open'
# A client that was granted a second is lost after one and a half
SILENCE = 1500

# The edges of Remaining Length by the number of its bytes (MQTT 3.1.1, 2.2.3)
SHORT, MIDDLE = (0, 1, 127, 128), (16_383, 16_384)
LONG = (2_097_151, 2_097_152, 268_435_455)
LONGEST = 70_000 - 4
# Spellings of four bytes that say 0 and 2, and of five
SPARE = ('80808000', '82808000')
TOO_MANY_BYTES = ('8080808000', '8080808001', 'ffffffff', 'ffffffffff', 'ffffffff7f')
# Bodies that are cut at each place, beside those of SHORT
CUT = (2, 3, 4, 5, 8, 13)
# First bytes of the kinds that are read or refused by name; all others are malformed at once
NAMED = sorted({*gateway_model.PACKETS, *gateway_model.OF_QOS_2})
# A packet of each kind
SAMPLES = ('100f00044d5154540402003c0003677731', '20020000', '30060003742f3178', '32080003742f31000178',
           '40020001', '820800020003742f2301', '9003000201', 'a20700020003742f23', 'b0020002', 'c000', 'd000',
           'e000', '35080003742f31000178', '50020001', '62020001', '70020001')


def says(octets, address=AT):
    return 'from %s %s' % (address, octets)


def active(_):
    return [says(CONNECT)]


def with_an_open_id(_):
    """It is opened in the first turn, and again where PUBREL closed it; else the publish is a repeat."""
    return [says(CONNECT_AGAIN), says(PUBLISH_ONCE)]


def in_a_dialogue(_):
    return [says(STATES_A_WILL)]


def asleep(_):
    return [says(CONNECT), says(SLEEP)]


def awake(_):
    """It wakes up to a message, which it does not answer."""
    return [says(CONNECT), says(SUBSCRIBE), 'take', says(SLEEP), 'broker ' + MESSAGE, says(WAKE)]


def left(_):
    return [says(CONNECT), says(DISCONNECT)]


def lost(turn):
    return [says(CONNECT_FOR_A_SECOND), 'tick %d' % (turn * SILENCE), 'take']


def nobody(_):
    """The only client is elsewhere."""
    return [says(CONNECT, ELSEWHERE)]


# What leads to where a datagram comes from, and the state of the client that is there then
PLACES = ((active, ACTIVE), (with_an_open_id, OPEN), (in_a_dialogue, DIALOGUE), (asleep, ASLEEP), (awake, AWAKE), (left, None),
          (lost, None), (nobody, None))


class Script:
    """Lines, with what the model prints for them, and how many inputs are among them."""

    def __init__(self, name):
        self.name, self.lines, self.shown, self.inputs = name, [], [], 0
        self.gateway = gateway_model.Gateway()
        self.say(BEGIN)

    def say(self, lines):
        self.lines += lines
        gateway_model.play('\n'.join(lines).encode(), self.gateway)
        # what was printed is joined in each play
        self.shown += self.gateway.printed
        self.gateway.printed.clear()

    def state(self):
        """The state of the client at the address that hostile datagrams come from."""
        client = self.gateway.client_at(AT.encode())
        return OPEN if client and client.open else client.state if client else None

    def text(self):
        return '\n'.join(self.lines + ['']).encode()

    def printed(self):
        return ''.join(line + '\n' for line in self.shown).encode()


def datagrams(place, state, length, filling):
    """A datagram of each MsgType from this place."""
    script = Script('datagrams of %d octets with %02x, %s' % (length, filling, place.__name__))
    for kind in range(256):
        script.say(place(kind + 1))
        if script.state() != state:
            raise SystemExit('%s: the client is %s before MsgType %02x' % (script.name, script.state(), kind))
        script.say([says(bytes([length, kind, *[filling] * (length - 2)]).hex()), says(PING)])
        script.inputs += 1
    return script


def all_datagrams():
    for (place, state), length, filling in itertools.product(PLACES, LENGTHS, FILLINGS):
        if length > 2 or filling == FILLINGS[0]:
            yield datagrams(place, state, length, filling)


def packet(first, length, filling):
    """A packet in hexadecimal."""
    return bytes([first]).hex() + remaining_length(length).hex() + '%02x' % filling * length


def cut(hexadecimal, places):
    """The packet in two pieces, for each of these places."""
    for place in places:
        yield [hexadecimal[:2 * place], hexadecimal[2 * place:]]


def each_place(hexadecimal):
    return cut(hexadecimal, range(1, len(hexadecimal) // 2))


def ends(hexadecimal):
    """Places within the front of a long packet, behind it, and before its end."""
    size = len(hexadecimal) // 2
    return cut(hexadecimal, (*range(1, 7), size - 2, size - 1))


def whole_packets():
    """Every first byte with each edge: by the name of a script the pieces of each input."""
    for length, filling in itertools.product(SHORT, FILLINGS):
        yield ('packets of %d bytes with %02x' % (length, filling),
               ([packet(first, length, filling)] for first in range(256)))
    for length in MIDDLE:
        yield 'packets of %d bytes' % length, ([packet(first, length, 0)] for first in range(256))
    for length in LONG:
        yield ('packets that say %d bytes' % length,
               ([bytes([first]).hex() + remaining_length(length).hex() + '00'] for first in range(256)))
    for length in (LONGEST, LONGEST + 1):
        yield 'packets of %d bytes' % length, ([packet(first, length, 0)] for first in NAMED)
    for spelled in SPARE + TOO_MANY_BYTES:
        yield 'lengths %s' % spelled, ([bytes([first]).hex() + spelled + '0000'] for first in range(256))


def cut_packets():
    for length, filling in itertools.product(CUT, FILLINGS):
        yield ('cut packets of %d bytes with %02x' % (length, filling),
               itertools.chain.from_iterable(each_place(packet(first, length, filling))
                                             for first in range(256)))
    for length in SHORT:
        yield ('cut packets of %d bytes' % length,
               itertools.chain.from_iterable(each_place(packet(first, length, 0)) for first in NAMED))
    for length in MIDDLE + (LONGEST, LONGEST + 1):
        yield ('cut packets of %d bytes' % length,
               itertools.chain.from_iterable(ends(packet(first, length, 0)) for first in NAMED[::4]))
    for spelled in [remaining_length(length).hex() for length in LONG] + list(SPARE + TOO_MANY_BYTES):
        yield ('cut lengths %s' % spelled,
               itertools.chain.from_iterable(each_place(bytes([first]).hex() + spelled + '0000')
                                             for first in NAMED))
    for sample in SAMPLES:
        by_byte = [sample[place:place + 2] for place in range(0, len(sample), 2)]
        yield 'cut packet ' + sample, itertools.chain(each_place(sample), [by_byte])


def all_packets():
    for name, inputs in itertools.chain(whole_packets(), cut_packets()):
        script = Script(name)
        script.say([says(CONNECT), says(SUBSCRIBE), 'take'])
        for pieces in inputs:
            script.say(['up', *('broker ' + piece for piece in pieces)])
            script.inputs += 1
        yield script


def compare(program, scripts):
    """How many inputs were tried in these scripts, and how many scripts were answered otherwise."""
    inputs = sum(script.inputs for script in scripts)
    faults = 0
    results = random_scripts.played(program, [script.text() for script in scripts])
    for script, found in zip(scripts, results):
        wanted = (0, script.printed())
        if found != wanted:
            faults += 1
            line, one, other = random_scripts.difference(found[1], wanted[1])
            print('%s: status %s; line %d of the output' % (script.name, found[0], line))
            print('  found  %s\n  wanted %s' % (one.decode(errors='replace')[:300], other.decode()[:300]))
    return inputs, faults


def main():
    words = sys.argv[1:]
    program = words[0] if words else end_to_end.PROVED if end_to_end.is_current() else None
    print('hostile input, by', program or 'a build without proof', flush=True)
    scripts = [*all_datagrams(), *all_packets()]
    split = sum(script.name.startswith('datagrams') for script in scripts)
    tried, faults = compare(program, scripts)
    sent = sum(script.inputs for script in scripts[:split])
    print('%d inputs tried: %d datagrams from %d places, %d packets'
          % (tried, sent, len(PLACES), tried - sent))
    print('%d passed, %d failed' % (len(scripts) - faults, faults))
    return 1 if faults or not tried else 0


if __name__ == '__main__':
    sys.exit(main())
