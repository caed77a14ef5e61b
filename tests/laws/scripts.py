"""The lines of a script, as docs/formats.md says: the events that they bring, and what is printed without
a row."""
import re
from dataclasses import dataclass

from laws.frames import read_frame
from laws.packets import Stream
from laws.policies import Refused, is_ip, read_policy

MOST_CLOCK, MOST_LINE = 2 ** 64 - 1, 256 * 1024 * 1024


@dataclass
class Event:
    """What a row begins with: its kind, and the policy, clock, packet, or the frame with its sender's
    address."""
    kind: str
    said: object = None
    address: str = ''


class Unreadable(Exception):
    pass


def events_of(script):
    """In order the events of a script, and the lines that are printed without a row as texts."""
    stream = Stream()
    for number, line in enumerate(lines_of(script), 1):
        try:
            if line == b'up':
                stream = Stream()
            yield from read_line(line, stream)
        except Unreadable:
            yield 'line %d: unreadable' % number
            return


def lines_of(script):
    lines = script.split(b'\n')
    return lines if lines[-1] else lines[:-1]


def read_line(line, stream):
    if len(line) > MOST_LINE:
        raise Unreadable
    word, _, rest = line.partition(b' ')
    if line in (b'up', b'down', b'take'):
        return [Event(line.decode())]
    if not line:
        return []
    if word == line:
        raise Unreadable
    if word == b'policy':
        return read_policy_line(rest)
    if word == b'tick':
        return [Event('tick', read_clock(rest))]
    if word == b'from':
        address, _, digits = rest.partition(b' ')
        octets = b'' if digits == b'-' else read_hex(digits)
        return [Event('datagram', read_frame(octets), read_address(address))]
    if word == b'broker':
        return read_broker_line(read_hex(rest), stream)
    raise Unreadable


def read_policy_line(text):
    try:
        return [Event('replace', read_policy(text))]
    except Refused as refused:
        return ['refused policy %s' % refused]


def read_broker_line(piece, stream):
    packets, fault = stream.feed(piece)
    events = [Event('broker', packet) for packet in packets]
    return events + ['refused broker ' + fault, Event('down')] if fault else events


def read_clock(digits):
    if not re.fullmatch(rb'0*[0-9]{1,20}', digits) or int(digits[-20:]) > MOST_CLOCK:
        raise Unreadable
    return int(digits[-20:])


def read_hex(digits):
    if not re.fullmatch(rb'([0-9A-Fa-f]{2})+', digits):
        raise Unreadable
    return bytes.fromhex(digits.decode())


def read_address(word):
    ip, colon, port = word.partition(b':')
    is_port = re.fullmatch(rb'0*[0-9]{1,5}', port) and int(port[-5:]) <= 65_535
    if not colon or not is_port or not is_ip(ip.decode('latin-1')):
        raise Unreadable
    return '%s:%d' % (ip.decode(), int(port[-5:]))
