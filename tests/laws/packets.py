"""The packets of MQTT 3.1.1, 2 and 3, as docs/formats.md says: how the broker's bytes are read, and packets
written."""
from dataclasses import dataclass

MOST_PACKET = 70_000
MALFORMED, UNSUPPORTED, TOO_LONG, FAILED = '1 Malformed', '2 NotSupported', '3 TooLong', '4 Failed'
EMPTY = {0xc0: 'pingreq', 0xd0: 'pingresp', 0xe0: 'disconnect'}


@dataclass(frozen=True)
class Packet:
    message: str
    qos: int = 0
    is_retained: int = 0
    name: bytes = b''
    packet_id: int = 0
    payload: bytes = b''
    codes: bytes = b''


class Fault(Exception):
    """The stream has failed: why."""


class Stream:
    """The broker's bytes since the connection began."""

    def __init__(self):
        self.rest, self.has_failed = b'', False

    def feed(self, piece):
        """The packets that are whole with this piece, and the fault behind them, if there is one."""
        if self.has_failed:
            return [], FAILED
        self.rest += piece
        packets = []
        try:
            while size := whole_size(self.rest):
                packets.append(read_packet(self.rest[:size]))
                self.rest = self.rest[size:]
        except Fault as fault:
            self.has_failed = True
            return packets, str(fault)
        return packets, None


def whole_size(octets):
    """The size of the first packet of these bytes; 0 where it is not whole."""
    length = 0
    for place, octet in enumerate(octets[1:5]):
        length |= (octet & 0x7f) << 7 * place
        if not octet & 0x80:
            break
        if place == 3:
            raise Fault(MALFORMED)
    else:
        return 0
    check_first(octets[0])
    size = place + 2 + length
    if size > MOST_PACKET:
        raise Fault(TOO_LONG)
    return size if len(octets) >= size else 0


def check_first(first):
    if first >> 4 == 3 and first & 6 != 6:
        if first & 6 == 4:
            raise Fault(UNSUPPORTED)
    elif first in (0x50, 0x62, 0x70):
        raise Fault(UNSUPPORTED)
    elif first not in (0x10, 0x20, 0x40, 0xb0, 0x82, 0x90, 0xa2, 0xc0, 0xd0, 0xe0):
        raise Fault(MALFORMED)


def read_packet(octets):
    first, start = octets[0], 1
    while octets[start] & 0x80:
        start += 1
    body = octets[start + 1:]
    if first >> 4 == 3:
        return read_publish(first, body)
    if first in EMPTY:
        return need(not body, Packet(EMPTY[first]))
    if first == 0x10:
        return read_connect(body)
    if first == 0x20:
        return need(len(body) == 2 and body[0] <= 1, Packet('connack'))
    need(len(body) >= 2 and any(body[:2]), None)
    packet_id, rest = int.from_bytes(body[:2], 'big'), body[2:]
    if first in (0x40, 0xb0):
        return need(not rest, Packet('puback' if first == 0x40 else 'unsuback', packet_id=packet_id))
    need(rest, None)
    if first == 0x90:
        return need(set(rest) <= set(b'\0\1\2\x80'), Packet('suback', packet_id=packet_id, codes=rest))
    while rest:
        _, rest = read_text(rest)
        if first == 0x82:
            need(rest and rest[0] <= 2, None)
            rest = rest[1:]
    return Packet('subscribe' if first == 0x82 else 'unsubscribe')


def read_publish(first, body):
    name, rest = read_text(body)
    qos, packet_id = first >> 1 & 3, 0
    if qos:
        need(len(rest) >= 2 and any(rest[:2]), None)
        packet_id, rest = int.from_bytes(rest[:2], 'big'), rest[2:]
    return Packet('publish', qos, first & 1, name, packet_id, rest)


def read_connect(body):
    need(body[:7] == b'\0\4MQTT\4' and len(body) >= 8, None)
    if body[7] not in (0, 2):
        raise Fault(UNSUPPORTED)
    need(len(body) >= 10, None)
    _, rest = read_text(body[10:])
    return need(not rest, Packet('connect'))


def read_text(octets):
    size = int.from_bytes(octets[:2], 'big') + 2
    need(len(octets) >= max(size, 2), None)
    return octets[2:size], octets[size:]


def need(holds, packet):
    if not holds:
        raise Fault(MALFORMED)
    return packet


def written(first, *parts):
    """The bytes of a packet, in its shortest spelling."""
    body, length = b''.join(parts), b''
    left = len(body)
    while left >= 0x80:
        length += bytes([left & 0x7f | 0x80])
        left >>= 7
    return bytes([first]) + length + bytes([left]) + body


def sized(text):
    return len(text).to_bytes(2, 'big') + text
