"""The frames of MQTT-SN 1.2, 5.2 to 5.5, as docs/formats.md says: how a datagram is read, and frames
written."""
from dataclasses import dataclass

from laws.texts import is_client_id

MOST_DATAGRAM = 2048
# The octets of a type, with its name and what follows it: numbers of octets, or a form of its own
FIXED = {
    0x05: ('connack', 1), 0x1b: ('willtopicresp', 1), 0x1d: ('willmsgresp', 1), 0x06: ('willtopicreq', 0),
    0x08: ('willmsgreq', 0), 0x17: ('pingresp', 0), 0x0b: ('regack', 5), 0x0d: ('puback', 5),
    0x0e: ('pubcomp', 2), 0x0f: ('pubrec', 2), 0x10: ('pubrel', 2), 0x15: ('unsuback', 2),
    0x13: ('suback', 6),
}
OPEN = {0x04: 'connect', 0x07: 'willtopic', 0x1a: 'willtopicupd', 0x09: 'willmsg', 0x1c: 'willmsgupd',
        0x0a: 'register', 0x0c: 'publish', 0x12: 'subscribe', 0x14: 'unsubscribe', 0x16: 'pingreq',
        0x18: 'disconnect'}
OF_GATEWAYS = {0x00: range(3, 4), 0x01: range(1, 2), 0x02: range(1, MOST_DATAGRAM)}
MALFORMED, UNSUPPORTED = 'malformed', 'unsupported'


@dataclass(frozen=True)
class Frame:
    """A message, by its name, with the octets behind its type."""
    message: str
    body: bytes

    # The flags of CONNECT, WILLTOPIC, WILLTOPICUPD, PUBLISH, SUBSCRIBE and UNSUBSCRIBE

    @property
    def qos(self):
        """0, 1, 2, and 3 for -1."""
        return self.body[0] >> 5 & 3

    @property
    def is_retained(self):
        return self.body[0] >> 4 & 1

    @property
    def has_will(self):
        return bool(self.body[0] & 8)

    @property
    def is_clean(self):
        return bool(self.body[0] & 4)

    @property
    def id_type(self):
        return self.body[0] & 3

    # CONNECT

    @property
    def protocol(self):
        return self.body[1]

    @property
    def client(self):
        """Of a CONNECT and a PINGREQ, where that names one."""
        return self.body[4:] if self.message == 'connect' else self.body

    @property
    def duration(self):
        """Of a CONNECT and a DISCONNECT, in seconds; none where that states none."""
        octets = self.body[2:4] if self.message == 'connect' else self.body
        return int.from_bytes(octets, 'big') if octets else None

    # REGISTER, REGACK, PUBACK, PUBLISH, PUBREL, SUBSCRIBE, UNSUBSCRIBE and the messages about wills

    @property
    def topic_id(self):
        return self.body[1:3] if self.message == 'publish' else self.body[:2]

    @property
    def message_id(self):
        at = {'publish': 3, 'subscribe': 1, 'unsubscribe': 1, 'pubrel': 0}.get(self.message, 2)
        return self.body[at:at + 2]

    @property
    def code(self):
        return self.body[4]

    @property
    def text(self):
        """The name, filter, topic, message or payload."""
        at = {'publish': 5, 'subscribe': 3, 'unsubscribe': 3, 'register': 4, 'willtopic': 1,
              'willtopicupd': 1}
        return self.body[at.get(self.message, 0):]


def read_frame(octets):
    """The frame of a datagram, or MALFORMED or UNSUPPORTED."""
    size = len(octets)
    start = 3 if octets[:1] == b'\1' else 1
    if size > MOST_DATAGRAM or size <= start:
        return MALFORMED
    kind, body = octets[start], octets[start + 1:]
    if kind == 0xfe:
        return UNSUPPORTED
    if int.from_bytes(octets[1:3] if start == 3 else octets[:1], 'big') != size:
        return MALFORMED
    if kind in OF_GATEWAYS:
        return UNSUPPORTED if len(body) in OF_GATEWAYS[kind] else MALFORMED
    if kind in FIXED:
        message, length = FIXED[kind]
        return Frame(message, body) if len(body) == length else MALFORMED
    if kind not in OPEN:
        return MALFORMED
    frame = Frame(OPEN[kind], body)
    return frame if has_form(frame) else MALFORMED


def has_form(frame):
    message, size = frame.message, len(frame.body)
    if message == 'connect':
        return size >= 4 and is_client_id(frame.client)
    if message == 'register':
        return size >= 4
    if message == 'publish':
        return size >= 5
    if message in ('subscribe', 'unsubscribe'):
        return size >= 3 and (frame.id_type not in (1, 2) or size == 5)
    if message == 'pingreq':
        return size == 0 or is_client_id(frame.client)
    if message == 'disconnect':
        return size in (0, 2)
    return message in ('willtopic', 'willtopicupd', 'willmsg', 'willmsgupd')


def written(kind, *parts):
    """The octets of a frame, in its shortest spelling."""
    body = bytes([kind]) + b''.join(parts)
    if len(body) + 1 <= 255:
        return bytes([len(body) + 1]) + body
    return b'\1' + (len(body) + 3).to_bytes(2, 'big') + body


def two(number):
    return number.to_bytes(2, 'big')
