#!/usr/bin/env python3
"""A device of MQTT-SN 1.2 in Python's standard library alone, to be copied into a program of one's own:

    device = Device(('127.0.0.1', 1884), 'meter-01', heard=print)
    device.connect()
    device.subscribe('field/meters/meter-01/pause')
    device.publish('field/meters/meter-01/reading', b'17')
    device.sleep()
    device.wake()                       # prints what came for it meanwhile

Each call waits for the gateway's answer, and sends again where none comes (6.13). It leaves out wills, short
names and QoS 2. kinds.py makes three kinds of devices of it."""
import socket
import time

CONNECT, CONNACK, REGISTER, REGACK, PUBLISH, PUBACK = 0x04, 0x05, 0x0a, 0x0b, 0x0c, 0x0d
SUBSCRIBE, SUBACK, PINGREQ, PINGRESP, DISCONNECT = 0x12, 0x13, 0x16, 0x17, 0x18
DUP, QOS_1, QOS_MINUS_1, CLEAN, PREDEFINED = 0x80, 0x20, 0x60, 0x04, 0x01
WAIT, TRIES = 5.0, 4  # seconds for an answer, and how often a message is sent at most
CODES = {1: 'congestion, try again', 2: 'invalid topic id', 3: 'not supported, or not allowed'}


class Refused(Exception):
    """The gateway answered with a code other than 0."""


class Device:
    """A client at a gateway. What comes for it goes to `heard`, which is given topic name and payload."""

    def __init__(self, gateway, name='', source='', heard=None):
        self.name, self.heard = name, heard or (lambda topic, payload: None)
        self.ids, self.names, self.last, self.taken = {}, {}, 0, None
        self.socket = socket.socket(socket.AF_INET, socket.SOCK_DGRAM)
        self.socket.bind((source, 0))
        self.socket.connect(gateway)

    def send(self, kind, body=b''):
        size = len(body) + 2
        head = bytes([size]) if size < 256 else b'\1' + (size + 2).to_bytes(2, 'big')
        self.socket.send(head + bytes([kind]) + body)

    def receive(self, seconds):
        """The type and body of the next message, if one comes. What the broker sent is taken on the way."""
        self.socket.settimeout(max(seconds, 0.001))
        try:
            frame = self.socket.recv(2048)
        except OSError:  # nothing came in time, or nobody listens there
            return None, b''
        head = 3 if frame[:1] == b'\1' else 1
        if len(frame) <= head:
            return None, b''
        kind, body = frame[head], frame[head + 1:]
        if kind == REGISTER:  # the gateway tells the topic id of a name
            self.names[body[:2]] = body[4:].decode()
            self.send(REGACK, body[:4] + b'\0')
        elif kind == PUBLISH:
            topic, again = self.names.get(body[1:3]), body[0] & DUP and body[3:5] == self.taken
            if body[0] & QOS_1:
                self.send(PUBACK, body[1:5] + (b'\0' if topic else b'\2'))
                self.taken = body[3:5]
            if topic and not again:
                self.heard(topic, body[5:])
        return kind, body

    def ask(self, kind, body, answer, fits=lambda said: True):
        """Sends a message until it is answered, and gives the body of the answer."""
        for _ in range(TRIES):
            self.send(kind, body)
            end = time.monotonic() + WAIT
            while time.monotonic() < end:
                came, said = self.receive(end - time.monotonic())
                if came == answer and fits(said):
                    return said
                if came == DISCONNECT:
                    raise ConnectionResetError(self.name + ' has no session')
            if kind == PUBLISH:
                body = bytes([body[0] | DUP]) + body[1:]
        raise TimeoutError(self.name + ' is not answered')

    def numbered(self, kind, before, after, answer, at):
        """The same with a MsgId, which stands in the answer at this place, with a code behind it."""
        self.last = self.last % 65535 + 1
        number = self.last.to_bytes(2, 'big')
        said = self.ask(kind, before + number + after, answer, lambda said: said[at:at + 2] == number)
        return self.accepted(said[at + 2]) or said

    def accepted(self, code):
        if code:
            raise Refused('%s: %s' % (self.name, CODES.get(code, code)))

    def connect(self, duration=60, clean=True):
        """A session, anew or the one that is there. It is lost 1.5 times `duration` seconds of silence on."""
        self.ids = {}  # a CONNECT ends all topic ids
        body = bytes([CLEAN if clean else 0, 1]) + duration.to_bytes(2, 'big') + self.name.encode()
        self.accepted(self.ask(CONNECT, body, CONNACK)[0])

    def register(self, topic):
        if topic not in self.ids:
            self.ids[topic] = self.numbered(REGISTER, b'\0\0', topic.encode(), REGACK, 2)[:2]
        return self.ids[topic]

    def publish(self, topic, payload):
        """At QoS 1: the gateway has it once this returns."""
        self.numbered(PUBLISH, bytes([QOS_1]) + self.register(topic), payload, PUBACK, 2)

    def publish_alone(self, topic_id, payload):
        """At QoS -1 by a predefined topic id: no session, and no answer."""
        topic = topic_id.to_bytes(2, 'big')
        self.send(PUBLISH, bytes([QOS_MINUS_1 | PREDEFINED]) + topic + b'\0\0' + payload)

    def subscribe(self, topic):
        said = self.numbered(SUBSCRIBE, bytes([QOS_1]), topic.encode(), SUBACK, 3)
        self.names[said[1:3]] = topic

    def ping(self):
        self.ask(PINGREQ, b'', PINGRESP)

    def sleep(self, duration=60):
        self.ask(DISCONNECT, duration.to_bytes(2, 'big'), DISCONNECT)

    def wake(self):
        """Takes all that waited, up to PINGRESP. It is asleep behind that, as before."""
        self.ask(PINGREQ, self.name.encode(), PINGRESP)

    def leave(self):
        self.ask(DISCONNECT, b'', DISCONNECT)
