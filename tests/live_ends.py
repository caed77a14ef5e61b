"""The ends that tests/live.py puts a gateway between: a device of MQTT-SN, and a client of an MQTT broker."""
import queue
import socket
import threading

from live_parts import HOST, SECONDS, Failure, wanted


class Device:
    """A client of MQTT-SN 1.2 on a port of its own."""

    def __init__(self, gateway, port=0):
        self.socket = socket.socket(socket.AF_INET, socket.SOCK_DGRAM)
        self.socket.bind((HOST, port))
        self.socket.connect((HOST, gateway))
        self.last = 0

    def send(self, kind, body=b''):
        self.socket.send(bytes([len(body) + 2, kind]) + body)

    def receive(self, kind, seconds=SECONDS):
        """The variable part of the next frame, which has to be of this type."""
        self.socket.settimeout(seconds)
        try:
            frame = self.socket.recv(4096)
        except socket.timeout:
            raise Failure('no frame of type %02x in %.1f s' % (kind, seconds)) from None
        wanted(frame[0] == len(frame) and frame[1] == kind, 'type %02x, and not %s' % (kind, frame.hex()))
        return frame[2:]

    def silent(self, seconds=0.5):
        self.socket.settimeout(seconds)
        try:
            frame = self.socket.recv(4096)
        except socket.timeout:
            return
        raise Failure('no frame, and not %s' % frame.hex())

    def next_id(self):
        self.last += 1
        return self.last.to_bytes(2, 'big')

    def connect(self, name, code=0, duration=60, flags=0x04):
        self.send(0x04, bytes([flags, 1]) + duration.to_bytes(2, 'big') + name.encode())
        wanted(self.receive(0x05) == bytes([code]), 'a CONNACK with code %d' % code)

    def register(self, name, code=0):
        """The topic id of the name."""
        number = self.next_id()
        self.send(0x0a, b'\0\0' + number + name.encode())
        answer = self.receive(0x0b)
        wanted(answer[2:4] == number and answer[4] == code, 'a REGACK with code %d' % code)
        return answer[:2]

    def publish(self, topic, payload, code=0):
        """A PUBLISH at QoS 1, and its PUBACK."""
        number = self.next_id()
        self.send(0x0c, b'\x20' + topic + number + payload)
        answer = self.receive(0x0d)
        wanted(answer[2:4] == number and answer[4] == code, 'a PUBACK with code %d' % code)

    def publish_once(self, topic, number, payload, flags=0x40):
        """A PUBLISH at QoS 2 with this MsgId, and its PUBREC."""
        self.send(0x0c, bytes([flags]) + topic + number + payload)
        wanted(self.receive(0x0f) == number, 'a PUBREC of this MsgId')

    def release(self, number):
        """A PUBREL, and its PUBCOMP."""
        self.send(0x10, number)
        wanted(self.receive(0x0e) == number, 'a PUBCOMP of this MsgId')

    def publish_short(self, name, payload):
        """A PUBLISH at QoS -1 by a short name: no session, and no answer."""
        self.send(0x0c, b'\x62' + name.encode() + b'\0\0' + payload)

    def subscribe(self, name, code=0):
        number = self.next_id()
        self.send(0x12, b'\x20' + number + name.encode())
        answer = self.receive(0x13)
        wanted(answer[3:5] == number and answer[5] == code, 'a SUBACK with code %d' % code)

    def announced(self, name):
        """Answers the REGISTER of the name, and gives its topic id."""
        body = self.receive(0x0a)
        wanted(body[4:] == name.encode(), 'a REGISTER of %s, and not %s' % (name, body.hex()))
        self.send(0x0b, body[:4] + b'\0')
        return body[:2]

    def handed(self, topic, payload):
        """The PUBLISH of a message, which is acknowledged where that is asked for."""
        body = self.receive(0x0c)
        wanted(body[1:3] == topic and body[5:] == payload,
               'the message %r, and not %s' % (payload, body.hex()))
        if body[0] & 0x60 == 0x20:
            self.send(0x0d, body[1:5] + b'\0')

    def leave(self):
        self.send(0x18)
        self.receive(0x18)
        self.socket.close()

    def states_will(self, name, topic, message, duration):
        """A CONNECT with a will at QoS 1, and the dialogue about that."""
        self.send(0x04, b'\x0c\1' + duration.to_bytes(2, 'big') + name.encode())
        self.receive(0x06)
        self.send(0x07, b'\x20' + topic.encode())
        self.receive(0x08)
        self.send(0x09, message)
        wanted(self.receive(0x05) == b'\0', 'a CONNACK')

    def sleep(self, duration=60):
        self.send(0x18, duration.to_bytes(2, 'big'))
        self.receive(0x18)

    def wake(self, name):
        self.send(0x16, name.encode())


class Client:
    """A client of an MQTT broker, for where mosquitto's programs are not there."""

    def __init__(self, port, name):
        self.socket = socket.create_connection((HOST, port), SECONDS)
        # The reader waits for the next packet however long that takes: who hears has a limit of his own
        self.socket.settimeout(None)
        self.came = queue.Queue()
        self.reader = threading.Thread(target=self.read, daemon=True)
        self.reader.start()
        text = name.encode()
        self.ask(0x10, b'\0\4MQTT\4\2\0\x3c' + len(text).to_bytes(2, 'big') + text, 0x20)

    def read(self):
        """Keeps each packet, all of which are short. A message is acknowledged where it asks for that."""
        stream = self.socket.makefile('rb')
        while True:
            try:
                head = stream.read(2)
                body = stream.read(head[1]) if len(head) == 2 else b''
            except (OSError, ValueError):
                return
            if len(head) < 2 or len(body) < head[1]:
                return
            if head[0] & 0xf0 == 0x30:
                size = 2 + int.from_bytes(body[:2], 'big')
                if head[0] & 6:
                    self.socket.sendall(b'\x40\2' + body[size:size + 2])
                    body = body[:size] + body[size + 2:]
                body = body[2:size] + b' ' + body[size:]
            self.came.put((head[0] & 0xf0, body))

    def next(self, kind):
        try:
            came, body = self.came.get(timeout=SECONDS)
        except queue.Empty:
            raise Failure('no packet %02x of the broker' % kind) from None
        wanted(came == kind, 'a packet %02x, and not %02x %s' % (kind, came, body.hex()))
        return body

    def ask(self, kind, body, answer):
        self.socket.sendall(bytes([kind, len(body)]) + body)
        return self.next(answer)

    def subscribe(self, topic):
        text = topic.encode()
        self.ask(0x82, b'\0\1' + len(text).to_bytes(2, 'big') + text + b'\1', 0x90)

    def publish(self, topic, payload):
        """A PUBLISH at QoS 1, and its PUBACK."""
        text = topic.encode()
        self.ask(0x32, len(text).to_bytes(2, 'big') + text + b'\0\1' + payload.encode(), 0x40)

    def hears(self, topic, payload):
        body = self.next(0x30)
        wanted(body == ('%s %s' % (topic, payload)).encode(), '%s %s, and not %r' % (topic, payload, body))

    def kill(self):
        """Ends the connection, and with it the reader."""
        try:
            self.socket.shutdown(socket.SHUT_RDWR)
        except OSError:
            pass  # the broker was first
        self.socket.close()
