"""Publishes of a client at QoS 2: which MsgIds are open, what a repeat is, and PUBREL (docs/formats.md,
"PUBLISH at QoS 2"; MQTT-SN 1.2, 5.4.14 and 6.6)."""
from laws import clients
from laws.book import View, law
from laws.frames import written
from laws.handing import out_of_turn

MOST_OPEN = 16


class Opened(View):
    """The MsgIds under which a PUBLISH at QoS 2 was allowed, without those that PUBREL in turn or a clean
    CONNECT closed since."""

    def __init__(self):
        super().__init__()
        self.ids = set()

    def read(self, entry):
        if entry.what == 'opened':
            self.ids.add(entry.said)
        elif entry.what == 'closed':
            self.ids.discard(entry.said)
        elif entry.what == 'connect' and entry.said[0].is_clean:
            self.ids.clear()


def opened(book, client):
    """The MsgIds of its publishes at QoS 2 that are open."""
    return book.view(Opened, client).ids


def is_repeat(book, client, frame, state):
    """A PUBLISH at QoS 2 in turn, whose MsgId is open."""
    return frame.qos == 2 and state == clients.ACTIVE and frame.message_id in opened(book, client)


@law
def repeats(book, frame, where):
    """A repeat is answered by PUBREC, and nothing else comes of it: it makes no note, and nothing waits."""
    received(book, frame, where)


def received(book, frame, where):
    book.sent(where, written(0x0f, frame.message_id))


@law
def releases(book, client, frame, where, state):
    """A PUBREL of an active client is answered by PUBCOMP, whatever the policy says and whether its MsgId is
    open or not, and closes that; any other is out of turn."""
    if state != clients.ACTIVE:
        out_of_turn(book, client)
        return
    book.tell('closed', client, frame.message_id)
    book.sent(where, written(0x0e, frame.message_id))
