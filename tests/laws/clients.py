"""What the rows show of a client to a reader who looks back through them: the views of docs/model.md.

The entries of a client are, in order: `connect`, its accepted CONNECT; `came`, a frame from where it was;
`due`, a message that came to wait for it; `left`, `lost`, `announce`, `hand`, `retry`, `register`,
`subscribe`, `unsubscribe`, `end` and `will`, the notes of it that are allowed or that settle something;
`retry denied`; `accepted` and `acknowledged`, its REGACK with code 00 and its PUBACK in turn; `opened` and
`closed`, its PUBLISH at QoS 2 that was allowed and its PUBREL in turn, each with its MsgId; and `slept
again`, a PINGRESP that was sent to it while it was awake. A `hand` of a message that was turned away is
none of them.
"""
from laws.book import View

DIALOGUE, ACTIVE, ASLEEP, AWAKE, GONE, LOST = 'dialogue', 'active', 'asleep', 'awake', 'disconnected', 'lost'
WITH_SESSION, AWAITS, TAKES = (DIALOGUE, ACTIVE, ASLEEP, AWAKE), (ACTIVE, ASLEEP, AWAKE), (ACTIVE, AWAKE)


def accepted(book):
    """The clients in the order in which each was accepted first."""
    return list(book.of_client)


class Presence(View):
    """Of a client its state, where it is, the Duration that it stated, and the clock as it was heard."""

    def __init__(self):
        super().__init__()
        self.phase, self.address, self.duration, self.heard = None, None, None, None

    def read(self, entry):
        if entry.what in ('connect', 'came'):
            self.heard = entry.clock
        if entry.what == 'connect':
            frame, self.address = entry.said
            self.duration = frame.duration
        elif goes_to_sleep(entry, self.phase):
            self.duration = entry.said.duration
        self.phase = state_behind(self.phase, entry)


def phase(book, client):
    """The state of a client: by its last CONNECT, and by what ended its dialogue, let it sleep or woke it up,
    let it leave or lost it since."""
    return book.view(Presence, client).phase


def state_behind(state, entry):
    if entry.what == 'connect':
        return DIALOGUE if entry.said[0].has_will else ACTIVE
    if entry.what == 'will' and ends_dialogue(entry.said):
        return ACTIVE
    if goes_to_sleep(entry, state) or entry.what == 'slept again':
        return ASLEEP
    if entry.what == 'came' and state == ASLEEP and wakes(entry.client, entry.said):
        return AWAKE
    return {'left': GONE, 'lost': LOST}.get(entry.what, state)


def ends_dialogue(frame):
    """An allowed WILLMSG, or an allowed WILLTOPIC that is empty."""
    return frame.message == 'willmsg' or (frame.message == 'willtopic' and not frame.body)


def goes_to_sleep(entry, state):
    """A DISCONNECT with Duration in turn."""
    if entry.what != 'came' or state not in AWAITS:
        return False
    return entry.said.message == 'disconnect' and entry.said.duration is not None


def wakes(client, frame):
    return frame.message == 'pingreq' and frame.client == client


def address(book, client):
    """Where its last accepted CONNECT came from."""
    return book.view(Presence, client).address


def client_at(book, where):
    """The client that is at an address, if there is one."""
    for client in accepted(book):
        if address(book, client) == where and phase(book, client) in WITH_SESSION:
            return client
    return None


def duration(book, client):
    """What it stated last: by its CONNECT, or as it went to sleep."""
    return book.view(Presence, client).duration


def heard(book, client):
    """The clock as it was heard last: as its CONNECT was accepted, or a frame came from where it was."""
    return book.view(Presence, client).heard
