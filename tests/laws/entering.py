"""How clients come, ping, sleep and leave (docs/formats.md, "CONNECT", "Sleep"; MQTT-SN 1.2, 6.2, 6.11,
6.14)."""
from laws import clients, link, messages, standing, stated
from laws.book import law
from laws.ends import released
from laws.frames import written
from laws.handing import PINGRESP, gone, hand_over, out_of_turn
from laws.texts import shown

DISCONNECT, WILLTOPICREQ = written(0x18), written(0x06)


def connack(code):
    return written(0x05, bytes([code]))


@law
def connects(book, frame, where, here):
    """A CONNECT is denied by 2 for another ProtocolId, by 3 where the policy in force does not list the
    client, by 22 where as many others were accepted before as the policy allows, and accepted otherwise; denied, CONNACK has the
    code of that."""
    client = frame.client
    outcome = 'allowed'
    if frame.protocol != 1:
        outcome = '2 NotSupported'
    elif client not in book.policy.clients:
        outcome = '3 NoScope ' + shown(client)
    elif client not in clients.accepted(book) and len(clients.accepted(book)) >= book.policy.limits['clients']:
        outcome = '22 Full Clients'
    book.noted('connect', shown(client), '-', outcome)
    if outcome == 'allowed':
        enters(book, frame, where, here)
    else:
        book.sent(where, connack(1 if outcome.startswith('22') else 3))


@law
def enters(book, frame, where, here):
    """Behind the note of an accepted CONNECT stand, in order: DISCONNECT to where the client was, if that
    was another address; the leave of another client at this one; what finds no place and what is gone by a
    clean one; CONNACK, or WILLTOPICREQ; and what is handed over."""
    client, was_held = frame.client, []
    if client in clients.accepted(book):
        was_held = list(standing.standing(book, client))
        was_at = clients.phase(book, client) in clients.WITH_SESSION and clients.address(book, client)
        if was_at and was_at != where:
            book.sent(was_at, DISCONNECT)
    if here is not None and here != client:
        book.noted('left', shown(here), '-', 'done')
        waited = messages.waits(book, here)
        book.tell('left', here)
        gone(book, here, waited)
    waited = messages.waits(book, client) if client in clients.accepted(book) else []
    book.tell('connect', client, (frame, where))
    if frame.is_clean:
        for pattern in was_held:
            released(book, pattern)
        gone(book, client, waited)
    book.sent(where, WILLTOPICREQ if frame.has_will else connack(0))
    hand_over(book, client)


@law
def pings(book, client, frame, where, state):
    """A PINGREQ that names nobody, or the client itself while it is active, is answered by PINGRESP; one
    that names the client wakes it up where it is asleep, and nothing comes of it where it is awake; one
    that names another client has no session."""
    if frame.client not in (b'', client):
        book.noted('frame', shown(client), '-', '4 NoSession')
        book.sent(where, DISCONNECT)
    elif state == clients.ACTIVE:
        book.sent(where, PINGRESP)
    elif frame.client == client and state in (clients.ASLEEP, clients.AWAKE):
        if state == clients.ASLEEP:
            hand_over(book, client)
    else:
        out_of_turn(book, client)


@law
def disconnects(book, client, frame, where, state):
    """A DISCONNECT without Duration is the leave of the client, answered by DISCONNECT, behind which what
    waited is gone; one with a Duration lets it sleep, but out of a dialogue, and is answered by
    DISCONNECT."""
    if frame.duration is not None and state == clients.DIALOGUE:
        out_of_turn(book, client)
    elif frame.duration is not None:
        book.sent(where, DISCONNECT)
    else:
        book.noted('left', shown(client), '-', 'done')
        waited = messages.waits(book, client)
        book.tell('left', client)
        book.sent(where, DISCONNECT)
        gone(book, client, waited)


@law
def is_lost(book, client):
    """Behind the note of a client that is lost stands what waited for it as gone, and where its will finds
    no place that; else its will waits for the broker."""
    book.noted('lost', shown(client), '-', 'done')
    waited = messages.waits(book, client)
    book.tell('lost', client)
    gone(book, client, waited)
    will = stated.will(book, client)
    if will is None:
        return
    lacks = link.lacks_place(book, will.qos)
    if lacks:
        book.noted('will', shown(client), shown(will.name), lacks)
    else:
        item = link.Item('publish', client, will.name, will.message, will.qos, will.is_retained)
        book.tell('joined', None, item)
