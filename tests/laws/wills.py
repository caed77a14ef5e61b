"""What a client states of its will (docs/formats.md, "The dialogue about a will"; MQTT-SN 1.2, 6.2 to
6.4)."""
from laws import clients, messages, stated
from laws.asks import Denied, forbid, forbid_unless_allowed
from laws.book import law
from laws.entering import connack
from laws.frames import written
from laws.handing import gone, hand_over
from laws.texts import is_name, shown

WILLMSGREQ = written(0x08)


def forbid_will(book, client, name):
    """The rules for a topic that is stated, or for the message of one."""
    forbid(client not in book.policy.clients, '3 NoScope ' + shown(client))
    forbid(not is_name(name), '6 BadName')
    forbid_unless_allowed(book.policy.publish_outcome(client, name), name)


@law
def states_will(book, client, frame, where, state):
    """A WILLTOPIC is in turn in a dialogue that has no topic, a WILLMSG in one that has; out of turn they
    are denied by 15, and nothing answers."""
    topic = stated.stated_topic(book, client)
    is_in_turn = state == clients.DIALOGUE and (topic is None) == (frame.message == 'willtopic')
    if not is_in_turn:
        book.noted('will', shown(client), '-', '15 OutOfTurn')
    elif frame.message == 'willtopic' and not frame.body:
        book.noted('will', shown(client), '-', 'allowed')
        has_stated(book, client, frame, where)
    else:
        judged(book, client, frame, where, frame.text if frame.message == 'willtopic' else topic.text)


@law
def judged(book, client, frame, where, name):
    """In turn each is judged by 3, 6 and 10 at its own step, with the policy in force; denied, it ends the
    session: CONNACK 03, the leave of the client, and what waited as gone."""
    try:
        forbid_will(book, client, name)
    except Denied as denied:
        book.noted('will', shown(client), denied.read, denied.outcome)
        book.sent(where, connack(3))
        book.noted('left', shown(client), '-', 'done')
        waited = messages.waits(book, client)
        book.tell('left', client)
        gone(book, client, waited)
        return
    book.noted('will', shown(client), shown(name), 'allowed')
    has_stated(book, client, frame, where)


@law
def has_stated(book, client, frame, where):
    """An allowed WILLTOPIC is answered by WILLMSGREQ; an allowed WILLMSG, and an empty WILLTOPIC, by
    CONNACK, behind which stands what is handed over."""
    book.tell('will', client, frame)
    if clients.ends_dialogue(frame):
        book.sent(where, connack(0))
        hand_over(book, client)
    else:
        book.sent(where, WILLMSGREQ)


@law
def updates_will(book, client, frame, where, state):
    """A WILLTOPICUPD and, where there is a will, a WILLMSGUPD of an active client is judged by 3, 6 and
    10, but for one that deletes the will; WILLTOPICRESP or WILLMSGRESP answers it."""
    is_topic = frame.message == 'willtopicupd'
    will = stated.will(book, client)
    try:
        forbid(state != clients.ACTIVE or (not is_topic and will is None), '15 OutOfTurn')
        about, outcome = '-', 'allowed'
        if not is_topic or frame.body:
            name = frame.text if is_topic else will.name
            forbid_will(book, client, name)
            about = shown(name)
        book.tell('will', client, frame)
    except Denied as denied:
        about, outcome = denied.read, denied.outcome
    book.noted('will', shown(client), about, outcome)
    book.sent(where, written(0x1b if is_topic else 0x1d, b'\0' if outcome == 'allowed' else b'\3'))
