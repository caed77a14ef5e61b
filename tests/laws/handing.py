"""How messages reach a client: as they come, as their turn comes, as they are answered, and as they are gone
(docs/formats.md, "How messages reach the clients")."""
from laws import clients, ids, messages, standing
from laws.book import law
from laws.messages import Message, Open
from laws.frames import two, written
from laws.texts import matches, shown

MOST_PAYLOAD, MOST_NAME, MOST_WAITING, MOST_IDS = 2039, 2040, 64, 128
PINGRESP = written(0x17)


def due_to(book, client, packet):
    """The message of a PUBLISH for a client: at the lesser of its QoS and the greatest that was granted
    among the filters that match, where there is one, and where the client awaits messages; else none."""
    held = standing.standing(book, client)
    granted = [qos for pattern, qos in held.items() if matches(pattern, packet.name)]
    if not granted or clients.phase(book, client) not in clients.AWAITS:
        return None
    return Message(packet.name, packet.payload, min(packet.qos, max(granted)), packet.is_retained)


@law
def arrives(book, client, message):
    """A message of the broker comes to each client to whom it is due, in the order of first acceptance: it
    is refused as too long or where 64 wait, and waits otherwise."""
    who, name = shown(client), shown(message.name)
    if len(message.payload) > MOST_PAYLOAD or len(message.name) > MOST_NAME:
        book.noted('hand', who, name, '23 TooLong')
    elif len(messages.waits(book, client)) >= MOST_WAITING:
        book.noted('hand', who, name, '22 Full Queue')
    else:
        book.tell('due', client, message)
    hand_over(book, client)


@law
def hand_over(book, client):
    """While a client takes messages and nothing is open with it, what waits leaves, the oldest first; then
    one that is awake is sent PINGRESP, and sleeps."""
    while is_free(book, client) and messages.waits(book, client):
        has_turn(book, client, messages.waits(book, client)[0])
    if is_free(book, client) and clients.phase(book, client) == clients.AWAKE:
        book.sent(clients.address(book, client), PINGRESP)
        book.tell('slept again', client)


def is_free(book, client):
    return clients.phase(book, client) in clients.TAKES and messages.unanswered(book, client) is None


@law
def has_turn(book, client, message):
    """As the turn of a message comes, it is judged by the policy in force at that row: denied by what that
    says, handed over under an id by which the client knows its name, or announced, where 128 ids were not
    told yet."""
    outcome = book.policy.receive_outcome(client, message.name)
    topic = ids.topic_id(book, client, message.name)
    names = ids.told(book, client)
    if outcome == 'allowed' and topic is None and message.name not in names and len(names) >= MOST_IDS:
        outcome = '22 Full Ids'
    if outcome != 'allowed':
        book.noted('hand', shown(client), shown(message.name), outcome)
        book.tell('hand', client)
    elif topic is None:
        announced(book, client, message)
    else:
        handed(book, client, message, *topic)


@law
def handed(book, client, message, id_type, topic_id):
    """Behind the note of a message that is handed over stands its PUBLISH, with its own QoS, Retain and
    payload, and at QoS 1 with the next MsgId of the client."""
    book.noted('hand', shown(client), shown(message.name), 'allowed')
    message_id = messages.next_message_id(book, client) if message.qos else two(0)
    flags = message.qos << 5 | message.is_retained << 4 | id_type
    opened = Open(False, message, topic_id, message_id,
                  written(0x0c, bytes([flags | 0x80]), topic_id, message_id, message.payload))
    book.sent(clients.address(book, client),
              written(0x0c, bytes([flags]), topic_id, message_id, message.payload))
    book.tell('hand', client, opened if message.qos else None)


@law
def announced(book, client, message):
    """Behind the note of an announcement stands the REGISTER of its name, with the id that the name has or
    is given next, and the next MsgId of the client."""
    book.noted('announce', shown(client), shown(message.name), 'allowed')
    topic_id = ids.normal_id(book, client, message.name)
    message_id = messages.next_message_id(book, client)
    octets = written(0x0a, topic_id, message_id, message.name)
    book.sent(clients.address(book, client), octets)
    book.tell('announce', client, Open(True, message, topic_id, message_id, octets))


@law
def gone(book, client, waited):
    """All that waits for a client that leaves, is put out, is lost or connects clean is noted as gone, in
    its order."""
    for message in waited:
        book.noted('hand', shown(client), shown(message.name), '24 Gone')
        book.tell('hand', client)


@law
def confirms(book, client, frame, state):
    """A REGACK with the TopicId and MsgId of what was announced is in turn: the client knows the id then,
    or where it refuses it the message is settled by 13; and the hand-over goes on."""
    opened = messages.unanswered(book, client)
    if state not in clients.TAKES or opened is None or not opened.is_accepted_by(frame):
        out_of_turn(book, client)
        return
    if frame.code:
        book.noted('hand', shown(client), shown(opened.message.name), '13 ClientRefused %d' % frame.code)
        book.tell('hand', client)
    else:
        book.tell('accepted', client, opened.message.name)
    hand_over(book, client)


@law
def acknowledges(book, client, frame, state):
    """A PUBACK with the MsgId of what is open is in turn, whatever its code: it closes that, without a
    note, and the hand-over goes on."""
    opened = messages.unanswered(book, client)
    if state not in clients.TAKES or opened is None or opened.message_id != frame.message_id:
        out_of_turn(book, client)
        return
    book.tell('acknowledged', client)
    hand_over(book, client)


@law
def out_of_turn(book, client):
    """What has no place in the state of the client, and is no ask, is denied by 15, and nothing answers
    it."""
    book.noted('frame', shown(client), '-', '15 OutOfTurn')
