"""What the clock brings about (docs/formats.md; MQTT-SN 1.2, 6.11 and 6.13; MQTT 3.1.1, 3.1.2.10)."""
from laws import clients, link, messages
from laws.book import law
from laws.ends import joins_or_drops
from laws.entering import is_lost
from laws.handing import hand_over
from laws.texts import shown

SILENCE_FOR_A_SECOND, MS_TO_ANSWER, MOST_TRIES, MS_BETWEEN_PINGS = 1500, 10_000, 3, 30_000


@law
def ticks(book):
    """At a tick the clients are judged in the order of first acceptance: lost, or sent again what they did
    not answer; and then a PINGREQ comes to wait, where one is due."""
    for client in clients.accepted(book):
        if clients.phase(book, client) in clients.WITH_SESSION:
            is_judged(book, client)
    if link.is_up(book) and book.clock - link.pinged(book) >= MS_BETWEEN_PINGS:
        joins_or_drops(book, link.Item('ping'))


@law
def is_judged(book, client):
    """A client is lost that stated a Duration and was not heard for 1,500 ms of each second of it; or that
    was sent something again three times, and 10,000 ms passed since; before that what is open is sent
    again."""
    seconds = clients.duration(book, client)
    if seconds and book.clock - clients.heard(book, client) >= seconds * SILENCE_FOR_A_SECOND:
        is_lost(book, client)
        return
    opened = messages.unanswered(book, client)
    if opened is None:
        return
    tries, last = messages.sendings(book, client)
    if book.clock - last < MS_TO_ANSWER:
        return
    if tries >= MOST_TRIES:
        is_lost(book, client)
    else:
        sends_again(book, client, opened)


@law
def sends_again(book, client, opened):
    """What is sent again is judged by the policy in force at that row: allowed, it is as it was at first,
    but for the DUP of a PUBLISH; denied, it is closed, noted as `hand` where it was announced and else as
    `retry`, and the hand-over goes on."""
    outcome = book.policy.receive_outcome(client, opened.message.name)
    if outcome == 'allowed':
        book.noted('retry', shown(client), shown(opened.message.name), outcome)
        book.sent(clients.address(book, client), opened.octets)
        book.tell('retry', client)
        return
    kind, told = ('hand', 'hand') if opened.is_announced else ('retry', 'retry denied')
    book.noted(kind, shown(client), shown(opened.message.name), outcome)
    book.tell(told, client)
    hand_over(book, client)
