"""How filters cease to stand (docs/formats.md, "SUBSCRIBE", "How the gateway deals with the broker")."""
from laws import clients, link, standing
from laws.book import law
from laws.texts import shown


@law
def released(book, pattern):
    """Of a filter that stands for nobody any more the broker is told by an UNSUBSCRIBE, which waits, or is
    dropped and noted where as many items wait as the policy allows."""
    if not standing.is_held(book, pattern):
        joins_or_drops(book, link.Item('unsubscribe', name=pattern))


@law
def joins_or_drops(book, item):
    """An UNSUBSCRIBE, a PUBACK or a PINGREQ that finds no room among the items that wait is noted as `outbox`,
    and no other."""
    if link.lacks_place(book):
        book.noted('outbox', 'broker', '-', '22 Full Outbox')
    else:
        book.tell('joined', None, item)


@law
def are_judged(book):
    """As a policy comes into force, and at a tick before anything else, each filter that the policy does not
    allow at that clock ends, of each client in the order of first acceptance, its filters in the order in
    which they stood first, with the rule; and no other."""
    for client in clients.accepted(book):
        for pattern in standing.standing(book, client):
            outcome = book.policy.subscribe_outcome(client, pattern)
            if outcome != 'allowed':
                book.noted('end', shown(client), shown(pattern), outcome)
                book.tell('end', client, pattern)
                released(book, pattern)


@law
def broker_answers(book, packet):
    """A SUBACK whose first code is 80 ends the filter whose open SUBSCRIBE has its packet id, for each
    client that holds it, in the order of first acceptance; any other lets nothing out."""
    refused = [pattern for pattern, number in standing.wanted(book).items() if number == packet.packet_id]
    book.tell('suback', None, packet.packet_id)
    if packet.codes[0] != 0x80:
        return
    for pattern in refused:
        for client in clients.accepted(book):
            if pattern in standing.standing(book, client):
                book.noted('end', shown(client), shown(pattern), '14 BrokerRefused')
                book.tell('end', client, pattern)
