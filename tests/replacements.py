"""What scripts meet at replacements, for random_scripts.py, as no line that is printed shows it by itself:
which messages, exchanges, publishes, wills, filters and open MsgIds were under way as a policy came into
force, what that did to their grant, and what became of them. And what else came between a publish at QoS 2
and its repeat, or the next publish with its MsgId."""
from dataclasses import dataclass

import gateway_model
from gateway_model import ALLOWED, Denied, Gateway

# What was under way; what the replacements since did to its grant, which was kept by each, taken, or taken
# and returned by a later one; and what became of it then
MET = """
buffered kept allowed
buffered kept announced
buffered taken denied
buffered taken gone
buffered returned allowed
buffered returned announced
buffered returned gone
announced kept accepted
announced kept sent-again
announced taken accepted
announced taken refused
announced taken denied
announced taken asleep
announced returned accepted
announced returned sent-again
sent kept acknowledged
sent kept sent-again
sent taken acknowledged
sent taken denied
sent taken asleep
sent returned acknowledged
sent returned sent-again
forward taken denied
forward returned allowed
again taken denied
again returned allowed
will taken denied
will returned allowed
filter taken undelivered
filter returned undelivered
opened kept repeated
opened taken repeated
opened returned repeated
opened taken released
opened asleep repeated
opened left repeated
opened lost repeated
opened released published
opened cleaned published
""".strip().splitlines()


@dataclass
class Opened:
    """A MsgId that a publish at QoS 2 under this name opened."""
    name: bytes


class Watched(Gateway):
    """The model, which tells besides what it met."""

    def __init__(self):
        super().__init__()
        # By its identity each thing that is under way, with its fate; and the filters that a policy ended
        self.fates, self.ended, self.met = {}, {}, set()
        # By its client and itself each MsgId that is open; how its client was away since; and what ended one
        # that is open no more
        self.opened, self.away, self.closed = {}, {}, {}

    def fate(self, thing):
        return self.fates.get(id(thing), (thing, None))[1]

    def tell(self, kind, fate, end):
        if fate:
            self.met.add('%s %s %s' % (kind, fate, end))

    # What a replacement does

    def replace(self, text):
        before = self.policy
        held = [(client, pattern) for client in self.clients.values() for pattern in client.subscriptions]
        super().replace(text)
        if self.policy is before:
            return
        for of_source, who, word, thing in self.under_way():
            self.fates[id(thing)] = thing, self.next_fate(self.fate(thing), of_source, who, word, thing.name)
        for client, pattern in held:
            if pattern not in client.subscriptions:
                self.ended[client.name, pattern] = 'taken'
        for client, pattern in self.ended:
            if self.is_allowed(self.ask_for_cover, client, pattern):
                self.ended[client, pattern] = 'returned'

    def under_way(self):
        """Each thing that a grant decides about, with whose grant and which."""
        for client in self.clients.values():
            for thing in [*client.queue, client.exchange]:
                if thing:
                    yield False, client.name, 'sub', thing
            if client.will:
                yield False, client.name, 'pub', client.will
        for (name, _), thing in self.opened.items():
            yield False, name, 'pub', thing
        for item in [*self.outbox, *self.in_flight.values()]:
            if isinstance(item, gateway_model.Publish):
                yield item.of_source, item.who, 'pub', item

    def next_fate(self, fate, *grant):
        if not self.is_allowed(self.ask_for_grant, *grant):
            return 'taken'
        return 'returned' if fate in ('taken', 'returned') else 'kept'

    def is_allowed(self, ask, *about):
        try:
            ask(*about)
        except Denied:
            return False
        return True

    # What becomes of what was under way

    def settle(self, client, outcome):
        end = {ALLOWED: 'allowed', gateway_model.GONE: 'gone'}.get(outcome, 'denied')
        self.tell('buffered', self.fate(client.queue[0]), end)
        super().settle(client, outcome)

    def announce(self, client, name):
        self.tell('buffered', self.fate(client.queue[0]), 'announced')
        super().announce(client, name)

    def retry(self, client, exchange):
        kind, fate, tries = kind_of(exchange), self.fate(exchange), exchange.tries
        super().retry(client, exchange)
        if exchange.tries > tries:
            self.tell(kind, fate, 'sent-again')
        elif client.address:
            self.tell(kind, fate, 'denied')

    def on_regack(self, address, frame):
        end = 'accepted' if frame.code == gateway_model.ACCEPTED else 'refused'
        self.watch_answer(address, end, super().on_regack, frame)

    def on_puback(self, address, frame):
        self.watch_answer(address, 'acknowledged', super().on_puback, frame)

    def on_publish(self, address, frame):
        client = self.client_at(address)
        was_open = set(client.open) if client else set()
        super().on_publish(address, frame)
        if client is None or frame.qos != 2 or not gateway_model.is_active(client):
            return
        key = client.name, frame.msg_id
        if frame.msg_id in was_open:
            self.tell_repeat(self.opened[key])
        elif frame.msg_id in client.open:
            self.opened[key] = Opened(self.outbox[-1].name)
            self.tell('opened', self.closed.pop(key, None), 'published')

    def tell_repeat(self, opened):
        self.tell('opened', self.fate(opened), 'repeated')
        for away in self.away.get(id(opened), ()):
            self.tell('opened', away, 'repeated')

    def on_pubrel(self, address, frame):
        super().on_pubrel(address, frame)
        client = self.client_at(address)
        if client and frame.msg_id not in client.open:
            self.close(client.name, frame.msg_id, 'released')

    def close(self, name, msg_id, end):
        opened = self.opened.pop((name, msg_id), None)
        if opened:
            self.tell('opened', self.fate(opened), end)
            self.closed[name, msg_id] = end

    def on_connect(self, address, frame):
        super().on_connect(address, frame)
        for name, msg_id in list(self.opened):
            if msg_id not in self.clients[name].open:
                self.close(name, msg_id, 'cleaned')

    def be_away(self, client, way):
        for (name, _), opened in self.opened.items():
            if name == client.name:
                self.away.setdefault(id(opened), set()).add(way)

    def leave(self, client):
        self.be_away(client, 'left')
        super().leave(client)

    def on_disconnect(self, address, frame):
        if frame.duration and self.client_at(address):
            self.be_away(self.client_at(address), 'asleep')
        self.watch_answer(address, 'asleep' if frame.duration else 'left', super().on_disconnect, frame)

    def watch_answer(self, address, end, answer, frame):
        """An exchange that an answer ends."""
        client = self.client_at(address)
        exchange = client and client.exchange
        answer(address, frame)
        if exchange and client.exchange is not exchange:
            self.tell(kind_of(exchange), self.fate(exchange), end)

    def may_leave(self, kind, publish):
        allowed = super().may_leave(kind, publish)
        self.tell(kind, self.fate(publish), 'allowed' if allowed else 'denied')
        _, of_will = self.fates.get((kind, id(publish)), (None, None))
        self.tell('will', of_will, 'allowed' if allowed else 'denied')
        return allowed

    def lose(self, client):
        will, waiting = client.will, len(self.outbox)
        self.be_away(client, 'lost')
        super().lose(client)
        if len(self.outbox) > waiting:
            self.fates['forward', id(self.outbox[-1])] = self.outbox[-1], self.fate(will)

    def broker_publish(self, packet):
        for (name, pattern), fate in self.ended.items():
            client = self.clients[name]
            is_due = any(gateway_model.matches(other, packet.name) for other in client.subscriptions)
            awaits = client.state in gateway_model.AWAITING
            if awaits and not is_due and gateway_model.matches(pattern, packet.name):
                self.tell('filter', fate, 'undelivered')
        super().broker_publish(packet)


def kind_of(exchange):
    return 'announced' if exchange.announces else 'sent'


def unmet(gateways):
    """What scripts have to meet at replacements, and did not, by the gateways that played them."""
    met = set().union(*(gateway.met for gateway in gateways))
    return [each for each in MET if each not in met]
