"""Gateways that break a promise at a replacement of the policy, for wrong_gateways.py: one takes away what is
under way, and one brings back what a policy before it ended."""
from gateway_model import MISSING, TAKING, Denied, Gateway, Publish, Subscribe, shown


def is_allowed(ask, *about):
    try:
        ask(*about)
    except Denied:
        return False
    return True


def may_receive(gateway, client, name):
    return is_allowed(gateway.ask_for_grant, False, client.name, 'sub', name)


# A replacement takes away what waits


class Purges(Gateway):
    """As a policy comes into force, what waits for a client that sleeps and may not be received is settled at
    once."""

    def replace(self, text):
        super().replace(text)
        for client in [client for client in self.clients.values() if client.exchange is None]:
            kept = [message for message in client.queue if may_receive(self, client, message.name)]
            gone = [message for message in client.queue if message not in kept]
            client.queue[:] = gone + kept
            for message in gone:
                self.purge(client, message)

    def purge(self, client, message):
        self.settle(client, MISSING['sub'] + shown(message.name))


class PurgesSilently(Purges):
    """The same without a note, so that a policy which grants it again comes too late."""

    def purge(self, client, message):
        client.queue.remove(message)


class PurgesPublishes(Gateway):
    """As a policy comes into force, a publish that waits for the broker and is not allowed is dropped."""

    def replace(self, text):
        super().replace(text)
        self.outbox = [item for item in self.outbox if not isinstance(item, Publish) or self.may_stay(item)]

    def may_stay(self, publish):
        return is_allowed(self.ask_for_grant, publish.of_source, publish.who, 'pub', publish.name)


class PurgesFlight(PurgesPublishes):
    """The same of a publish that is in flight."""

    def replace(self, text):
        Gateway.replace(self, text)
        self.in_flight = {it: publish for it, publish in self.in_flight.items() if self.may_stay(publish)}


class PurgesWills(Gateway):
    """As a policy comes into force, a will that is not allowed is deleted."""

    def replace(self, text):
        super().replace(text)
        for client in self.clients.values():
            will = client.will
            if will and not is_allowed(self.ask_for_grant, False, client.name, 'pub', will.name):
                client.will = None


class EndsExchanges(Gateway):
    """As a policy comes into force, what is open with a client and is not allowed is closed at once, with the
    note that denies it."""

    def replace(self, text):
        super().replace(text)
        for client in self.clients.values():
            exchange = client.exchange
            if exchange and not may_receive(self, client, exchange.name):
                client.exchange = None
                self.close(client, exchange)
                self.hand_over(client)

    def close(self, client, exchange):
        if exchange.announces:
            self.settle(client, MISSING['sub'] + shown(exchange.name))
        else:
            self.note('retry', client.name, shown(exchange.name), MISSING['sub'] + shown(exchange.name))


class ForgetsExchanges(EndsExchanges):
    """The same without a note."""

    def close(self, client, exchange):
        if exchange.announces:
            client.queue.pop(0)


# A second replacement brings back what the first one ended


class UndoesPurges(PurgesSilently):
    """What was purged waits again as a policy comes that allows it."""

    def __init__(self):
        super().__init__()
        self.gone = []

    def purge(self, client, message):
        super().purge(client, message)
        self.gone.append((client, message))

    def replace(self, text):
        super().replace(text)
        self.bring_back()

    def bring_back(self):
        gone, self.gone = self.gone, []
        for client, message in gone:
            if may_receive(self, client, message.name):
                client.queue.append(message)
            else:
                self.gone.append((client, message))
        for client in self.clients.values():
            if client.state in TAKING and client.queue:
                self.hand_over(client)


class UndoesDenials(UndoesPurges):
    """What was denied as its turn came waits again as a policy comes that allows it."""

    def replace(self, text):
        Gateway.replace(self, text)
        self.bring_back()

    def settle(self, client, outcome):
        if outcome.startswith(MISSING['sub']):
            self.gone.append((client, client.queue[0]))
        super().settle(client, outcome)


class UndoesEnds(Gateway):
    """A filter that a policy ended stands again as one comes that covers it."""

    def __init__(self):
        super().__init__()
        self.ended = []

    def judge_subscription(self, client, pattern):
        qos = client.subscriptions[pattern]
        super().judge_subscription(client, pattern)
        if pattern not in client.subscriptions:
            self.ended.append((client, pattern, qos))

    def replace(self, text):
        before, self.ended = self.ended, []
        super().replace(text)
        for client, pattern, qos in before:
            if not is_allowed(self.ask_for_cover, client.name, pattern):
                self.ended.append((client, pattern, qos))
            elif pattern not in client.subscriptions:
                client.subscriptions[pattern] = qos
                self.wanted.setdefault(pattern, None)
                self.outbox.append(Subscribe(pattern))


class UndoesForwards(Gateway):
    """A publish that was denied as it left waits again as a policy comes that allows it."""

    def __init__(self):
        super().__init__()
        self.denied = []

    def take_publish(self, publish):
        is_denied = not is_allowed(self.ask_for_grant, publish.of_source, publish.who, 'pub', publish.name)
        super().take_publish(publish)
        if is_denied:
            self.denied.append(publish)

    def replace(self, text):
        super().replace(text)
        denied, self.denied = self.denied, []
        for publish in denied:
            again = is_allowed(self.ask_for_grant, publish.of_source, publish.who, 'pub', publish.name)
            (self.outbox if again else self.denied).append(publish)


WRONG = (Purges, PurgesSilently, PurgesPublishes, PurgesFlight, PurgesWills, EndsExchanges, ForgetsExchanges,
         UndoesPurges, UndoesDenials, UndoesEnds, UndoesForwards)
