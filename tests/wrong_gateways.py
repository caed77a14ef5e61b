"""Gateways that break a promise, each in one way, for lawful_books.py: the second reader has to refuse a
book of each. They are the model of gateway_model.py but for that."""
import gateway_model
import wrong_replacements
from gateway_model import Acknowledge, Gateway


class Unjudged(Gateway):
    """Something is done whatever the policy in force says of it."""

    is_asked = True

    def ask_for_grant(self, *about):
        if self.is_asked:
            super().ask_for_grant(*about)

    def unasked(self, act, *about):
        self.is_asked = False
        answer = act(*about)
        self.is_asked = True
        return answer


class SendsAgainUnjudged(Unjudged):
    """What a client did not answer is sent again unjudged."""

    def retry(self, client, exchange):
        self.unasked(super().retry, client, exchange)


class HandsOverUnjudged(Unjudged):
    """What waits is handed over unjudged."""

    def hand(self, client, message):
        self.unasked(super().hand, client, message)


class HandsAnnouncedUnjudged(Unjudged):
    """A message that was announced is handed over unjudged, as its announcement is answered."""

    def __init__(self):
        super().__init__()
        self.announced = []

    def announce(self, client, name):
        super().announce(client, name)
        self.announced.append(client.queue[0])

    def hand(self, client, message):
        act = super().hand
        if any(message is announced for announced in self.announced):
            self.unasked(act, client, message)
        else:
            act(client, message)


class AnnouncesAgainUnjudged(Unjudged):
    """What was announced and is not answered is announced again unjudged."""

    def retry(self, client, exchange):
        act = super().retry
        if exchange.announces:
            self.unasked(act, client, exchange)
        else:
            act(client, exchange)


class GoesOnUnjudged(Unjudged):
    """What waits behind an answer of a client is handed over unjudged."""

    def on_regack(self, address, frame):
        self.unasked(super().on_regack, address, frame)

    def on_puback(self, address, frame):
        self.unasked(super().on_puback, address, frame)


class ForwardsUnjudged(Unjudged):
    """A publish that was allowed as it was asked for leaves."""

    kind = 'forward'

    def may_leave(self, kind, publish):
        judge = super().may_leave
        return self.unasked(judge, kind, publish) if kind == self.kind else judge(kind, publish)


class BeginsUnjudged(ForwardsUnjudged):
    """What is in flight is sent again as a connection begins."""

    kind = 'again'


class KeepsSubscriptions(Gateway):
    """A policy ends no filter."""

    def judge_subscription(self, client, pattern):
        pass


class HandsTwice(Gateway):
    """A message that two filters match comes twice."""

    def bring(self, client, packet, granted):
        super().bring(client, packet, granted)
        if len(client.subscriptions) > 1:
            super().bring(client, packet, granted)


class ForgetsWaiting(Gateway):
    """By any CONNECT what waits is gone, without a note."""

    def begin(self, client):
        client.queue.clear()
        super().begin(client)


class AcknowledgesFirst(Gateway):
    """An acknowledgement leaves before what waited as it came to wait."""

    def owe(self, item):
        is_placed = super().owe(item)
        if is_placed and isinstance(item, Acknowledge):
            self.outbox.insert(0, self.outbox.pop())
        return is_placed


class Forgetful(Gateway):
    """For a while no MsgId of a client is open."""

    def forgetting(self, address, act, *about):
        client = self.client_at(address)
        kept = set(client.open) if client else set()
        if client:
            client.open.clear()
        act(address, *about)
        if client:
            client.open |= kept


class ForwardsRepeats(Forgetful):
    """A repeat waits for the broker as the publish that it repeats, where that is allowed."""

    def on_publish(self, address, frame):
        self.forgetting(address, super().on_publish, frame)


class JudgesRepeats(Gateway):
    """A repeat that the policy in force denies is denied."""

    def on_publish(self, address, frame):
        client = self.client_at(address)
        is_repeat = client and gateway_model.is_active(client) and frame.msg_id in client.open
        if is_repeat and frame.qos == 2:
            try:
                self.ask_for_listed(False, client.name)
            except gateway_model.Denied as denied:
                self.deny(address, frame, denied)
                return
        super().on_publish(address, frame)


class OpensWhatIsDenied(Gateway):
    """A publish at QoS 2 opens its MsgId, also where it is denied, if there is a place."""

    def on_publish(self, address, frame):
        super().on_publish(address, frame)
        client = self.client_at(address)
        if client and frame.qos == 2 and len(client.open) < gateway_model.MOST_OPEN:
            client.open.add(frame.msg_id)


class RepeatsAtAnyQos(Gateway):
    """A publish at QoS 1 whose MsgId is open is passed over."""

    def on_publish(self, address, frame):
        client = self.client_at(address)
        if client and frame.qos == 1 and gateway_model.is_active(client) and frame.msg_id in client.open:
            self.send(address, gateway_model.acknowledgement(frame, gateway_model.ACCEPTED))
        else:
            super().on_publish(address, frame)


class ForgetsAtSleep(Gateway):
    """As a client goes to sleep no MsgId of it is open any more."""

    def on_disconnect(self, address, frame):
        super().on_disconnect(address, frame)
        client = self.client_at(address)
        if client and client.state == gateway_model.ASLEEP:
            client.open.clear()


class ForgetsAtItsEnd(Gateway):
    """As a session ends no MsgId of its client is open any more."""

    def leave(self, client):
        super().leave(client)
        client.open.clear()

    def lose(self, client):
        super().lose(client)
        client.open.clear()


class ForgetsAtAnyConnect(Gateway):
    """A CONNECT leaves no MsgId open, clean or not."""

    def begin(self, client):
        client.open.clear()
        super().begin(client)


class KeepsOpenAtCleanConnect(Gateway):
    """A clean CONNECT leaves the MsgIds open."""

    def on_connect(self, address, frame):
        kept = {client.name: set(client.open) for client in self.clients.values()}
        super().on_connect(address, frame)
        for name, opened in kept.items():
            self.clients[name].open |= opened


class KeepsOpenAtPubrel(Forgetful):
    """PUBREL is answered, and closes nothing."""

    def on_pubrel(self, address, frame):
        self.forgetting(address, super().on_pubrel, frame)


class AnswersPubrelOnce(Gateway):
    """A PUBREL whose MsgId is not open is out of turn."""

    def on_pubrel(self, address, frame):
        client = self.client_at(address)
        if client and frame.msg_id not in client.open:
            self.deny(address, frame, gateway_model.Denied(gateway_model.OUT_OF_TURN))
        else:
            super().on_pubrel(address, frame)


class OpensOneMore(Gateway):
    """One MsgId more than 16 is open."""

    def ask_for_room(self, qos, name, client=None):
        if client and len(client.open) == gateway_model.MOST_OPEN:
            qos = min(qos, 1)
        super().ask_for_room(qos, name, client)


class SharesOpenIds(Gateway):
    """A MsgId that is open for one client is open for all."""

    def on_connect(self, address, frame):
        super().on_connect(address, frame)
        shared = next(iter(self.clients.values())).open if self.clients else set()
        for client in self.clients.values():
            client.open = shared


WRONG = (
    *wrong_replacements.WRONG, SendsAgainUnjudged, HandsOverUnjudged, HandsAnnouncedUnjudged,
    AnnouncesAgainUnjudged, GoesOnUnjudged, ForwardsUnjudged, BeginsUnjudged, KeepsSubscriptions, HandsTwice,
    ForgetsWaiting, AcknowledgesFirst, ForwardsRepeats, JudgesRepeats, OpensWhatIsDenied, RepeatsAtAnyQos,
    ForgetsAtSleep, ForgetsAtItsEnd, ForgetsAtAnyConnect, KeepsOpenAtCleanConnect, KeepsOpenAtPubrel,
    AnswersPubrelOnce, OpensOneMore, SharesOpenIds)
