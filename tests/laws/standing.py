"""Which filters stand for a client, and for anybody (docs/model.md, the views; MQTT 3.1.1, 3.8 and 3.9)."""
from laws.book import View
from laws.clients import accepted

MOST_OPEN = 49_534


class Held(View):
    """The filters that stand for a client, each with its QoS, in the order in which each stood first."""

    def __init__(self):
        super().__init__()
        self.filters = {}

    def read(self, entry):
        if entry.what == 'connect' and entry.said[0].is_clean:
            self.filters = {}
        elif entry.what == 'subscribe':
            self.filters[entry.said[0]] = entry.said[1]
        elif entry.what in ('unsubscribe', 'end'):
            self.filters.pop(entry.said, None)


class Wanted(View):
    """For whom each filter stands, in the order in which each stood first without a break, the packet ids of
    open SUBSCRIBEs, and the filters of which one is owed."""

    def __init__(self):
        super().__init__()
        self.holders, self.opened, self.owed = {}, {}, set()

    def read(self, entry):
        if entry.what == 'subscribed':
            self.opened[entry.said[1]] = entry.said[0]
            self.owed.discard(entry.said[1])
        elif entry.what == 'owed':
            self.owed.add(entry.said)
        elif entry.what == 'suback':
            self.opened = {pattern: it for pattern, it in self.opened.items() if it != entry.said}
        elif entry.what == 'subscribe':
            self.holders.setdefault(entry.said[0], []).append(entry.client)
        elif entry.what in ('unsubscribe', 'end'):
            self.leave(entry.said, entry.client)
        elif entry.what == 'connect' and entry.said[0].is_clean:
            for pattern in list(self.holders):
                self.leave(pattern, entry.client)

    def leave(self, pattern, leaving):
        left = [client for client in self.holders.get(pattern, ()) if client != leaving]
        if left:
            self.holders[pattern] = left
        else:
            self.holders.pop(pattern, None)
            self.opened.pop(pattern, None)
            self.owed.discard(pattern)


def standing(book, client):
    """The filters that stand for a client, each with its QoS, in the order in which each stood first."""
    return dict(book.view(Held, client).filters)


def wanted(book):
    """The filters that stand for anybody, in the order in which each stood first without a break, each
    with the packet id of its open SUBSCRIBE: the last one since then, unless a SUBACK with that id came."""
    view = book.view(Wanted)
    return {pattern: view.opened.get(pattern) for pattern in view.holders}


def may_open(book, pattern):
    """Whether one more SUBSCRIBE may be open, or one of the filter is, which the next takes the place of."""
    opened = book.view(Wanted).opened
    return len(opened) < MOST_OPEN or pattern in opened


def owed(book):
    """The filters of which a SUBSCRIBE is owed, in the order in which each stood first without a break."""
    view = book.view(Wanted)
    return [pattern for pattern in view.holders if pattern in view.owed]


def is_held(book, pattern):
    return any(pattern in standing(book, client) for client in accepted(book))
