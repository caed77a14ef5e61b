"""Which topic ids a client was told, which it knows, and by which it is sent a name (docs/model.md, the
views; MQTT-SN 1.2, 6.5 and 6.10)."""
from laws.book import View


class Ids(View):
    """The names that a client was told ids of since its last accepted CONNECT, and those that it knows."""

    def __init__(self):
        super().__init__()
        self.told, self.known = [], set()

    def read(self, entry):
        if entry.what == 'connect':
            self.told, self.known = [], set()
        if tells(entry):
            self.known.add(named(entry))
        if entry.what == 'accepted':
            self.known.add(entry.said)
        if (tells(entry) or entry.what == 'announce') and named(entry) not in self.told:
            self.told.append(named(entry))


def told(book, client):
    """The names that it was told ids of since its last accepted CONNECT: the k-th has the id k."""
    return list(book.view(Ids, client).told)


def tells(entry):
    """Whether REGACK or SUBACK tells an id by it."""
    return entry.what == 'register' or (entry.what == 'subscribe' and entry.said[2])


def named(entry):
    if entry.what == 'register':
        return entry.said
    return entry.said.message.name if entry.what == 'announce' else entry.said[0]


def known(book, client):
    """The names whose ids it knows: REGACK or SUBACK told it, or it accepted the announcement."""
    return book.view(Ids, client).known


def topic_id(book, client, name):
    """The type and the octets of the id by which a client knows a name, if there is one."""
    if len(name) == 2:
        return 2, name
    predefined = book.policy.topic_id(name)
    if predefined is not None:
        return 1, predefined.to_bytes(2, 'big')
    if name in known(book, client):
        return 0, normal_id(book, client, name)
    return None


def normal_id(book, client, name):
    """The id that a name has, or that it is given next."""
    names = told(book, client)
    return ((names.index(name) if name in names else len(names)) + 1).to_bytes(2, 'big')
