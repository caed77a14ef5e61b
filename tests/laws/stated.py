"""Which will a client stated (docs/model.md, the parts of a client; MQTT-SN 1.2, 6.2 to 6.4)."""
from dataclasses import dataclass

from laws.book import View


@dataclass(frozen=True)
class Will:
    name: bytes
    qos: int
    is_retained: int
    message: bytes


class Stated(View):
    """The topic of a will and the message that were stated last since the last deletion, and the WILLTOPIC
    that was allowed in the dialogue that the last CONNECT began."""

    def __init__(self):
        super().__init__()
        self.topic, self.message, self.in_dialogue = None, b'', None

    def read(self, entry):
        if entry.what == 'connect':
            self.in_dialogue = None
        is_clean = entry.what == 'connect' and entry.said[0].is_clean
        if is_clean or (entry.what == 'will' and deletes(entry.said)):
            self.topic, self.message, self.in_dialogue = None, b'', None
        elif entry.what == 'will':
            self.read_will(entry.said)

    def read_will(self, frame):
        if frame.message == 'willtopic':
            self.in_dialogue = frame
        elif frame.message == 'willtopicupd':
            self.topic = frame
        else:
            self.message = frame.text
            self.topic = self.in_dialogue if frame.message == 'willmsg' else self.topic


def deletes(frame):
    return frame.message in ('willtopic', 'willtopicupd') and not frame.body


def stated_topic(book, client):
    """The WILLTOPIC that was allowed in the dialogue that its last CONNECT began, if there is one."""
    return book.view(Stated, client).in_dialogue


def will(book, client):
    """The topic that was stated last since the last deletion, with the message that was stated last since
    then; a WILLTOPIC counts where a WILLMSG of the same dialogue was allowed."""
    stated = book.view(Stated, client)
    topic = stated.topic
    if topic is None:
        return None
    return Will(topic.text, int(topic.qos in (1, 2)), topic.is_retained, stated.message)
