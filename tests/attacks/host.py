"""A host that is honest but in one thing. What it has not done it does not know later: it replies what it has."""

from model.host import REQUESTS, Host
from model.rules import pages_of
from model.script import Unrandom

FAILED = (-2).to_bytes(4, "little", signed=True)  # the right reply to nothing but a create


def status(number):
    return number.to_bytes(4, "little", signed=True)


class Dishonest(Host):
    def __init__(self, deviation=None, is_repeated=False):
        """`deviation(host, name, fields)` gives a reply in the place of the right one, or None to obey."""
        super().__init__(Unrandom())
        self.deviation, self.is_repeated = deviation, is_repeated
        self.is_armed = False
        self.asked = 0
        self.first = None  # the number of the request at which it was dishonest first
        self.is_used = False  # memory was lent before
        self.old = {}  # pages that were overwritten, the first of each; those that were cut off

    def reply(self, request):
        self.asked += 1
        if self.is_armed and self.deviation and (self.is_repeated or self.first is None):
            reply = self.deviation(self, REQUESTS[request[0]], request[1:])
            if reply is not None:
                self.first = self.first or self.asked
                return reply
        return self.obey(request)

    def obey(self, request):
        """As an honest host does, as far as what it has done before allows it."""
        try:
            return super().reply(request)
        except (KeyError, AttributeError):
            return FAILED

    def store(self, fields):
        descriptor, page = (int.from_bytes(fields[at : at + 4], "little") for at in (0, 4))
        file = self.open_files[descriptor]
        self.old.setdefault((file.id, page), file.page(page))
        return super().store(fields)

    def cut(self, fields):
        descriptor, size = (int.from_bytes(fields[at : at + 4], "little") for at in (0, 4))
        file = self.open_files[descriptor]
        for page in range(pages_of(size), pages_of(len(file.data))):
            self.old[file.id, page] = file.page(page)
        return super().cut(fields)
