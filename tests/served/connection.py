"""A connection of the storm: what its client sends and how it goes on, and whether what it met is due."""
from answers import Wrong
from crowd import Read
from due import shown
from model import TooLarge
from orders import NEVER, Asked

PATIENCE = 3
"""The seconds after which a request is carried out at the latest, if its client left without the reply."""
FIRST_GAP, GAP, LAST_GAP = 0.025, 1.5, 0.5
"""Where somebody waits for a place, a connection may be dropped if it was silent for longer, in seconds, before its first byte or later; and where
nobody does, after its reply. These are half of what the program allows, or a little more, since the program's clock isn't the client's."""


class Connection:
    """What a client sends, how it goes on, and what that means.

    `how` is "stay" or "half" where it reads the whole reply, before or after it has closed its sending side; "close" or "reset" where it leaves
    as soon as all is sent; "front" where it leaves within the reply; and "deaf" where it reads nothing and leaves after a while."""

    def __init__(self, kind, sent, meaning, how="stay", length=None):
        """`length` is how many bytes of what is sent are the request, if not all."""
        self.kind, self.sent, self.meaning, self.how = kind, sent, meaning, how
        self.length = len(sent) if length is None else length
        self.places, self.before, self.most, self.leaves, self.receive = {len(sent)}, {}, 0, "close", None
        self.read = Read()

    def cut(self, rng, is_slow=None):
        """Cuts what is sent into pieces, with a pause before some."""
        end = len(self.sent)
        count = end if is_slow else rng.choice((0, 0, 1, 2, 5, 20))
        if count == end and 0 < end < 1000:
            pause = rng.choice((0.03, 0.1, 0.2)) / end
            for place in range(1, end):
                self.hold(place, ("wait", pause))
            return self
        self.places |= {rng.randrange(end + 1) for _ in range(min(count, 20))}
        for place in rng.sample(sorted(self.places), min(len(self.places), rng.choice((0, 0, 0, 1, 3)))):
            self.hold(place, ("wait", 0.002))
        return self

    def hold(self, place, act):
        """Does this act before the byte at this place is sent."""
        self.places.add(place)
        self.before[place] = [*self.before.get(place, []), act]
        return self

    def acts(self, clients):
        """Returns the acts of its client. What is to be done after another connection names its number among the clients."""
        acts, begin = [], 0
        for place in sorted(self.places | {0}):
            acts += [("send", self.sent[begin:place])] if place > begin else []
            acts += [(name, clients[value] if name == "after" else value) for name, value in self.before.get(place, [])]
            begin = place
        return acts + self.last_acts()

    def last_acts(self):
        leave = (self.leaves, None)
        return {
            "stay": [("read", self.read)],
            "half": [("half", None), ("read", self.read)],
            "close": [("close", None)],
            "reset": [("reset", None)],
            "front": [("read", self.read._replace(most=self.most)), leave],
            "deaf": [leave],
            "silent": [("look", None), leave],
        }[self.how]

    def may_be_dropped(self, client, is_crowded):
        """Returns whether the program may have dropped its client. One that still sends after its request may lose the reply then, since bytes
        that nobody reads reset a connection."""
        is_after = client.sent >= self.length and self.length < len(self.sent)
        if not is_crowded:
            return is_after and client.gap > LAST_GAP
        is_odd = self.how == "silent" or self.meaning.always is not None or is_after
        return not client.sent or client.first_gap > FIRST_GAP or client.gap > (FIRST_GAP if is_odd else GAP)

    def asked(self, client, is_crowded):
        """Returns the request as it was made, where it may have changed the dataset or was answered by it, or None.

        # Errors

        Wrong where its client met what isn't due over any dataset."""
        if client.end == "late":
            raise Wrong("no end of the reply in time")
        if self.is_dropped(client) and self.may_be_dropped(client, is_crowded):
            return self.unanswered(client, True) if client.sent >= self.length else None
        if client.end in ("broken", "refused"):
            raise Wrong(f"the connection is {client.end} after {client.sent} bytes were sent")
        if self.how == "silent" and client.end == "end":
            raise Wrong("it is dropped while there are places")
        if self.how in ("close", "reset", "deaf", "silent"):
            may_be_lost = self.leaves == "reset" if self.how == "deaf" else self.how == "reset"
            return self.unanswered(client, may_be_lost)
        return self.answered(client)

    def is_dropped(self, client):
        """Returns whether its client was dropped, as far as that can be told from the end that it met."""
        is_due_nothing = self.how != "silent" and getattr(self.meaning.always, "due", None) == b""
        return client.end == "broken" or client.end == "end" and not client.found and not is_due_nothing

    def unanswered(self, client, may_be_lost):
        """Returns the request whose reply nobody read. A reset may come before the program has read what was sent."""
        if not self.meaning.writes or self.how == "silent":
            return None
        fits = lambda quads: {self.meaning.due(quads)[1]} | ({quads} if may_be_lost else set())
        return Asked(client.asked, client.ended + PATIENCE, True, fits, is_answered=False)

    def answered(self, client):
        is_front = client.end == "left"
        if self.meaning.always:
            self.meaning.always.check(bytes(client.found))
            return None

        def fits(quads):
            try:
                due, after = self.meaning.due(quads)
            except TooLarge:
                if self.meaning.writes:
                    raise
                return {quads}
            return set() if self.wrong_with(due, client, is_front) else {after}

        return Asked(client.asked, client.heard or NEVER, self.meaning.writes, fits)

    @staticmethod
    def wrong_with(due, client, is_front):
        """Returns what is wrong with a reply where this one is due, or None."""
        try:
            (due.check_front if is_front else due.check)(bytes(client.found))
        except Wrong as error:
            return error
        return None

    def shown(self, client):
        return f"it sends {shown(self.sent)}\n    in {len(self.places)} pieces, and is answered {shown(client.found)}"
