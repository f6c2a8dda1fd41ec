"""Whether the replies of requests that were made at once are those of some one order, and what such orders lead to.

A request stands before another in each such order if its reply had begun to come before the other's last byte was sent. A world is a dataset
that may be stored, with the requests that may still be carried out later: those whose client left.

Only what may change the dataset is tried in each order. A request that changes nothing is put as early as its reply allows: if some order
has it later, then so does the order in which it is moved to the front, which leads to the same.
"""
import math
import time
from collections import namedtuple

NEVER = math.inf
MOST = 300_000
"""How many states are looked at before the search is given up."""


class TooMany(Exception):
    """There are too many orders to look at."""


class Asked:
    """A request that was made: it was carried out after the time `asked` and before `heard`, which is infinite where that isn't known."""

    def __init__(self, asked, heard, writes, fits, is_answered=True):
        """`fits` returns for a dataset those that may be stored afterwards, or none where the reply isn't due. It is a request that may still
        be carried out later if it isn't `is_answered`."""
        self.asked, self.heard, self.writes, self.is_answered = asked, heard, writes, is_answered
        self.fits_of, self.known = fits, {}

    def fits(self, quads):
        if quads not in self.known:
            self.known[quads] = self.fits_of(quads)
        return self.known[quads]


World = namedtuple("World", "quads pending")


class Search:
    """A search for the orders of some requests. A set of them is a number with a bit for each."""

    def __init__(self, asked):
        self.asked = asked
        self.before = [self.set_of(other.heard < item.asked for other in asked) for item in asked]
        self.due = self.set_of(item.is_answered for item in asked)

    @staticmethod
    def set_of(flags):
        return sum(1 << at for at, flag in enumerate(flags) if flag)

    def can_follow(self, done, at):
        return not done >> at & 1 and not self.before[at] & ~done

    def with_queries(self, done, quads):
        """Returns the set with each request that changes nothing and can be carried out now."""
        grows = True
        while grows:
            grows = False
            for at, item in enumerate(self.asked):
                if not item.writes and self.can_follow(done, at) and item.fits(quads):
                    done, grows = done | 1 << at, True
        return done

    def ends(self, starts):
        """Returns the worlds that orders lead to from these pairs of a set and a dataset."""
        left, seen, found = list(starts), set(), set()
        while left:
            done, quads = left.pop()
            state = done, quads = self.with_queries(done, quads), quads
            if state in seen:
                continue
            seen.add(state)
            if len(seen) > MOST:
                raise TooMany
            if not self.due & ~done:
                found.add(World(quads, frozenset(item for at, item in enumerate(self.asked) if not done >> at & 1)))
            for at, entry in enumerate(self.asked):
                if entry.writes and self.can_follow(done, at):
                    left += [(done | 1 << at, after) for after in entry.fits(quads)]
        return found

    def datasets(self, starts):
        """Returns datasets that may be stored meanwhile, whatever the queries' replies are. Of very many some are left out."""
        left, seen = list(starts), set()
        while left:
            done, quads = state = left.pop()
            if state not in seen and len(seen) < MOST // 100:
                seen.add(state)
                left += [(done | 1 << at, after) for at, item in enumerate(self.asked) if item.writes and not done >> at & 1 for after in item.fits(quads)]
        return {quads for _, quads in seen}


def searched(worlds, asked):
    """Returns the search for orders of these requests and of those that are pending in the worlds, and where it starts."""
    pending = list(dict.fromkeys(item for world in worlds for item in world.pending))
    search = Search(pending + asked)
    return search, [(Search.set_of(item not in world.pending for item in pending), world.quads) for world in worlds]


def worlds_after(worlds, asked):
    """Returns the worlds that the orders of the requests lead to from one of these worlds: none where the replies are those of no order."""
    search, starts = searched(worlds, asked)
    return search.ends(starts)


def strangers(worlds, asked):
    """Returns those of the requests whose replies are due over no dataset that may have been stored."""
    search, starts = searched(worlds, asked)
    datasets = search.datasets(starts)
    return [item for item in asked if not any(item.fits(quads) for quads in datasets)]


def suspects(worlds, asked, seconds):
    """Returns those of the queries without which all others have an order, as far as they are found in this time."""
    end, found = time.monotonic() + seconds, []
    for request in asked:
        if not request.writes and time.monotonic() < end and worlds_after(worlds, [other for other in asked if other is not request]):
            found.append(request)
    return found
