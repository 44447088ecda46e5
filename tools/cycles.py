"""Finds a shortest cycle of the direct dependencies of a history, for tools/explain.py.

A scan depends on all earlier versions of a key that change its matches, and all later ones on it. These edges are not
listed: the installers of such versions of a key stand in one list by their places, and the scans of the key in another
by the places that they select. Then the ends of the edges of one event or version are the rest of a list from some
index on, and a search goes over each list once.
"""
import bisect
import collections

from dependencies import Order


class Graph:
    """The dependencies of a history without a fault, given by its events and version orders."""

    def __init__(self, events, orders):
        events = list(events)
        done = {e.txn for e in events if e.kind == "c"}
        dead = {(e.write[0][0], e.txn): e.write[1] is None for e in events if e.write}
        self.orders = {key: Order(key, txns, lambda txn, key=key: dead[key, txn]) for key, txns in orders}
        self.keys = sorted(self.orders)
        self.events = collections.defaultdict(list)  # of a transaction, with their indices
        self.next = {txn: set() for txn in done}  # single edges
        self.rests = {txn: [] for txn in done}  # the lists, and from which index on
        self.lists = []
        scans = {key: [] for key in self.keys}
        for at, e in enumerate(events):
            if e.txn in done:
                self.events[e.txn].append((at, e))
                self.take(e, scans)
        for key in self.keys:
            self.close(self.orders[key], scans[key])
        self.indices = {txn: {} for txn in done}  # of a transaction, the lists that it is in, and its last index there
        for number, members in enumerate(self.lists):
            for at, txn in enumerate(members):
                self.indices[txn][number] = at

    def met(self, e):
        """The orders of the keys that the event reads, lists or has in its range."""
        if e.span:
            low, high = bisect.bisect_left(self.keys, e.span[0]), bisect.bisect_right(self.keys, e.span[1])
            return [self.orders[key] for key in self.keys[low:high]]
        return [self.orders[version[0]] for version, _ in e.seen if version[0] in self.orders]

    def take(self, e, scans):
        """Adds the edges from the version that the event sees, and to the next one. Puts a scan into the lists."""
        listed = {version[0]: version[1] for version, _ in e.seen}
        for order in self.met(e):
            writer = listed.get(order.key)
            if writer == e.txn:
                continue
            place = order.places[writer] if writer else 0
            if place:
                self.next[order.installer(place)].add(e.txn)
            if place < len(order.txns) and (not e.span or order.is_visible(place)):
                self.next[e.txn].add(order.installer(place + 1))
            if e.span:
                scans[order.key].append((place, e.txn))

    def close(self, order, scans):
        """Adds the write dependencies of a key, and its two lists."""
        for first, second in zip(order.txns, order.txns[1:]):
            self.next[first].add(second)
        if not scans:
            return
        scans.sort()
        changes = [place for place in range(1, len(order.txns) + 1) if order.changes(place)]
        selected, number = [place for place, _ in scans], len(self.lists)
        self.lists += [[order.installer(place) for place in changes], [txn for _, txn in scans]]
        for place, txn in scans:
            self.rests[txn].append((number, bisect.bisect_right(changes, place)))
        for place in changes:
            self.rests[order.installer(place)].append((number + 1, bisect.bisect_left(selected, place)))

    def followers(self, txn):
        """The ends of the edges of the transaction. A transaction may occur more than once."""
        found = list(self.next[txn])
        for number, start in self.rests[txn]:
            found += self.lists[number][start:]
        return [other for other in found if other != txn]

    def named(self, first, second):
        """The first edge between the two, in the order of docs/histories.md."""
        for key in sorted({e.write[0][0] for _, e in self.events[first] if e.write}):
            places = self.orders[key].places
            if places.get(second) == places[first] + 1:
                return first, "ww", key, second
        for _, e in sorted(self.events[first] + self.events[second], key=lambda one: one[0]):
            for order in self.met(e):
                if e.txn == second and first in order.places and order.follows(e, first):
                    return first, "wr", order.key, second
                if e.txn == first and second in order.places and order.precedes(e, second):
                    return first, "rw", order.key, second
        raise ValueError("no edge from %d to %d" % (first, second))


class Components:
    """Finds which transactions lie on cycles with one another (Tarjan 1972), among some transactions. Nodes are the
    transactions, and the indices of the lists, each of which leads to its transaction and to the next index."""

    def __init__(self, graph, among):
        self.graph, self.among = graph, among
        self.low, self.stack, self.found = {}, [], []
        for txn in among:
            if txn not in self.low:
                self.visit(txn)

    def after(self, node):
        if isinstance(node, tuple):
            members, (number, at) = self.graph.lists[node[0]], node
            if at < len(members):
                yield from [txn for txn in members[at:at + 1] if txn in self.among]
                yield number, at + 1
        else:
            yield from [txn for txn in self.graph.next[node] if txn in self.among and txn != node]
            yield from self.graph.rests[node]

    def visit(self, root):
        path = [self.entered(root)]
        while path:
            node, first, rest = path[-1]
            for other in rest:
                if other not in self.low:
                    path.append(self.entered(other))
                    break
                self.low[node] = min(self.low[node], self.low[other])
            else:
                path.pop()
                if path:
                    self.low[path[-1][0]] = min(self.low[path[-1][0]], self.low[node])
                if self.low[node] == first:
                    self.leave(node)

    def entered(self, node):
        self.low[node] = len(self.low)
        self.stack.append(node)
        return node, self.low[node], self.after(node)

    def leave(self, node):
        """Takes the component of the node from the stack."""
        members = []
        while not members or members[-1] != node:
            members.append(self.stack.pop())
            self.low[members[-1]] = float("inf")
        txns = {member for member in members if not isinstance(member, tuple)}
        if len(txns) > 1:
            self.found.append(txns)


class Search:
    """A search, breadth first, for a shortest cycle through a transaction among others, of fewer than `bound`."""

    def __init__(self, graph, start, among, bound):
        self.graph, self.start, self.among, self.bound = graph, start, among, bound
        self.before, self.depth, self.ends = {start: None}, {start: 1}, {}

    def closes(self, txn):
        """Whether an edge leads from this transaction to the start."""
        indices = self.graph.indices[self.start]
        return self.start in self.graph.next[txn] or any(indices.get(n, -1) >= at for n, at in self.graph.rests[txn])

    def new_followers(self, txn):
        """Those that no list and no edge has led to so far."""
        yield from self.graph.next[txn]
        for number, start in self.graph.rests[txn]:
            members = self.graph.lists[number]
            yield from members[start:self.ends.get(number, len(members))]
            self.ends[number] = min(start, self.ends.get(number, len(members)))

    def run(self):
        """The transactions of the cycle, or None."""
        queue = collections.deque([self.start])
        while queue:
            txn = queue.popleft()
            if txn != self.start and self.closes(txn):
                return self.way_to(txn)
            if self.depth[txn] + 1 < self.bound:
                for other in self.new_followers(txn):
                    if other in self.among and other not in self.before:
                        self.before[other], self.depth[other] = txn, self.depth[txn] + 1
                        queue.append(other)

    def way_to(self, txn):
        found = []
        while txn is not None:
            found.append(txn)
            txn = self.before[txn]
        return found[::-1]


def shorter(graph, length):
    """The edges of a shortest cycle if it has fewer than this many, or None. It is written from its smallest
    transaction on. A transaction through which no shorter cycle goes is left out from then on; if the search went far,
    what is left is divided anew."""
    best, left = None, Components(graph, set(graph.next)).found
    while left and length > 2:
        among = left.pop()
        for start in sorted(among) if length > 2 else ():
            search = Search(graph, start, among, length)
            found = search.run()
            best, length = (found, len(found)) if found else (best, length)
            among.discard(start)
            if length == 2:
                break
            if 2 * len(search.before) > len(among):
                left += Components(graph, among).found
                break
    if best:
        first = best.index(min(best))
        best = best[first:] + best[:first]
        return [graph.named(*ends) for ends in zip(best, best[1:] + best[:1])]
