"""Which dependencies an event gives, by docs/histories.md, for tools/explain.py."""
import reference


class Order:
    """The version order of a key. `is_dead` says of a transaction that installed a version whether that is dead."""

    def __init__(self, key, txns, is_dead):
        self.key, self.txns, self.is_dead = key, txns, is_dead
        self.places = {txn: place for place, txn in enumerate(txns, 1)}

    def installer(self, place):
        """The transaction that installed the version at this place, or None for the unborn version."""
        return self.txns[place - 1] if place else None

    def is_visible(self, place):
        return place > 0 and not self.is_dead(self.txns[place - 1])

    def changes(self, place):
        """Whether the version at this place changes the matches of a scan."""
        return self.is_visible(place) != self.is_visible(place - 1)

    def selected(self, e):
        """The place of the version that the event reads or selects of other transactions, or None."""
        writer = next((version[1] for version, _ in e.seen if version[0] == self.key), None)
        if writer is None:
            return 0 if e.span and reference.holds(e.span, self.key) else None
        return None if writer == e.txn else self.places[writer]

    def follows(self, e, other):
        """Whether the event makes a read dependency on the other transaction."""
        seen, place = self.selected(e), self.places[other]
        return seen is not None and (place == seen or bool(e.span) and place < seen and self.changes(place))

    def precedes(self, e, other):
        """Whether the event makes an anti-dependency of which the other transaction is the second end."""
        seen, place = self.selected(e), self.places[other]
        if seen is None or place <= seen:
            return False
        is_next = place == seen + 1 and (not e.span or self.is_visible(seen))
        return is_next or bool(e.span) and self.changes(place)
