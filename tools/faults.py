"""Says for tools/explain.py what is wrong with a line of a history that breaks a rule of docs/histories.md."""
import reference


def line(number):
    return "line %d" % number


class Malformed:
    """There is a function for each rule, which is given the number of the line and reads in the file what it needs."""

    def __init__(self, file):
        self.file = file

    def of(self, number, rule):
        """What is wrong, in words."""
        return getattr(self, rule.lower())(number)

    def end_of(self, txn):
        return next((at for at, e in self.file.events_of([txn]).items() if e.ends), None)

    def m1(self, number):
        txn = self.file.event(number).txn
        return "transaction %d has already ended, at %s" % (txn, line(self.end_of(txn)))

    def m2(self, number):
        key, txn, given = self.file.event(number).write[0]
        earlier = sum(at < number for at in self.file.writes([txn], [key]))
        return "this is write or delete number %d of `%s` by %d, and not number %d" % (earlier + 1, key, txn, given)

    def m3(self, number):
        seen = self.file.event(number).seen
        keys, txns = {version[0] for version, _ in seen}, {version[1] for version, _ in seen}
        found = {e.write for at, e in self.file.writes(txns, keys).items() if at < number}
        (key, txn, count), value = next(one for one in seen if one not in found)
        kind = "d" if value is None else "w"
        event = reference.Event(kind, txn, write=((key, txn, count), value))
        return "no earlier line is `%s`" % reference.event_text(event)

    def m4(self, number):
        e = self.file.event(number)
        earlier = {at: b for at, b in self.file.events_of([e.txn]).items() if at < number and b.write}
        own = {b.write[0][0]: at for at, b in earlier.items()}
        for key, at in sorted(own.items()):
            shown = [seen for seen in e.seen if seen[0][0] == key]
            meets = reference.holds(e.span, key) if e.span else bool(shown)
            if meets and shown != [earlier[at].write]:
                does = "deletes" if earlier[at].write[1] is None else "writes"
                return "%d %s `%s` at %s, and isn't shown that version" % (e.txn, does, key, line(at))

    def m5(self, number):
        e = self.file.event(number)
        if e.span[0] > e.span[1]:
            return "the range begins above its end"
        outside = [seen[0][0] for seen in e.seen if not reference.holds(e.span, seen[0][0])]
        return "`%s` isn't in the range" % outside[0] if outside else "the keys of the list don't rise"

    def m6(self, number):
        text = self.file.line(number)
        end = self.end_of(int(text[1:])) if text[:1] == "u" else None
        if end:
            return "transaction %s is named as unfinished, and ends at %s" % (text[1:], line(end))
        ended = set(self.file.groups(rb"[cau]([0-9]+)"))
        running = next(txn for txn in self.file.groups(rb"[wdrs]([0-9]+)") if txn not in ended)
        return "transaction %s neither ends nor is named as unfinished before it" % running.decode()

    def committed_writers(self, keys):
        """The writers and keys of the writes by committed transactions of keys of this form."""
        committed = set(self.file.groups(rb"c([0-9]+)"))
        writes = self.file.groups(rb"[wd]([0-9]+)\((%s)\." % keys)
        return ((txn, key) for txn, key in writes if txn in committed)

    def m7(self, number):
        text = self.file.line(number)
        if text[:1] != "[":
            written = {key for _, key in self.committed_writers(rb"[a-z0-9_]+")}
            missing = written - set(self.file.groups(rb"\[([a-z0-9_]+)"))
            return "an order of `%s` is missing before it" % min(missing).decode()
        key = text[1:].split(":")[0]
        return self.wrong_order(key, sorted({int(txn) for txn, _ in self.committed_writers(key.encode())}))

    @staticmethod
    def wrong_order(key, writers):
        if not writers:
            return "no committed transaction writes `%s`" % key
        found = ", ".join(map(str, writers))
        return "the committed writers of `%s` are %s, and the order has to list each once" % (key, found)

    def last_value(self, key, txn):
        """What the last write of the key by the transaction holds."""
        return list(self.file.writes([txn], [key]).values())[-1].write[1]

    def m8(self, number):
        text = self.file.line(number)
        if text[:1] != "{":
            return "a final of `%s` is missing before it" % self.without_final()
        key = text[1:].split(",")[0]
        orders = self.file.orders([key])
        if not orders:
            return "no committed transaction writes `%s`" % key
        value = self.last_value(key, orders[key][-1])
        holds = "is dead" if value is None else "holds " + value
        return "the last version of `%s` is that of %d, and %s" % (key, orders[key][-1], holds)

    def without_final(self):
        """The first key without a final whose last version is visible."""
        last = dict(self.file.groups(rb"\[([a-z0-9_]+):(?:[0-9]+<<)*([0-9]+)\]"))
        for key in self.file.groups(rb"\{([a-z0-9_]+)"):
            last.pop(key, None)
        writes = self.file.groups(rb"([wd])([0-9]+)\(([a-z0-9_]+)")
        kinds = {key: kind for kind, txn, key in writes if last.get(key) == txn}
        return min(key for key, kind in kinds.items() if kind == b"w").decode()
