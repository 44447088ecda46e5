"""Where the arrows of a drawing run, and where their labels stand, for tools/drawing.py.

An arrow leaves the top or bottom of a box and ends at that of another one, in another row. If there are rows between
the two, it runs straight through them where no box stands. A label stands on its arrow, off other arrows and boxes.
"""
import collections

APART, CLEAR = 14, 9  # between two arrows that run straight; between an arrow and a box that it passes
DENSE = 6  # from point to point of those that stand for an arrow
LABEL_HIGH, BESIDE, CELL = 18, (10, 5), 64  # BESIDE: room around a label


class Arrow:
    """An arrow from one box to another one, which has this label."""

    def __init__(self, label, start, end):
        self.label, self.start, self.end = label, start, end
        self.falls = start.top < end.top
        self.starts_at, self.ends_at, self.passes_at = start.middle, end.middle, None  # across
        self.label_at = None

    @property
    def ys(self):
        """Its first and last height."""
        if self.falls:
            return self.start.bottom, self.end.top
        return self.start.top, self.end.bottom

    def between(self, box):
        """Whether the box stands in a row between its ends."""
        low, high = sorted((self.start.top, self.end.top))
        return low < box.top < high

    def curves(self, gap):
        """The curves that it consists of, each by its four points. `gap` is the height between two rows."""
        (x1, x2), (y1, y2), x = (self.starts_at, self.ends_at), self.ys, self.passes_at
        if x is None:
            half = (y1 + y2) / 2
            return [((x1, y1), (x1, half), (x2, half), (x2, y2))]
        step = gap if self.falls else -gap
        up, down = y1 + step, y2 - step
        return [((x1, y1), (x1, y1 + step / 2), (x, y1 + step / 2), (x, up)), ((x, up), (x, up), (x, down), (x, down)),
                ((x, down), (x, y2 - step / 2), (x2, y2 - step / 2), (x2, y2))]

    def points(self, gap):
        """Points that lie densely on it."""
        for a, b, c, d in self.curves(gap):
            count = 2 + int((abs(a[0] - d[0]) + abs(a[1] - d[1])) / DENSE)
            for t in (n / count for n in range(count + 1)):
                parts = (1 - t) ** 3, 3 * t * (1 - t) ** 2, 3 * t * t * (1 - t), t ** 3
                yield tuple(sum(part * p[axis] for part, p in zip(parts, (a, b, c, d))) for axis in (0, 1))


def choose_ways(arrows, boxes, titles):
    """Says of each arrow that passes rows where it passes them. `titles` has the left edge and top of each title, and
    the right one."""
    taken = []
    for arrow in arrows:
        met = [(box.left, box.right) for box in boxes if arrow.between(box)]
        if not met:
            continue
        low, high = sorted((arrow.start.top, arrow.end.top))
        met += [(left, right) for left, right, top in titles if low < top < high]
        barred = [(left - CLEAR, right + CLEAR) for left, right in met] + [(x - APART, x + APART) for x in taken]
        arrow.passes_at = nearest_free(barred, arrow.start.middle, arrow.end.middle)
        taken.append(arrow.passes_at)


def nearest_free(barred, x1, x2):
    """The place outside these spans that is nearest to both."""
    joined = []
    for left, right in sorted(barred):
        if joined and left < joined[-1][1]:
            joined[-1] = (joined[-1][0], max(right, joined[-1][1]))
        else:
            joined.append((left, right))
    edges = [x1, x2] + [edge for span in joined for edge in span]
    free = [x for x in edges if not any(left < x < right for left, right in joined)]
    return min(free, key=lambda x: (abs(x - x1) + abs(x - x2), x))


def choose_ports(arrows):
    """Spreads the ends of arrows that share a side of a box over this side."""
    sides = collections.defaultdict(list)
    for arrow in arrows:
        start, end = arrow.start.middle, arrow.end.middle
        sides[id(arrow.start), arrow.falls].append((end if arrow.passes_at is None else arrow.passes_at, 0, arrow))
        sides[id(arrow.end), not arrow.falls].append((start if arrow.passes_at is None else arrow.passes_at, 1, arrow))
    for ends in sides.values():
        for number, (_, is_end, arrow) in enumerate(sorted(ends, key=lambda one: one[:2]), 1):
            box = arrow.end if is_end else arrow.start
            x = box.left + box.width * number / (len(ends) + 1)
            if is_end:
                arrow.ends_at = x
            else:
                arrow.starts_at = x


class Filled:
    """The points where something is drawn, found by their neighbourhood. Each has an owner."""

    def __init__(self):
        self.cells = collections.defaultdict(list)

    def add(self, points, owner):
        for x, y in points:
            self.cells[x // CELL, y // CELL].append((x, y, owner))

    def add_box(self, left, top, right, bottom, owner):
        xs = [left + n * DENSE for n in range(int((right - left) / DENSE) + 1)] + [right]
        ys = [top + n * DENSE for n in range(int((bottom - top) / DENSE) + 1)] + [bottom]
        self.add([(x, y) for x in xs for y in ys], owner)

    def within(self, left, top, right, bottom, owner):
        """How many points of other owners lie there."""
        cells = [(x, y) for x in range(int(left // CELL), int(right // CELL) + 1)
                 for y in range(int(top // CELL), int(bottom // CELL) + 1)]
        return sum(left <= x <= right and top <= y <= bottom and one is not owner
                   for cell in cells for x, y, one in self.cells.get(cell, ()))


def from_middle(points):
    """The points, without those near the ends, by their distance from the middle."""
    count = len(points)
    return [points[n] for n in sorted(range(count), key=lambda n: abs(n - count / 2))[:4 * count // 5]]


def choose_labels(arrows, filled, gap, letter):
    """Puts each label on its arrow, as near to the middle as nothing else stands there."""
    for arrow in arrows:
        filled.add(arrow.points(gap), arrow)
    for arrow in arrows:
        points, best = list(arrow.points(gap)), None
        wide, high = letter * len(arrow.label) / 2 + BESIDE[0], LABEL_HIGH / 2 + BESIDE[1]
        for x, y in from_middle(points):
            met = filled.within(x - wide, y - high, x + wide, y + high, arrow)
            if best is None or met < best[0]:
                best = met, x, y
            if not met:
                break
        arrow.label_at = best[1:]
        filled.add_box(best[1] - wide, best[2] - high, best[1] + wide, best[2] + high, None)
