"""The figures that pages give of measurements, computed from the raw output in bench/results, for scripts/pages.py."""
import re


def rows(raw, *words):
    """The lines of a table that begin with these words, each as the words that follow."""
    lines = (line.split() for line in raw.split("\n"))
    return [line[len(words):] for line in lines if line[:len(words)] == list(words)]


def audits(raw):
    """The least and the most seconds of an audit of 100,000 transactions, and times over a sort of the same bytes."""
    found = [row for row in rows(raw, "audit") if row[1] == "100000"]
    seconds, sorts = [float(row[3]) for row in found], [float(row[10]) for row in found]
    return ["%.1f" % it for it in (min(seconds), max(seconds), min(sorts), max(sorts))]


def bytes_for_each(transactions):
    """The most memory of an audit of the history `plain` and of the search for its order, for each byte of it."""
    def figures(raw):
        found = {command: row for command in ("audit", "order") for row in rows(raw, command, "plain", transactions)}
        return ["%.2f" % float(found[command][5]) for command in ("audit", "order")]
    return figures


def commits(*words):
    """Commits a second of the first run with this server, connections and lines at a time, in round numbers."""
    return lambda raw: ["{:,}".format(round(int(rows(raw, *words)[0][1]), -2))]


def postgres(raw):
    return ["{:,}".format(round(int(rows(raw, "PostgreSQL", "8")[0][-1]), -2))]


def bytes_of_a_transaction(raw):
    """The peak of a script of 100,000 transactions, for each of them."""
    peak = float(rows(raw, "plain", "100000")[-1][8])
    return ["{:,}".format(round(peak * 1000000 / 100000, -1)).removesuffix(".0")]


def aborted(raw):
    """How many transactions of a hundred are refused with `unsafe`, and with `conflict`, in the script with scans."""
    conflict, unsafe = rows(raw, "scans", "100000")[-1][3:5]
    return ["%.1f" % (int(unsafe) / 1000), "%.1f" % (int(conflict) / 1000)]


def held(raw):
    """The least and the most bytes that a transaction takes while the store runs, in round numbers."""
    each = [float(rows(raw, script)[0][3]) for script in ("plain", "scans", "hot")]
    return ["{:.0f}".format(round(it, -1)) for it in (min(each), max(each))]


def colliding(raw):
    """The seconds of an audit of keys that all collide, and of as many random ones."""
    return ["%.2f" % float(rows(raw, keys)[0][1]) for keys in ("colliding", "random")]


CONCURRENT = ("ssi", "serve", "--concurrent")
# of each figure the page, the expression with the raw file and the numbers as its groups, and what computes them
FIGURES = [
    ("README.md", r"audit of 100,000 transactions[^|]*\((\S+)\)\) \| ([\d.]+) to ([\d.]+) seconds: ([\d.]+) to ([\d.]+) times", audits),
    ("README.md", r"commits a second, eight clients that wait for each reply[^|]*\((\S+)\)\) \| ([\d,]+)", commits(*CONCURRENT, "8", "1")),
    ("README.md", r"the same, one client that sends 100 lines at a time[^|]*\((\S+)\)\) \| ([\d,]+)", commits(*CONCURRENT, "1", "100")),
    ("README.md", r"PostgreSQL 15[^|]*eight clients \(\[raw\]\((\S+)\)\) \| ([\d,]+)", postgres),
    ("docs/limits.md", r"10,000 transactions on 20,000 keys take ([\d.]+) bytes for each byte, and `order` ([\d.]+) \(\[raw\]\((\S+)\)\)", bytes_for_each("10000")),
    ("docs/limits.md", r"takes ([\d,]+) to ([\d,]+) bytes while the store runs \(\[raw\]\((\S+)\)\)", held),
    ("docs/limits.md", r"took ([\d.]+) seconds instead of ([\d.]+) \(\[raw\]\((\S+)\)\)", colliding),
    ("docs/limits.md", r"the peak is ([\d,]+) bytes for each \(\[raw\]\((\S+)\)\)", bytes_of_a_transaction),
    ("docs/limits.md", r"with 200 sessions and scans ([\d.]+) transactions of a hundred are refused this way, and ([\d.]+) because [^(]*\(\[raw\]\((\S+)\)\)", aborted),
]


def said(page, expression):
    """The raw file that a page names for a figure, and the figure's numbers; None if the page lacks it."""
    found = re.search(expression, page)
    if not found:
        return None
    raw = next(group for group in found.groups() if "/" in group)
    return raw, [group for group in found.groups() if group != raw]


def lines_of(texts):
    """The lines of code, definitions and proofs, given the files of the repository."""
    counts = [0, 0, 0]
    for name, text in texts:
        kinds = [r"crates/\w+/src/.*\.rt", r"crates/\w+/specs/.*\.antt", r"crates/\w+/proofs/.*\.antt"]
        for at, kind in enumerate(kinds):
            counts[at] += text.count("\n") * bool(re.fullmatch(kind, name))
    return counts
