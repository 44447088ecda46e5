#!/usr/bin/env python3
"""Runs tools/explain.py on every history of examples/ and tools/cases/, and checks what it says and draws, and on every
run of the store in examples/ and tools/runs/.

    scripts/explanations.py [PROGRAM]
    scripts/explanations.py --lists [PROGRAM]

PROGRAM is crates/ssi/out/ssi by default; if it isn't built, scripts/reference.py answers in its place. The first
sentence must fit the example's expected answer. If a folder has a file `explanation`, which is written by hand, all
sentences must be the ones there. The page must be well-formed, with an arrow for each sentence about two events, and
with each transaction that a sentence names. Arrowheads must be apart, and no arrow may run through another one's label.
What is shown of an event must be its line. On random histories the dependencies of tools/cycles.py must be those of
scripts/reference.py, and its cycles shortest ones; on random runs of the store the pivots and their conflicts must be
those of scripts/store_reference.py. Wrong arguments and files must end with status 2 and one line. The
last line is `N passed, M failed`.

The second form is for the list-append histories of examples/lists, and PROGRAM is crates/lists/out/lists by default.
scripts/list_examples.sh runs it. The tool must say what the file with .stdout beside a history says, which is written by
hand, but for the line that counts the other kinds. The picture of a cycle must have a row for each of its transactions, and
for each sentence of the cycle an arrow that leads from the step that it names first to the other one, with the kind and the
key of the link on it.
"""
import glob
import html.parser
import itertools
import json
import math
import os
import re
import subprocess
import sys
import tempfile
import xml.dom.minidom

TOP = os.path.dirname(os.path.dirname(os.path.abspath(__file__)))
sys.path.insert(0, os.path.join(TOP, "tools"))
import compare  # noqa: E402  (beside this file)
import compare_store  # noqa: E402
import cycles  # noqa: E402  (in tools/)
import list_picture  # noqa: E402
import reference  # noqa: E402
import store_reference  # noqa: E402
import store_run  # noqa: E402

TOOL = os.path.join(TOP, "tools", "explain.py")
MOST_TXNS = 12  # of a picture, without those of a cycle
LABEL_HIGH = "18"  # the height of the white box under a label
HISTORIES, RUNS = 300, 60  # random ones
APART = 8  # pixels between two arrowheads, at least


class Balance(html.parser.HTMLParser):
    """Reads a page as HTML, and keeps the elements that are open."""

    def __init__(self, text):
        super().__init__()
        self.open, self.is_balanced = [], True
        self.feed(text)
        self.close()
        self.is_balanced = self.is_balanced and not self.open

    def handle_starttag(self, tag, attrs):
        self.open.append(tag)

    def handle_startendtag(self, tag, attrs):
        pass

    def handle_endtag(self, tag):
        self.is_balanced = self.is_balanced and self.open[-1:] == [tag]
        self.open = self.open[:-1]


class Drawn:
    """What a page shows: its headings, the numbers of its rows, its arrows, and the data of its second picture."""

    def __init__(self, path):
        with open(path, encoding="utf-8") as file:
            self.text = file.read()
        page = xml.dom.minidom.parseString(self.text.encode())
        self.headings = [self.words(one) for tag in ("title", "h1") for one in page.getElementsByTagName(tag)
                         if one.parentNode.nodeName != "g"]
        texts = page.getElementsByTagName("text")
        self.rows = [int(self.words(one)[1:]) for one in texts if one.getAttribute("font-weight") == "bold"]
        self.hovers = [self.words(one) for one in page.getElementsByTagName("title") if one.parentNode.nodeName == "g"]
        self.arrows = [[float(number) for number in re.findall("[-0-9.]+", one.getAttribute("d"))]
                       for one in page.getElementsByTagName("path") if one.hasAttribute("marker-end")]
        self.labels = [[float(one.getAttribute(name)) for name in ("x", "y", "width", "height")]
                       for one in page.getElementsByTagName("rect") if one.getAttribute("height") == LABEL_HIGH]
        self.kinds = [self.words(one) for one in texts if one.getAttribute("text-anchor") == "middle"]
        self.boxes = [self.box(one) for one in page.getElementsByTagName("g")]
        scripts = [one for one in page.getElementsByTagName("script") if one.getAttribute("id") == "data"]
        self.data = json.loads(self.words(scripts[0])) if scripts else None

    @staticmethod
    def words(element):
        return "".join(child.data for child in element.childNodes)

    def box(self, group):
        """What is shown while the pointer is over a box, and the box: left, top, width and height."""
        rect = group.getElementsByTagName("rect")[0]
        title = self.words(group.getElementsByTagName("title")[0])
        return title, [float(rect.getAttribute(name)) for name in ("x", "y", "width", "height")]

    def step_at(self, x, y):
        """The box at whose upper or lower edge an arrow begins or ends, by what is shown of it."""
        return [title for title, (left, top, wide, high) in self.boxes if left < x < left + wide and y in (top, top + high)]

    def links(self):
        """What each arrow leads from, what stands on it, and what it leads to."""
        return [(*self.step_at(*arrow[:2]), kind, *self.step_at(*arrow[-2:])) for arrow, kind in zip(self.arrows, self.kinds)]

    def close_heads(self):
        """The pairs of arrows whose heads are close to each other."""
        heads = [arrow[-2:] for arrow in self.arrows]
        return [(a, b) for a, b in itertools.combinations(heads, 2) if math.dist(a, b) < APART]

    def crossed_labels(self):
        """The labels through which another arrow runs."""
        ways = [list(points_on(arrow)) for arrow in self.arrows]
        return [number for number, (x, y, wide, high) in enumerate(self.labels) for other, way in enumerate(ways)
                if other != number and any(x < a < x + wide and y < b < y + high for a, b in way)]


def points_on(arrow):
    """Points of an arrow, given by the numbers of its path: its start, and three points for each curve."""
    points = list(zip(arrow[::2], arrow[1::2]))
    for at in range(0, len(points) - 1, 3):
        for t in (n / 50 for n in range(51)):
            parts = (1 - t) ** 3, 3 * t * (1 - t) ** 2, 3 * t * t * (1 - t), t ** 3
            yield tuple(sum(part * p[axis] for part, p in zip(parts, points[at:at + 4])) for axis in (0, 1))


WHO, KEY, LIST = r"T(\d+) \(index (\d+)\)", r'("(?:[^"\\]|\\.)*"|\S+)', r"(\[[^\]]*\])"
READ, APPENDED = WHO + " read key " + KEY + " as " + LIST, WHO + r" appended \[?([^\s\]]+)[^:]* to key " + KEY
BEFORE = r": T\d+ before T\d+"


def link_of(sentence):
    """What the arrow of a sentence about a cycle leads from, what stands on it, and what it leads to, with the numbers of the
    two transactions. None if the sentence is about no cycle, or about one of another kind than the first."""
    step = "index %s: %s %s %s".__mod__
    if found := re.fullmatch(READ + ", and " + APPENDED + BEFORE, sentence):
        reader, at, key, elements, writer, of, element, _ = found.groups()
        return (step((at, "read", key, elements)), "rw " + key, step((of, "append", key, element))), (reader, writer)
    if found := re.fullmatch(APPENDED + ", and " + READ + BEFORE, sentence):
        writer, of, element, key, reader, at, _, elements = found.groups()
        return (step((of, "append", key, element)), "wr " + key, step((at, "read", key, elements))), (writer, reader)
    if found := re.fullmatch(APPENDED + ", " + APPENDED + ", and " + READ + BEFORE, sentence):
        writer, of, element, key, later, at, other = found.groups()[:7]
        return (step((of, "append", key, element)), "ww " + key, step((at, "append", key, other))), (writer, later)
    return None


def read(path):
    with open(path, encoding="utf-8") as file:
        return file.read()


def first_sentence(answer):
    """What the explanation of this answer begins with."""
    words, lines = answer.split("\n")[0].split(), answer.split("\n")[1:-1]
    if words[0] == "serial":
        return "A serial order: %s." % ", ".join(lines[:-1])
    if words[0] == "cycle":
        steps = ["%s before %s" % tuple(line.split()[2:]) for line in lines]
        return "No serial order: %s." % ", ".join(steps).replace(" before", " comes before", 1)
    return {"aborted-read": "A committed transaction read what an aborted or unfinished one wrote.",
            "intermediate-read": "A committed transaction read what its writer replaced later."}[words[2]]


def named(sentence):
    """The transactions that a sentence about two events names."""
    sentence = re.sub("`[^`]*`", "", re.sub("line [0-9]+", "", sentence))
    return {int(number) for number in re.findall(r"\b[0-9]+\b", sentence)}


def ring(count):
    """A history whose cycle has this many transactions, which take turns in a mixed order."""
    keys = ["k%02d" % number for number in range(count)]
    turns = sorted(range(count), key=lambda number: number * 7 % (count + 1))
    lines = ["w1(%s.1:1,0)" % key for key in keys] + ["c1"]
    lines += ["r%d(%s.1:1,0)" % (turn + 2, keys[turn]) for turn in turns]
    lines += ["w%d(%s.%d:1,5)" % (turn + 2, keys[turn - 1], turn + 2) for turn in turns]
    lines += ["c%d" % (turn + 2) for turn in turns]
    lines += ["[%s:1<<%d]" % (key, (number + 1) % count + 2) for number, key in enumerate(keys)]
    return "".join(line + "\n" for line in ["adya 1"] + lines + ["{%s,5}" % key for key in keys] + ["end"])


class Watched(store_reference.Store):
    """The store of scripts/store_reference.py. It keeps what was done when a pivot would have arisen."""

    def __init__(self):
        super().__init__()
        self.dangers = []

    def done_if_safe(self, act, reply):
        course = self.course.then(act)
        if course.pivots:
            self.dangers.append(course)
        return super().done_if_safe(act, reply)


def is_cycle(edges):
    return all(edge[3] == after[0] for edge, after in zip(edges, edges[1:] + edges[:1]))


def shortest(edges):
    """How many dependencies a shortest cycle has; 0 if there is none."""
    found = []
    for start in {edge[0] for edge in edges}:
        met, length, ends = set(), 0, {start}
        while ends - met:
            met, length, ends = met | ends, length + 1, {edge[3] for edge in edges if edge[0] in ends}
            found += [length] if start in ends else []
    return min(found, default=0)


class Checks:
    def __init__(self, program, folder):
        self.program, self.folder = program, folder
        self.passed = self.failed = 0

    def check(self, name, wanted, got):
        if wanted == got:
            self.passed += 1
        else:
            self.failed += 1
            print("%s: wanted %r\ngot %r" % (name, wanted, got))

    def path(self, name):
        return os.path.join(self.folder, name)

    def explain(self, *arguments):
        command = [TOOL, "--program", self.program] + list(arguments)
        return subprocess.run(command, capture_output=True, text=True, cwd=TOP)

    def page(self, history, *arguments):
        """The page of a history, and what the tool printed."""
        if os.path.exists(self.path("page")):
            os.remove(self.path("page"))
        ran = self.explain("--picture", self.path("page"), *arguments, history)
        self.check("status of %s" % history, 0, ran.returncode)
        return Drawn(self.path("page")), ran

    def of_history(self, folder):
        history = os.path.join(folder, "history")
        if os.path.exists(os.path.join(folder, "explanation")):
            ran = self.explain(history)
            self.check("sentences of " + folder, read(os.path.join(folder, "explanation")), ran.stdout)
            if ran.stdout.startswith("The text is no history"):
                return
        drawn, ran = self.page(history)
        said, *sentences = [one for one in ran.stdout.splitlines() if not one.startswith("This is ")]
        answer = os.path.join(folder, "order")
        if not os.path.exists(answer):  # that of a store is always a certificate
            answer = os.path.join(folder, "certificate")
        if os.path.exists(answer):
            self.check("first sentence of " + folder, first_sentence(read(answer)), said)
        wanted = set().union(*map(named, sentences))
        self.check("transactions of " + folder, set(), wanted - set(drawn.rows))
        self.check("size of the picture of " + folder, True, len(drawn.rows) <= max(MOST_TXNS, len(wanted)))
        self.of_arrows(folder, drawn, len(sentences))
        self.of_hovers(history, drawn)
        self.check("balance of the page of " + folder, True, Balance(drawn.text).is_balanced)

    def of_arrows(self, name, drawn, count):
        self.check("arrows and labels of " + name, [count] * 2, [len(drawn.arrows), len(drawn.labels)])
        self.check("arrowheads of " + name, [], drawn.close_heads())
        self.check("labels of " + name, [], drawn.crossed_labels())

    def of_hovers(self, history, drawn):
        """What is shown while the pointer is over an event has to be its line."""
        lines = ["line %d: %s" % one for one in enumerate(read(history).splitlines(), 1)]
        self.check("lines of " + history, set(), set(drawn.hovers) - set(lines))
        if drawn.data:
            events = [one for one in lines if re.match("line [0-9]+: [wdrsca][0-9]", one)]
            self.check("all events of " + history, events, [one[2] for one in drawn.data["events"]])

    def of_rings(self):
        """Cycles of some length: each transaction reads a key that the next one overwrites."""
        for count in (3, 4, 5, 20):
            history = self.path("ring-%d" % count)
            with open(history, "w", encoding="ascii") as file:
                file.write(ring(count))
            drawn, ran = self.page(history)
            self.check("rows of " + history, set(range(1, count + 2)), set(drawn.rows))
            self.of_arrows(history, drawn, count)
            self.of_hovers(history, drawn)

    def of_dependencies(self):
        """The dependencies by which a shortest cycle is found, on random histories without a fault."""
        maker = compare.Maker(1)
        histories = [maker.history() for _ in range(HISTORIES)]
        for h in histories:
            if not reference.fault(h):
                wanted, graph = reference.edges(h), cycles.Graph(h.events, h.orders)
                text = reference.history_text(h)
                for txn in graph.next:
                    ends = {edge[3] for edge in wanted if edge[0] == txn}
                    self.check("dependencies of %d in %s" % (txn, text), ends, set(graph.followers(txn)))
                firsts = {(edge[0], edge[3]): edge for edge in reversed(wanted)}
                self.check("first dependencies in " + text, firsts, {ends: graph.named(*ends) for ends in firsts})
                found = cycles.shorter(graph, 99) or []
                self.check("length of a shortest cycle of " + text, shortest(wanted), len(found))
                self.check("a cycle of " + text, True, set(found) <= set(wanted) and is_cycle(found))

    def of_shortest(self):
        """A ring in which 6 also reads what 3 overwrites, and 5 overwrites the version of 3: the cycle of three is
        found, and said to be a shortest one."""
        lines = ring(6).replace("c5\n", "r6(k00.1:1,0)\nw5(k00.5:1,5)\nc5\n").replace("[k00:1<<3]", "[k00:1<<3<<5]")
        history = self.path("chord")
        said = "This is a shortest cycle. The one that `order` reports has %d dependencies."
        with open(history, "w", encoding="ascii") as file:
            file.write(lines)
        wanted = "No serial order: 3 comes before 5, 5 before 6, 6 before 3."
        reported = reference.order(lines.encode())
        ran = self.explain("--shortest", history)
        self.check("the shortest cycle", wanted, ran.stdout.splitlines()[0])
        self.check("which cycle it is", said % len(reported.splitlines()[1:]), ran.stdout.splitlines()[-1])

    def of_run(self, folder):
        """A run of the store: each refused transaction has a sentence, and those about it are indented."""
        commands, replies = os.path.join(folder, "commands"), os.path.join(folder, "replies")
        ran = self.explain("--store", commands, replies)
        refused = [line.split()[0] for line in read(replies).splitlines() if line.startswith(("unsafe", "conflict"))]
        heads = [line for line in ran.stdout.splitlines() if line.startswith("line ")]
        self.check("sentences of the run " + folder, (0, len(refused)), (ran.returncode, len(heads)))
        if os.path.exists(os.path.join(folder, "explanation")):
            self.check("sentences of " + folder, read(os.path.join(folder, "explanation")), ran.stdout)

    def of_random_runs(self):
        """The pivot and its two conflicts have to be those of scripts/store_reference.py."""
        maker = compare_store.Maker(1, False)
        for lines in (maker.commands() for _ in range(RUNS)):
            store, run = Watched(), store_run.Run()
            replies = "".join(store.take_all(lines)).splitlines()
            for number, words, reply in store_run.replies_to(lines, replies):
                run.take(number, words, reply)
            text, found = "\n".join(lines), [line for line in run.said if " a pivot: " in line]
            self.check("unsafe replies to " + text, len(store.dangers), len(found))
            refused = sum(" has installed a version " in line for line in run.said)
            self.check("conflicts of " + text, sum(one.startswith("conflict ") for one in replies), refused)
            for line, course in zip(found, store.dangers):
                before, pivot, _, first = map(int, re.findall("[0-9]+", line.split(" a pivot: ")[1])[:4])
                stamps = course.stamps
                is_first = stamps[first] < stamps[pivot] and stamps[first] <= stamps.get(before, math.inf)
                pairs = course.is_pair(before, pivot), course.is_pair(pivot, first)
                self.check("pivot of %s in %s" % (line, text), (min(course.pivots), True, True, True),
                           (pivot, is_first, *pairs))

    def of_lists(self, history):
        """What is said of a list-append history, and the picture of the cycle that decides, if one does."""
        said = [line for line in read(history + ".stdout").splitlines() if not line.startswith("also: ")]
        ran = self.explain("--lists", history)
        self.check("sentences of " + history, (0, said), (ran.returncode, ran.stdout.splitlines()))
        self.of_list_picture(history, said)

    def of_list_picture(self, history, said):
        cycle = [link for link in map(link_of, said) if link]
        if not cycle:
            ran = self.explain("--lists", "--picture", self.path("page"), history)
            wanted = "explain.py: no picture: no cycle decides"
            self.check("no picture of " + history, (2, wanted), (ran.returncode, ran.stderr.splitlines()[-1]))
            return
        for file in "page", "picture.svg":
            ran = self.explain("--lists", "--picture", self.path(file), history)
            drawn = Drawn(self.path(file))
            self.check("status of %s for the %s" % (history, file), 0, ran.returncode)
            self.check("links of %s in its %s" % (history, file), [link for link, _ in cycle], drawn.links())
            self.check("rows of %s in its %s" % (history, file), {int(txn) for _, ends in cycle for txn in ends}, set(drawn.rows))
            self.of_arrows(history, drawn, len(cycle))
        self.check("balance of the page of " + history, True, Balance(read(self.path("page"))).is_balanced)

    def of_list_steps(self):
        """All steps of the transactions of a cycle are drawn; of one whose outcome is unknown, nobody knows what it read."""
        self.page("examples/lists/read-skew.edn", "--lists")
        wanted = ["index 0: append :x 1", "index 0: append :y 1", "index 0: ok",
                  "index 1: read :x []", "index 1: read :y [1]", "index 1: ok"]
        self.check("the steps of read-skew", wanted, Drawn(self.path("page")).hovers)
        history = self.path("unknown.edn")
        with open(history, "w", encoding="ascii") as file:
            file.write("{:type :invoke, :f :txn, :value [[:r :z nil] [:append :x 1] [:append :y 1]], :process 0, :index 0}\n"
                       "{:type :invoke, :f :txn, :value [[:r :x nil] [:r :y nil]], :process 1, :index 1}\n"
                       "{:type :ok, :f :txn, :value [[:r :x [1]] [:r :y []]], :process 1, :index 2}\n")
        wanted = ["index 0: read :z nil", "index 0: append :x 1", "index 0: append :y 1",
                  "index 2: read :x [1]", "index 2: read :y []", "index 2: ok"]
        drawn, _ = self.page(history, "--lists")
        self.check("the steps of an unknown transaction", wanted, drawn.hovers)

    def of_json_lists(self):
        """In JSON the names of keys and of elements are strings, which the sentences have in quotes, and words may have colons."""
        history = self.path("read-skew.json")
        with open(history, "w", encoding="ascii") as file:
            file.write('{":type": ":ok", ":f": ":txn", ":value": [[":append", "x\\"", "a"], [":append", "y", 1]], ":process": "0"}\n'
                       '{"type": "info", "f": "start", "process": "nemesis"}\n'
                       '{"type": "ok", "f": "txn", "value": [["r", "x\\"", []], ["r", "y", [1]]], "process": 1}\n')
        said = ["not serializable: G-single",
                'T1 (index 2) read key "x\\"" as [], and T2 (index 0) appended "a" to key "x\\"": T1 before T2',
                'T2 (index 0) appended 1 to key "y", and T1 (index 2) read key "y" as [1]: T2 before T1']
        ran = self.explain("--lists", history)
        self.check("sentences of " + history, (0, said), (ran.returncode, ran.stdout.splitlines()))
        self.of_list_picture(history, said)

    def of_recorded_lists(self, history):
        """A history that was recorded, of which the program's own sentences say what is to be drawn."""
        ran = self.explain("--lists", history)
        self.check("first sentence of " + history, read(history).splitlines()[0], "; " + ran.stdout.splitlines()[0])
        self.of_list_picture(history, ran.stdout.splitlines())

    def of_cut_off_search(self):
        """If the search for cycles didn't come to its end, that is said, of whichever cycle it is."""
        said = "The search for cycles was cut off: there may be a shorter one, or one of a worse kind."
        for wanted, answer in [("", {"kind": "G1a", "also": [{"kind": "G-single", "shortest": True}]}),
                               (said, {"kind": "G1a", "also": [{"kind": "G-single", "shortest": False}]}),
                               (said, {"kind": "G2-item", "shortest": False, "also": []})]:
            self.check("what is said of the search in %s" % answer, wanted, list_picture.which(answer))

    def of_list_faults(self):
        history = self.path("wrong.edn")
        with open(history, "w", encoding="ascii") as file:
            file.write("7\n")
        for name, status, arguments in [
                ("a missing file", 3, [self.path("missing")]),
                ("a text of no history", 2, [history]),
                ("a picture that can't be written", 2, ["--picture", self.path("no/page"), "examples/lists/read-skew.edn"]),
                ("two files", 2, [history, history]),
                ("a program that isn't built", 2, ["--program", self.path("missing"), "examples/lists/read-skew.edn"])]:
            ran = self.explain("--lists", *arguments)
            lines = [line for line in ran.stderr.splitlines() if "Traceback" in line]
            self.check(name, (status, []), (ran.returncode, lines))

    def of_paths(self):
        """A path may have letters that mean something in HTML. Names of keys can't."""
        folder = self.path('a<b>&"c\'')
        os.mkdir(folder)
        history = os.path.join(folder, "history")
        with open(history, "w", encoding="ascii") as file:
            file.write(read(os.path.join(TOP, "examples", "write-skew", "history")))
        drawn, _ = self.page(history)
        self.check("headings of a page with an odd path", [history] * 2, drawn.headings)
        self.check("balance of a page with an odd path", True, Balance(drawn.text).is_balanced)

    def of_choices(self):
        history = os.path.join("examples", "long", "history")
        drawn, ran = self.page(history, "--transactions", "5,300,7")
        self.check("chosen transactions", [5, 7, 300], sorted(drawn.rows))
        self.check("what isn't drawn is said", True, "3 of 300 transactions" in ran.stderr)
        self.check("what isn't drawn stands on the page", True, "3 of 300 transactions" in drawn.text)

    def of_faults(self):
        skew, cut = "examples/write-skew/history", "tools/cases/cut-off/history"
        phantom = "examples/store/phantom-skew/replies"
        for name, arguments in [
                ("a missing file", [self.path("missing")]),
                ("a folder", [self.folder]),
                ("missing replies", ["--store", "examples/store/write-skew/commands", self.path("missing")]),
                ("replies to other commands", ["--store", "examples/store/write-skew/commands", phantom]),
                ("a transaction that isn't there", ["--picture", self.path("page"), "--transactions", "2,9", skew]),
                ("a picture of no history", ["--picture", self.path("page"), cut]),
                ("a picture that can't be written", ["--picture", self.path("no/page"), skew])]:
            ran = self.explain(*arguments)
            lines = [line for line in ran.stderr.splitlines() if not line.startswith("(")]
            self.check(name, (2, 1, True), (ran.returncode, len(lines), lines[0].startswith("explain.py: ")))
        self.check("transactions that are no numbers", 2, self.explain("--transactions", "x", skew).returncode)


def check_lists(checks):
    for history in sorted(glob.glob("examples/lists/*.edn")):
        checks.of_lists(history)
    for history in sorted(glob.glob("examples/lists/recorded/*.edn")):
        checks.of_recorded_lists(history)
    checks.of_list_steps()
    checks.of_json_lists()
    checks.of_cut_off_search()
    checks.of_list_faults()


def check_histories(checks):
    found = sorted(glob.glob("examples/**/history", recursive=True)) + sorted(glob.glob("tools/cases/*/history"))
    for history in found:
        checks.of_history(os.path.dirname(history))
    checks.of_rings()
    for commands in sorted(glob.glob("examples/*/*/commands") + glob.glob("tools/runs/*/commands")):
        checks.of_run(os.path.dirname(commands))
    checks.of_random_runs()
    checks.of_dependencies()
    checks.of_shortest()
    checks.of_paths()
    checks.of_choices()
    checks.of_faults()
    picture = checks.path("skew.svg")
    checks.explain("--picture", picture, "examples/write-skew/history")
    checks.check("the picture in README", read("docs/write-skew.svg"), read(picture))


def main():
    words = sys.argv[1:]
    is_of_lists = words[:1] == ["--lists"]
    given, name = (words[1:], "lists") if is_of_lists else (words, "ssi")
    program = os.path.abspath(given[0]) if given else os.path.join(TOP, "crates", name, "out", name)
    os.chdir(TOP)
    with tempfile.TemporaryDirectory() as folder:
        checks = Checks(program, folder)
        (check_lists if is_of_lists else check_histories)(checks)
    print("%d passed, %d failed" % (checks.passed, checks.failed))
    return 1 if checks.failed else 0


if __name__ == "__main__":
    sys.exit(main())
