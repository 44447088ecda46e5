#!/usr/bin/env python3
"""Looks up in the repository what its pages name.

    scripts/pages.py

In each page every link must lead to a file, and to the heading that it names, or to code or definitions that have the name of
the link. In docs, README.md and bench/README.md, every file of code or definitions must be there, every name like
`Rules.IsWellFormed` must stand in a file of definitions of that name, and every name with an underscore must occur
somewhere. What docs/development/proved.md names of a crate, the edits and definitions in docs/verdicts.md, and the definitions in
docs/glossary.md must be of the crate, and of the folder, that the page says. docs/development/edits.md must list all edits, each with the
file that it changes, and no others. The reading orders in docs/development/architecture.md and in the comment of the headline's page must
name the files that `scripts/definitions` finds, with its numbers of words, and no others. Each crate must have one line in
docs/development/architecture.md. The figures of README.md and docs/limits.md must be those of the raw output that they name, and what
README.md says of lines and edits right within two of a hundred; it has at most 1,200 words. `scripts/all` must run the scripts that
docs/development/gate.md says it does. The pages for users have no
sentence of more than 40 words. The last line is `N passed, M failed`.
"""
import os
import re
import subprocess
import sys

import figures  # (beside this file)

TOP = os.path.dirname(os.path.dirname(os.path.abspath(__file__)))
DEFINITION = re.compile(r"([A-Z]\w*)\.(\w+)")
SOURCE = re.compile(r"[\w/]+\.(?:rt|antt)")
WORD = re.compile(r"[A-Za-z_]\w*")
CODE = (".rt", ".antt", ".py", ".sh", ".txt")
FOR_DEVELOPERS = "docs/development/"
HEADLINE = "crates/headline/specs/Headline.antt"
# what a reader of the headline may leave out
BESIDE = ("adya_audit.Clauses.TextVerdicts.IsVerdictOn", "adya_values.Clauses.Acceptance.IsAccepted")


class Tally:
    def __init__(self):
        self.passed, self.failures = 0, []

    def check(self, is_right, said):
        if is_right:
            self.passed += 1
        else:
            self.failures.append(said)


class Repository:
    """The files that git tracks, and the words in those of code, definitions, proofs and scripts."""

    def __init__(self):
        listed = subprocess.run(["git", "ls-files", "-co", "--exclude-standard"], cwd=TOP, check=True, stdout=subprocess.PIPE)
        self.files = [name for name in listed.stdout.decode().splitlines() if os.path.exists(f"{TOP}/{name}")]
        self.pages = {name: text_of(name) for name in self.files if name.endswith(".md")}
        self.edits = {(crate_of(name), stem(name)): name for name in self.files if name.endswith(".edit")}
        self.definitions = {}
        for name in self.files:
            if name.endswith(".antt"):
                self.definitions.setdefault(stem(name), []).append(name)
        code = [name for name in self.files if name.endswith(CODE) or "." not in os.path.basename(name)]
        self.words = {word for name in self.files for word in WORD.findall(name)}.union(*map(self.words_in, code))

    def words_in(self, name):
        return set(WORD.findall(text_of(name)))

    def has_file(self, path):
        """Whether a tracked file, or a folder of some, has this path or ends with it."""
        return any(f"/{name}".endswith(f"/{path}") for name in self.files)

    def defines(self, file, name, within=""):
        """Whether a file of definitions of this name, whose path begins so, has the name."""
        return any(re.search(rf"\b{name}\b", text_of(it)) for it in self.definitions.get(file, []) if it.startswith(within))


def text_of(name):
    with open(f"{TOP}/{name}", encoding="utf-8", errors="replace") as file:
        return file.read()


def stem(name):
    return os.path.splitext(os.path.basename(name))[0]


def crate_of(name):
    return name.split("/")[1] if name.startswith("crates/") else ""


def spans(text):
    """What stands between backticks, in the order of the text."""
    return re.findall(r"`([^`\n]+)`", text)


def prose(page):
    """A page without its blocks of code."""
    return "\n".join(line for line in page.split("\n") if not line.startswith("    "))


def anchors(page):
    """What a link may say after `#` to lead to a heading of the page."""
    heads = re.findall(r"(?m)^#+ (.*)$", prose(page))
    return {re.sub(r"[^\w\- ]", "", re.sub(r"\[(.*?)\]\(.*?\)", r"\1", head)).lower().replace(" ", "-") for head in heads}


def check_links(tally, repository, name, page):
    for said, link in re.findall(r"\[([^\]]*)\]\(([^)\s]+)\)", prose(page)):
        path, _, anchor = link.partition("#")
        if ":" in path:
            continue
        target = os.path.normpath(os.path.join(os.path.dirname(name), path)) if path else name
        tally.check(os.path.exists(f"{TOP}/{target}"), f"{name}: a link to {link}, which isn't there")
        if anchor and target in repository.pages:
            tally.check(anchor in anchors(repository.pages[target]), f"{name}: a link to {link}, which has no such heading")
        if WORD.fullmatch(said) and SOURCE.fullmatch(target):
            tally.check(said in {stem(target), crate_of(target)} | repository.words_in(target), f"{name}: {said} isn't in {target}")


def check_names(tally, repository, name, page):
    for span in spans(prose(page)):
        definition = DEFINITION.fullmatch(span)
        if SOURCE.fullmatch(span):
            tally.check(repository.has_file(span), f"{name}: there is no file {span}")
        elif definition and definition[1] in repository.definitions:
            tally.check(repository.defines(*definition.groups()), f"{name}: {definition[1]}.antt doesn't have {definition[2]}")
        else:
            for word in WORD.findall(span):
                if re.fullmatch(r"[A-Za-z]+(_[A-Za-z]+)+", word):
                    tally.check(word in repository.words, f"{name}: {word} of `{span}` occurs nowhere")


def check_verdicts(tally, repository):
    crates = {crate_of(name) for name in repository.files}
    for line in repository.pages["docs/development/verdict-clauses.md"].split("\n"):
        kind = re.match(r"- (Definition|Edit)s?: ", line)
        crate = ""
        for span in spans(line) if kind else []:
            definition = DEFINITION.fullmatch(span)
            if span in crates:
                crate = span
            elif kind[1] == "Edit":
                tally.check((crate, span) in repository.edits, f"docs/development/verdict-clauses.md: {crate} has no edit {span}")
            elif definition:
                is_there = repository.defines(*definition.groups(), f"crates/{crate}/specs/")
                tally.check(is_there, f"docs/development/verdict-clauses.md: {crate} has no {span}")


def check_crates(tally, repository):
    for crate, promised in re.findall(r"(?m)^\| `(\w+)` \| (.*) \|$", repository.pages["docs/development/proved.md"]):
        own = [name for name in repository.files if name.startswith((f"crates/{crate}/src/", f"crates/{crate}/specs/"))]
        words = {stem(name) for name in own}.union(*map(repository.words_in, own))
        parts = {part for word in words for part in word.split("_")}
        for word in WORD.findall(" ".join(spans(promised))):
            tally.check(word in words | parts, f"docs/development/proved.md: {crate} has no {word}")


def folders_in(cell):
    """The beginnings of the paths of the files that the last column of the glossary speaks of."""
    found, crates = [], []
    for part in cell.split(";"):
        crates = spans(part) or crates
        found += [f"crates/{crate}/specs/{part.split()[-1]}" for crate in crates]
    return found


def check_glossary(tally, repository):
    for row in re.findall(r"(?m)^\|(.*)\|$", repository.pages["docs/glossary.md"]):
        *_, named, where = row.split("|")
        for definition in filter(None, map(DEFINITION.fullmatch, spans(named))):
            tally.check(any(repository.defines(*definition.groups(), it) for it in folders_in(where)),
                        f"docs/glossary.md: {definition[0]} isn't in{where.rstrip()}")


def check_edits(tally, repository):
    listed, crate = set(), ""
    for line in repository.pages["docs/development/edits.md"].split("\n"):
        head, row = re.fullmatch(r"## (\w+)", line), re.match(r"\| `(\w+)` \| `(\S+)` \|", line)
        crate = head[1] if head else crate
        if row:
            listed.add((crate, row[1]))
            path = repository.edits.get((crate, row[1]))
            changed = re.search(r"(?m)^file: (.*)$", text_of(path))[1] if path else ""
            tally.check(changed == row[2], f"docs/development/edits.md: {crate} has no edit {row[1]} of {row[2]}")
    for crate, edit in sorted(repository.edits.keys() - listed):
        tally.check(False, f"docs/development/edits.md: the edit {edit} of {crate} is missing")


def words_by_file():
    """How many words a reader of the headline has to read in each other file of definitions, by the file's path."""
    without = [word for name in BESIDE for word in ("--without", name)]
    listed = subprocess.run([f"{TOP}/scripts/definitions", *without], check=True, stdout=subprocess.PIPE)
    rows = re.findall(r"(?m)^ *(\d+) (\S+\.antt)$", listed.stdout.decode())
    return {path: int(count) for count, path in rows if path != HEADLINE}


def counted_files(page):
    """The files of the tables in a page, as `crate/Folder`: `File` 12 or `crate`: `Folder/File` 12, with the sums of their numbers."""
    found = {}
    for crate, folder, files in re.findall(r"`(\w+)(/\w+)?`: ((?:`[\w/]+` \d+(?:, )?)+)", page):
        for file, count in re.findall(r"`([\w/]+)` (\d+)", files):
            path = f"crates/{crate}/specs{folder}/{file}.antt"
            found[path] = found.get(path, 0) + int(count)
    return found


def listed_files(comment):
    """The files that a comment lists, as `crate, specs/Folder: File, File (what it has)`."""
    found = []
    for crate, folder, files in re.findall(r"(?m)^ +(\w+), specs/(\w+): (.*)$", comment):
        names = re.sub(r"\([^)]*\)", "", files).split(",")
        found += [f"crates/{crate}/specs/{folder}/{name.strip()}.antt" for name in names]
    return found


def check_reading(tally):
    wanted = words_by_file()
    counted = counted_files(text_of("docs/development/architecture.md"))
    comment = re.sub(r"(?m)^--", "", text_of(HEADLINE).partition("\nuse ")[0])
    listed = listed_files(re.sub(r"\n {5}(?=\S)", " ", comment))
    for path in sorted(wanted.keys() | counted.keys()):
        tally.check(wanted.get(path) == counted.get(path),
                    f"docs/development/architecture.md: {counted.get(path, 0)} words for {path}, of which {wanted.get(path, 0)} are read")
    for path in sorted(wanted.keys() | set(listed)):
        tally.check(listed.count(path) == int(path in wanted), f"{HEADLINE}: lists {path} {listed.count(path)} times")


def check_architecture(tally):
    listed = re.findall(r"(?m)^(\w+)(?: staticlib)?:", text_of("crates.txt"))
    described = re.findall(r"(?m)^\| `(\w+)` \| ", text_of("docs/development/architecture.md"))
    for crate in sorted(set(listed)):
        tally.check(described.count(crate) == 1, f"docs/development/architecture.md: describes {crate} {described.count(crate)} times")


def check_figures(tally, repository):
    for name, expression, computed in figures.FIGURES:
        found = figures.said(repository.pages[name], expression)
        if not found:
            tally.check(False, f"{name}: there is no {expression}")
            continue
        raw = os.path.normpath(os.path.join(os.path.dirname(name), found[0]))
        wanted = computed(text_of(raw)) if os.path.exists(f"{TOP}/{raw}") else None
        tally.check(found[1] == wanted, f"{name}: {', '.join(found[1])} of {raw}, which has {wanted}")


def check_counts(tally, repository):
    readme = repository.pages["README.md"]
    counted = figures.lines_of((name, text_of(name)) for name in repository.files if name.startswith("crates/"))
    rounded = re.search(r"code, definitions, proofs \| ([\d,]+), ([\d,]+) and ([\d,]+) lines", readme)
    edits = re.search(r"tries some \[([\d,]+) edits\]", readme)
    said = [int(it.replace(",", "")) for it in (*rounded.groups(), edits[1])]
    for number, right in zip(said, [*counted, len(repository.edits)]):
        tally.check(abs(number - right) * 50 <= right, f"README.md: {number:,}, and there are {right:,}")
    words = len(readme.split())
    tally.check(words <= 1200, f"README.md: {words:,} words")


def check_gate(tally, repository):
    """The gate runs each script that its page has, but those of which the page says that it doesn't."""
    page, runs = repository.pages["docs/development/gate.md"], text_of("scripts/all")
    left_out = re.search(r"`scripts/all` runs all of these but (.*?), with few cases", page)[1]
    for script in re.findall(r"^\| `scripts/([\w.]+)", page, re.MULTILINE):
        is_run = " scripts/%s" % script in re.sub(r"(?m)^(#|\[).*", "", runs)
        tally.check(is_run == ("`%s`" % script not in left_out), "scripts/all: %s" % script)


def sentences(page):
    """The sentences of a page; of a table, what stands between semicolons too."""
    text = "\n".join(line for line in prose(page).split("\n") if not line.startswith("#"))
    for block in re.split(r"\n\s*\n|\n(?=[-*|] )|\n(?=\d+\. )", text):
        for part in re.split(r"[|;]", block) if block.startswith("|") else [block]:
            plain = re.sub(r"`[^`]*`", "Code", re.sub(r"\[([^\]]*)\]\([^)]*\)", r"\1", part))
            yield from re.split(r"(?<=[.!?])[)\"*_]*\s+(?=[A-Z(\"*_])", " ".join(plain.split()))


def check_sentences(tally, name, page):
    for sentence in sentences(page):
        is_headline = sentence.startswith("Whenever the auditor says yes")
        tally.check(len(sentence.split()) <= 40 or is_headline, f"{name}: more than 40 words: {sentence}")


def main():
    if len(sys.argv) != 1:
        sys.exit(__doc__)
    tally, repository = Tally(), Repository()
    for name, page in repository.pages.items():
        check_links(tally, repository, name, page)
        if name.startswith("docs/") or name in ("README.md", "bench/README.md"):
            check_names(tally, repository, name, page)
        if name == "README.md" or name.startswith(("docs/", "examples/")) and not name.startswith(FOR_DEVELOPERS):
            check_sentences(tally, name, page)
    check_crates(tally, repository)
    check_verdicts(tally, repository)
    check_glossary(tally, repository)
    check_edits(tally, repository)
    check_reading(tally)
    check_architecture(tally)
    check_figures(tally, repository)
    check_counts(tally, repository)
    check_gate(tally, repository)
    print("\n".join([*tally.failures, f"{tally.passed} passed, {len(tally.failures)} failed"]))
    return 1 if tally.failures else 0


if __name__ == "__main__":
    sys.exit(main())
