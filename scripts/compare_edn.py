#!/usr/bin/env python3
"""Compares the reader of EDN, crates/edn, with Clojure's own, clojure.edn, on the texts of scripts/edn_forms/forms.

    scripts/compare_edn.py [--write]

scripts/edn_forms/table has what both make of each text: a row has the text as a JSON string, then what clojure.edn reads,
and what the reader reads: `same`, or its own forms, or `refused`. The forms stand in a normal form: each number as its
value, each character as its code point, the elements of a set and the entries of a map in an order of their own. A tag,
and what it stands for, is no part of it. The reader gives a map with a namespace as it is written; its keys get the
namespace here. The reader runs without a proof, by `rt try`, in a copy of its crate; nothing has to be built before.

Without --write it checks that the reader still makes the same of each text as the table has it. With --write it asks both
and writes the table anew; that takes the command `clojure` (of the Debian package of that name; version 1.11.1 wrote the
table). Both fail if Clojure reads a text and the reader doesn't read the same forms, unless scripts/edn_forms/differences
has the text. The last line is `N passed, 0 failed`; the status is 1 if one failed.
"""
import argparse
import json
import os
import shutil
import subprocess
import sys
import tempfile
from fractions import Fraction

TOP = os.path.dirname(os.path.dirname(os.path.abspath(__file__)))
FOLDER = os.path.join(TOP, "scripts", "edn_forms")
CRATES = "devices: memchr itoa\nedn: devices thiserror\nedn_forms: edn devices\n"
NAMED = {"newline": 10, "return": 13, "space": 32, "tab": 9, "backspace": 8, "formfeed": 12}


def texts_of(name):
    with open(os.path.join(FOLDER, name), encoding="utf-8", newline="\n") as file:
        lines = [line for line in file.read().split("\n")[:-1] if not line.startswith(";;;")]
    return [json.loads(line[1:]) if line.startswith('!"') else line for line in lines]


def hexed(texts):
    return "".join(text.encode("utf-8").hex() + "\n" for text in texts)


def by_clojure(texts):
    program = ["clojure", os.path.join(FOLDER, "forms.clj")]
    done = subprocess.run(program, input=hexed(texts), capture_output=True, encoding="utf-8", check=True)
    return [plain(line, clojure_atom) for line in done.stdout.split("\n")[:-1]]


def by_reader(texts):
    """A text that begins with `[` has its elements read one by one, so each stands after another form."""
    with tempfile.TemporaryDirectory() as top:
        for crate in ["devices", "edn"]:
            skip = shutil.ignore_patterns("out", "must-fail")
            shutil.copytree(os.path.join(TOP, "crates", crate), os.path.join(top, "crates", crate), ignore=skip)
        source = os.path.join(top, "crates", "edn_forms", "src")
        os.makedirs(source)
        shutil.copy(os.path.join(FOLDER, "reader.rs"), os.path.join(source, "main.rt"))
        with open(os.path.join(top, "crates.txt"), "w", encoding="ascii") as file:
            file.write(CRATES)
        given = hexed(["0\n" + text for text in texts])
        done = subprocess.run(["rt", "try", "--steps", "400000000"], cwd=os.path.dirname(source), input=given, capture_output=True, encoding="utf-8")
    lines = done.stdout.split("\n")[:-1]
    if len(lines) < len(texts):
        sys.exit(done.stdout[-2000:] + done.stderr[-2000:])
    return [plain(line[3:] if line.startswith("i0 ") else line, reader_atom) for line in lines[: len(texts)]]


def plain(line, atom):
    """The forms of a line, each a string; None if the text was refused."""
    words = line.split()
    if "!" in words:
        return None
    words.reverse()
    forms = []
    while words:
        forms.append(form_of(words, atom))
    return " ".join(forms)


def form_of(words, atom):
    word = words.pop()
    if word not in ["(", "[", "#", "{", "#:"]:
        return atom(word)
    forms, heads = [], []
    while words[-1] != ")":
        heads.append(words[-1])
        forms.append(form_of(words, atom))
    words.pop()
    if atom is reader_atom:
        forms.reverse()
    if word == "#":
        forms.sort()
    if word == "#:":
        word, forms = "{", within(heads[::-1], forms)
    if word == "{":
        forms = sorted(key + " " + value for key, value in zip(forms[::2], forms[1::2]))
    ends = {"(": ")", "[": "]", "#": "}", "{": "}"}
    return ("#{" if word == "#" else word) + " ".join(forms) + ends[word]


def within(heads, forms):
    """The keys and values of a map with a namespace, which is the first of its forms; with the first word of each form."""
    namespace = heads[0][1:]
    pairs = list(zip(heads[1:], forms[1:]))
    return [key_within(namespace, *pair) if i % 2 == 0 else pair[1] for i, pair in enumerate(pairs)]


def key_within(namespace, head, form):
    if head[0] not in "ky":
        return form
    digits = head[1:]
    if b"/" not in bytes.fromhex(digits)[1:]:
        return of_text(head[0], namespace + b"/".hex() + digits)
    return of_text(head[0], digits.removeprefix(b"_/".hex()))


def number(value, mark=""):
    """A whole number, a ratio, or a decimal, which has a mark."""
    return f"{value.numerator}/{value.denominator}{mark}" if value.denominator != 1 else f"{value.numerator}{mark}"


def of_text(kind, digits):
    text = bytes.fromhex(digits).decode("utf-8", "replace")
    if kind == "s":
        return json.dumps(text)
    escaped = "".join(c if 32 < ord(c) < 127 else f"\\u{ord(c):04x}" for c in text)
    return ":" + escaped if kind == "k" else escaped


def clojure_atom(word):
    kind, rest = word[0], word[1:]
    if word in ["nil", "true", "false"]:
        return word
    if kind in ["i", "r"]:
        return number(Fraction(rest))
    if kind == "m":
        return number(Fraction(rest), "M")
    if kind == "f":
        return repr(float(rest))
    if kind == "c":
        return "\\u%04x" % int(rest)
    return of_text(kind, rest)


def reader_atom(word):
    kind, rest = word[0], word[1:]
    if word in ["nil", "true", "false"]:
        return word
    if kind == "i":
        return rest
    if kind == "n":
        return number_of(bytes.fromhex(rest).decode("ascii"))
    if kind == "c":
        return "\\u%04x" % code_of(bytes.fromhex(rest).decode("utf-8"))
    return of_text(kind, rest)


def number_of(text):
    if text.startswith("##"):
        return repr(float(text[2:]))
    if "/" in text:
        above, below = text.split("/")
        return number(Fraction(int(above), int(below))) if int(below) else text
    sign, digits = (text[0], text[1:]) if text[0] in "+-" else ("", text)
    if digits[:2] in ["0x", "0X"]:
        return str(int(sign + digits.rstrip("N"), 16))
    mark = digits.lower().find("r")
    if 1 <= mark <= 2 and digits[:mark].isdigit():
        return str(int(sign + digits[mark + 1 :], int(digits[:mark])))
    if text.endswith("M"):
        return number(Fraction(text[:-1]), "M")
    if text.rstrip("N").lstrip("+-").isdigit():
        whole = digits.rstrip("N")
        return str(int(sign + whole, 8 if whole[0] == "0" else 10))
    return repr(float(text))


def code_of(name):
    if len(name) == 1:
        return ord(name)
    if name in NAMED:
        return NAMED[name]
    return int(name[1:], 16 if name[0] == "u" else 8)


def shown(forms):
    return "refused" if forms is None else forms


def main():
    parser = argparse.ArgumentParser(description=__doc__, formatter_class=argparse.RawDescriptionHelpFormatter)
    parser.add_argument("--write", action="store_true")
    options = parser.parse_args()
    table = os.path.join(FOLDER, "table")
    texts, known = texts_of("forms"), set(texts_of("differences"))
    ours = by_reader(texts)
    if options.write:
        theirs = by_clojure(texts)
    rows, failed = [], []
    for i, text in enumerate(texts):
        row = [json.dumps(text), shown(ours[i])]
        if options.write:
            same = shown(ours[i]) == shown(theirs[i])
            row = [json.dumps(text), shown(theirs[i]), "same" if same else shown(ours[i])]
            if theirs[i] is not None and not same and text not in known:
                failed.append(row)
        rows.append(row)
    if options.write:
        with open(table, "w", encoding="utf-8", newline="\n") as file:
            file.write("".join("\t".join(row) + "\n" for row in rows))
    else:
        with open(table, encoding="utf-8", newline="\n") as file:
            kept = [line.split("\t") for line in file.read().split("\n")[:-1]]
        if [row[0] for row in kept] != [row[0] for row in rows]:
            sys.exit("the table has other texts than scripts/edn_forms/forms: write it anew")
        for row, (_, clojure, was) in zip(rows, kept):
            if row[1] != (clojure if was == "same" else was):
                failed.append([row[0], clojure, row[1]])
            elif clojure != "refused" and was != "same" and json.loads(row[0]) not in known:
                failed.append([row[0], clojure, was])
    for row in failed:
        print("\t".join(row))
    print(f"{len(rows) - len(failed)} passed, {len(failed)} failed")
    sys.exit(1 if failed else 0)


main()
