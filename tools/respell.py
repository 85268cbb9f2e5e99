#!/usr/bin/env python3
"""Respells this repository's own definitions and lemmas: words in snake case, types and modules in upper camel case, a prime as an apostrophe.

usage: tools/respell.py [--dry]    at the top, once, right after port.py

It turns names that specs/*.antt and proofs/*.antt declare, wherever they stand: in those files, in clauses and `ghost use` lines of src/, in proofs/F/, in the lines of
must-fail edits, and between backticks in comments and pages. Strings, code and names of src/ stay. Two names that would fall together are told apart by TAKEN below.
"""
import collections
import glob
import re
import sys

TOKEN = r"[^\s(){}\[\].,;:\"`|\\]+"
CAMEL = {}
LEAD = r"^\s*(?:(?:abbrev|unfoldable|pub|data|record|ruleset)\s+)*"
# Lemmas that port.py had turned already, and that would now fall together with a definition in the same files: they get `_lem` there.
LEMMAS = {
    "mark_on": ["crates/allot/proofs/Marking.antt"],
    "last_step": ["crates/amend/proofs/Seeks.antt"],
    "in_use": ["crates/amend/proofs/Saves.antt"],
    "way_back": ["crates/fields/proofs/Numbers.antt", "crates/nibblize/proofs/Unrolls.antt"],
    "clean_is": ["crates/holders/proofs/Claims.antt", "crates/holders/proofs/Clean.antt"],
    "free_in": ["crates/holders/proofs/Map.antt"],
    "is_free": ["crates/holders/proofs/Sums.antt"],
    "data_is": ["crates/sides/proofs/Always.antt", "crates/sides/proofs/Data.antt"],
}


def declared():
    names = collections.defaultdict(set)
    for path in sorted(glob.glob("crates/*/specs/*.antt") + glob.glob("crates/*/proofs/*.antt")):
        for line in open(path, encoding="utf-8"):
            text = line.split("--")[0].rstrip() if not re.search(r"\S--\S", line) else line.rstrip()
            m = re.match(LEAD + "(" + TOKEN + r"(?:\s+" + TOKEN + r")*)\s*(?:\{[^}]*\}\s*|\([^)]*\)\s*)*:(?:\s|$)", text)
            if m:
                for word in m.group(1).split():
                    names[word].add(path)
            m = re.match(r"^\s*(?:pub\s+)?(?:data|record|ruleset|abbrev pub|abbrev|unfoldable pub|unfoldable)\s+(" + TOKEN + ")", text)
            if m:
                names[m.group(1)].add(path)
    return names


def snake(word):
    new = word.replace("\u2032", "'")
    new = re.sub(r"^getD(?=-|$)", "get_or", new)
    new = re.sub(r"(?<=[A-Za-z0-9\u2080-\u2089'])-(?=[A-Za-z0-9])", "_", new)
    if new[0].islower():
        new = re.sub(r"(?<=[a-z0-9])([A-Z])(?![A-Z0-9_]|$)", lambda m: "_" + m.group(1).lower(), new)
        new = re.sub(r"(?<=[a-z])([A-Z])(?=$|_)", lambda m: "_" + m.group(1).lower(), new)
    return new


def plain(names):
    return {w: snake(w) for w in names if (w[0].isalpha() and snake(w) != w)}


def main():
    names = declared()
    turn = plain(names)
    CAMEL.update((w, n) for w, n in turn.items() if re.search("[a-z][A-Z]", w))
    split = re.compile("(" + TOKEN + ")")
    by_new = collections.defaultdict(set)
    for w in names:
        by_new[turn.get(w, w)].add(w)
    clash = {n: ws for n, ws in by_new.items() if len(ws) > 1}
    # A lemma that falls together with a definition gets `_lem`.
    for n, ws in clash.items():
        for w in ws:
            if "-" in w:
                turn[w] = n + "_lem"
    files = sorted(glob.glob("crates/**/*.antt", recursive=True) + glob.glob("crates/**/*.rt", recursive=True))
    for n, ws in sorted(clash.items()):
        print("together:", n, {w: sorted(names[w])[:3] for w in ws})
    for path in files:
        if "/out/" in path:
            continue
        here = set(split.findall(open(path, encoding="utf-8").read()))
        for w in here & set(turn):
            if turn[w] in here:
                print("beside:", path, w, turn[w])
    if "--dry" in sys.argv:
        print(len(names), "declared,", len(turn), "to turn")
        return
    for path in files:
        if "/out/" not in path:
            rewrite(path, {**turn, **{w: w + "_lem" for w, where in LEMMAS.items() if path in where}}, split)
    for path in sorted(glob.glob("crates/*/must-fail/*.edit")):
        rewrite_edit(path, turn, split)
    for path in sorted(glob.glob("*.md") + glob.glob("docs/**/*.md", recursive=True) + glob.glob("samples/*.md") + glob.glob("host/**/*.md", recursive=True)):
        text = open(path, encoding="utf-8").read()
        save(path, text, re.sub(r"`([^`\n]+)`", lambda m: "`" + words(m.group(1), turn, split) + "`", text))


def words(text, turn, split):
    return split.sub(lambda m: turn.get(m.group(1), m.group(1)), text)


def save(path, old, new):
    if new != old:
        with open(path, "w", encoding="utf-8") as f:
            f.write(new)


def code_line(line, turn, split, mark):
    """A line with its comment apart: in the comment only names between backticks and names in camel case are turned; a string stays."""
    at = line.find(mark)
    while at > 0 and line[:at].count('"') % 2:
        at = line.find(mark, at + 1)
    head, tail = (line, "") if at < 0 else (line[:at], line[at:])
    parts = re.split(r'("(?:[^"\\]|\\.)*")', head)
    head = "".join(p if i % 2 else words(p, turn, split) for i, p in enumerate(parts))
    if tail:
        tail = words(tail, CAMEL, split)
        tail = re.sub(r"`([^`\n]+)`", lambda m: "`" + words(m.group(1), turn, split) + "`", tail)
    return head + tail


def rewrite(path, turn, split):
    text = open(path, encoding="utf-8").read()
    mark = "--" if path.endswith(".antt") else "//"
    save(path, text, "".join(code_line(l, turn, split, mark) for l in text.splitlines(True)))


def rewrite_edit(path, turn, split):
    text = open(path, encoding="utf-8").read()
    out = []
    for line in text.splitlines(True):
        m = re.match(r"(old|new):", line)
        out.append(m.group(0) + code_line(line[4:], turn, split, "--") if m else line)
    save(path, text, "".join(out))


if __name__ == "__main__":
    main()
