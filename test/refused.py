#!/usr/bin/env python3
"""Holds each wrong version of crates/*/must-fail to the place where it must be refused. `rt ci` tries the edits too, and sees only that something in the crate is
refused. An edit may hold several wrong versions, with an empty line between them; of each, a line `# ` says what is wrong, and lines `refused:` say where it is refused:
    refused: NAME             a goal of the function NAME is refused, and not merely because it calls one that is not proved or names what the edit took away
    refused: proofs/X.antt    a statement of that file is refused, and not merely because it cites one that is
usage: test/refused.sh [--jobs N] [--alone] [--logs FOLDER] [CRATE | CRATE/EDIT ..]
    --jobs    how many checks at a time: as many as there are processors, and four at most
    --alone   tries each wrong version by itself
    --logs    keeps what each check said, as FOLDER/CRATE/EDIT.log, and tells each place with the first line that refuses it
"""
import os
import re
import shutil
import subprocess
import sys
import tempfile
import threading

TOP = os.path.dirname(os.path.dirname(os.path.abspath(__file__)))
# a proof file that names what the edit took away, or that cites what is refused
NAMES = re.compile(r"has no field|is not in scope|has no `|was not admitted|was not checked|exports no |is no name")


class Version:
    """One wrong version: what is wrong, where it must be refused, and its lines."""

    def __init__(self):
        self.said, self.places, self.lines = "", [], []


def versions_of(text):
    found = [Version()]
    for line in text.split("\n"):
        if not line and found[-1].lines:
            found.append(Version())
            continue
        one = found[-1]
        one.lines.append(line)
        if line.startswith("# "):
            one.said = line[2:]
        elif line.startswith("refused: "):
            one.places.append(line[len("refused: ") :].strip())
    return [it for it in found if any(line.startswith("new:") for line in it.lines)]


def apply(text, folder):
    """Applies an edit as rt does, to the files of a copy: the texts that were there, or why it cannot be applied."""
    path, old, was, now = "", "", {}, {}
    for line in text.split("\n"):
        if line.startswith("file: "):
            path = line[len("file: ") :].strip()
            if path not in was:
                if not os.path.isfile(f"{folder}/{path}"):
                    return {}, f"there is no file {path}"
                with open(f"{folder}/{path}", encoding="utf-8") as file:
                    was[path] = now[path] = file.read()
        elif line.startswith("old: "):
            old = line[len("old: ") :]
        elif line.startswith("new:"):
            new = line[len("new:") :].removeprefix(" ")
            if now[path].count(old) != 1:
                return {}, f"an 'old:' text is in {path} {now[path].count(old)} times: {old.strip()}"
            now[path] = now[path].replace(old, new)
    for path, it in now.items():
        with open(f"{folder}/{path}", "w", encoding="utf-8") as file:
            file.write(it)
    return was, ""


def refusal(crate, place, log):
    """The first line of a log that refuses at a place, or None."""
    if place.startswith("proofs/"):
        for line in log.split("\n"):
            if f"{place}:" in line and ": error: " in line and not NAMES.search(line):
                return line
        return None
    folder = place.replace("::", "/")
    # Goals that the check did not find an answer to, ..
    for line in log.split("\n"):
        if re.match(rf"fn {crate}::{re.escape(place)}: .*`search` did not prove", line):
            return line
    # .. and answers that no longer hold.
    for line in log.split("\n"):
        if re.search(rf"proofs/(\S*/)?{re.escape(folder)}/\w+\.antt:\d+:\d+: error: ", line) and not NAMES.search(line):
            return line
        if re.search(rf"proofs/\+\w+/\w+\.antt:\d+:\d+: error: `{re.escape(place)}-", line) and not NAMES.search(line):
            return line
    return None


class Run:
    def __init__(self, alone, logs, only):
        self.alone, self.logs, self.only, self.lock = alone, logs, only, threading.Lock()
        self.versions = self.edits = self.wrong = 0

    def fault(self, text):
        with self.lock:
            print(text, flush=True)
            self.wrong += 1

    def tried(self, copy, crate, label, text, versions):
        folder = f"{copy}/crates/{crate}"
        was, why = apply(text, folder)
        if why:
            self.fault(f"{crate}/{label}: cannot be applied: {why}")
            return
        log = subprocess.run(["rt", "check"], cwd=folder, stdout=subprocess.PIPE, stderr=subprocess.STDOUT, errors="replace", check=False).stdout
        for path, it in was.items():
            with open(f"{folder}/{path}", "w", encoding="utf-8") as file:
                file.write(it)
        if self.logs:
            os.makedirs(f"{self.logs}/{crate}", exist_ok=True)
            with open(f"{self.logs}/{crate}/{label}.log", "w", encoding="utf-8") as file:
                file.write(log)
        if "logic=not-proved" not in log:
            self.fault(f"{crate}/{label}: not refused by the prover: {log.strip().splitlines()[:1]}")
            return
        for one in versions:
            for place in one.places:
                line = refusal(crate, place, log)
                if not line:
                    self.fault(f"{crate}/{label}: not refused at {place}: {one.said}")
                elif self.logs:
                    with self.lock:
                        print(f"{crate}/{label}: {one.said}: {line[:240]}", flush=True)
            if not one.places:
                self.fault(f"{crate}/{label}: no line 'refused:' for: {one.said}")

    def edit(self, copy, crate, label, text):
        versions = versions_of(text)
        with self.lock:
            self.edits += 1
            self.versions += len(versions)
        if not self.alone:
            self.tried(copy, crate, label, text, versions)
            return
        for number, one in enumerate(versions):
            self.tried(copy, crate, f"{label}-{number + 1}", "\n".join(one.lines), [one])

    def crates(self, names, take):
        """Works on one crate after the other, in a copy of its own."""
        with tempfile.TemporaryDirectory(prefix="refused-") as copy:
            subprocess.run(["git", "init", "-q", copy], check=True)
            for name in ("crates.txt", "HANDLES"):
                if os.path.exists(f"{TOP}/{name}"):
                    shutil.copy(f"{TOP}/{name}", copy)
            shutil.copytree(f"{TOP}/crates", f"{copy}/crates", ignore=shutil.ignore_patterns("out"))
            while True:
                crate = take(names)
                if crate is None:
                    return
                folder = f"{TOP}/crates/{crate}/must-fail"
                for file in sorted(os.listdir(folder)):
                    if file.endswith(".edit") and (not self.only.get(crate) or file[: -len(".edit")] in self.only[crate]):
                        with open(f"{folder}/{file}", encoding="utf-8") as it:
                            self.edit(copy, crate, file[: -len(".edit")], it.read())


def main():
    words, jobs, alone, logs = sys.argv[1:], min(4, os.cpu_count() or 1), False, ""
    while words and words[0].startswith("--"):
        word = words.pop(0)
        if word == "--jobs":
            jobs = int(words.pop(0))
        elif word == "--alone":
            alone = True
        elif word == "--logs":
            logs = os.path.abspath(words.pop(0))
        else:
            sys.exit(__doc__)
    every = [it for it in sorted(os.listdir(f"{TOP}/crates")) if os.path.isdir(f"{TOP}/crates/{it}/must-fail")]
    only = {}
    for word in words:
        crate, _, edit = word.partition("/")
        if crate not in every or edit and not os.path.isfile(f"{TOP}/crates/{crate}/must-fail/{edit}.edit"):
            sys.exit(f"test/refused.sh: there is no crates/{crate}/must-fail" + (f"/{edit}.edit" if edit else ""))
        only.setdefault(crate, []).extend([edit] if edit else [])
    names, lock, run = list(only) or every, threading.Lock(), Run(alone, logs, only)

    def take(left):
        with lock:
            return left.pop(0) if left else None

    left = list(names)
    threads = [threading.Thread(target=run.crates, args=(left, take)) for _ in range(min(jobs, len(left)))]
    for it in threads:
        it.start()
    for it in threads:
        it.join()
    print(f"{run.versions} wrong versions in {run.edits} edits, {run.wrong} of them not refused where they must be")
    sys.exit(1 if run.wrong else 0)


main()
