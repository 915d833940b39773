"""Tries the edits that the prover must refuse, over copies of the repository, and notes of which crates all were refused.

    python3 lib/wrong-bodies/tries.py JOBS CRATE..

Of a crate only the functions that hold what an edit changes are checked, with those that they call: no other proof reads what a function does, but
goes by what it promises, so no other can refuse the edit. Edits of several functions are tried in one check, in which each function has its own
verdict; what isn't refused there is tried again, without those that are, and at last alone. An edit is refused where the check names a goal of
the proof of such a function that it couldn't prove. One of specs or proofs is tried on the whole crate, by rt must-fail.
"""

import glob
import os
import queue
import re
import shutil
import subprocess
import sys
import tempfile
import threading
import time

import sums
from places import holder, module

TOP = sums.TOP
# A goal that is left of the function whose line is the next; a function that isn't proved; an answer that doesn't prove its goal; one that
# names what is no longer there, which says nothing of the goal; and what a goal says.
LEFT = re.compile(r"note: \S+: it is not proved that .* \(`([\w-]+)`\)")
FAILED = re.compile(r"fn \w+::(\S+): (?:not proved|no proof)")
ANSWER = r"^(?:\./)?proofs/%s/\w+\.antt:\d+:\d+: error: `(\S+)`: (.*)"
NAMES = re.compile(r"^`goal\.|is not in scope|has no field|has no `|is no name|was not admitted")
MEANT = r"^note: `%s` of proofs/%s/\S+ must prove: (.*)"
SAYING = threading.Lock()


def say(text):
    """Prints a line that no other thread's line breaks."""
    with SAYING:
        print(text, flush=True)


def link_or_copy(one, other):
    """Gives a file of a built library a second name: rt replaces such a file, and never writes into it."""
    try:
        os.link(one, other)
    except OSError:
        shutil.copy2(one, other)


def copy_to(copy, crates):
    """Copies the sources of these crates there, and takes over the libraries that are built of them."""
    shutil.copy2(f"{TOP}/HANDLES", copy)
    lines = [it for it in read(f"{TOP}/crates.txt").splitlines() if re.split(r"[\s:]", it)[0] in crates]
    write(f"{copy}/crates.txt", "\n".join([*lines, ""]))
    for crate in crates:
        one, other = f"{TOP}/crates/{crate}", f"{copy}/crates/{crate}"
        for part in ("src", "specs", "proofs"):
            if os.path.isdir(f"{one}/{part}"):
                shutil.copytree(f"{one}/{part}", f"{other}/{part}")
        if os.path.isdir(f"{one}/out/rlib"):
            shutil.copytree(f"{one}/out/rlib", f"{other}/out/rlib", copy_function=link_or_copy)


def write(path, text):
    """Writes a file."""
    with open(path, "w", encoding="utf-8") as it:
        it.write(text)


def read(path):
    """Reads a file."""
    with open(path, encoding="utf-8") as it:
        return it.read()


class Edit:
    """An edit of a crate: which texts it puts in the place of which, and in which functions."""

    def __init__(self, file, crate, folder):
        self.file, self.name, self.pairs, self.holders = file, f"{crate}/{os.path.basename(file)}", [], []
        path = old = ""
        for line in read(file).split("\n"):
            if line.startswith("file: "):
                path = line[len("file: ") :].strip()
            elif line.startswith("old: "):
                old = line[len("old: ") :]
            elif line.startswith("new:"):
                self.pairs.append((path, old, line[len("new:") :].removeprefix(" ")))
        self.is_of_source = all(it.startswith("src/") for it, _, _ in self.pairs)
        self.fits = bool(self.pairs) and all(old and read(f"{folder}/{it}").count(old) == 1 for it, old, _ in self.pairs)
        for path, old, _ in self.pairs if self.fits and self.is_of_source else []:
            text = read(f"{folder}/{path}")
            self.holders.append(holder(folder, path, text, text.index(old), text.index(old) + len(old)))
        # What is outside functions, as a field, is tried by the functions that the edit changes beside it, where there are any.
        self.holders = [it for it in self.holders if it not in [module(path) for path, _, _ in self.pairs]] or self.holders

    def meets(self, other):
        """Whether a function of the one is one of the other's, or may be."""
        return any(f"{a}::".startswith(f"{b}::" if b else "") or f"{b}::".startswith(f"{a}::" if a else "") for a in self.holders for b in other.holders)

    def apply(self, folder):
        """Changes the crate's files there."""
        for path, old, new in self.pairs:
            write(f"{folder}/{path}", read(f"{folder}/{path}").replace(old, new))


def first_round(edits):
    """Some of the edits, the first among them, of which no two change one function."""
    chosen = []
    for edit in edits:
        if not any(edit.meets(other) for other in chosen):
            chosen.append(edit)
    return chosen


def run(folder, *words):
    """Runs rt there, and returns its status and what it printed."""
    how = {"cwd": folder, "stdin": subprocess.DEVNULL, "stdout": subprocess.PIPE, "stderr": subprocess.STDOUT, "errors": "replace"}
    ran = subprocess.run(["rt", *words], **how)
    return ran.returncode, ran.stdout


def checked(folder, edits):
    """Checks the functions of these edits, once they are applied, and puts the crate's files back."""
    were = {path: read(f"{folder}/{path}") for edit in edits for path, _, _ in edit.pairs}
    try:
        for edit in edits:
            edit.apply(folder)
        names = dict.fromkeys(name for edit in edits for name in edit.holders)
        return run(folder, "check", "--jobs", "1", *(word for name in names for word in ("--only", name)))
    finally:
        for path, text in were.items():
            write(f"{folder}/{path}", text)


def failed(said):
    """The functions that aren't proved, each with the goals of its own proof that are left."""
    goals = []
    for line in said.split("\n"):
        goals += LEFT.findall(line)
        if line.startswith("fn "):
            found = FAILED.match(line)
            if found:
                yield found[1], goals
            goals = []


def why_refused(edit, said):
    """The goals of its functions that weren't proved, with what is said of the first; nothing where there is none."""
    for name, goals in failed(said):
        if any(f"{name}::".startswith(f"{it}::" if it else "") for it in edit.holders):
            folder = re.escape(name.replace("::", "/"))
            answers = [it for it in re.findall(ANSWER % folder, said, re.M) if not NAMES.search(it[1])]
            meant = re.search(MEANT % (goals[0], folder), said, re.M) if goals else None
            more = meant[1] if meant else answers[0][1] if answers else ""
            if goals or answers:
                return f"{name} {', '.join(dict.fromkeys([*goals, *(it for it, _ in answers)]))}: {more[:300]}"
    return None


def judged(edit, status, said):
    """Whether an edit that was tried alone was refused, and what to say."""
    why = why_refused(edit, said)
    shown = [it for it in said.split("\n") if re.search(r"error|it is not proved|^fn .*: (not|no|could)", it)][:6] or said.split("\n")[-6:]
    if why:
        return True, f"refused: {why}"
    if status == 0:
        return False, "NOT REFUSED: its functions are still proved"
    if re.search(r"\berror\[[\w-]+\]", said):
        return False, "\n    ".join(["BAD EDIT: it doesn't compile", *shown])
    return False, "\n    ".join([f"NOT TRIED: its check ended with status {status}", *shown])


def tried_whole(edit, crate, folder):
    """Tries an edit on the whole crate, by rt must-fail."""
    os.makedirs(f"{folder}/must-fail")
    try:
        shutil.copy2(edit.file, f"{folder}/must-fail")
        status, said = run(os.path.dirname(os.path.dirname(folder)), "must-fail", crate)
    finally:
        shutil.rmtree(f"{folder}/must-fail")
    return status == 0 and ": refused, as it must be" in said, said.strip().split("\n")[-1]


def try_crate(copy, crate):
    """Tries the edits of a crate in the copy there, and returns whether all are refused."""
    folder = f"{copy}/crates/{crate}"
    files = sorted(it for kind in ("wrong-bodies", "must-fail") for it in glob.glob(f"{TOP}/crates/{crate}/{kind}/*.edit"))
    edits, began, verdicts = [Edit(it, crate, folder) for it in files], time.monotonic(), {}
    for edit in edits:
        if not edit.fits:
            verdicts[edit.name] = False, "BAD EDIT: an 'old:' text isn't in its file exactly once"
        elif not edit.is_of_source:
            verdicts[edit.name] = tried_whole(edit, crate, folder)
        if edit.name in verdicts:
            say(f"{edit.name}: {verdicts[edit.name][1]}")
    left = [it for it in edits if it.name not in verdicts]
    while left:
        together = first_round(left)
        status, said = checked(folder, together)
        known = [it for it in together if len(together) == 1 or why_refused(it, said)]
        for edit in known or together:
            verdicts[edit.name] = judged(edit, *((status, said) if known else checked(folder, [edit])))
            say(f"{edit.name}: {verdicts[edit.name][1]}")
        left = [it for it in left if it.name not in verdicts]
    is_well = all(it for it, _ in verdicts.values())
    say(f"{crate}: {sum(it for it, _ in verdicts.values())} of {len(verdicts)} edits refused, in {time.monotonic() - began:.0f} seconds")
    return is_well


def work(crates_left, below, all_crates, results):
    """Tries the crates that are left, one by one, in a copy of its own."""
    with tempfile.TemporaryDirectory(prefix="wrong-bodies-") as copy:
        copy_to(copy, all_crates)
        while True:
            try:
                crate = crates_left.get_nowait()
            except queue.Empty:
                return
            sum = sums.sum_of(crate, below)
            results[crate] = try_crate(copy, crate)
            if results[crate]:
                sums.note(crate, sum)


def with_below(crates, below):
    """These crates and all that they depend on, in the order of crates.txt."""
    found, left = set(), list(crates)
    while left:
        crate = left.pop()
        if crate in below and crate not in found:
            found.add(crate)
            left += below[crate]
    return [it for it in below if it in found]


def main(jobs, *crates):
    below = sums.crates_below()
    crates = [it for it in below if (it in crates or not crates) and sums.files(it, "wrong-bodies/*.edit", "must-fail/*.edit")]
    copied = with_below(crates, below)
    left, results = queue.Queue(), {}
    for crate in crates:
        left.put(crate)
    threads = [threading.Thread(target=work, args=(left, below, copied, results)) for _ in range(int(jobs))]
    for it in threads:
        it.start()
    for it in threads:
        it.join()
    return 0 if len(results) == len(crates) and all(results.values()) else 1


if __name__ == "__main__":
    sys.exit(main(*sys.argv[1:]))
