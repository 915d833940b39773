"""Which wrong bodies were refused on the sources as they are: beside a crate's edits, the file `refused` holds a sum of what that rested on.

    python3 lib/wrong-bodies/sums.py stale [CRATE..]    names the crates with edits whose sum is another one now, or none

The sum is of the crate's own sources, specs, proofs and edits, and of what the crates below promise: their specs, and their sources without what
functions do. Comments, imports, how lines are cut and the kit's version don't count, so that what changes none of this doesn't void it.
"""

import functools
import glob
import hashlib
import os
import re
import sys

from places import TOKEN, functions

# An import, also a public one and a ghost's.
IMPORT = re.compile(r"^\s*(?:pub |ghost )?use [^;\n{]*(?:\{[^{}]*\}|\{(?:[^{}]|\{[^{}]*\})*\})?;?$", re.M)
TOP = os.path.dirname(os.path.dirname(os.path.dirname(os.path.realpath(__file__))))


def crates_below():
    """All crates that each crate of crates.txt depends on, also by others, in the order of that file."""
    named = {}
    with open(f"{TOP}/crates.txt", encoding="utf-8") as lines:
        for line in lines:
            name, colon, others = line.partition(":")
            if colon and not line.startswith("#"):
                named[name.split()[0]] = others.split()

    def reach(crate, found):
        for other in named.get(crate, []):
            if other not in found:
                found.add(other)
                reach(other, found)
        return found

    return {crate: [it for it in named if it in reach(crate, set())] for crate in named}


def without_comments(text):
    """A source without its comments."""
    return TOKEN.sub(lambda found: "" if found[0].startswith("//") else found[0], text)


def without_bodies(text):
    """A source in which functions say what they promise and not what they do; those that no other file can name are gone."""
    parts, at = [], 0
    for _, start, end, last in functions(text):
        is_hidden = start == text.rfind("\n", 0, start) + 1
        parts += [text[at:start], "" if is_hidden else text[start:end]]
        at = last
    return "".join(parts) + text[at:]


@functools.lru_cache(maxsize=None)
def plain(path, is_below=False):
    """What of a file counts."""
    with open(path, encoding="utf-8") as it:
        text = it.read()
    if path.endswith(".rt"):
        text = without_comments(text)
        text = IMPORT.sub("", without_bodies(text) if is_below else text)
    elif path.endswith(".antt"):
        text = IMPORT.sub("", re.sub(r"(^|\s)--\s.*", "", text))
    return " ".join(text.split())


def files(crate, *parts):
    """The files of these parts of a crate."""
    found = []
    for part in parts:
        found += glob.glob(f"{TOP}/crates/{crate}/{part}", recursive=True)
    return sorted(it for it in found if os.path.isfile(it))


def sum_of(crate, below):
    """The sum of all that a verdict on the crate's edits depends on."""
    sum = hashlib.sha256()
    for path in files(crate, "src/**/*", "specs/**/*", "proofs/**/*", "wrong-bodies/*.edit", "must-fail/*.edit"):
        sum.update(repr((os.path.relpath(path, TOP), plain(path))).encode())
    for other in below[crate]:
        for path in files(other, "src/**/*.rt", "specs/**/*"):
            sum.update(repr((os.path.relpath(path, TOP), plain(path, True))).encode())
    return sum.hexdigest()


def noted(crate):
    """The sum that is noted; an empty text where none is."""
    try:
        with open(f"{TOP}/crates/{crate}/wrong-bodies/refused", encoding="utf-8") as it:
            return it.read().strip()
    except FileNotFoundError:
        return ""


def note(crate, sum):
    """Notes that all edits of a crate were refused on what has this sum."""
    with open(f"{TOP}/crates/{crate}/wrong-bodies/refused", "w", encoding="utf-8") as it:
        it.write(sum + "\n")


def main(verb, *names):
    below = crates_below()
    if verb == "stale":
        for crate in below:
            if (not names or crate in names) and files(crate, "wrong-bodies/*.edit") and noted(crate) != sum_of(crate, below):
                print(crate)


if __name__ == "__main__":
    main(*sys.argv[1:])
