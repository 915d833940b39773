"""Times the cutting of words by a compiler's tree and by its tables, and a whole parse against `shlex.split` and a copy.

It proves and builds the program first where that isn't built yet or its sources changed.
"""

import os
import shlex
import sys
import tempfile
from pathlib import Path

from program import SAME_MEMORY, build, expect, medians, timer, works
from scenarios import WORDS, words

# How many words share a long beginning, and the flag of each compiler with which they begin: the longest that takes a value.
SHARING = 1_000
LONG_FLAGS = {
    "gcc": "-fdiagnostics-color",
    "clang": "-fprebuilt-module-path",
    "diab": "-Xmake-dependency-savefile",
    "msvc": "/sourceDependencies",
    "taskingvx": "--include-directory",
}

# The nodes on the way to `-c`, and the bytes of that flag.
STEPS, FLAG = 3, 2

# How often a call is repeated in a run with many, so that each run takes long enough to be timed.
CUTTINGS = {WORDS: 20_001, SHARING: 1_001}
PARSES, COPIES, TREES = 5_001, 40_001, 20_001
SPLITS = 201

# What python3 does for each repeat.
SPLIT = """
import shlex, sys
line = open(sys.argv[2]).read()
for _ in range(int(sys.argv[1])):
    words = shlex.split(line)
print(len(words))
"""


def sharing_words(flag):
    """Words of which half have that flag with a value, and half leave it at its last byte."""
    return [f"{flag}={place}" if place % 2 == 0 else f"{flag[:-1]}.{place}" for place in range(SHARING)]


def tally(count, together):
    """The line that the program prints of so many strings with so many bytes."""
    return f"{count} strings of {together} bytes together\n"


def write_words(folder, name, given):
    """Writes the words into the folder, and gives the file, once the program copies them as is due."""
    file = os.path.join(folder, name)
    Path(file).write_text(shlex.join(given) + "\n")
    expect("copy_words", works("copy_words", file), tally(len(given), sum(map(len, given))))
    return file


def check_sharing(file, kind, flag):
    """Stops where the words aren't each cut into an argument, half of them with that flag."""
    wanted = tally(SHARING, SHARING // 2 * len(flag))
    for work in ["by_tree", "by_table"]:
        expect(work, works(work, file, kind), wanted)


def measure_cutting(file, count, kind, of_which):
    """Prints how fast these words are cut, by the tree and by the tables."""
    times = medians({
        work: timer(lambda repeats, work=work: works(work, file, kind)(repeats), SAME_MEMORY, CUTTINGS[count])
        for work in ["by_tree", "by_table"]
    })
    speed = {work: count / seconds / 1e6 for work, seconds in times.items()}
    print(
        f"{of_which} cut for {kind}: {speed['by_tree']:.1f} million a second by the tree,"
        f" {speed['by_table']:.1f} by the tables"
    )


def measure_cuttings(folder, command):
    for kind, flag in LONG_FLAGS.items():
        measure_cutting(command, WORDS, kind, f"the {WORDS} words")
        file = write_words(folder, kind, sharing_words(flag))
        check_sharing(file, kind, flag)
        measure_cutting(file, SHARING, kind, f"{SHARING:,} words that begin alike")


def splits(file):
    """The command by which python3 splits the words for a number of repeats."""
    return lambda repeats: [sys.executable, "-c", SPLIT, str(repeats), file]


def measure_parses(command):
    expect("parse", works("parse", command), tally(*preprocessor_words(words(0))))
    expect("make_tree", works("make_tree", "gcc"), tally(STEPS, FLAG))
    expect("shlex.split", splits(command), f"{WORDS}\n")
    times = medians({
        "copy": timer(works("copy_words", command), SAME_MEMORY, COPIES),
        "parse": timer(works("parse", command), SAME_MEMORY, PARSES),
        "tree": timer(works("make_tree", "gcc"), SAME_MEMORY, TREES),
        "split": timer(splits(command), {}, SPLITS),
    })
    print(f"parse of the {WORDS} words: {times['parse'] / times['copy']:.1f} times a copy of them")
    print(f"parse of the {WORDS} words: {times['parse'] / times['split']:.2g} times shlex.split of python3")
    print(f"making of gcc's tree: {times['tree'] / times['parse']:.2f} times a parse of the {WORDS} words")


def preprocessor_words(given):
    """How many of the words are options of the preprocessor, and how many bytes these have."""
    chosen = [word for word in given if word[:2] in ("-D", "-I")]
    return len(chosen), sum(map(len, chosen))


def measure():
    build()
    with tempfile.TemporaryDirectory() as folder:
        command = write_words(folder, "command", words(0))
        measure_cuttings(folder, command)
        measure_parses(command)
