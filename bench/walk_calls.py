"""Times the walk over the markers of preprocessed text against a copy of the text and a search for one byte.

A digest that looks for the macros of date and time is timed too, against one that doesn't. The text is what `g++ -E` prints of a
source with many of the standard headers, over and over. It proves and builds the program first where that isn't built yet or its
sources changed.
"""

import os
import shlex
import shutil
import tempfile
from pathlib import Path

from program import FEW, SAME_MEMORY, build, expect, medians, timer, works
from timing import run

SIZE = 64 * 1024 * 1024
INPUT = "main.cc"

HEADERS = """algorithm chrono deque fstream functional future iomanip iostream list map memory mutex queue random regex set sstream
    string thread tuple unordered_map unordered_set vector""".split()

# How often a call is repeated in a run with many, so that each run takes long enough to be timed.
COPIES, SEARCHES = 21, 41
DIGESTS = 3


def tally(count, together):
    """The line that the program prints of so many strings with so many bytes."""
    return f"{count} strings of {together} bytes together\n"


def write_source(folder):
    """Writes the source, and gives what `g++` prints of it, and the names of the headers that it lists."""
    source = "".join(f"#include <{header}>\n" for header in HEADERS)
    Path(folder, INPUT).write_text(source + "int main() { return 0; }\n")
    _, text = run(["g++", "-E", INPUT], folder=folder)
    _, rule = run(["g++", "-M", INPUT], folder=folder)
    names = shlex.split(rule.replace("\\\n", " "))[1:]
    return text, [name for name in names if name != INPUT]


def check(folder, text, names, list_file):
    """Stops where the walk over the text alone doesn't name the headers that are listed, or another work isn't done."""
    file = os.path.join(folder, "text.ii")
    Path(file).write_text(text)
    expect("walk", works("walk", file, list_file), tally(len(names), sum(map(len, names))))
    expect("byte", works("byte", file), tally(1, len(text)))


def measure_in(folder):
    text, names = write_source(folder)
    list_file = os.path.join(folder, "names")
    Path(list_file).write_text("\n".join(names))
    check(folder, text, names, list_file)
    file = os.path.join(folder, "texts.ii")
    Path(file).write_text(text * (SIZE // len(text)))
    _, digest = run(works("digest", file)(FEW))
    expect("macros", works("macros", file), f"{digest.strip()}, 0\n")
    times = medians({
        "walk": timer(works("walk", file, list_file), SAME_MEMORY),
        "markers": timer(works("markers", file), SAME_MEMORY),
        "copy": timer(works("copy", file), SAME_MEMORY, COPIES),
        "byte": timer(works("byte", file), SAME_MEMORY, SEARCHES),
        "digest": timer(works("digest", file), SAME_MEMORY, DIGESTS),
        "macros": timer(works("macros", file), SAME_MEMORY, DIGESTS),
    })
    for peer, name in [("copy", "a copy of the text"), ("byte", "a search of it for one byte")]:
        print(f"walk: {times['walk'] / times[peer]:.1f} times {name}")
        print(f"its markers alone: {times['markers'] / times[peer]:.1f} times {name}")
    print(f"digest that looks for macros: {times['macros'] / times['digest']:.2f} times a digest")


def measure():
    if shutil.which("g++") is None:
        print("no g++ here, so there are no ratios of walks over what it prints: apt-get install g++")
        return
    build()
    with tempfile.TemporaryDirectory() as folder:
        measure_in(folder)
