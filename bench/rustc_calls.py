"""Times the reading and the rewriting of texts on dependencies, and the writing and reading of keys' bytes, against copies of
their bytes, and twice as much of each against that.

It proves and builds the program first where that isn't built yet or its sources changed.
"""

import os
import tempfile
from pathlib import Path

from program import SAME_MEMORY, build, expect, medians, timer, works

MEBIBYTE = 1024 * 1024
SIZE = 16 * MEBIBYTE
SOURCES = 10_000
DIGEST = 64

# After the digests of a key come the lengths of the words and of the directory, and two bytes more.
KEY_REST = 2 * 8 + 2

# How often a call is repeated in a run with many, so that each run takes long enough to be timed.
TEXTS, COPIES, KEYS = 6, 101, 501

TARGETS = ["out/foo.d", "out/libfoo.rlib"]


def tally(count, together):
    """The line that the program prints of so many strings with so many bytes."""
    return f"{count} strings of {together} bytes together\n"


def text_of_sources(size):
    """A text of about that size whose rule names sources, with a rule for each of them, and the lines that are due for it."""
    sources = []
    length = 0
    while True:
        source = f"src/folder{len(sources) % 100}/my file{len(sources)}.rs"
        length += 2 * len(source) + 5
        if length > size:
            break
        sources.append(source)
    escaped = [source.replace(" ", "\\ ") for source in sources]
    rule = " ".join(escaped)
    rest = "".join(f"{source}:\n" for source in escaped)
    text = f"foo.d: {rule}\n\n{rest}".encode()
    read = tally(len(sources), sum(len("/w/" + source) for source in sources))
    rewritten = "".join(f"{target}: {rule}\n\n" for target in TARGETS) + rest
    return text, read, tally(1, len(rewritten))


def write_text(folder, size):
    """Writes such a text into the folder, and gives the file, once the program reads and rewrites it as is due."""
    file = os.path.join(folder, f"{size}.d")
    text, read, rewritten = text_of_sources(size)
    Path(file).write_bytes(text)
    expect("read_deps", works("read_deps", file), read)
    expect("rewrite_deps", works("rewrite_deps", file), rewritten)
    return file


def measure_texts(folder):
    file, longer = write_text(folder, SIZE), write_text(folder, 2 * SIZE)
    timers = {"copy": timer(works("copy", file), SAME_MEMORY, COPIES)}
    for work in ("read_deps", "rewrite_deps"):
        timers[work] = timer(works(work, file), SAME_MEMORY, TEXTS)
        timers[work, "longer"] = timer(works(work, longer), SAME_MEMORY, TEXTS)
    times = medians(timers)
    size = SIZE // MEBIBYTE
    text = f"a text on dependencies of {size} MiB"
    for work, said in (("read_deps", f"sources read of {text}"), ("rewrite_deps", f"{text} rewritten")):
        print(f"{said}: {times[work] / times['copy']:.2f} times a copy of its bytes")
        print(f"the same of {2 * size} MiB: {times[work, 'longer'] / (2 * times[work]):.2f} times that by the byte")


def measure_keys():
    timers = {}
    for sources in (SOURCES, 2 * SOURCES):
        key = tally(1, sources * DIGEST + KEY_REST)
        expect("copy_key", works("copy_key", str(sources)), key)
        expect("write_key", works("write_key", str(sources)), key)
        expect("read_key", works("read_key", str(sources)), tally(sources, sources * DIGEST))
        for work in ("copy_key", "write_key", "read_key"):
            timers[work, sources] = timer(works(work, str(sources)), SAME_MEMORY, KEYS)
    times = medians(timers)
    for work, said in (("write_key", "written"), ("read_key", "read")):
        once, twice = times[work, SOURCES], times[work, 2 * SOURCES]
        print(f"bytes of a key of {SOURCES:,} sources {said}: {once / times['copy_key', SOURCES]:.2f} times a copy of them")
        print(f"the same of {2 * SOURCES:,}: {twice / (2 * once):.2f} times that by the source")


def measure():
    build()
    with tempfile.TemporaryDirectory() as folder:
        measure_texts(folder)
    measure_keys()
