"""Times the opening of response files against copies of their bytes, and twice as much of it against that.

It proves and builds the program first where that isn't built yet or its sources changed.
"""

import os
import tempfile
from pathlib import Path

from program import SAME_MEMORY, build, expect, medians, timer, works

MEBIBYTE = 1024 * 1024
SIZE = 16 * MEBIBYTE
FILES = 2_000

# How often a call is repeated in a run with many, so that each run takes long enough to be timed.
SPLITTINGS, COPIES = 6, 101
OPENINGS, CHAIN_COPIES = 501, 10_001

GRAMMARS = ["gnu", "msvc"]

# What each file of a chain has beside the name of the next one.
DEFINITION = "-DA=1"


def line_of_words(number):
    """Words as they are written in a line of a text, each with the argument that it is by both grammars."""
    return [
        (f"-DNAME{number}={number}", f"-DNAME{number}={number}"),
        (f"-Iinclude/folder{number}", f"-Iinclude/folder{number}"),
        (f'"-DTITLE{number}=a b"', f"-DTITLE{number}=a b"),
        (f'-DTEXT{number}=\\"b\\"', f'-DTEXT{number}="b"'),
    ]


def text_of_words(size):
    """A text of that size, which empty lines fill up, and the line that is due for its arguments."""
    lines = []
    length = count = argument_bytes = 0
    while True:
        words = line_of_words(len(lines))
        line = " ".join(written for written, _ in words) + "\n"
        if length + len(line) > size:
            return "".join(lines).encode().ljust(size, b"\n"), tally(count, argument_bytes)
        lines.append(line)
        length += len(line)
        count += len(words)
        argument_bytes += sum(len(argument) for _, argument in words)


def tally(count, together):
    """The line that the program prints of so many strings with so many bytes."""
    return f"{count} strings of {together} bytes together\n"


def chain_bytes(count):
    """How many bytes the files of a chain have."""
    names = sum(len(f" @{number}") for number in range(1, count))
    return count * len(DEFINITION) + names


def write_text(folder, size):
    """Writes a text of that size into the folder, and gives the file, once the program splits it as is due."""
    file = os.path.join(folder, f"{size}.rsp")
    text, wanted = text_of_words(size)
    Path(file).write_bytes(text)
    expect("copy", works("copy", file), f"{size} bytes, the middle one {text[size // 2]}\n")
    for grammar in GRAMMARS:
        expect(grammar, works(grammar, file), wanted)
    return file


def measure_texts(folder):
    file, longer = write_text(folder, SIZE), write_text(folder, 2 * SIZE)
    timers = {"copy": timer(works("copy", file), SAME_MEMORY, COPIES)}
    for grammar in GRAMMARS:
        timers[grammar] = timer(works(grammar, file), SAME_MEMORY, SPLITTINGS)
        timers[grammar, "longer"] = timer(works(grammar, longer), SAME_MEMORY, SPLITTINGS)
    times = medians(timers)
    size = SIZE // MEBIBYTE
    for grammar in GRAMMARS:
        print(f"words by the {grammar} grammar: {times[grammar] / times['copy']:.0f} times a copy of their text")
        growth = times[grammar, "longer"] / 2 / times[grammar]
        print(f"words by the {grammar} grammar in {2 * size} MiB: {growth:.1f} times those in {size} MiB, by the byte")


def check_chain(count):
    """Stops where a chain of so many files isn't opened or copied as is due."""
    expect("expand", works("expand", str(count)), tally(count, count * len(DEFINITION)))
    expect("copy_chain", works("copy_chain", str(count)), tally(count, chain_bytes(count)))


def measure_chains():
    for count in [FILES, 2 * FILES]:
        check_chain(count)
    timers = {
        "copy": timer(works("copy_chain", str(FILES)), SAME_MEMORY, CHAIN_COPIES),
        "chain": timer(works("expand", str(FILES)), SAME_MEMORY, OPENINGS),
        "longer": timer(works("expand", str(2 * FILES)), SAME_MEMORY, OPENINGS),
    }
    times = medians(timers)
    print(f"a chain of {FILES:,} files of words: {times['chain'] / times['copy']:.0f} times a copy of them")
    growth = times["longer"] / 2 / times["chain"]
    print(f"a chain of {2 * FILES:,}: {growth:.1f} times one of {FILES:,}, by the file")


def measure():
    build()
    with tempfile.TemporaryDirectory() as folder:
        measure_texts(folder)
    measure_chains()
