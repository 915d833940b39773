"""Times the report on a recorded build of many entries, beside Python's reader of JSON on the same text.

The program is proved and built first where that is to be done.
"""

import json
import os
import subprocess
import tempfile
from pathlib import Path

from timing import in_turn, run, stop

TOP = Path(__file__).resolve().parent.parent
BUILD = TOP / "bin" / "build"
REPORTER = TOP / "bin" / "sccache-report"
PROGRAM = TOP / "crates" / "sccache_wrap" / "out" / "sccache_wrap"

COUNT, FEWER = 20_000, 2_000
WORDS, MORE_WORDS = 60, 600
ROUNDS = 5

READ = ["python3", "-c", "import json, sys; json.load(sys.stdin)"]


def words(number, count):
    """So many words of an entry, of which two thirds after the first few are definitions and the others folders."""
    given = ["/usr/bin/cc", "-O2", "-Wall", "-std=gnu11", "-fPIC"]
    given += ["-o", f"objects/{number:06}.o", "-c", source_name(number)]
    rest = count - len(given)
    folders = rest // 3
    given += [f"-DNAME{place:04}=some{place:04}" for place in range(rest - folders)]
    return given + [f"-Iinclude/some{place:05}" for place in range(folders)]


def source_name(number):
    return f"sources/{number:06}.c"


def write_database(file, entries, count):
    """Writes the database of so many entries of so many words into the file."""
    with open(file, "w") as output:
        for number in range(entries):
            output.write(",\n" if number else "[")
            entry = {"directory": "/w", "file": source_name(number), "arguments": words(number, count)}
            json.dump(entry, output)
        output.write("]\n")


def wanted(entries):
    """What the program is to print of these entries, all of which are kept."""
    lines = [
        f"{number + 1} keeps input {source_name(number)}; obj objects/{number:06}.o\n"
        for number in range(entries)
    ]
    return "".join(lines) + f"\nentries {entries}\nkept {entries}\n"


def build():
    """Has the program proved and built, where it isn't yet."""
    subprocess.run([str(BUILD), "sccache_wrap"], check=True, stdout=subprocess.DEVNULL)
    answer = subprocess.run([str(REPORTER)], input=b"[]", stdout=subprocess.PIPE)
    if answer.stdout != b"\nentries 0\nkept 0\n":
        stop(f"{REPORTER} printed {answer.stdout}")


def reported(file, text):
    """The processor time of a run over that database, which is to print this text."""
    seconds, printed = run(["sccache-report"], source=file, program=str(PROGRAM))
    if printed != text:
        stop(f"the lines for {file} are others than those that are due")
    return seconds


def timer(folder, entries, count):
    """Writes a database into the folder, and gives what times a report on it."""
    file = os.path.join(folder, f"{entries}_{count}.json")
    write_database(file, entries, count)
    text = wanted(entries)
    return lambda: reported(file, text)


def measure_reports(folder):
    whole = timer(folder, COUNT, WORDS)
    file = os.path.join(folder, f"{COUNT}_{WORDS}.json")
    times = in_turn(
        {
            "whole": whole,
            "fewer": timer(folder, FEWER, WORDS),
            "longer": timer(folder, FEWER, MORE_WORDS),
            "read": lambda: run(READ, source=file)[0],
        },
        ROUNDS,
        min,
    )
    print(f"report on {COUNT:,} entries: {times['whole'] / times['read']:.2g} times json.load of its text")
    entry = times["whole"] / COUNT
    print(f"entry of {COUNT:,}: {entry / (times['fewer'] / FEWER):.2f} times one of {FEWER:,}")
    word = times["longer"] / FEWER / MORE_WORDS
    print(f"word of {MORE_WORDS} in an entry: {word / (entry / WORDS):.2f} times one of {WORDS}")


def measure():
    build()
    with tempfile.TemporaryDirectory() as folder:
        measure_reports(folder)
