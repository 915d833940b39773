"""Times stripping, digests and keys against a copy, `sha256sum`, `b2sum` and digests, and compares the memory that they take.

It proves and builds the program first where that isn't built yet or its sources changed.
"""

import hashlib
import os
import tempfile
from pathlib import Path

from program import FEW, NEW_MEMORY, SAME_MEMORY, build, expect, medians, timer, works
from timing import peak_memory, run, stop

SIZE = 64 * 1024 * 1024
FOLDERS = ["/home/user1/project", "/home/user2/other"]
LINES_BETWEEN_MARKERS = 300

CODE = [
    "extern int read_count (struct counts *counts, unsigned long number);\n",
    "static inline unsigned int half_of (unsigned int whole)\n",
    "{\n",
    "  return whole / 2;\n",
    "}\n",
    "\n",
    "typedef struct { unsigned long first; unsigned long last; } span_of_lines;\n",
    "  if (counts->first < number && counts->last > number) return counts->last - number;\n",
    '  printf ("%s: %lu of %lu\\n", name, number, counts->last);\n',
    "struct counts { unsigned long first, last; const char *name; };\n",
]


def preprocessed_text():
    """Text as a preprocessor prints it: plain code, and a line marker with a folder in it every some hundred lines."""
    chapters = []
    length = 0
    while length < SIZE:
        number = len(chapters)
        folder = FOLDERS[number % len(FOLDERS)]
        lines = [f'# 1 "{folder}/src/a{number}.h" 1\n']
        lines += [CODE[place % len(CODE)] for place in range(LINES_BETWEEN_MARKERS)]
        chapters.append("".join(lines))
        length += len(chapters[-1])
    return "".join(chapters).encode()[:SIZE]


def ratio(command, peer, memory):
    """How many times the peer's time the command takes."""
    times = medians({"command": timer(command, memory), "peer": timer(peer, memory)})
    return times["command"] / times["peer"]


def without_folders(text):
    """The text without the folders, which are in its line markers alone."""
    left = text
    for folder in FOLDERS:
        left = left.replace(f'"{folder}/'.encode(), b'"/')
    return left


def digest_line(text):
    """The line that the program prints of the digest of that text: the low half of each byte comes first."""
    digits = hashlib.sha256(text).hexdigest()
    return "".join(digits[place + 1] + digits[place] for place in range(0, len(digits), 2)) + "\n"


def check(text, left, commands):
    """Stops where a command doesn't do what it is timed for."""
    for name, wanted in [("copy", text), ("strip", left)]:
        expect(name, commands[name], f"{len(wanted)} bytes, the middle one {wanted[len(wanted) // 2]}\n")
    for name, other in [("digest", "sha256sum"), ("blake2b", "b2sum")]:
        _, line = run(commands[name](FEW))
        _, peer = run(commands[other](FEW))
        # A digest is printed with the low half of each byte first.
        swapped = "".join(line[place + 1] + line[place] for place in range(0, len(line) - 1, 2))
        if swapped != peer.split()[0]:
            stop(f"{name} printed {line}and {other} {peer}")
    # Before the text a key has the digest of the compiler, the byte 0 for C, the version of the layout, and the language.
    expect("key", commands["key"], digest_line(b"d" + b"\0" + b"11" + b"c" + left))
    expect("digest_copy", commands["digest_copy"], digest_line(left))
    expect("digest_text", commands["digest_text"], digest_line(left))


def measure():
    build()
    with tempfile.TemporaryDirectory() as folder:
        file = os.path.join(folder, "text.i")
        bare = os.path.join(folder, "bare.i")
        text = preprocessed_text()
        left = without_folders(text)
        Path(file).write_bytes(text)
        Path(bare).write_bytes(left)
        commands = {
            "copy": works("copy", file),
            "strip": works("strip", file, *FOLDERS),
            "digest": works("digest", file),
            "sha256sum": lambda repeats: ["sha256sum"] + [file] * repeats,
            "blake2b": works("blake2b", file),
            "b2sum": lambda repeats: ["b2sum", "-l", "256"] + [file] * repeats,
            "key": works("key", file, *FOLDERS),
            "digest_copy": works("digest_copy", file, *FOLDERS),
            "digest_text": works("digest_text", bare),
        }
        check(text, left, commands)
        del text, left
        strip = ratio(commands["strip"], commands["copy"], SAME_MEMORY)
        print(f"strip: {strip:.1f} times a copy")
        strip_anew = ratio(commands["strip"], commands["copy"], NEW_MEMORY)
        print(f"strip: {strip_anew:.1f} times a copy, where each call takes new memory")
        digest = ratio(commands["digest"], commands["sha256sum"], NEW_MEMORY)
        print(f"digest: {digest:.1f} times sha256sum")
        blake2b = ratio(commands["blake2b"], commands["b2sum"], NEW_MEMORY)
        print(f"digest by BLAKE2b: {blake2b:.1f} times b2sum")
        faster = ratio(commands["digest"], commands["blake2b"], NEW_MEMORY)
        print(f"digest: {faster:.1f} times that by BLAKE2b")
        times = medians({name: timer(commands[name], SAME_MEMORY) for name in ("key", "digest_copy", "digest_text")})
        print(f"key: {times['key'] / times['digest_text']:.2f} times the digest of a text without folders")
        print(f"key by way of a copy: {times['digest_copy'] / times['digest_text']:.2f} times that")
        memory = {name: peak_memory(commands[name](FEW)) for name in ("key", "digest_copy", "digest_text")}
        print(f"key: {memory['key'] / memory['digest_text']:.2f} times the peak memory of that, with the text itself")
        print(f"key by way of a copy: {memory['digest_copy'] / memory['digest_text']:.2f} times that")
