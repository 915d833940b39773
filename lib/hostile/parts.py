"""The parts of hostile use: what each gives a program, and which ends are right.

A part makes an input from a random source, and says by `fault` what is wrong with how a program ended on it, or nothing.
"""

import hashlib
import json
import re
import shutil
from pathlib import Path

import growth
import mutations
import running

TOP = Path(__file__).resolve().parents[2]
# How many words or lines are made of an input at most.
MOST_MADE = 1 << 20
# What it costs to copy an argument besides its bytes, as so many bytes of a text that is cut.
ARGUMENT = 32
# How many pairs are looked at in the time that one byte takes.
PAIRS_A_BYTE = 256
# Reasons hold the words of requests as they are, so a line with a reason may go on after a line end.
LINES = re.compile(rb"(?s)(?:1 (?:pass|fresh|stored|direct|fault)\b.*\n)?compiles [0-9]+\n")


def number(value):
    """A number of eight bytes."""
    return value.to_bytes(8, "little")


def text(held):
    """A text after its length."""
    return number(len(held)) + held


def record(results):
    """The bytes of an include record."""
    data = b"\1" + number(len(results))
    for key, includes in results:
        data += text(key) + number(len(includes))
        for path, digest, day in includes:
            data += text(path) + number(3) + text(digest) + (b"\0" if day is None else b"\1" + number(day)) + b"\0"
    return data


RECORDS = (
    b"", record([]), record([(b"k", [])]), record([(b"a", [(b"x.h", b"ab", 2**64 - 1)])]),
    record([(b"%03d" % place, [(b"/w/%d.h" % place, b"0" * 64, None)] * 3) for place in range(40)]),
)
# The counts and lengths that the bytes don't have, and the bytes: version, words, digests, variables and directory.
KEYS = (
    b"0 0 0 0 0 0 0\n2 1\n\n8" + text(b"abc") + number(0) + b"\xff",
    b"0 0 0 0 0 0 0\n\n1\n8" + text(b"") + text(b"FOO=") + number(0) + b"\xff",
    b"0 2 1 0 0 0 0\n\n\n8" + text(b"") + b"a" * 64 + b"b" * 64 + b"c" * 64 + number(0) + b"\xff",
)


def texts_of(folder, suffix=""):
    """The rows below a folder of cases, with their names."""
    rows = [row for row in sorted(Path(TOP, folder).glob("*/*")) if row.is_file()]
    return [row for row in rows if row.suffix not in (".stdout", ".stderr", ".args") and row.name.endswith(suffix)]


def dumped(random, value):
    """The bytes of a value as JSON."""
    return json.dumps(value, ensure_ascii=bool(random.randrange(2))).encode(errors="surrogatepass")


def made_of_request(request):
    """How many bytes are made at most of a request: of response files that name one another, and of files that sources include."""
    files = request.get("files")
    if not isinstance(files, dict):
        return 0
    texts = {}
    for name, file in files.items():
        held = mutations.as_bytes(file)
        if held is None and isinstance(file, dict):
            held = mutations.as_bytes(file.get("text"))
        texts[name.rsplit("/", 1)[-1].encode(errors="surrogatepass")] = held or b""
    # A file is read once. Each time that it is named its arguments are copied or, where that costs no less, its text is cut again.
    cost = {name: min(len(text), sum(ARGUMENT + len(argument) for argument in text.split())) for name, text in texts.items()}
    size = dict(cost)
    # Each round opens the response files once more; a chain is no longer than there are files.
    named = {name: {other: text.count(other) for other in texts if other} if b"@" in text else {} for name, text in texts.items()}
    for _ in texts:
        size = {name: cost[name] + sum(size[other] * count for other, count in named[name].items()) for name in texts}
        if max(size.values(), default=0) > MOST_MADE:
            return MOST_MADE + 1
    words = request.get("words")
    count = len(words) + 1 if isinstance(words, list) else 1
    included = sum(text.count(b"#include") for text in texts.values()) * max(map(len, texts.values()), default=0)
    return count * sum(size.values()) + sum(map(len, texts.values())) + included


def texts_in(value):
    """All texts of a value, the names of its members among them."""
    if isinstance(value, str):
        yield value
    elif isinstance(value, dict):
        for name, part in value.items():
            yield name
            yield from texts_in(part)
    elif isinstance(value, list):
        for part in value:
            yield from texts_in(part)


def pairs_in(scenario, requests):
    """How many pairs there are at most of which each is looked at: a folder that doesn't count and a place of a text, and a folder in which
    rustc looks and a static library."""
    folders = scenario.get("basedirs")
    texts = list(texts_in(requests))
    places = len(folders) * sum(map(len, texts)) if isinstance(folders, list) else 0
    return places + sum(text.count("-L") for text in texts) * sum(text.count("static") for text in texts)


def made_of(scenario):
    """How many bytes are made at most of a scenario."""
    requests = scenario.get("requests") if isinstance(scenario, dict) else None
    if not isinstance(requests, list):
        return 0
    pairs = pairs_in(scenario, requests) // PAIRS_A_BYTE
    return pairs + sum(made_of_request(request) for request in requests if isinstance(request, dict))


def made_of_lines(text):
    """How many bytes are made at most of command lines: each opens the files that come before it, and these one another."""
    lines = text.split(b"\n")
    made = 1
    for line in lines:
        if line.startswith(b"#file"):
            made = min(made * (1 + line.count(b"@")), MOST_MADE + 1)
    return 0 if made == 1 else made * len(text)


class Part:
    """A part, whose runs may take so many seconds for each byte and its logarithm."""

    seconds_each = running.SECONDS_EACH


class Scenarios(Part):
    """Scenarios, with their response files, texts with markers and texts on dependencies, changed as text or in one of their members. The
    program is run under that name."""

    weighty = ("files", "words", "dep_info", "file_names", "env", "archives", "text", "hex", "basedirs", "zone", "version")

    program = "sccache_wrap"
    refusals = re.compile(rb"sccache-wrap: (?:scenario cannot be read|memory)\n")

    def __init__(self, called):
        self.called = called
        rows = texts_of("crates/sccache_wrap/cases")
        rows += sorted(Path(TOP, "examples").glob("*.json"))
        self.rows = [row.read_bytes() for row in rows]

    def scenario(self, random, row):
        """A row with some changes, and how many bytes are made of it."""
        if random.randrange(4) == 0:
            data = mutations.mutated(random, row)
        else:
            try:
                value = json.loads(row)
            except ValueError:
                return row, 0
            value = mutations.mutated_value(random, value, self.weighty)
            if isinstance(value, dict) and isinstance(value.get("requests"), list) and random.randrange(2):
                value["requests"] = value["requests"] * 2
            data = dumped(random, value)
        try:
            return data, made_of(json.loads(data))
        except (ValueError, RecursionError):
            return data, 0

    def make(self, random):
        """The bytes of an input, and their size with what is made of them."""
        while True:
            data, made = self.scenario(random, random.choice(self.rows))
            if made <= MOST_MADE:
                return [], data, len(data) + made

    def fault(self, ended):
        """What is wrong with how it ended, or nothing."""
        if ended.status == 0:
            return None if LINES.fullmatch(ended.output) else "prints other lines"
        if ended.status == 2 and self.refusals.fullmatch(ended.errors) and not ended.output:
            return None
        return f"ends with {ended.status}"


class Grown(Part):
    """Scenarios in which one list is long. Each is compiled, and what takes the square of the length takes too long."""

    program = "sccache_wrap"
    called = "sccache-wrap"
    seconds_each = running.SECONDS_EACH / 10

    def make(self, random):
        """The bytes of an input, and their size with the pairs that are looked at."""
        scenario = growth.scenario(random)
        data = dumped(random, scenario)
        return [], data, len(data) + pairs_in(scenario, scenario["requests"]) // PAIRS_A_BYTE

    def fault(self, ended):
        """What is wrong with how it ended, or nothing."""
        if ended.status != 0:
            return f"ends with {ended.status}"
        return None if ended.output.startswith(b"1 fresh ") and LINES.fullmatch(ended.output) else "isn't compiled"


class Databases(Part):
    """Recorded builds, and command lines with the files that they name."""

    program = "sccache_wrap"
    called = "sccache-report"
    refusals = re.compile(rb"sccache-report: [^\n]+\n")

    def __init__(self):
        self.rows = []
        for row in texts_of("crates/sccache_wrap/cases/reports"):
            words = []
            if row.suffix != ".json":
                names = row.name.split(".")
                words = ["--lines", names[1]] + [f"--{name}" for name in names[2:]]
            self.rows.append((words, row.read_bytes()))

    def build(self, random, row):
        """A recorded build with some changes."""
        if random.randrange(3):
            try:
                return dumped(random, mutations.mutated_value(random, json.loads(row), ("command", "arguments", "directory", "file")))
            except ValueError:
                pass
        return mutations.mutated(random, row)

    def make(self, random):
        """The arguments and bytes of an input, and their size with what is made of them."""
        while True:
            words, row = random.choice(self.rows)
            if not words:
                row = self.build(random, row)
                return [], row, len(row)
            row = mutations.mutated(random, row)
            made = made_of_lines(row)
            if made <= MOST_MADE:
                return words, row, len(row) + made

    def fault(self, ended):
        """What is wrong with how it ended, or nothing."""
        if ended.status == 0:
            return None
        if ended.status == 2 and self.refusals.fullmatch(ended.errors):
            return None
        return f"ends with {ended.status}"


class Bytes(Part):
    """The bytes of include records, or what is hashed of requests to rustc, after three lines with its shape."""

    program = called = "tests_calls"
    said = re.compile(rb"(?:a record of [0-9]+ files|the parts of a request|no parts|refused: [^\n]+)\n")

    def __init__(self, word):
        self.word, self.rows = word, RECORDS if word == "record" else KEYS

    def make(self, random):
        """The arguments and bytes of an input, and their size."""
        data = mutations.mutated(random, random.choice(self.rows))
        return ["hostile", self.word], data, len(data)

    def fault(self, ended):
        """What is wrong with how it ended, or nothing."""
        if ended.status == 0:
            return None if self.said.fullmatch(ended.output) else "prints other lines"
        return f"ends with {ended.status}"


class Kept(Part):
    """What gulmaat keeps, each file changed with and without the digest at its end: a real compiler is called beside it."""

    program = "gulmaat"
    sealed = ("entries", "records", "fingerprints")

    def __init__(self, folder, host):
        self.folder, self.host = Path(folder), host
        self.work, self.cache, self.whole = self.folder / "work", self.folder / "cache", self.folder / "whole"
        self.variables = {"PATH": "/usr/bin:/bin", "GULMAAT_DIR": str(self.cache), "HOME": str(self.folder)}
        self.work.mkdir(parents=True)
        (self.work / "h.h").write_text("int y;\n")
        (self.work / "foo.c").write_text('#include "h.h"\nint x;\n')
        for _ in range(2):
            self.call("gcc", "-c", "foo.c", "-o", "foo.o")
            self.call("gcc", "-MD", "-c", "foo.c", "-o", "dep.o")
        shutil.copytree(self.cache, self.whole)
        self.files = [file.relative_to(self.whole) for file in sorted(self.whole.rglob("*")) if file.is_file()]
        if not any(file.parts[0] == "entries" for file in self.files):
            raise SystemExit("bin/hostile: gulmaat keeps nothing here")

    def call(self, *words):
        """Calls the host."""
        return running.run([str(self.host), *words], b"", self.work, self.variables)

    def make(self, random):
        """Changes one file of what is kept, and chooses a call."""
        shutil.rmtree(self.cache)
        shutil.copytree(self.whole, self.cache)
        file = random.choice(self.files)
        data = (self.whole / file).read_bytes()
        if file.parts[0] in self.sealed and random.randrange(4):
            data = mutations.mutated(random, data[:-32])
            data += hashlib.sha256(data).digest()
        else:
            data = mutations.mutated(random, data)
        (self.cache / file).write_bytes(data)
        name = random.choice(("foo.o", "dep.o", "new.o"))
        words = ["gcc", *(["-MD"] if name == "dep.o" else []), "-c", "foo.c", "-o", name]
        calls = ([str(self.host), *words], [str(self.host), "--why", *words], [str(self.host), "--show-stats"], [str(self.host), "--cleanup"])
        return random.choice(calls[:1] * 4 + calls), str(file).encode() + b"\0" + data, 1 << 20

    def fault(self, ended):
        """What is wrong with how it ended, or nothing."""
        return None if ended.status in (0, 1, 2) else f"ends with {ended.status}"
