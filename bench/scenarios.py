"""Scenarios of many requests on generated sources, and what the program is to print of each."""

import json

FILES = 200
WORDS = 50

# How many of a request's words are definitions; folders make up the rest.
DEFINITIONS = 24

# Where the program finds the sources. It gives the names in markers, so the text of a file is that much longer.
FOLDER = "/w"


def source_name(number):
    return f"src/file{number % FILES:03}.c"


def source(number):
    """About a kilobyte of C, another one for each of the files."""
    lines = [f"struct counts{number} {{ unsigned long first, last; const char *name; }};\n"]
    for place in range(8):
        lines.append(
            f"unsigned long count{number}_{place} (const struct counts{number} *counts, unsigned long added)\n"
            f"{{ return counts->first + added * {place}; }}\n"
        )
    return "".join(lines)


SOURCES = [source(number) for number in range(FILES)]


def words(number, first="-c"):
    """The words of the request of that number, of which `first` says what is asked for. They are equally long for each."""
    given = [first, source_name(number), "-o", f"out/file{number:07}.o", f"-frandom-seed={number:07}"]
    given += ["-O2", "-g", "-Wall", "-Wextra", "-std=gnu11", "-fPIC"]
    given += [f"-DNAME{place}={place}" for place in range(DEFINITIONS)]
    given += [f"-Iinclude{place}" for place in range(WORDS - len(given))]
    return given


class Gcc:
    """Requests to gcc, by their numbers."""

    reason = "-E"

    @staticmethod
    def request(number, passes=False):
        path = f"{FOLDER}/{source_name(number)}"
        given = words(number, "-E" if passes else "-c")
        return {"compiler": "gcc", "words": given, "files": {path: SOURCES[number % FILES]}}

    @staticmethod
    def outputs(number):
        """What is printed of the outputs of one."""
        marker = f'# 1 "{FOLDER}/{source_name(number)}"\n'
        return f"obj:{len(marker) + len(SOURCES[number % FILES])}"


class Rustc:
    """Requests to rustc, by their numbers: each of a crate of one file, with a text on what it depends on."""

    reason = "not a compilation"

    @staticmethod
    def name(number):
        return f"crate{number % FILES:03}"

    @staticmethod
    def source_name(number):
        return f"src/{Rustc.name(number)}.rs"

    @staticmethod
    def words(number, first):
        """The words, equally many and long for each, of which `first` says what is asked for."""
        given = [first, Rustc.source_name(number), "--crate-name", Rustc.name(number), "--crate-type", "lib"]
        given += ["--out-dir", "target/release/deps", "-L", "dependency=target/release/deps"]
        given += ["-C", "opt-level=3", "-C", f"metadata={number:07}", "-C", "codegen-units=1", "--cap-lints", "warn"]
        while len(given) < WORDS:
            given += ["--cfg", f'feature="name{len(given)}"']
        return given

    @staticmethod
    def request(number, passes=False):
        source = Rustc.source_name(number)
        return {
            "compiler": "rustc",
            "words": Rustc.words(number, "--version" if passes else "--emit=dep-info,link"),
            "files": {f"{FOLDER}/{source}": CRATES[number % FILES]},
            "dep_info": f"target.d: {source}\n\n{source}:\n",
            "file_names": f"lib{Rustc.name(number)}.rlib\n",
        }

    @staticmethod
    def outputs(number):
        """What is printed of the outputs of one, and of its text on dependencies."""
        name, source = Rustc.name(number), Rustc.source_name(number)
        targets = [f"target/release/deps/{name}.d", f"target/release/deps/lib{name}.rlib"]
        text = "".join(f"{target}: {source}\n\n" for target in targets) + f"{source}:\n"
        return f"lib{name}.rlib:{len(CRATES[number % FILES])} dep-info:{len(text)}"


def crate(number):
    """About a kilobyte of Rust, another one for each of the files."""
    lines = [f"pub struct Counts{number} {{ pub first: u64, pub last: u64, pub name: &'static str }}\n"]
    for place in range(8):
        lines.append(
            f"pub fn count{number}_{place}(counts: &Counts{number}, added: u64) -> u64\n"
            f"{{ counts.first.wrapping_add(added.wrapping_mul({place})) }}\n"
        )
    return "".join(lines)


CRATES = [crate(number) for number in range(FILES)]


def of_one(family, numbers):
    """The requests of these numbers to the compilers of one family."""
    return [(family, number) for number in numbers]


def in_turns(numbers):
    """The requests of these numbers, in turn to gcc and to rustc: half of them to each."""
    return [((Gcc, Rustc)[place % 2], number) for place, number in enumerate(numbers)]


def write_scenario(file, requests, passes=False):
    """Writes the scenario of these requests, one after the other."""
    with open(file, "w") as output:
        separator = '{"requests":['
        for family, number in requests:
            output.write(separator + json.dumps(family.request(number, passes)))
            separator = ",\n"
        output.write("]}\n")


def wanted(requests):
    """What the program is to print of these requests, where each is compiled once and stored from then on."""
    lines = []
    compiled = set()
    for place, (family, number) in enumerate(requests, 1):
        how = "stored" if (family, number) in compiled else "fresh"
        compiled.add((family, number))
        lines.append(f"{place} {how} {family.outputs(number)}\n")
    lines.append(f"compiles {len(compiled)}\n")
    return "".join(lines)


def wanted_passes(requests):
    """What the program is to print of these requests, where their first word passes them through."""
    lines = [f"{place} pass {family.reason}\n" for place, (family, number) in enumerate(requests, 1)]
    return "".join(lines) + "compiles 0\n"
