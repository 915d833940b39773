#!/usr/bin/env python3
"""check.py: whether each option that the help texts of the machine's gcc and clang list is known to `cache_known_options`, or is among the
exceptions with its reason; and so with rustc and `cache_rustc_requests`. Prints what is in neither, and what is in both. Compilers of other
versions than those of the tables aren't looked at: what is new in them isn't known, and so it is passed through. Its last line is
'N passed, M failed'.
"""
import fnmatch
import os
import re
import shutil
import subprocess
import sys

TOP = os.path.dirname(os.path.dirname(os.path.dirname(os.path.realpath(__file__))))
SOURCES = f"{TOP}/crates/cache_known_options/src"
HELPS = {
    "gcc": [["--help=common"], ["--help=optimizers"], ["--help=c"], ["--help=c++"], ["--help=target"], ["--help=warnings"]],
    "clang": [["--help-hidden"]],
}

# The GCCs for other processors, of which those on this machine are looked at.
CROSS = [f"{name}-gcc" for name in ("aarch64-linux-gnu", "arm-none-eabi", "mips-linux-gnu", "powerpc64le-linux-gnu", "riscv64-linux-gnu", "s390x-linux-gnu")]
HELPS.update({name: [["--help=target"]] for name in CROSS if shutil.which(name)})

# The versions of the compilers in the tables.
VERSIONS = {name: "12" for name in HELPS} | {"clang": "14"}
RUSTC = "rustc 1.95."


def text_of(path):
    with open(path, encoding="utf-8") as file:
        return file.read()


def words_of(table):
    """The words of a table, between which its lines are joined."""
    return {word for word in table.split() if word != "\\"}


def tables():
    """The tables of the crate by their names."""
    return dict(re.findall(r'pub const (\w+): &str = "([^"]*)";', text_of(f"{SOURCES}/tables.rt")))


class Known:
    """The tables of the crate, read from its sources."""

    def __init__(self):
        named = tables()
        sources = text_of(f"{SOURCES}/placed.rt") + text_of(f"{SOURCES}/words.rt")
        beside = text_of(f"{SOURCES}/side_files.rt")
        lists = dict(re.findall(r"const (\w+): \[&str; \d+\] = \[(.*?)\];", sources, re.S))
        self.whole = words_of(named["WHOLE"])
        self.valued = {word.partition("=")[0] for word in words_of(named["VALUED"])}
        self.take = set(re.findall(r'"([^"]*)"', lists["TAKE_NEXT"] + lists["TAKE_KNOWN"]))
        self.fronts = tuple(re.findall(r'"([^"]*)"', lists["FRONTS"]))
        self.off = set(re.findall(r'"([^"]*)"', lists["OFF"]))
        self.beside = set(re.findall(r'\("(-[^"]*)", "[^"]*"\)', beside))
        self.profiles = tuple(re.findall(r'"(-[^"]*=)"', beside))
        self.others = tuple(re.findall(r'"([^"]*)"', lists["OTHERS"]))

    def has(self, word):
        """Whether an option is known, as a help text writes it."""
        option = re.sub(r"[=<\[].*", "", word)
        if option in self.off or word in self.beside or word.startswith(self.profiles):
            return True
        option = re.sub(r"^-([fmg])no-", r"-\1", option)
        if word in self.take or option in self.take:
            return True
        if word.startswith(self.fronts):
            return not word.startswith(self.others)
        if re.match(r"-W(?!a,|p,)|-O([0-9a-z]*|<.*)$|--param", word):
            return True
        return option in self.valued if "=" in word else option in self.whole


def version_of(command):
    """The number of a compiler's version up to its first dot; nothing where it isn't here."""
    if not shutil.which(command):
        return None
    said = subprocess.run([command, "-dumpversion"], stdout=subprocess.PIPE, stderr=subprocess.DEVNULL, text=True, errors="replace", check=False)
    return said.stdout.strip().partition(".")[0]


def listed(command):
    """The options that the help texts of a compiler list, and its language's own."""
    words = set()
    for asked in HELPS[command]:
        said = subprocess.run([command, *asked], stdout=subprocess.PIPE, stderr=subprocess.DEVNULL, text=True, errors="replace", check=False)
        words.update(re.findall(r"^  (-[^\s,]+)", said.stdout, re.M))
    return sorted(words)


def said_by_rustc(*words):
    """What the machine's rustc prints for these words; nothing where it isn't here."""
    if not shutil.which("rustc"):
        return ""
    return subprocess.run(["rustc", *words], stdout=subprocess.PIPE, stderr=subprocess.DEVNULL, text=True, errors="replace", check=False).stdout


def listed_by_rustc():
    """The options that rustc's help lists, and those of code generation."""
    words = set()
    for line in said_by_rustc("--help", "-v").splitlines():
        found = re.match(r" {4}(?:(-\w), )? *(--[\w-]+)?", line)
        words.update(word for word in found.groups() if word) if found else None
    found = re.findall(r"^ +-C +([\w-]+)", said_by_rustc("-C", "help"), re.M)
    return sorted(words | {f"-C {name}" for name in found})


def known_of_rustc():
    """The options that `cache_rustc_requests` has. Of folders it has some kinds."""
    lists = dict(re.findall(r"pub const (\w+): \[&str; \d+\] = \[(.*?)\];", text_of(f"{TOP}/crates/cache_rustc_requests/src/tables.rt"), re.S))
    names = {name: set(re.findall(r'"([^"]*)"', row)) for name, row in lists.items()}
    return names["FLAGS"] | names["VALUED"] | names["LETTERS"] | names["GENERATION"] | {f"-C {name}" for name in names["CODEGEN"]}


def exceptions_in(name):
    """The options of a list of exceptions."""
    return [line.split("\t")[0] for line in text_of(f"{TOP}/lib/options/{name}").splitlines() if line and line[0] != "#"]


def check_rustc():
    """How many options of rustc are in one of the two lists, and how many aren't."""
    if not said_by_rustc("--version").startswith(RUSTC):
        print(f"{RUSTC}* isn't here: its options weren't looked at")
        return 0, 0
    known, exceptions = known_of_rustc(), set(exceptions_in("exceptions-rustc"))
    wrong = [word for word in listed_by_rustc() if (word in known) == (word in exceptions)]
    for word in wrong:
        print(f"rustc {word}: {'both known and an exception' if word in known else 'neither known nor an exception'}")
    return len(listed_by_rustc()) - len(wrong), len(wrong)


def main():
    known = Known()
    exceptions = exceptions_in("exceptions")
    passed, failed = check_rustc()
    for command in HELPS:
        if version_of(command) != VERSIONS[command]:
            print(f"{command} {VERSIONS[command]} isn't here: its options weren't looked at")
            continue
        for word in listed(command):
            is_known = known.has(word)
            is_exception = any(fnmatch.fnmatchcase(word, pattern) for pattern in exceptions)
            # The row of long names is for those that aren't known.
            is_exception = is_exception and not (is_known and word.startswith("--"))
            if is_known != is_exception:
                passed += 1
                continue
            failed += 1
            print(f"{command} {word}: {'both known and an exception' if is_known else 'neither known nor an exception'}")
    print(f"{passed} passed, {failed} failed")
    return failed != 0


if __name__ == "__main__":
    sys.exit(main())
