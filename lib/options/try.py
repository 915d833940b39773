#!/usr/bin/env python3
"""try.py HOST [gcc|clang]..: calls each compiler with each option that `cache_known_options` has, and with its `no-` form, by gulmaat's host and alone:
the status, the messages and the objects must be the same at a first call, at a second one, and after a change of the source. Options that the
compiler doesn't take are left out, and those with which two calls of the compiler alone differ. Its last line is 'N passed, M failed'.
"""
import os
import re
import shutil
import subprocess
import sys
import tempfile
from concurrent.futures import ThreadPoolExecutor

sys.path.insert(0, os.path.dirname(os.path.realpath(__file__)))
from check import tables, words_of  # noqa: E402

SOURCE = """#include <stddef.h>
static int twice(int a) {{ return a + a; }}
int value[4] = {{1, 2, 3, {number}}};
double scale(double a, size_t n) {{ double all = 0; for (size_t i = 0; i < n; i++) all += a * value[i % 4]; return all; }}
int sum(int n) {{ int unused; switch (n) {{ case 1: return twice(n); case 2: return value[n]; default: return n + {number}; }} }}
"""
# What is tried for a number, and for any text after `=`.
NUMBER, TEXT = "16", {"-march=": ["native", "x86-64-v3"], "-mtune=": ["native", "generic"], "-std=": ["gnu11", "c99"], "--std=": ["gnu11"]}


def words():
    """All options: those without a value, with their `no-` forms, and the others with each value that the table names."""
    named = tables()
    for word in sorted(words_of(named["WHOLE"])):
        yield word
        if re.match(r"-[fmg][a-z]", word):
            yield f"{word[:2]}no-{word[2:]}"
    for line in sorted(words_of(named["VALUED"])):
        option, _, said = line.partition("=")
        values = [NUMBER, "1"] if said == "#" else TEXT.get(f"{option}=", ["x"]) if said == "*" else said.split(",")
        for value in values:
            yield f"{option}={value}"


def run(command, folder, env):
    made = f"{folder}/it.o"
    if os.path.exists(made):
        os.remove(made)
    ran = subprocess.run([*command, "-c", "it.c", "-o", "it.o"], cwd=folder, env=env, capture_output=True, check=False)
    objects = open(made, "rb").read() if os.path.exists(made) else None
    files = sorted(name for name in os.listdir(folder) if name != "it.c")
    return ran.returncode, ran.stdout, ran.stderr, objects, files


def tried(host, compiler, word, work):
    """How an option fails: nothing where it doesn't, or where the compiler doesn't take it."""
    env = {**os.environ, "GULMAAT_DIR": f"{work}/cache"}
    with tempfile.TemporaryDirectory(dir=work) as folder:
        for number in (1, 2):
            with open(f"{folder}/it.c", "w", encoding="ascii") as file:
                file.write(SOURCE.format(number=number))
            alone = run([compiler, word], folder, env)
            if alone[0] != 0:
                return None
            if run([compiler, word], folder, env) != alone:
                print(f"{compiler} {word}: left out: no two calls alone make the same", flush=True)
                return None
            for turn in ("first", "second"):
                got = run([host, compiler, word], folder, env)
                if got != alone:
                    names = ("status", "output", "messages", "object", "files")
                    return f"{compiler} {word}: {turn} call {number}: " + ", ".join(n for n, a, b in zip(names, alone, got) if a != b)
    return ""


def main():
    host, compilers = sys.argv[1], sys.argv[2:] or ["gcc", "clang"]
    passed = failed = 0
    with tempfile.TemporaryDirectory() as work, ThreadPoolExecutor(os.cpu_count()) as pool:
        for compiler in filter(shutil.which, compilers):
            for said in pool.map(lambda word, by=compiler: tried(host, by, word, work), words()):
                passed += said == ""
                failed += bool(said)
                if said:
                    print(said, flush=True)
    print(f"{passed} passed, {failed} failed")
    return failed != 0


if __name__ == "__main__":
    sys.exit(main())
