#!/usr/bin/env python3
"""random_trees.py HOST COMPILER [STEPS] [SEED]: makes trees of headers that are changed at random, and compiles in each by gulmaat and
by the compiler alone: object, dependency file and status must be the same. Prints how many calls were direct hits. Part of bin/test-builds.

A tree has some folders, some of which are searched by -I, -iquote, -isystem, -idirafter or CPATH, and headers of a few names in them, which
include each other by quotes, brackets or #include_next, or ask whether another one is there. A step makes, changes, touches or removes one,
or puts a link or a folder in its place.
"""
import os
import random
import shutil
import subprocess
import sys
import tempfile
import time

NAMES = ["a.h", "b.h", "c.h", "sub/d.h", "sub/e.h"]
FOLDERS = ["one", "two", "three", "four"]
OPTIONS = ["-I", "-iquote", "-isystem", "-idirafter"]


def spell(name, chance):
    """How a header asks for another one."""
    way = chance.random()
    if way < 0.45:
        return f'#include "{name}"\n'
    if way < 0.6:
        return f"#include <{name}>\n"
    if way < 0.7:
        return f"#if __has_include(<{name}>)\nint has_@;\n#endif\n"
    if way < 0.8:
        return f'#if 0\n#include "{name}"\n#endif\n'
    if way < 0.9:
        return f'#ifdef __has_include\n#if __has_include("{name}")\n#include "{name}"\n#endif\n#endif\n'
    if way < 0.95:
        return f"#define PROBE(x) __has_include(x)\n#if PROBE(<{name}>)\nint probed_@;\n#endif\n#undef PROBE\n"
    # A macro that names a header, in quotes or in brackets, which another header may have defined first.
    macro, spelled = f"TAKEN_{NAMES.index(name)}", chance.choice([f'"{name}"', f"<{name}>"])
    return f"#ifndef {macro}\n#define {macro} {spelled}\n#endif\n#include {macro}\n"


class Tree:
    def __init__(self, host, compiler, chance, top):
        self.host, self.compiler, self.chance, self.top = host, compiler, chance, top
        self.number = 0
        self.env = {**os.environ, "GULMAAT_DIR": os.path.join(top, "cache")}
        self.env.pop("CPATH", None)
        self.place = os.path.join(top, "tree")
        os.makedirs(self.place)
        for folder in FOLDERS:
            os.makedirs(os.path.join(self.place, folder, "sub"))
        for _ in range(12):
            self.write(self.some_path())
        self.write_input()
        self.words = []
        for folder in chance.sample(FOLDERS, chance.randint(1, 4)):
            self.words += [chance.choice(OPTIONS), folder]
        if chance.random() < 0.3:
            self.env["CPATH"] = ":".join(chance.sample(FOLDERS, 2))
        if chance.random() < 0.2:
            self.words += ["-include", "a.h"]
        if chance.random() < 0.3:
            self.words += ["-g"]

    def some_path(self):
        folder = self.chance.choice([*FOLDERS, *FOLDERS, "."])
        return os.path.join(self.place, folder, self.chance.choice(NAMES))

    def write(self, path):
        """Puts a header there. Each has a guard, or `#pragma once`, or neither and no names."""
        chance = self.chance
        self.number += 1
        number = chance.randint(1, 6)
        rank = NAMES.index(os.path.relpath(path, os.path.dirname(os.path.dirname(path)) if "/sub/" in path else os.path.dirname(path)))
        lines = ""
        for name in NAMES[rank + 1 :]:
            if chance.random() < 0.5:
                lines += spell(name, chance).replace("@", f"{rank}_{chance.randint(1, 99999)}")
        if chance.random() < 0.15:
            lines += f"#include_next <{NAMES[rank]}>\n"
        lines += f"extern int value_{number};\n"
        way = chance.random()
        if way < 0.4:
            lines = f"#ifndef GUARD_{rank}\n#define GUARD_{rank}\n{lines}enum {{ at_{rank} = {number} }};\n#endif\n"
        elif way < 0.7:
            lines = f"#pragma once\n{lines}"
        self.remove(path)
        os.makedirs(os.path.dirname(path), exist_ok=True)
        with open(path, "w", encoding="utf-8") as file:
            file.write(lines)
        if chance.random() < 0.8:
            os.utime(path, (1e9, 1e9))

    def write_input(self):
        text = "".join(spell(name, self.chance).replace("@", str(number)) for number, name in enumerate(NAMES))
        with open(os.path.join(self.place, "it.c"), "w", encoding="utf-8") as file:
            file.write(text + "#ifdef GUARD_0\nint x0 = at_0;\n#endif\n#ifdef GUARD_4\nint x4 = at_4;\n#endif\nint value;\n")

    def remove(self, path):
        if os.path.isdir(path) and not os.path.islink(path):
            shutil.rmtree(path)
        elif os.path.lexists(path):
            os.remove(path)

    def change(self):
        """One step."""
        path, way = self.some_path(), self.chance.random()
        if way < 0.4:
            self.write(path)
        elif way < 0.65:
            self.remove(path)
        elif way < 0.75 and os.path.isfile(path):
            os.utime(path)
        elif way < 0.9:
            target = self.some_path()
            self.remove(path)
            os.makedirs(os.path.dirname(path), exist_ok=True)
            if target != path:
                os.symlink(target, path)
        elif way < 0.95:
            self.remove(path)
            os.makedirs(path)
        else:
            folder = os.path.join(self.place, self.chance.choice(FOLDERS))
            aside = folder + "-aside"
            if os.path.isdir(aside):
                self.remove(folder)
                os.rename(aside, folder)
            elif os.path.isdir(folder):
                os.rename(folder, aside)

    def run(self, before):
        for name in ("it.o", "it.d"):
            self.remove(os.path.join(self.place, name))
        words = [*before, self.compiler, *self.words, "-MD", "-MF", "it.d", "-c", "it.c", "-o", "it.o"]
        ended = subprocess.run(words, cwd=self.place, env=self.env, capture_output=True)
        made = []
        for name in ("it.o", "it.d"):
            path = os.path.join(self.place, name)
            made.append(open(path, "rb").read() if os.path.exists(path) else None)
        return ended.returncode, ended.stderr, *(made if ended.returncode == 0 else [])

    def direct_hits(self):
        said = subprocess.run([self.host, "--print-stats"], env=self.env, capture_output=True, text=True).stdout
        return sum(int(line.split("\t")[1]) for line in said.splitlines() if line.startswith("direct_cache_hit"))


def main():
    host, compiler = sys.argv[1:3]
    steps = int(sys.argv[3]) if len(sys.argv) > 3 else 300
    seed = int(sys.argv[4]) if len(sys.argv) > 4 else int(time.time())
    failed = calls = hits = number = 0
    print(f"{compiler}: seed {seed}")
    while calls < steps:
        number += 1
        chance = random.Random(f"{seed} {number}")
        with tempfile.TemporaryDirectory() as top:
            tree = Tree(host, compiler, chance, top)
            for step in range(25):
                # Changes are apart from calls by more than a clock's tick, but for some.
                if chance.random() < 0.9:
                    time.sleep(0.03)
                wanted = tree.run([])
                for turn in range(chance.choice([1, 2, 2, 3])):
                    calls += 1
                    if tree.run([host]) != wanted:
                        failed += 1
                        print(f"FAILED: tree {number}, step {step}, turn {turn}: {' '.join(tree.words)}")
                tree.change()
            hits += tree.direct_hits()
    print(f"{calls} calls, {hits} direct hits, {failed} failed")
    sys.exit(failed != 0)


if __name__ == "__main__":
    main()
