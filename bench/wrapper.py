"""Times calls of gulmaat before a real GCC, and builds through it, beside `ccache`, `sccache`, `gcc -E` and no cache at all.

The program is proved and built first where that is to be done.
"""

import os
import shutil
import statistics
import subprocess
import tempfile
import time
from pathlib import Path

from timing import in_turn, stop

TOP = Path(__file__).resolve().parent.parent
BUILD = TOP / "bin" / "build"
HOST = TOP / "crates" / "gulmaat" / "out" / "gulmaat-host"

# What is compiled, by its size.
SOURCES = {
    "small": ("gcc", "c", "#include <stdio.h>\nint main(void) { return puts(\"small\"); }\n"),
    "middle": ("g++", "cc", "#include <map>\n#include <string>\n#include <vector>\nstd::map<std::string, std::vector<int>> table;\n"),
    "large": ("g++", "cc", "#include <bits/stdc++.h>\nstd::map<std::string, std::regex> table;\n"),
}

# How often each call is timed, and in how many rounds.
CALLS = 5
ROUNDS = 9
BUILD_ROUNDS = 3
JOBS = str(os.cpu_count())

OURS = "gulmaat"
OURS_BY_TEXT = "gulmaat without direct mode"
DIRECT = "ccache"
BY_TEXT = "ccache without direct mode"
SERVED = "sccache"
GCC = "gcc -E"
TRIVIAL = "a static program that does nothing"
NO_CACHE = "no cache"

GOOGLETEST = Path("/usr/src/googletest")


def build():
    """Has the program proved and built, where it isn't yet, with its host."""
    subprocess.run([str(BUILD), "gulmaat"], check=True, stdout=subprocess.DEVNULL)


def caches(folder):
    """The words to put before a compiler, and the variables, of each cache that is there."""
    found = {OURS: ([str(HOST)], {"GULMAAT_DIR": os.path.join(folder, "gulmaat")})}
    by_text = os.path.join(folder, "gulmaat_by_text")
    found[OURS_BY_TEXT] = ([str(HOST)], {"GULMAAT_DIR": by_text, "GULMAAT_DIRECT": "0"})
    if shutil.which("ccache"):
        found[DIRECT] = (["ccache"], {"CCACHE_DIR": os.path.join(folder, "ccache")})
        by_text = os.path.join(folder, "ccache_by_text")
        found[BY_TEXT] = (["ccache"], {"CCACHE_DIR": by_text, "CCACHE_NODIRECT": "1"})
    if shutil.which("sccache"):
        found[SERVED] = (["sccache"], {"SCCACHE_DIR": os.path.join(folder, "sccache")})
    for name in [DIRECT, SERVED]:
        if name not in found:
            print(f"no {name} here, so there are no ratios to it: apt-get install {name}")
    return found


def seconds_of(words, variables, folder):
    """How long a command takes from its start to its end."""
    begun = time.perf_counter()
    done = subprocess.run(words, env={**os.environ, **variables}, cwd=folder, stdout=subprocess.DEVNULL)
    seconds = time.perf_counter() - begun
    if done.returncode != 0:
        stop(f"{' '.join(words[:4])} ended with status {done.returncode}")
    return seconds


def seconds_of_calls(words, variables, folder):
    """The least time of some calls, since whatever else the machine does only makes them longer."""
    return min(seconds_of(words, variables, folder) for _ in range(CALLS))


def checked_hit(name, words, variables, folder, output, due):
    """What times a hit of that cache, once the command was run before, and its output is what the compiler alone makes."""
    for _ in range(2):
        output.unlink(missing_ok=True)
        seconds_of(words, variables, folder)
        if output.read_bytes() != due:
            stop(f"the output by {name} is another than the compiler's")
    return lambda: seconds_of_calls(words, variables, folder)


def trivial_program(folder):
    source = Path(folder, "trivial.c")
    source.write_text("int main(void) { return 0; }\n")
    program = Path(folder, "trivial")
    subprocess.run(["gcc", "-O2", "-static", str(source), "-o", str(program)], check=True)
    return [str(program)]


def measure_hits(folder, size, trivial):
    """The time of a hit on a source of that size, by each cache."""
    compiler, ending, text = SOURCES[size]
    source = Path(folder, f"{size}.{ending}")
    source.write_text(text)
    output = Path(folder, f"{size}.o")
    words = [compiler, "-O2", "-g", "-c", source.name, "-o", output.name]
    seconds_of(words, {}, folder)
    due = output.read_bytes()
    timers = {
        GCC: lambda: seconds_of_calls([compiler, "-O2", "-g", "-E", source.name], {}, folder),
        TRIVIAL: lambda: seconds_of_calls(trivial, {}, folder),
    }
    for name, (before, variables) in caches(folder).items():
        timers[name] = checked_hit(name, before + words, variables, folder, output, due)
    times = in_turn(timers, ROUNDS, statistics.median)
    for name in timers:
        if name not in (GCC, TRIVIAL):
            print(
                f"hit of {name} on a {size} source: {times[name] / times[GCC]:.2f} times {GCC},"
                f" {times[name] / times[TRIVIAL]:.0f} times {TRIVIAL}"
            )


def configure(folder, launcher):
    """Writes the build files of googletest, which call the compilers by that launcher."""
    words = ["cmake", "-S", str(GOOGLETEST), "-B", folder, "-G", "Ninja", "-DCMAKE_BUILD_TYPE=RelWithDebInfo"]
    words += ["-Dgtest_build_samples=ON", "-DINSTALL_GTEST=OFF"]
    if launcher:
        words += [f"-DCMAKE_C_COMPILER_LAUNCHER={launcher}", f"-DCMAKE_CXX_COMPILER_LAUNCHER={launcher}"]
    subprocess.run(words, check=True, stdout=subprocess.DEVNULL, stderr=subprocess.DEVNULL)


def seconds_of_build(folder, variables):
    subprocess.run(["ninja", "-C", folder, "-t", "clean"], check=True, stdout=subprocess.DEVNULL)
    return seconds_of(["ninja", "-C", folder, "-j", JOBS], variables, None)


def measure_builds(folder):
    """The time of a build of googletest by each cache, with nothing kept and with all kept."""
    if not GOOGLETEST.is_dir() or not shutil.which("cmake") or not shutil.which("ninja"):
        print("no builds are timed: apt-get install cmake ninja-build googletest")
        return
    cold, warm = {}, {}
    plain = os.path.join(folder, "plain")
    configure(plain, None)
    cold[NO_CACHE] = lambda: seconds_of_build(plain, {})
    for name, (before, variables) in caches(folder).items():
        place = os.path.join(folder, "build_by_" + name.replace(" ", "_"))
        configure(place, before[0])
        kept = next(iter(variables.values()))

        def emptied(place=place, variables=variables, kept=kept, name=name):
            if name == SERVED:
                subprocess.run(["sccache", "--stop-server"], capture_output=True)
            shutil.rmtree(kept, ignore_errors=True)
            return seconds_of_build(place, variables)

        cold[name] = emptied
        warm[name] = lambda place=place, variables=variables: seconds_of_build(place, variables)
    times = in_turn(cold, BUILD_ROUNDS, min)
    for name in warm:
        print(f"build by {name} with nothing kept: {times[name] / times[NO_CACHE]:.2f} times {NO_CACHE}")
    times = {**in_turn(warm, BUILD_ROUNDS, min), NO_CACHE: times[NO_CACHE]}
    for name in warm:
        print(f"build by {name} with all kept: {times[name] / times[NO_CACHE]:.3f} times {NO_CACHE}")


def measure():
    if shutil.which("gcc") is None or shutil.which("g++") is None:
        print("no gcc here, so gulmaat isn't timed: apt-get install g++")
        return
    build()
    try:
        with tempfile.TemporaryDirectory() as folder:
            trivial = trivial_program(folder)
            for size in SOURCES:
                measure_hits(folder, size, trivial)
        with tempfile.TemporaryDirectory() as folder:
            measure_builds(folder)
    finally:
        if shutil.which("sccache"):
            subprocess.run(["sccache", "--stop-server"], capture_output=True)
