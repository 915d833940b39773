"""Times the program over scenarios of many requests, beside `ccache` and `gcc -E` on the same sources and words.

The program is proved and built first where that is to be done.
"""

import os
import shutil
import subprocess
import tempfile
from pathlib import Path

from scenarios import FILES, SOURCES, Gcc, Rustc, in_turns, of_one, source_name, wanted, wanted_passes, words, write_scenario
from timing import in_turn, run, stop

TOP = Path(__file__).resolve().parent.parent
BUILD = TOP / "bin" / "build"
WRAPPER = TOP / "bin" / "sccache-wrap"
PROGRAM = TOP / "crates" / "sccache_wrap" / "out" / "sccache_wrap"

COUNT = 20_000
FEWER, MORE = 2_000, 200_000
ROUNDS = 5
# The runs with more requests are long, so they have few rounds.
LONG_ROUNDS = 3

GCC = "gcc -E"
HIT = "a ccache hit"
PREPROCESSED_HIT = "a ccache hit without direct mode"


def build():
    """Has the program proved and built, where it isn't yet."""
    subprocess.run([str(BUILD)], check=True, stdout=subprocess.DEVNULL)
    answer = subprocess.run([str(WRAPPER)], input=b'{"requests":[]}', stdout=subprocess.PIPE)
    if answer.stdout != b"compiles 0\n":
        stop(f"{WRAPPER} printed {answer.stdout}")


def served(file, text):
    """The processor time of a run over that scenario, which is to print this text."""
    seconds, printed = run([str(PROGRAM)], source=file)
    if printed != text:
        stop(f"the lines for {file} are others than those that are due")
    return seconds


def timer(folder, name, requests, passes=False):
    """Writes the scenario of these requests into the folder, and gives what times a run over it."""
    file = os.path.join(folder, f"{name}.json")
    write_scenario(file, requests, passes)
    text = wanted_passes(requests) if passes else wanted(requests)
    return lambda: served(file, text)


def halves(count):
    """Numbers of requests, of which the second half repeats the first one."""
    return [place % (count // 2) for place in range(count)]


# All requests of a family differ, or those of its files are repeated, or all are passed through.
PASSED, FRESH, REPEATED = "passed", "fresh", "repeated"


def answer_timers(folder, family, name):
    """What times runs over scenarios of equal length to one family, which differ in how their requests are answered."""
    every = of_one(family, range(COUNT))
    repeated = of_one(family, [place % FILES for place in range(COUNT)])
    return {
        name + PASSED: timer(folder, name + PASSED, every, passes=True),
        name + FRESH: timer(folder, name + FRESH, every),
        name + REPEATED: timer(folder, name + REPEATED, repeated),
    }


def seconds_of_answers(times, name):
    """The time of a stored answer, and of a fresh one, without the reading of their requests."""
    fresh = (times[name + FRESH] - times[name + PASSED]) / COUNT
    # Each file's first request is answered afresh.
    stored = (times[name + REPEATED] - times[name + PASSED] - FILES * fresh) / (COUNT - FILES)
    return stored, fresh


def length_timers(folder):
    """What times runs over scenarios of other lengths."""
    return {str(count): timer(folder, str(count), of_one(Gcc, halves(count))) for count in [FEWER, COUNT, MORE]}


def write_sources(folder):
    for name in ["src", "out"]:
        os.mkdir(os.path.join(folder, name))
    for number, text in enumerate(SOURCES):
        Path(folder, source_name(number)).write_text(text)


def seconds_of_a_call(commands, folder, variables=None):
    """The processor time of one of these commands, in the mean."""
    return sum(run(command, variables, folder)[0] for command in commands) / len(commands)


def preprocessor_call(number):
    """The preprocessor's words, which name no output."""
    given = words(number, first="-E")
    object_place = given.index("-o")
    return ["gcc", *given[:object_place], *given[object_place + 2 :]]


def seconds_of_a_hit(commands, folder, variables, hits):
    """The processor time of one call of `ccache`, each of which is to be a hit of that kind."""
    run(["ccache", "--zero-stats"], variables)
    seconds = seconds_of_a_call(commands, folder, variables)
    _, counts = run(["ccache", "--print-stats"], variables)
    if f"{hits}\t{len(commands)}\n" not in counts:
        stop(f"of {len(commands)} calls of ccache not each is a {hits}")
    return seconds


def hit_timer(folder, commands):
    """What times a direct hit of `ccache` on each of these commands, which are run once before."""
    variables = {"CCACHE_DIR": os.path.join(folder, "ccache")}
    seconds_of_a_call(commands, folder, variables)
    return lambda: seconds_of_a_hit(commands, folder, variables, "direct_cache_hit")


def hit_timers(folder):
    """What times hits of `ccache`, of both kinds, and nothing where there is no `ccache`."""
    if shutil.which("ccache") is None:
        print("no ccache here, so there are no ratios to its hits: apt-get install ccache")
        return {}
    commands = [["ccache", "gcc", *words(number)] for number in range(FILES)]
    variables = {"CCACHE_DIR": os.path.join(folder, "ccache")}
    by_text = {**variables, "CCACHE_NODIRECT": "1"}
    return {
        HIT: hit_timer(folder, commands),
        PREPROCESSED_HIT: lambda: seconds_of_a_hit(commands, folder, by_text, "preprocessed_cache_hit"),
    }


def peer_timers(folder):
    """What times a call of each peer that is there."""
    if shutil.which("gcc") is None:
        print("no gcc here, so there are no ratios to it and to ccache: apt-get install gcc ccache")
        return {}
    write_sources(folder)
    commands = [preprocessor_call(number) for number in range(FILES)]
    return {GCC: lambda: seconds_of_a_call(commands, folder), **hit_timers(folder)}


def report(name, seconds, times):
    """Prints how many times each peer's time these seconds are."""
    for peer in [HIT, PREPROCESSED_HIT, GCC]:
        if peer in times:
            print(f"{name}: {seconds / times[peer]:.2g} times {peer}")


def measure_answers(folder):
    own = {**answer_timers(folder, Gcc, ""), "halves": timer(folder, "halves", of_one(Gcc, halves(COUNT)))}
    times = in_turn({**own, **peer_timers(folder)}, ROUNDS, min)
    stored, fresh = seconds_of_answers(times, "")
    report("stored answer", stored, times)
    report("request, half of them repeated, with its reading", times["halves"] / COUNT, times)
    print(f"fresh answer: {fresh / stored:.1f} times a stored one")
    print(f"reading of a request: {times[PASSED] / COUNT / stored:.1f} times a stored answer")


def measure_families(folder):
    """rustc's answers beside those of gcc, and requests to both in one list."""
    mixed = {
        "gcc alone": timer(folder, "alone", of_one(Gcc, halves(COUNT))),
        # An even number of requests differ, so that each is repeated by its own family.
        "in turns": timer(folder, "in turns", in_turns(halves(COUNT))),
    }
    families = {**answer_timers(folder, Gcc, "gcc "), **answer_timers(folder, Rustc, "rustc ")}
    times = in_turn({**families, **mixed}, ROUNDS, min)
    stored, fresh = seconds_of_answers(times, "rustc ")
    gcc_stored, gcc_fresh = seconds_of_answers(times, "gcc ")
    print(f"stored answer by rustc: {stored / gcc_stored:.2f} times one by gcc")
    print(f"fresh answer by rustc: {fresh / gcc_fresh:.2f} times one by gcc")
    reading = times["rustc " + PASSED] / times["gcc " + PASSED]
    print(f"reading of a request to rustc: {reading:.2f} times one to gcc")
    turns = times["in turns"] / times["gcc alone"]
    print(f"request, in turn to gcc and to rustc, half of them repeated, with its reading: {turns:.2f} times one to gcc")


def measure_lengths(folder):
    times = in_turn(length_timers(folder), LONG_ROUNDS, min)
    request = times[str(COUNT)] / COUNT
    for count in [FEWER, MORE]:
        growth = times[str(count)] / count / request
        print(f"request of {count:,}: {growth:.2f} times one of {COUNT:,}")


def measure():
    build()
    for measure_some in [measure_answers, measure_families, measure_lengths]:
        with tempfile.TemporaryDirectory() as folder:
            measure_some(folder)
