"""Times hits over a source that includes many headers, with include records and without, beside `ccache`.

The program is proved and built first where that is to be done.
"""

import json
import os
import shutil
import tempfile
from pathlib import Path

from program import SAME_MEMORY, timer as call_timer, works
from program import build as build_calls
from scenarios import FOLDER, source, words
from serving import HIT, build, hit_timer, report, served
from timing import in_turn

HEADERS = 200
COUNT = 400
ROUNDS = 5

NAME = "src/file000.c"
FILES = {f"include/header{number:03}.h": source(number) for number in range(HEADERS)}
SOURCE = "".join(f'#include "{name}"\n' for name in FILES)

# How often the digests of all headers are taken in one run.
REPEATS = 101


def marker(name):
    return f'# 1 "{FOLDER}/{name}"\n'


def printed_length():
    """How long the text is that the scripted tool prints of the source: markers, headers, and a marker after each."""
    return len(marker(NAME)) + sum(len(marker(name)) + len(text) + len(marker(NAME)) for name, text in FILES.items())


def write_scenario(file, first, direct):
    """Writes the scenario of requests that are all alike."""
    files = {f"{FOLDER}/{name}": text for name, text in {NAME: SOURCE, **FILES}.items()}
    request = json.dumps({"compiler": "gcc", "words": words(0, first), "files": files})
    with open(file, "w") as output:
        output.write(f'{{"direct":{json.dumps(direct)},"requests":[')
        output.write(",\n".join([request] * COUNT))
        output.write("]}\n")


def wanted(how):
    """What the program is to print: a fresh answer, and then hits of that kind."""
    lines = [f"{place} {'fresh' if place == 1 else how} obj:{printed_length()}\n" for place in range(1, COUNT + 1)]
    return "".join(lines) + "compiles 1\n"


def timer(folder, name, first, direct, text):
    """Writes the scenario into the folder, and gives what times a run over it."""
    file = os.path.join(folder, f"{name}.json")
    write_scenario(file, first, direct)
    return lambda: served(file, text)


def hit_timers(folder):
    """What times a direct hit of `ccache` on the same words and files, and nothing where there is no `ccache`."""
    if shutil.which("gcc") is None or shutil.which("ccache") is None:
        print("no ccache here, so there is no ratio to its direct hit: apt-get install gcc ccache")
        return {}
    for name, text in {NAME: SOURCE, **FILES}.items():
        path = Path(folder, name)
        path.parent.mkdir(exist_ok=True)
        path.write_text(text.replace('"include/', '"../include/') if name == NAME else text)
    os.mkdir(os.path.join(folder, "out"))
    return {HIT: hit_timer(folder, [["ccache", "gcc", *words(0)]])}


def measure_in(folder):
    passes = "".join(f"{place} pass -E\n" for place in range(1, COUNT + 1)) + "compiles 0\n"
    joined = os.path.join(folder, "headers")
    Path(joined).write_text("".join(FILES.values()))
    times = in_turn(
        {
            "passed": timer(folder, "passed", "-E", True, passes),
            "stored": timer(folder, "stored", "-c", False, wanted("stored")),
            "direct": timer(folder, "direct", "-c", True, wanted("direct")),
            "digest": call_timer(works("digest", joined), SAME_MEMORY, REPEATS),
            **hit_timers(folder),
        },
        ROUNDS,
        min,
    )
    direct = (times["direct"] - times["passed"]) / COUNT
    stored = (times["stored"] - times["passed"]) / COUNT
    print(f"direct hit over {HEADERS} headers: {direct / stored:.2f} times a stored one by the scripted tool")
    print(f"digest of these headers as one text: {times['digest'] / direct:.2f} of a direct hit")
    report(f"direct hit over {HEADERS} headers", direct, times)


def measure():
    build()
    build_calls()
    with tempfile.TemporaryDirectory() as folder:
        measure_in(folder)
