"""Times look-ups in include records against the digests of the files that they name, each taken once.

It proves and builds the program first where that isn't built yet or its sources changed.
"""

from program import SAME_MEMORY, build, expect, medians, timer, works

FILES = 100
RESULTS = 100
DIGEST = 64

# How often a call is repeated in a run with many, so that each run takes long enough to be timed.
REPEATS = 1001


def tally(count, together):
    """The line that the program prints of so many strings with so many bytes."""
    return f"{count} strings of {together} bytes together\n"


def measure():
    build()
    for results in (RESULTS // 2, RESULTS):
        # No result matches, so no key is found.
        expect("look_up", works("look_up", str(results)), tally(results * FILES, 0))
    expect("file_digests", works("file_digests", "0"), tally(FILES, FILES * DIGEST))
    times = medians({
        "one": timer(works("look_up", "1"), SAME_MEMORY, REPEATS),
        "half": timer(works("look_up", str(RESULTS // 2)), SAME_MEMORY, REPEATS),
        "all": timer(works("look_up", str(RESULTS)), SAME_MEMORY, REPEATS),
        "digests": timer(works("file_digests", "0"), SAME_MEMORY, REPEATS),
    })
    print(f"look-up in a record of one result: {times['one'] / times['digests']:.2f} times the digests of its {FILES} files")
    print(f"look-up in a record of {RESULTS // 2}: {times['half'] / times['digests']:.2f} times these")
    print(f"look-up in a record of {RESULTS}: {times['all'] / times['digests']:.2f} times these")
