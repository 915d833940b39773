"""Times look-ups in a store of bounded size at its bound against a store without a bound.

It proves and builds the program first where that isn't built yet or its sources changed.
"""

from program import FEW, SAME_MEMORY, build, expect, medians, timer, works

PAIRS = 100_000

# A call goes once over all pairs.
REPEATS = 11


def measure():
    build()
    names = ("bounded_hits", "map_hits", "bounded_misses", "map_misses")
    commands = {name: works(name, str(PAIRS)) for name in names}
    for name, command in commands.items():
        # Each pair holds 1, and all that were put last are found.
        expect(name, command, f"{PAIRS} strings of {PAIRS} bytes together\n")
    timers = {name: timer(commands[name], SAME_MEMORY, REPEATS) for name in names}
    timers["twice_hits"] = timer(commands["bounded_hits"], SAME_MEMORY, 2 * (REPEATS - FEW) + FEW)
    timers["twice_misses"] = timer(commands["bounded_misses"], SAME_MEMORY, 2 * (REPEATS - FEW) + FEW)
    times = medians(timers)
    print(f"hit in a store at its bound of {PAIRS}: {times['bounded_hits'] / times['map_hits']:.2f} times one in a map store")
    print(f"miss and put: {times['bounded_misses'] / times['map_misses']:.2f} times these in a map store, which grows")
    print(f"a hit of twice as many: {times['twice_hits'] / times['bounded_hits']:.2f} times one")
    print(f"a miss and put of twice as many: {times['twice_misses'] / times['bounded_misses']:.2f} times these")
