"""Processor times of commands, and ratios of them."""

import os
import subprocess
import sys
import tempfile


def stop(message):
    sys.exit(f"bench/run: {message}")


def run(words, variables=None, folder=None, source=os.devnull, program=None):
    """Runs a command on that input, and gives the processor time that it took, in seconds, and what it printed. Where there is a program,
    it is run under the name of the first word."""
    with open(source, "rb") as given, tempfile.TemporaryFile() as output:
        environment = {**os.environ, **(variables or {})}
        child = subprocess.Popen(words, executable=program, stdin=given, stdout=output, env=environment, cwd=folder)
        _, status, usage = os.wait4(child.pid, 0)
        child.returncode = os.waitstatus_to_exitcode(status)
        if child.returncode != 0:
            stop(f"{' '.join(words[:4])} ended with status {child.returncode}")
        output.seek(0)
        return usage.ru_utime + usage.ru_stime, output.read().decode()


# A command's peak counts what the process had that started it, so that a small one starts it.
STARTER = """
import resource, subprocess, sys
subprocess.run(sys.argv[1:], stdout=subprocess.DEVNULL, check=True)
print(resource.getrusage(resource.RUSAGE_CHILDREN).ru_maxrss)
"""


def peak_memory(words):
    """Runs a command, and gives the most memory that it had at once, in kilobytes."""
    _, printed = run([sys.executable, "-c", STARTER, *words])
    return int(printed)


def in_turn(timers, rounds, chosen):
    """The time of each, by its name: all of them are timed in turn, some rounds, and one time is chosen of them."""
    times = {name: [] for name in timers}
    for _ in range(rounds):
        for name, seconds in timers.items():
            times[name].append(seconds())
    return {name: chosen(found) for name, found in times.items()}
