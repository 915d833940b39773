"""Runs a program over bytes, and says how it ended, in what time and with how much memory."""

import math
import os
import resource
import subprocess
import tempfile

# What a run may take: so many seconds and so many more for each byte and its logarithm, and so many bytes and so many more for each byte.
# The bytes are those of its input and of what its definitions make of that.
SECONDS, SECONDS_EACH = 1.0, 2e-6
MEMORY, MEMORY_EACH = 64 << 20, 400
# No run may go beyond this.
MOST_SECONDS, MOST_MEMORY = 60, 4 << 30


class Ended:
    """How a run ended."""

    def __init__(self, status, output, errors, seconds, memory):
        self.status, self.output, self.errors, self.seconds, self.memory = status, output, errors, seconds, memory


def limit():
    """Sets limits for a process that has just begun."""
    resource.setrlimit(resource.RLIMIT_CPU, (MOST_SECONDS, MOST_SECONDS))
    resource.setrlimit(resource.RLIMIT_AS, (MOST_MEMORY, MOST_MEMORY))
    resource.setrlimit(resource.RLIMIT_CORE, (0, 0))


def run(words, data, folder=None, variables=None, program=None):
    """Runs the command over these bytes: the program, where there is one, under the name of the first word."""
    with tempfile.TemporaryFile() as given, tempfile.TemporaryFile() as output, tempfile.TemporaryFile() as errors:
        given.write(data)
        given.seek(0)
        process = subprocess.Popen(
            words, executable=program, stdin=given, stdout=output, stderr=errors, cwd=folder, env=variables, preexec_fn=limit
        )
        _, status, used = os.wait4(process.pid, 0)
        process.returncode = os.waitstatus_to_exitcode(status)
        output.seek(0)
        errors.seek(0)
        seconds = used.ru_utime + used.ru_stime
        return Ended(process.returncode, output.read(), errors.read(), seconds, used.ru_maxrss << 10)


def excess(ended, size, seconds_each):
    """What is more than it may be for an input of that size, or nothing."""
    seconds = SECONDS + seconds_each * size * math.log2(size + 2)
    memory = MEMORY + MEMORY_EACH * size
    if ended.seconds > seconds:
        return f"took {ended.seconds:.2f} s for {size} bytes, more than {seconds:.2f}"
    if ended.memory > memory:
        return f"took {ended.memory >> 20} MB for {size} bytes, more than {memory >> 20}"
    return None
