"""What the time and the memory of a program's run are, and how a table of them is printed."""

import ctypes
import os
import re
import shutil
import subprocess
import sys
import time

PR_SET_CHILD_SUBREAPER = 36  # of linux/prctl.h

LEAST_ROUNDS = 7
LEAST_SECONDS = 3  # that runs are repeated for
SMALL_RUNS = 4  # of a small size in each round: it is short, and noise weighs more
PEAK_RUNS = 5  # a peak counts pages that programs share, and how many of these varies


def adopt_orphans():
    """Makes programs whose shell has ended children of this script, as `megabytes_of` needs."""
    if ctypes.CDLL(None).prctl(PR_SET_CHILD_SUBREAPER, 1, 0, 0, 0) != 0:
        stop("this system doesn't tell the peak memory")


def times_of(command, script, wanted=0):
    """The wall time and the processor's time of one run that ends with a status, or with any for None. The system throws the output away: no reader takes part."""
    files = [
        (os.POSIX_SPAWN_OPEN, 0, script, os.O_RDONLY, 0),
        (os.POSIX_SPAWN_OPEN, 1, os.devnull, os.O_WRONLY, 0),
    ]
    start = time.perf_counter()
    try:
        child = os.posix_spawnp(command[0], command, os.environ, file_actions=files)
    except OSError as error:
        stop(error)
    _, status, usage = os.wait4(child, 0)
    seconds = time.perf_counter() - start
    demand_status(command, status, wanted)
    return seconds, usage.ru_utime + usage.ru_stime


def seconds_of(command, script, wanted=0):
    return times_of(command, script, wanted)[0]


def processor_seconds_of(command, script, wanted=0):
    return times_of(command, script, wanted)[1]


def best_seconds(runs, wanted=0, least_rounds=LEAST_ROUNDS, seconds=LEAST_SECONDS, seconds_of=seconds_of):
    """The least time of each of some runs: a command, its script, and how often it is run in a round."""
    best = [float("inf")] * len(runs)
    rounds = 0
    end = time.perf_counter() + seconds
    while rounds < least_rounds or time.perf_counter() < end:
        # The runs take turns, so that noise of the machine hits all of them.
        for i, (command, script, times) in enumerate(runs):
            for _ in range(times):
                best[i] = min(best[i], seconds_of(command, script, wanted))
        rounds += 1
    return best


def megabytes_of(command, script, wanted=0):
    """The least peak memory of some runs that end with a status, or with any for None."""
    return min(peak_megabytes_of(command, script, wanted) for _ in range(PEAK_RUNS))


def peak_megabytes_of(command, script, wanted):
    # A peak begins with the memory of the process that starts the program. This script
    # holds more than some cases need, so a shell starts it, ends, and leaves it to us.
    line = 'script=$1; shift; "$@" < "$script" > /dev/null &'
    shell = os.posix_spawnp("sh", ["sh", "-c", line, "sh", script] + command, os.environ)
    os.waitpid(shell, 0)
    _, status, usage = os.wait4(-1, 0)
    demand_status(command, status, wanted)
    return usage.ru_maxrss * 1024 / 1e6


def instructions_of(command, script):
    """How many instructions a run takes, which hardly varies, or None where there is no valgrind."""
    if not shutil.which("valgrind"):
        return None
    words = ["valgrind", "--tool=callgrind", "--callgrind-out-file=/dev/null", *command]
    with open(script) as file:
        ran = subprocess.run(words, stdin=file, stdout=subprocess.DEVNULL, stderr=subprocess.PIPE, text=True)
    count = re.search(r"Collected : (\d+)", ran.stderr)
    return int(count[1]) if count else stop(f"valgrind counts no instructions: {ran.stderr}")


def demand_status(command, status, wanted):
    if wanted is not None and os.waitstatus_to_exitcode(status) != wanted:
        stop(f"{command[0]}: status {os.waitstatus_to_exitcode(status)}")


def stop(message):
    sys.exit(f"{sys.argv[0]}: {message}")


def judged(figure, limit):
    shown = f"{figure:.2f}"
    return f"{shown} > {limit}" if float(shown) > limit else shown


def print_row(cells):
    """A name, and figures."""
    print(f"{cells[0]:<50}" + "".join(f"{cell:>13}" for cell in cells[1:]), flush=True)


def row_lines(texts, columns):
    """Lines of a script that make a table: a row of each text."""
    for text in texts:
        yield ("row" + ("\t" + text) * columns + "\n").encode()
