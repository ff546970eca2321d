"""What proofs take, in seconds of one processor, as `bench/gate` measured it, and how fast this machine is beside that one."""

import concurrent.futures
import time

from crates import ROOT
from lanes import processors

LIST = ROOT / "bench/gate.seconds"
# What a crate that is not listed takes, by its lines.
EACH_CRATE, EACH_LINE = 20, 0.05
TURNS, TIMES = 400_000, 12


def listed():
    """What bench/gate.seconds says, by the crate's name, and the loop of the machine under `loop`."""
    found = {}
    if LIST.is_file():
        for line in LIST.read_text().splitlines():
            name, _, seconds = line.partition("#")[0].partition(" ")
            if seconds.strip():
                found[name] = float(seconds)
    return found


LISTED = listed()


def seconds_of(crates, name):
    """What the proof of a crate took, or is likely to take."""
    return LISTED.get(name) or EACH_CRATE + EACH_LINE * crates.lines(name)


def loop(_=None):
    """The processor seconds of a loop in Python."""
    begun = time.process_time()
    total = 0
    for it in range(TURNS):
        total += it * it
    return time.process_time() - begun


def machine_loop():
    """The least of that loop where all processors do it at once, as they do while crates are proved: some are held up by what runs beside."""
    with concurrent.futures.ProcessPoolExecutor(processors()) as pool:
        return min(pool.map(loop, range(TIMES * processors())))


def machine_factor():
    """How many times as long as on the measured machine a proof takes here."""
    return machine_loop() / LISTED["loop"] if "loop" in LISTED else 1.0
