"""Proofs side by side: as many at once as there are processors and as memory holds, those with the longest chain of others behind them first."""

import os
import sys
import threading

# Bytes that one proof may take: the most that was seen is 2.8 GB, of graph_model with three jobs.
EACH = 2_600_000_000
# More jobs than these shorten no proof; and what a proof gets whose chain decides when all ends.
MOST_JOBS, CHAIN_JOBS = 4, 3


def processors():
    return len(os.sched_getaffinity(0))


def free_memory():
    for line in open("/proc/meminfo"):
        if line.startswith("MemAvailable"):
            return 1024 * int(line.split()[1])
    return 4 * EACH


def lanes():
    """How many proofs may run at once."""
    return max(1, min(processors(), int(0.85 * free_memory() // EACH)))


def chains(waits, seconds):
    """For each task the seconds of the longest chain that begins with it. A task comes behind those that it waits for."""
    chain = {}
    for it in reversed(list(waits)):
        chain[it] = seconds[it] + max((chain[up] for up in chain if it in waits[up]), default=0)
    return chain


def planned_seconds(waits, seconds, count):
    """How long the tasks take by `count` lanes, the longest chain first, each by one lane."""
    chain, left, running, done, now = chains(waits, seconds), list(waits), [], set(), 0.0
    while left or running:
        ready = sorted((it for it in left if done.issuperset(waits[it])), key=lambda it: -chain[it])
        for it in ready[: count - len(running)]:
            left.remove(it)
            running.append((now + seconds[it], it))
        running.sort()
        now, ended = running.pop(0)
        done.add(ended)
    return now


def jobs_for(chain, work, count, idle, ready):
    """How many jobs a proof gets, with the chain that it begins, where so much work is left, so many lanes are idle and so many proofs are ready."""
    decides = chain > work / count
    return min(MOST_JOBS, idle, max(idle // ready, CHAIN_JOBS if decides else 1))


def run(waits, seconds, work, told):
    """Calls `work(task, jobs)` for each task once those that it waits for have ended well, and `told()` after each end and now and then.

    `waits` gives for each task those that it waits for; a task comes behind them. Whether all ended well; after the first that does not, none is begun.
    """
    chain, count = chains(waits, seconds), lanes()
    turn, left, running, done, failed = threading.Condition(), list(waits), {}, set(), []

    def one(task, jobs):
        try:
            well = work(task, jobs)
        except Exception as error:  # (a thread that dies would leave the others waiting)
            print(f"{task}: {error}", file=sys.stderr, flush=True)
            well = False
        with turn:
            del running[task]
            (done.add if well else failed.append)(task)
            turn.notify_all()

    with turn:
        while running or (left and not failed):
            ready = [] if failed else sorted((it for it in left if done.issuperset(waits[it])), key=lambda it: -chain[it])
            for at, task in enumerate(ready):
                idle = count - sum(running.values())
                if idle <= 0:
                    break
                todo = sum(seconds[it] for it in left)
                running[task] = jobs_for(chain[task], todo, count, idle, len(ready) - at)
                left.remove(task)
                threading.Thread(target=one, args=(task, running[task]), daemon=True).start()
            turn.wait(timeout=1)
            told({it for it in running}, done)
    return not failed
