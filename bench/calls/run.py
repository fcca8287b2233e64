#!/usr/bin/env python3
"""Prints how many arrivals, starts and finishes a second the table of calls makes with 1 to 30,000 live calls, how long an
opening takes, and what stays of a call of Echo that was opened and closed.

Builds the program crates/speed with rt (proved, by LLVM). It opens calls of Chat and then lets messages of eight
octets go to them by turns, each followed by a run of its call, and times each step; the time of as many readings of the
clock is taken away. The best of three runs counts.

Of calls of Echo each is opened, answered and flushed before the next comes. The memory that the program then holds, with the
table still there, is compared with that of the same program over the same entries in a journal alone, with as much room
as a table keeps: the difference, by the number of calls, is what stays of a call beside its entries and items.
"""
import os
import subprocess

HERE = os.path.dirname(os.path.abspath(__file__))
CRATE = os.path.join(os.path.dirname(os.path.dirname(HERE)), "crates", "speed")
PROGRAM = os.path.join(CRATE, "out", "speed")
MESSAGES = 100_000
LIVE = (1, 100, 1000, 10_000, 30_000)
CLOSED = (50_000, 100_000, 200_000)
STEPS = ("arrivals", "starts", "finishes")


# Lists of 64 KiB and more have maps of their own, so that what they leave where they grow is given back at once.
GIVES_BACK = {**os.environ, "GLIBC_TUNABLES": "glibc.malloc.mmap_threshold=65536:glibc.malloc.trim_threshold=65536"}


def told(*words, env=None):
    return subprocess.run([PROGRAM, *map(str, words)], check=True, capture_output=True, text=True, env=env).stderr.split()


# The nanoseconds that all openings took, and those of each step, the readings of the clock apart.
def nanoseconds(live):
    words = told("calls", live, MESSAGES)
    spent = {name: int(value) for name, value in zip(words[::2], words[1::2])}
    return [spent["openings"]] + [max(1, spent[step] - spent["readings"]) for step in STEPS]


# The nanoseconds that so many calls took, and the octets that the program then held.
def ended(mode, calls):
    nanos = told(mode, calls)[0]
    resident = told(mode, calls, env=GIVES_BACK)[2]
    return int(nanos), int(resident) * os.sysconf("SC_PAGE_SIZE")


def best(runs):
    return [min(values) for values in zip(*runs)]


def main():
    subprocess.run(["rt", "run", "--", "nothing"], cwd=CRATE, check=True, stdout=subprocess.DEVNULL, stderr=subprocess.DEVNULL)
    print(f"{os.cpu_count()} processors, thousands a second, and microseconds an opening, best of 3")
    print("| live calls | arrivals | starts | finishes | an opening |")
    print("|---|---|---|---|---|")
    for live in LIVE:
        openings, *steps = best(nanoseconds(live) for _ in range(3))
        rates = " | ".join(f"{MESSAGES / spent * 1e6:.0f}" for spent in steps)
        print(f"| {live} | {rates} | {openings / live / 1000:.2f} |", flush=True)
    print()
    print("| closed calls | microseconds each | octets each, entries and items apart |")
    print("|---|---|---|")
    for calls in CLOSED:
        nanos, held = best(ended("closed", calls) for _ in range(3))
        _, written = best(ended("written", calls) for _ in range(3))
        print(f"| {calls} | {nanos / calls / 1000:.2f} | {(held - written) / calls:.0f} |", flush=True)


if __name__ == "__main__":
    main()
