#!/usr/bin/env python3
"""Measures sessions whose handlers take time, beside a plain server in Rust with a mutex and a pool of threads.

Builds bench/crew/plain_server.rs with rustc, and the program crates/speed with rt (proved, by LLVM). Both serve calls of one
unary method from memory to memory, with 1, 2 and 4 workers; a handler turns a number over and over. Prints the packets per
second by the clock, those that came and those that went, and the processor time of the whole program for each call, in
microseconds; each the best of five. Stops where the two don't write as much.
"""
import os
import resource
import subprocess
import sys

HERE = os.path.dirname(os.path.abspath(__file__))
TOP = os.path.dirname(os.path.dirname(HERE))
BUILD = os.path.join(TOP, "bench", "build")
CRATE = os.path.join(TOP, "crates", "speed")
# How often a handler turns its number, and how many calls there are then.
WORKS = ((0, 20_000), (1_000, 20_000), (10_000, 20_000), (100_000, 4_000))


def built():
    os.makedirs(BUILD, exist_ok=True)
    plain = os.path.join(BUILD, "plain_crew")
    source = os.path.join(HERE, "plain_server.rs")
    subprocess.run(["rustc", "-O", "--edition", "2021", "-o", plain, source], check=True)
    subprocess.run(["rt", "run", "--", "nothing"], cwd=CRATE, check=True, stdout=subprocess.DEVNULL, stderr=subprocess.DEVNULL)
    return [os.path.join(CRATE, "out", "speed"), "crew"], plain


# The processor time of the programs that have ended.
def spent():
    usage = resource.getrusage(resource.RUSAGE_CHILDREN)
    return usage.ru_utime + usage.ru_stime


# The fewest seconds that a session took, by the clock, and that a run took of processors; and what the last run printed.
def measured(program, words):
    sessions, runs = [], []
    for _ in range(5):
        before = spent()
        ran = subprocess.run([*program, *map(str, words)], check=True, capture_output=True, text=True)
        runs.append(spent() - before)
        sessions.append(int(ran.stderr.split()[-1]) / 1e9)
    return min(sessions), min(runs), ran.stdout


def main():
    ours, plain = built()
    print(f"{os.cpu_count()} processors, packets per second, and microseconds of processor time a call, best of 5")
    print("| rounds of a handler | workers | this session | plain Rust | ratio | its processor time | plain Rust's |")
    print("|---|---|---|---|---|---|---|")
    for rounds, calls in WORKS:
        for workers in (1, 2, 4):
            words = (workers, calls, rounds)
            a, a_spent, told = measured(ours, words)
            b, b_spent, wanted = measured([plain], words)
            if told != wanted:
                sys.exit(f"{words}: {told.strip()}, but the plain server: {wanted.strip()}")
            rates = f"{2 * calls / a:,.0f} | {2 * calls / b:,.0f} | {a / b:.1f}"
            print(f"| {rounds:,} | {workers} | {rates} | {a_spent / calls * 1e6:.1f} | {b_spent / calls * 1e6:.1f} |", flush=True)


if __name__ == "__main__":
    main()
