#!/usr/bin/env python3
"""Measures two builds of the program by turns, so that both have the same company: what a change was worth.

run.py BEFORE AFTER [TURNS]   two programs, for example crates/pw_main/out/pw_main of two commits

Prints processor seconds for calls, sessions and uploads, megabytes a second by the clock for `bridge` and `get`, and the most memory that a
run held; each the best of so many turns, five where none are told. It stops where the two don't write the same. It makes its inputs by the
scripts beside it.
"""
import importlib.util
import os
import random
import resource
import subprocess
import sys
import tempfile

HERE = os.path.dirname(os.path.abspath(__file__))
BENCH = os.path.dirname(HERE)
MIB = 1 << 20
TURNS = int(sys.argv[3]) if len(sys.argv) == 4 else 5


def script(name):
    spec = importlib.util.spec_from_file_location(name, os.path.join(BENCH, name, "run.py"))
    made = importlib.util.module_from_spec(spec)
    spec.loader.exec_module(made)
    return made


replay, router, uploads, live = (script(name) for name in ("replay", "router", "uploads", "live"))


def row(what, before, after, unit, digits=3, more=False):
    better = after / before if more else before / after
    print(f"| {what} | {before:.{digits}f} | {after:.{digits}f} | {unit} | {better:.2f} |", flush=True)


# The processor seconds of a command over a file, the peak of its memory in MB, and what it wrote.
def spent(command, stdin):
    with tempfile.TemporaryDirectory() as folder, open(stdin, "rb") as source:
        out = os.path.join(folder, "out")
        with open(out, "wb") as sink:
            child = subprocess.Popen(command, stdin=source, stdout=sink, cwd=folder)
            _, status, usage = os.wait4(child.pid, 0)
        if status:
            sys.exit(f"{command} ended with {status}")
        with open(out, "rb") as written:
            return usage.ru_utime + usage.ru_stime, usage.ru_maxrss / 1024, written.read()


def by_turns(programs, words, stdin, same=True):
    runs = [[spent([program, *words], stdin) for program in programs] for _ in range(TURNS)]
    if same and len({written for run in runs for _, _, written in run}) > 1:
        sys.exit(f"{' '.join(words)}: the two differ")
    return [(min(it[0] for it in side), min(it[1] for it in side)) for side in zip(*runs)]


def recording(folder, plain, kind, count):
    name = os.path.join(folder, f"{kind}-{count}")
    with open(name, "wb") as out:
        subprocess.run([plain, "recording", kind, str(count)], stdout=out, check=True)
    return name


def calls(programs, plain, folder):
    for kind, count in (("echo", 25_000), ("echo", 100_000), ("open", 30_000)):
        given = recording(folder, plain, kind, count)
        (a, held), (b, holds) = by_turns(programs, ["replay", "raw"], given)
        row(f"`replay raw`, {count:,} {'Echo' if kind == 'echo' else 'Chat left open'}", a, b, "s")
        row("memory of it", held, holds, "MB", 0)
    for count in ("7500", "15000", "30000"):
        (a, _), (b, _) = by_turns(programs, ["load", count, "7"], os.devnull)
        row(f"`load {count} 7`", a, b, "s")


def sessions(programs, plain, folder):
    for workers, counts in (("1", (25_000, 50_000, 100_000)), ("4", (100_000,))):
        for count in counts:
            given = recording(folder, plain, "echo", count)
            (a, _), (b, _) = by_turns(programs, ["crew", workers], given, same=False)
            row(f"`crew {workers}`, {count:,} Echo", a, b, "s")


def frames(programs, folder):
    for length in (16, 256, 4096):
        name = os.path.join(folder, f"frames-{length}")
        with open(name, "wb") as out:
            out.write(router.stream(length))
        (a, _), (b, _) = by_turns(programs, ["replay"], name)
        size = os.path.getsize(name) / 1e6
        row(f"`replay` of frames of {length} for another address", size / a, size / b, "MB/s", 0, more=True)


def uploaded(programs, folder):
    name = os.path.join(folder, "upload")
    with open(name, "wb") as out:
        out.writelines(uploads.recording(random.Random(16).randbytes(16 * MIB), uploads.CHUNK))
    (a, _), (b, _) = by_turns(programs, ["replay"], name)
    row("an upload of 16 MiB by 256", 16 * MIB / a / 1e6, 16 * MIB / b / 1e6, "MB/s", 0, more=True)


def bridged(programs):
    with tempfile.TemporaryDirectory() as room:
        for length in (16, 256, 4096):
            sent = router.stream(length)
            ways = [lambda left, right, it=it: [it, "bridge", left, right, "123", "5"] for it in programs]
            runs = [[router.seconds(way, sent, room) for way in ways] for _ in range(TURNS)]
            a, b = (len(sent) / min(side) / 1e6 for side in zip(*runs))
            row(f"`bridge`, payloads of {length}", a, b, "MB/s", 0, more=True)


def fetched(programs):
    stored = f"store/full-{live.RESOURCE}"
    with tempfile.TemporaryDirectory() as room:
        for side in ("board", "host"):
            os.makedirs(os.path.join(room, side, "store"))
        with open(os.path.join(room, "board", stored), "wb") as out:
            out.write(random.Random(7).randbytes(16 * MIB))

        def taken(program):
            serve = lambda socket: [program, "serve", socket, "1", "1"]
            get = lambda socket: [program, "get", socket, str(live.RESOURCE), "0"]
            return live.seconds(room, serve, get, stored)

        runs = [[taken(program) for program in programs] for _ in range(TURNS)]
        a, b = (16 * MIB / min(side) / 1e6 for side in zip(*runs))
        row("`get` of 16 MiB over a socket", a, b, "MB/s", 1, more=True)


def main():
    programs = [os.path.abspath(it) for it in sys.argv[1:3]]
    if len(sys.argv) not in (3, 4):
        sys.exit(__doc__)
    os.makedirs(replay.BUILD, exist_ok=True)
    plain = os.path.join(replay.BUILD, "plain_server")
    subprocess.run(["rustc", "-O", "--edition", "2021", "-o", plain, os.path.join(BENCH, "replay", "plain_server.rs")], check=True)
    load = os.getloadavg()[0]
    print(f"{os.cpu_count()} processors, load {load:.1f} at the start, {TURNS} turns; seconds of processors, or MB/s by the clock")
    print("| what | before | after | unit | times better |")
    print("|---|---|---|---|---|")
    with tempfile.TemporaryDirectory() as folder:
        calls(programs, plain, folder)
        frames(programs, folder)
        sessions(programs, plain, folder)
        uploaded(programs, folder)
    bridged(programs)
    fetched(programs)


if __name__ == "__main__":
    main()
