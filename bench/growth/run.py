#!/usr/bin/env python3
"""Measures how the program grows: with calls, calls left open, sessions of a call, uploads, and resources in its folder.

run.py PROGRAM   a built program, as crates/pw_main/out/pw_main

Prints processor seconds, the best of three, and the most memory that a run held, in MB. Each row doubles what it grows by.
"""
import importlib.util
import os
import subprocess
import sys
import tempfile
import zlib

HERE = os.path.dirname(os.path.abspath(__file__))
BENCH = os.path.dirname(HERE)


def script(name):
    spec = importlib.util.spec_from_file_location(name, os.path.join(BENCH, name, "run.py"))
    made = importlib.util.module_from_spec(spec)
    spec.loader.exec_module(made)
    return made


replay, uploads = script("replay"), script("uploads")
field, chunk = uploads.field, uploads.chunk


# The frame of a packet to the method Write on channel 1, of this call.
def frame(call, ptype, payload=b""):
    head = b"\xa5\x03" + (field(1, ptype) if ptype else b"") + field(2, 1)
    head += b"\x1d" + (0x5BD6C87B).to_bytes(4, "little") + b"\x25" + (0xD4630586).to_bytes(4, "little")
    head += (field(5, payload) if payload else b"") + field(7, call)
    content = head + zlib.crc32(head).to_bytes(4, "little")
    return b"\x7e" + content.replace(b"\x7d", b"\x7d\x5d").replace(b"\x7e", b"\x7d\x5e") + b"\x7e"


# An upload of five bytes in one chunk, in a session of a call.
def session(call, number, resource):
    def say(ctype, fields):
        return frame(call, uploads.CLIENT_STREAM, chunk(ctype, fields))

    yield say(uploads.START, {11: resource, 13: 2, 14: number})
    yield say(uploads.CONFIRMATION, {12: number, 13: 2})
    yield say(uploads.DATA, {6: b"hello", 7: 0, 12: number})
    yield say(uploads.COMPLETION_ACK, {12: number})


def sessions(count):
    yield frame(1, uploads.REQUEST)
    for number in range(1, count + 1):
        yield from session(1, number, 7)


def uploaded(count):
    for call in range(1, count + 1):
        yield frame(call, uploads.REQUEST)
        yield from session(call, 1, call)
        yield frame(call, uploads.COMPLETION)


# The processor seconds and the memory of the best of three runs over this input, in a new folder with so many resources.
def measured(words, given, resources=0):
    best = []
    for _ in range(3):
        with tempfile.TemporaryDirectory() as folder, open(given, "rb") as source:
            os.makedirs(os.path.join(folder, "store"))
            for number in range(resources):
                with open(os.path.join(folder, "store", f"full-{number}"), "wb") as out:
                    out.write(bytes(100))
            child = subprocess.Popen(words, stdin=source, stdout=subprocess.DEVNULL, cwd=folder)
            _, status, usage = os.wait4(child.pid, 0)
        if status:
            sys.exit(f"{words} ended with {status}")
        best.append((usage.ru_utime + usage.ru_stime, usage.ru_maxrss / 1024))
    return min(it[0] for it in best), min(it[1] for it in best)


def row(what, counts, times):
    cells = " | ".join(f"{count:,}: {seconds:.3f} s, {memory:.0f} MB" for count, (seconds, memory) in zip(counts, times))
    print(f"| {what} | {cells} |", flush=True)


def main():
    if len(sys.argv) != 2:
        sys.exit(__doc__)
    program = os.path.abspath(sys.argv[1])
    os.makedirs(replay.BUILD, exist_ok=True)
    plain = os.path.join(replay.BUILD, "plain_server")
    subprocess.run(["rustc", "-O", "--edition", "2021", "-o", plain, os.path.join(BENCH, "replay", "plain_server.rs")], check=True)
    print("| what | | | |")
    print("|---|---|---|---|")
    with tempfile.TemporaryDirectory() as folder:
        given = os.path.join(folder, "given")

        def recorded(what, counts, make, words=("replay", "raw")):
            times = []
            for count in counts:
                with open(given, "wb") as out:
                    make(count, out)
                times.append(measured([program, *words], given))
            row(what, counts, times)

        def of_plain(kind):
            return lambda count, out: subprocess.run([plain, "recording", kind, str(count)], stdout=out, check=True)

        recorded("calls of Echo", (25_000, 50_000, 100_000), of_plain("echo"))
        recorded("calls of Chat left open", (7_500, 15_000, 30_000), of_plain("open"))
        recorded("sessions of one call", (64, 128, 256), lambda count, out: out.writelines(sessions(count)))
        recorded("uploads, each a call", (1_000, 2_000, 4_000), lambda count, out: out.writelines(uploaded(count)))
        counts = (1_000, 2_000, 4_000)
        row("resources in the folder", counts, [measured([program, "replay"], os.devnull, count) for count in counts])


if __name__ == "__main__":
    main()
