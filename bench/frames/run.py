#!/usr/bin/env python3
"""Decodes 64 MB of frames by this repository's decoder, by two plain decoders and by memcpy, and prints MB/s.

Builds bench/frames/plain_decoder.c with cc, bench/frames/table_decoder with cargo on Debian's librust-memchr-dev and
librust-crc32fast-dev (left out where they aren't there), and the program crates/speed with rt (proved, by LLVM).
Each is run with a few rounds and with one, and the difference is measured, so reading the file and starting don't count.
They take turns, and their processor time counts, so that other work on the machine tells less.
"""
import os
import random
import resource
import subprocess
import sys
import zlib

HERE = os.path.dirname(os.path.abspath(__file__))
TOP = os.path.dirname(os.path.dirname(HERE))
sys.path.insert(0, os.path.join(TOP, "bench", "plain"))
import debian

BUILD = os.path.join(TOP, "bench", "build")
SIZE = 64 << 20
ROUNDS = 5


def frame(payload):
    head = b"\xa5\x03" + payload
    content = head + zlib.crc32(head).to_bytes(4, "little")
    return b"\x7e" + content.replace(b"\x7d", b"\x7d\x5d").replace(b"\x7e", b"\x7d\x5e") + b"\x7e"


def stream(length, escapes):
    # few escapes: random octets; many: half of them are flags or escapes
    rng = random.Random(length * 2 + escapes)
    some = []
    for _ in range(max(1, (1 << 20) // length)):
        octets = bytearray(rng.randbytes(length))
        if escapes:
            for i in range(0, length, 2):
                octets[i] = 0x7D if octets[i] & 1 else 0x7E
        some.append(frame(bytes(octets)))
    block = b"".join(some)
    return block * (SIZE // len(block))


def seconds(command):
    before = resource.getrusage(resource.RUSAGE_CHILDREN)
    out = subprocess.run(command, check=True, capture_output=True, text=True).stdout
    after = resource.getrusage(resource.RUSAGE_CHILDREN)
    return after.ru_utime + after.ru_stime - before.ru_utime - before.ru_stime, out


def speeds(commands, size):
    """MB/s of each command, by the best of three turns."""
    turns = [[(seconds(c + ["1"])[0], seconds(c + [str(1 + ROUNDS)])[0]) for c in commands] for _ in range(3)]
    best = [[min(times) for times in zip(*runs)] for runs in zip(*turns)]
    return [size * ROUNDS / max(all_rounds - one, 1e-3) / 1e6 for one, all_rounds in best]


def main():
    os.makedirs(BUILD, exist_ok=True)
    table = debian.built(os.path.join(HERE, "table_decoder"), ("memchr", "crc32fast"), BUILD)
    plain = os.path.join(BUILD, "plain_decoder")
    subprocess.run(["cc", "-O2", "-o", plain, os.path.join(HERE, "plain_decoder.c")], check=True)
    crate = os.path.join(TOP, "crates", "speed")
    subprocess.run(["rt", "run", "--", "nothing"], cwd=crate, check=True, stdout=subprocess.DEVNULL, stderr=subprocess.DEVNULL)
    ours = [os.path.join(crate, "out", "speed"), "frames"]
    print(f"{os.cpu_count()} processors, MB/s of stream, best of 3")
    print("| payload | escapes | this decoder | plain C | ratio | memchr and tables | ratio | memcpy |")
    print("|---|---|---|---|---|---|---|---|")
    for length in (16, 256, 4096):
        for escapes in (False, True):
            path = os.path.join(BUILD, "stream")
            with open(path, "wb") as file:
                file.write(stream(length, escapes))
            size = os.path.getsize(path)
            told = {seconds([*ours, path, "1"])[1], seconds([plain, "plain", path, "1"])[1]}
            if table:
                told.add(seconds([table, path, "1"])[1])
            if len(told) != 1:
                sys.exit(f"the decoders differ: {told}")
            commands = [[*ours, path], [plain, "plain", path], [plain, "memcpy", path]] + ([[table, path]] if table else [])
            a, b, c, *d = speeds(commands, size)
            beside = f"{d[0]:.0f} | {a / d[0]:.2f}" if d else "- | -"
            print(f"| {length} | {'many' if escapes else 'few'} | {a:.0f} | {b:.0f} | {a / b:.2f} | {beside} | {c:.0f} |", flush=True)


if __name__ == "__main__":
    main()
