#!/usr/bin/env python3
"""Decodes 16 MB of frames from C by the library, whole and in pieces, beside the plain decoder in C, and prints MB/s.

Builds bench/frames/c_speed.c and plain_decoder.c with cc -O2, and the library with rt (proved, by LLVM).
"""
import os
import subprocess
import sys

import run

run.SIZE, run.ROUNDS = 16 << 20, 2

LIBRARY = os.path.join(run.TOP, "crates", "c_codec", "out", "libc_codec.a")
PIECES = (0, 512, 64, 16, 1)


def main():
    os.makedirs(run.BUILD, exist_ok=True)
    plain, ours = os.path.join(run.BUILD, "plain_decoder"), os.path.join(run.BUILD, "c_speed")
    crate = os.path.join(run.TOP, "crates", "c_codec")
    subprocess.run(["rt", "lib"], cwd=crate, check=True, stdout=subprocess.DEVNULL, stderr=subprocess.DEVNULL)
    subprocess.run(["cc", "-O2", "-o", plain, os.path.join(run.HERE, "plain_decoder.c")], check=True)
    include = os.path.join(run.TOP, "include")
    subprocess.run(["cc", "-O2", "-I" + include, "-o", ours, os.path.join(run.HERE, "c_speed.c"), LIBRARY], check=True)
    print(f"{os.cpu_count()} processors, MB/s of stream, best of 3")
    print("| payload | escapes | whole | of 512 | of 64 | of 16 | byte by byte | plain C, byte by byte |")
    print("|---|---|---|---|---|---|---|---|")
    for length in (16, 256, 4096):
        for escapes in (False, True):
            path = os.path.join(run.BUILD, "stream")
            with open(path, "wb") as file:
                file.write(run.stream(length, escapes))
            size = os.path.getsize(path)
            commands = [[ours, str(piece), path] for piece in PIECES] + [[plain, "plain", path]]
            told = {run.seconds(command + ["1"])[1] for command in commands}
            if len(told) != 1:
                sys.exit(f"the decoders differ: {told}")
            told = " | ".join(f"{speed:.0f}" for speed in run.speeds(commands, size))
            print(f"| {length} | {'many' if escapes else 'few'} | {told} |", flush=True)


if __name__ == "__main__":
    main()
