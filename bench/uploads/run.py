#!/usr/bin/env python3
"""Measures `replay` of an upload beside a copy of the same bytes.

Makes the recording of a client that uploads a resource in chunks of 256 bytes, and replays it by the program crates/pw_main
(proved, by LLVM) in an empty folder, where the upload ends in the folder `store`. A plain program copies the resource.

run.py             the measured table, for resources of 1, 4 and 16 MiB
run.py small FILE  writes the recording of a small upload, which is examples/upload/recording
"""
import os
import random
import shutil
import subprocess
import sys
import tempfile
import time
import zlib

HERE = os.path.dirname(os.path.abspath(__file__))
TOP = os.path.dirname(os.path.dirname(HERE))
MIB = 1 << 20
CHUNK = 256
RESOURCE, SESSION = 7, 1
REQUEST, CLIENT_STREAM, COMPLETION = 0, 2, 8
DATA, START, COMPLETION_ACK, CONFIRMATION = 0, 1, 5, 7


def varint(value):
    out = bytearray()
    while value > 0x7F:
        out.append(value & 0x7F | 0x80)
        value >>= 7
    return bytes(out) + bytes([value])


def field(number, value):
    if isinstance(value, bytes):
        return varint(number << 3 | 2) + varint(len(value)) + value
    return varint(number << 3) + varint(value)


def chunk(ctype, fields):
    fields = {**fields, 10: ctype}
    return b"".join(field(number, fields[number]) for number in sorted(fields))


# The frame of a packet to the method Write on channel 1, call 1.
def frame(ptype, payload=b""):
    head = b"\xa5\x03" + (field(1, ptype) if ptype else b"") + field(2, 1)
    head += b"\x1d" + (0x5BD6C87B).to_bytes(4, "little") + b"\x25" + (0xD4630586).to_bytes(4, "little")
    head += (field(5, payload) if payload else b"") + field(7, 1)
    content = head + zlib.crc32(head).to_bytes(4, "little")
    return b"\x7e" + content.replace(b"\x7d", b"\x7d\x5d").replace(b"\x7e", b"\x7d\x5e") + b"\x7e"


def recording(resource, size):
    def say(ctype, fields):
        return frame(CLIENT_STREAM, chunk(ctype, fields))

    yield frame(REQUEST)
    yield say(START, {11: RESOURCE, 13: 2, 14: SESSION})
    yield say(CONFIRMATION, {12: SESSION, 13: 2})
    for offset in range(0, len(resource), size):
        data = resource[offset : offset + size]
        fields = {6: data, 12: SESSION}
        if offset:
            fields[5] = offset
        if offset + size >= len(resource):
            fields[7] = 0
        yield say(DATA, fields)
    yield say(COMPLETION_ACK, {12: SESSION})
    yield frame(COMPLETION)


def built():
    subprocess.run([os.path.join(TOP, "kirofantse"), "build"], check=True)
    return os.path.join(TOP, "crates", "pw_main", "out", "pw_main")


# The seconds of a command in a new folder, and what it leaves there.
def timed(command, stdin, stored):
    with tempfile.TemporaryDirectory() as folder:
        with open(stdin, "rb") as source, open(os.path.join(folder, "out"), "wb") as sink:
            start = time.monotonic()
            subprocess.run(command, stdin=source, stdout=sink, cwd=folder, check=True)
            taken = time.monotonic() - start
        with open(os.path.join(folder, stored), "rb") as left:
            return taken, left.read()


def table(program):
    print(f"{os.cpu_count()} processors, seconds, best of 3; MB/s of the resource")
    print("| resource | recording | `replay` | MB/s | `cat` | ratio |")
    print("|---|---|---|---|---|---|")
    for size in (MIB, 4 * MIB, 16 * MIB):
        resource = random.Random(size).randbytes(size)
        with tempfile.TemporaryDirectory() as folder:
            plain, recorded = os.path.join(folder, "resource"), os.path.join(folder, "recording")
            with open(plain, "wb") as out:
                out.write(resource)
            with open(recorded, "wb") as out:
                out.writelines(recording(resource, CHUNK))
            ours, theirs = [], []
            for _ in range(3):
                taken, stored = timed([program, "replay"], recorded, f"store/full-{RESOURCE}")
                if stored != resource:
                    sys.exit("what was stored isn't the resource")
                ours.append(taken)
                theirs.append(timed([shutil.which("cat")], plain, "out")[0])
            a, b, length = min(ours), min(theirs), os.path.getsize(recorded)
            print(f"| {size} | {length} | {a:.3f} | {size / a / 1e6:.1f} | {b:.3f} | {a / b:.0f} |", flush=True)


def main():
    if sys.argv[1:2] == ["small"]:
        with open(sys.argv[2], "wb") as out:
            out.writelines(recording(b"hello, store\n", 7))
    elif sys.argv[1:2] == ["with"]:
        table(os.path.abspath(sys.argv[2]))
    else:
        table(built())


if __name__ == "__main__":
    main()
