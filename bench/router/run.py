#!/usr/bin/env python3
"""Measures `bridge` between two Unix sockets, beside socat copying the same bytes between two such sockets.

Frames for an address at the right come from the left; what arrives at the right is compared with what was sent. Prints MB/s by
the clock, the best of three. Builds the program with rt (proved, by LLVM). Without socat its column is left out.
"""
import os
import random
import shutil
import socket
import subprocess
import sys
import tempfile
import threading
import time
import zlib

HERE = os.path.dirname(os.path.abspath(__file__))
TOP = os.path.dirname(os.path.dirname(HERE))
SIZE = 32 << 20


def frame(payload):
    content = b"\xf7\x03" + payload  # address 123, in one octet
    content += zlib.crc32(content).to_bytes(4, "little")
    return b"\x7e" + content.replace(b"\x7d", b"\x7d\x5d").replace(b"\x7e", b"\x7d\x5e") + b"\x7e"


def stream(length):
    rng = random.Random(length)
    frames = [frame(rng.randbytes(length)) for _ in range(64)]
    count = SIZE // sum(map(len, frames))
    return b"".join(frames) * count


def listening(path):
    sock = socket.socket(socket.AF_UNIX)
    sock.bind(path)
    sock.listen(1)
    return sock


def seconds(command, sent, room):
    left, right = os.path.join(room, "left"), os.path.join(room, "right")
    for path in (left, right):
        if os.path.exists(path):
            os.unlink(path)
    ends = [listening(left), listening(right)]
    program = subprocess.Popen(command(left, right), stdin=subprocess.DEVNULL, stdout=subprocess.DEVNULL, cwd=room)
    source, sink = ends[0].accept()[0], ends[1].accept()[0]
    start = time.monotonic()

    def feed():
        source.sendall(sent)
        source.shutdown(socket.SHUT_WR)

    feeder = threading.Thread(target=feed)
    feeder.start()
    got = bytearray()
    while piece := sink.recv(1 << 16):
        got += piece
    taken = time.monotonic() - start
    feeder.join()
    sink.close()
    source.close()
    program.wait()
    if bytes(got) != sent:
        sys.exit("what arrived isn't what was sent")
    return taken


def main():
    launcher = os.path.join(TOP, "kirofantse")
    subprocess.run([launcher, "build"], check=True)
    program = os.path.join(TOP, "crates", "pw_main", "out", "pw_main")
    ways = {"bridge": lambda left, right: [program, "bridge", left, right, "123", "5"]}
    if shutil.which("socat"):
        ways["socat"] = lambda left, right: ["socat", "-b65536", "UNIX-CONNECT:" + left, "UNIX-CONNECT:" + right]
    print(f"{os.cpu_count()} processors, MB/s, best of 3")
    print("| payload | " + " | ".join(ways) + " |")
    print("|---|" + "---|" * len(ways))
    with tempfile.TemporaryDirectory() as room:
        for length in (16, 256, 4096):
            sent = stream(length)
            speeds = [len(sent) / min(seconds(way, sent, room) for _ in range(3)) / 1e6 for way in ways.values()]
            print(f"| {length} | " + " | ".join(f"{speed:.0f}" for speed in speeds) + " |", flush=True)


if __name__ == "__main__":
    main()
