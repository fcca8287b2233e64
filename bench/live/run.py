#!/usr/bin/env python3
"""Measures `get` of a resource from `serve` over a Unix socket, beside socat copying the same bytes over such a socket.

Both ends of each are programs of their own, on this machine; what arrives is compared with what was sent. Prints MB/s of the
resource by the clock, the best of three. Builds the program with rt (proved, by LLVM). Without socat its column is left out.
"""
import os
import random
import shutil
import subprocess
import sys
import tempfile
import time

HERE = os.path.dirname(os.path.abspath(__file__))
TOP = os.path.dirname(os.path.dirname(HERE))
MIB = 1 << 20
RESOURCE = 7


def wait_for(path):
    for _ in range(2000):
        if os.path.exists(path):
            return
        time.sleep(0.005)
    sys.exit("nobody listens")


# The seconds of the receiver, once the sender listens.
def seconds(room, sender, receiver, into):
    socket = os.path.join(room, "socket")
    serving = subprocess.Popen(sender(socket), stdin=subprocess.DEVNULL, stdout=subprocess.DEVNULL, cwd=os.path.join(room, "board"))
    wait_for(socket)
    start = time.monotonic()
    subprocess.run(receiver(socket), stdin=subprocess.DEVNULL, stdout=subprocess.DEVNULL, cwd=os.path.join(room, "host"), check=True)
    taken = time.monotonic() - start
    if serving.wait() != 0:
        sys.exit("the sender failed")
    if os.path.exists(socket):
        os.unlink(socket)
    with open(os.path.join(room, "board", "store", f"full-{RESOURCE}"), "rb") as sent, open(os.path.join(room, "host", into), "rb") as got:
        if sent.read() != got.read():
            sys.exit("what arrived isn't what was sent")
    os.unlink(os.path.join(room, "host", into))
    return taken


def main():
    launcher = os.path.join(TOP, "kirofantse")
    subprocess.run([launcher, "build"], check=True)
    program = os.path.join(TOP, "crates", "pw_main", "out", "pw_main")
    stored = f"store/full-{RESOURCE}"
    ways = {
        "get": (
            lambda socket: [program, "serve", socket, "1", "1"],
            lambda socket: [program, "get", socket, str(RESOURCE), "0"],
            stored,
        )
    }
    if shutil.which("socat"):
        ways["socat"] = (
            lambda socket: ["socat", "-u", "-b65536", f"OPEN:{stored},rdonly", "UNIX-LISTEN:" + socket],
            lambda socket: ["socat", "-u", "-b65536", "UNIX-CONNECT:" + socket, "CREATE:copied"],
            "copied",
        )
    print(f"{os.cpu_count()} processors, MB/s of the resource, best of 3")
    print("| resource | " + " | ".join(ways) + " |")
    print("|---|" + "---|" * len(ways))
    for size in (MIB, 4 * MIB, 16 * MIB):
        with tempfile.TemporaryDirectory() as room:
            os.makedirs(os.path.join(room, "board", "store"))
            os.makedirs(os.path.join(room, "host", "store"))
            with open(os.path.join(room, "board", stored), "wb") as out:
                out.write(random.Random(size).randbytes(size))
            speeds = [size / min(seconds(room, *way) for _ in range(3)) / 1e6 for way in ways.values()]
        print(f"| {size} | " + " | ".join(f"{speed:.1f}" for speed in speeds) + " |", flush=True)


if __name__ == "__main__":
    main()
