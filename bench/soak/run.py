#!/usr/bin/env python3
"""Soaks `host`: 20,000 connections, a third of them bad, while its memory, its open files and its folder are watched.

The bad ones send garbage, half a frame, a flood of flags, or an upload, and then reset, close with their answer unread, or shut
their writing side and go. The others call Echo, and read the answer. In each twentieth of the run one upload is cut, and one goes on
with it. Prints a line for each twentieth: connections, seconds, resident memory, open files, files of the folder. Fails where a good
connection isn't answered, where the last twentieth holds more than 8 MB more than the second, or more files, and where the program
doesn't end by SIGTERM alone. Run by hand: it takes a minute or two. The arguments are the number of connections and a seed. Builds the
program with rt (proved, by LLVM).
"""
import os
import random
import signal
import socket
import struct
import subprocess
import sys
import tempfile
import time

HERE = os.path.dirname(os.path.abspath(__file__))
TOP = os.path.dirname(os.path.dirname(HERE))
REQUEST = bytes.fromhex("7ea50310011dfb5cf47025e90e478b2a03616263380103edce637e")
ANSWER = bytes.fromhex("7ea503080110011dfb5cf47025e90e478b2a0361626338019794283c7e")
# REQUEST of Write, START of resource 7, its confirmation, and one piece of data: an upload that is never finished.
UPLOAD = bytes.fromhex(
    "7ea50310011d7bc8d65b25860563d438016b08f3627e"
    "7ea503080210011d7bc8d65b25860563d42a085001580768027001380111dfef697e"
    "7ea503080210011d7bc8d65b25860563d42a065007600168023801949e72ef7e"
    "7ea503080210011d7bc8d65b25860563d42a0d320768656c6c6f2c205000600138013d7f45ff7e"
)
STEPS = 20
SLACK_KB = 8 * 1024


def connect(path):
    for _ in range(2000):
        try:
            link = socket.socket(socket.AF_UNIX)
            link.connect(path)
            return link
        except (FileNotFoundError, ConnectionRefusedError, BlockingIOError):
            link.close()
            time.sleep(0.005)
    sys.exit("nobody listens")


def read_all(link):
    pieces = []
    while piece := link.recv(65536):
        pieces.append(piece)
    return b"".join(pieces)


def good(path):
    with connect(path) as link:
        link.sendall(REQUEST)
        link.shutdown(socket.SHUT_WR)
        if read_all(link) != ANSWER:
            sys.exit("a good connection got another answer")


# What a bad client sends.
def hostile(draw):
    return draw.choice(
        (
            lambda: draw.randbytes(draw.randrange(1, 4096)),
            lambda: REQUEST[: draw.randrange(1, len(REQUEST))],
            lambda: b"\x7e" * draw.randrange(1, 100_000),
            lambda: REQUEST * draw.randrange(1, 50),
            lambda: UPLOAD,
        )
    )()


def bad(path, draw):
    link = connect(path)
    try:
        link.sendall(hostile(draw))
        how = draw.randrange(3)
        if how == 0:
            # Closed at once, with what comes unread.
            link.setsockopt(socket.SOL_SOCKET, socket.SO_LINGER, struct.pack("ii", 1, 0))
        elif how == 1:
            link.shutdown(socket.SHUT_WR)
        else:
            link.settimeout(0.002)
            try:
                link.recv(1)
            except TimeoutError:
                pass
    except (BrokenPipeError, ConnectionResetError):
        pass
    finally:
        link.close()


def memory_kb(process):
    with open(f"/proc/{process}/status") as status:
        return next(int(line.split()[1]) for line in status if line.startswith("VmRSS:"))


def watch(process, store):
    return memory_kb(process), len(os.listdir(f"/proc/{process}/fd")), sorted(os.listdir(store))


def soak(room, program, connections, seed):
    draw = random.Random(seed)
    path, store = os.path.join(room, "link"), os.path.join(room, "store")
    serving = subprocess.Popen([program, "host", path, "2"], stdin=subprocess.DEVNULL, stdout=subprocess.DEVNULL, cwd=room)
    watched, start = [], time.monotonic()
    print("| connections | seconds | resident kB | open files | folder |")
    print("|---|---|---|---|---|")
    try:
        for step in range(STEPS):
            for _ in range(connections // STEPS):
                bad(path, draw) if draw.randrange(3) == 0 else good(path)
            # What is behind a good connection stands: the bad ones before it have ended.
            good(path)
            watched.append(watch(serving.pid, store))
            memory, files, names = watched[-1]
            print(f"| {(step + 1) * (connections // STEPS)} | {time.monotonic() - start:.0f} | {memory} | {files} | {' '.join(names)} |", flush=True)
        if serving.poll() is not None:
            sys.exit(f"the run ended with {serving.returncode}")
    finally:
        serving.send_signal(signal.SIGTERM)
        status = serving.wait()
    if status != -signal.SIGTERM:
        sys.exit(f"the run ended with {status}")
    if watched[-1][0] > watched[1][0] + SLACK_KB:
        sys.exit("the memory grows")
    if watched[-1][1] > watched[1][1]:
        sys.exit("the open files grow")
    if any(name not in ("left-7",) and not name.startswith("work-") for name in watched[-1][2]) or len(watched[-1][2]) > 2:
        sys.exit("the folder grows")


def main():
    connections = int(sys.argv[1]) if len(sys.argv) > 1 else 20_000
    seed = int(sys.argv[2]) if len(sys.argv) > 2 else 1
    launcher = os.path.join(TOP, "kirofantse")
    subprocess.run([launcher, "build"], check=True)
    program = os.path.join(TOP, "crates", "pw_main", "out", "pw_main")
    with tempfile.TemporaryDirectory() as room:
        os.makedirs(os.path.join(room, "store"))
        soak(room, program, connections, seed)


if __name__ == "__main__":
    main()
