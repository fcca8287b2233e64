#!/usr/bin/env python3
"""Each request for memory of the program is refused once, by its number, upwards until a run meets no refusal.

A run that is refused one ends with status 1 and writes nothing, or ends and writes as one that is refused none. Where it makes links it
may also end with status 6 and write nothing: the refusal then was one of the linker, which failed. Anything else, such as a signal, is
told, and the script ends with 1. It wants Linux with glibc and a C compiler. `run.py 'crew 2'` tries that command alone.
"""

import collections
import concurrent.futures
import contextlib
import os
import socket
import subprocess
import sys
import tempfile
import threading
import time

TOP = os.path.dirname(os.path.dirname(os.path.dirname(os.path.abspath(__file__))))
PROGRAM = f"{TOP}/crates/pw_main/out/pw_main"
SECONDS = 60


def contents(path):
    with open(f"{TOP}/{path}", "rb") as file:
        return file.read()


CALL = contents("crates/pw_main/stdin")
UPLOAD = contents("examples/upload/recording")
SCRIPT = contents("examples/link/script.txt")
JOURNAL = b"""journal
0 arrive 10011dfb5cf47025e90e478b2a036162633801
2 start 0
2 finish 0 0:616263
1 flush
0 endin
"""
# The formats, and a message of the second one.
MESSAGES = contents("examples/log/formats.txt") + b"text b6d33987c233\n"
ROUTES = contents("examples/route/boards.txt")


@contextlib.contextmanager
def nobody(folder):
    """No other end of a link."""
    yield


def beside(work):
    """Does this in a thread; what ends it is that the links are closed, or that the event is set."""
    over = threading.Event()
    thread = threading.Thread(target=work, args=(over,), daemon=True)
    thread.start()
    return over, thread


def finish(link):
    """Sends nothing more, and reads to the end."""
    with contextlib.suppress(OSError):
        link.shutdown(socket.SHUT_WR)
        while link.recv(4096):
            pass
    link.close()


@contextlib.contextmanager
def a_caller(folder):
    """Connects to the program as soon as it listens, makes a call, and reads what is answered."""

    def work(over):
        while not over.is_set():
            link = socket.socket(socket.AF_UNIX)
            try:
                link.connect(f"{folder}/ran/link")
            except OSError:
                link.close()
                time.sleep(0.002)
                continue
            with contextlib.suppress(OSError):
                link.sendall(CALL)
            finish(link)
            return

    over, thread = beside(work)
    yield
    over.set()
    thread.join(SECONDS)


@contextlib.contextmanager
def two_ends(folder):
    """Listens at two paths; a frame comes from the left, and what comes to the right is read."""
    ends = []
    for name in ("left", "right"):
        end = socket.socket(socket.AF_UNIX)
        end.bind(f"{folder}/ran/{name}")
        end.listen(1)
        end.settimeout(0.05)
        ends.append(end)

    def accepted(end, over):
        while not over.is_set():
            with contextlib.suppress(TimeoutError):
                return end.accept()[0]
        return None

    def work(over):
        links = [accepted(end, over) for end in ends]
        if links[0]:
            with contextlib.suppress(OSError):
                links[0].sendall(CALL)
                links[0].shutdown(socket.SHUT_WR)
        for link in reversed(links):
            if link:
                finish(link)

    over, thread = beside(work)
    yield
    over.set()
    thread.join(SECONDS)
    for end in ends:
        end.close()


@contextlib.contextmanager
def a_server(folder):
    """The program serves one connection, with a resource, and is refused nothing."""
    os.makedirs(f"{folder}/host/store")
    with open(f"{folder}/host/store/full-7", "wb") as file:
        file.write(bytes(1000))
    words = [PROGRAM, "serve", f"{folder}/host/link", "1", "1"]
    quiet = subprocess.DEVNULL
    server = subprocess.Popen(words, stdin=quiet, stdout=quiet, cwd=f"{folder}/host")
    # Once the file is there, it can be connected to.
    while not os.path.exists(f"{folder}/host/link") and server.poll() is None:
        time.sleep(0.002)
    yield
    # Where no client came it still waits for one.
    server.terminate()
    server.wait()


# The words, what the program is given, what its store has, and who is at the other end of a link.
Case = collections.namedtuple("Case", "words given store other", defaults=[b"", {}, nobody])
CASES = [
    Case("replay", CALL + UPLOAD),
    Case("replay raw", CALL + UPLOAD),
    Case("replay journal", CALL),
    Case("load 4 7"),
    Case("check", JOURNAL),
    Case("detoken", MESSAGES),
    Case("route", ROUTES),
    Case("crew 2", CALL + UPLOAD),
    Case("link", SCRIPT),
    Case("serve link 1 1", other=a_caller),
    Case("bridge left right 82 1", other=two_ends),
    Case("get ../host/link 7 0", other=a_server),
    Case("put ../host/link 8 0", store={"full-8": bytes(1000)}, other=a_server),
    Case("watch ../host/link 2 8", other=a_server),
    Case("call ../host/link demo.Demo Chat bidi - 616263", other=a_server),
    Case("dump", CALL + UPLOAD),
]
MAKES_LINKS = ("serve", "bridge", "get", "put", "watch", "call")

# What a run ended with, what it wrote, and whether a request was refused.
Ran = collections.namedtuple("Ran", "status output refused")


def run(library, case, number):
    """Runs the program in a folder of its own, where this request is refused; 0 refuses none."""
    with tempfile.TemporaryDirectory() as folder:
        os.makedirs(f"{folder}/ran/store")
        for name, content in case.store.items():
            with open(f"{folder}/ran/store/{name}", "wb") as file:
                file.write(content)
        told = f"{folder}/refused"
        env = {"LD_PRELOAD": library, "REFUSE": str(number), "REFUSED": told}
        with case.other(folder):
            try:
                ran = subprocess.run(
                    [PROGRAM, *case.words.split()],
                    input=case.given,
                    stdout=subprocess.PIPE,
                    cwd=f"{folder}/ran",
                    env=env,
                    timeout=SECONDS,
                )
            except subprocess.TimeoutExpired:
                return Ran("no end", b"", True)
        return Ran(ran.returncode, ran.stdout, os.path.exists(told))


def sweep(library, case):
    """Refuses each request in turn. Tells how the runs ended, and answers how many ended as none may."""
    whole = run(library, case, 0)
    if whole.status != 0 or not whole.output or whole.refused:
        print(f"memory: {case.words}: a run that is refused nothing ends with {whole.status} and {len(whole.output)} bytes")
        return 1
    links = case.words.split()[0] in MAKES_LINKS
    ends = collections.Counter()
    wrong = []
    with concurrent.futures.ThreadPoolExecutor(os.cpu_count()) as pool:
        first, met = 1, True
        while met:
            numbers = range(first, first + 64)
            for number, ran in zip(numbers, pool.map(lambda n: run(library, case, n), numbers)):
                if not ran.refused:
                    met = False
                elif ran[:2] == (1, b""):
                    ends["ended with 1"] += 1
                elif links and ran[:2] == (6, b""):
                    ends["ended with 6"] += 1
                elif ran[:2] == whole[:2]:
                    ends["ended as without it"] += 1
                else:
                    wrong.append((number, ran))
            first += 64
    refusals = sum(ends.values()) + len(wrong)
    told = "".join(f", {count} {end}" for end, count in sorted(ends.items()))
    print(f"memory: {case.words} (status {whole.status}): {refusals} refusals{told}, {len(wrong)} otherwise")
    for number, ran in wrong[:5]:
        print(f"  request {number}: status {ran.status}, {len(ran.output)} bytes: {ran.output[-80:]!r}")
    # A run that asks for no memory would show nothing.
    return len(wrong) if refusals else 1


def main():
    chosen = sys.argv[1:]
    if subprocess.run([f"{TOP}/kirofantse", "build"], stdin=subprocess.DEVNULL).returncode:
        sys.exit("the program can't be built")
    with tempfile.TemporaryDirectory() as folder:
        library = f"{folder}/refuse.so"
        source = f"{TOP}/bench/memory/refuse.c"
        subprocess.run(["cc", "-O2", "-shared", "-fPIC", "-o", library, source], check=True)
        wrong = sum(sweep(library, case) for case in CASES if not chosen or case.words.split()[0] in chosen or case.words in chosen)
    sys.exit(1 if wrong else 0)


if __name__ == "__main__":
    main()
