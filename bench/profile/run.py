#!/usr/bin/env python3
"""Counts the instructions of the program by its parts, under valgrind's callgrind, so that company on the machine changes nothing.

run.py PROGRAM   a built program, as crates/pw_main/out/pw_main

A row of the table is what one unit costs: a call, a frame, a chunk of an upload or of a fetch. What the kernel does isn't in it. Wants
valgrind and rustc.
"""
import collections
import importlib.util
import os
import random
import re
import subprocess
import sys
import tempfile

HERE = os.path.dirname(os.path.abspath(__file__))
BENCH = os.path.dirname(HERE)
KIB = 1 << 10
# The first pattern that a function's name has tells its part.
PARTS = (
    ("names", r"newest_calls|btree|hash_map|hashbrown|std_collections"),
    ("decoder", r"hdlc_frame::(decoder|machine|judge|octets|pieces)|unescape|memchr"),
    ("check sequence", r"hdlc_frame::(crc|lanes)|register_after"),
    ("encoder", r"hdlc_frame::"),
    ("packets", r"rpc_packet|proto_wire|rpc_frames|transfer_chunk"),
    ("table and journal", r"rpc_journal|rpc_calls|rpc_shared|turn_cell"),
    ("loops", r"rpc_schedule|rpc_server|rpc_crew|live_client|pw_run|run_report|load_stream"),
    ("handlers", r"demo_services|transfer_|task_core|rpc_handlers"),
    ("store", r"link_io|std::fs"),
    ("allocator", r"malloc|free|realloc|calloc|morecore"),
    ("copies", r"memmove|memset|memcpy"),
    ("vectors", r"std_alloc|bytes::|core::"),
)


def script(name):
    spec = importlib.util.spec_from_file_location(name, os.path.join(BENCH, name, "run.py"))
    made = importlib.util.module_from_spec(spec)
    spec.loader.exec_module(made)
    return made


replay, router, uploads, live = (script(name) for name in ("replay", "router", "uploads", "live"))


def under(room, words):
    return ["valgrind", "--tool=callgrind", f"--callgrind-out-file={room}/counts", *words]


# The instructions of each part, of the run that left its counts in this folder.
def parts_of(room):
    words = ["callgrind_annotate", "--threshold=100", f"{room}/counts"]
    told = subprocess.run(words, check=True, capture_output=True, text=True).stdout
    found = collections.Counter()
    for line in told.splitlines():
        row = re.match(r"\s*([\d,]+) \(\s*[\d.]+%\)\s+(\S+:.*)", line)
        if row:
            part = next((part for part, pattern in PARTS if re.search(pattern, row[2])), "others")
            found[part] += int(row[1].replace(",", ""))
    return found


def row(what, units, found):
    cells = [sum(found.values()), *(found[part] for part, _ in PARTS), found["others"]]
    print("| " + " | ".join([what, *(f"{cell / units:,.0f}" for cell in cells)]) + " |", flush=True)


def counted(words, given):
    with tempfile.TemporaryDirectory() as room:
        done = {"check": True, "cwd": room, "stdout": subprocess.DEVNULL, "stderr": subprocess.DEVNULL}
        subprocess.run(under(room, words), input=given, **done)
        return parts_of(room)


# Both ends of a fetch of 128 KiB, the one that is wanted under callgrind.
def fetched(program, of_client):
    with tempfile.TemporaryDirectory() as room:
        ends = [os.path.join(room, end) for end in ("board", "host")]
        for end in ends:
            os.makedirs(os.path.join(end, "store"))
        with open(os.path.join(ends[0], "store", f"full-{live.RESOURCE}"), "wb") as out:
            out.write(random.Random(7).randbytes(128 * KIB))
        socket = os.path.join(room, "socket")
        words = [[program, "serve", socket, "1", "1"], [program, "get", socket, str(live.RESOURCE), "0"]]
        words[of_client] = under(ends[of_client], words[of_client])
        quiet = {"stdin": subprocess.DEVNULL, "stdout": subprocess.DEVNULL, "stderr": subprocess.DEVNULL}
        server = subprocess.Popen(words[0], cwd=ends[0], **quiet)
        while not os.path.exists(socket):
            if server.poll() is not None:
                sys.exit("serve has ended")
        subprocess.run(words[1], cwd=ends[1], check=True, **quiet)
        server.wait()
        return parts_of(ends[of_client])


def main():
    if len(sys.argv) != 2:
        sys.exit(__doc__)
    program = os.path.abspath(sys.argv[1])
    os.makedirs(replay.BUILD, exist_ok=True)
    plain = os.path.join(replay.BUILD, "plain_server")
    subprocess.run(["rustc", "-O", "--edition", "2021", "-o", plain, os.path.join(BENCH, "replay", "plain_server.rs")], check=True)
    recording = lambda kind, count: replay.written([plain, "recording", kind, str(count)])
    print("| a | all | " + " | ".join(part for part, _ in PARTS) + " | others |")
    print("|---|---|" + "---|" * (len(PARTS) + 1))
    row("call of Echo", 10_000, counted([program, "replay", "raw"], recording("echo", 10_000)))
    row("call of Chat left open", 10_000, counted([program, "replay", "raw"], recording("open", 10_000)))
    row("call of `load`", 3_000, counted([program, "load", "3000", "7"], b""))
    row("call of Echo, `crew 1`", 5_000, counted([program, "crew", "1"], recording("echo", 5_000)))
    for length in (16, 256):
        stream = router.stream(length)[:2_000_000]
        row(f"frame of {length} for another address", stream.count(0x7E) / 2, counted([program, "replay"], stream))
    chunks = b"".join(uploads.recording(random.Random(16).randbytes(KIB * KIB), uploads.CHUNK))
    row("chunk of an upload", KIB * KIB / uploads.CHUNK, counted([program, "replay"], chunks))
    for of_client, end in enumerate(("server", "client")):
        row(f"chunk of a `get`, its {end}", 512, fetched(program, of_client))


if __name__ == "__main__":
    main()
