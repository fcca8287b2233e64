#!/usr/bin/env python3
"""Measures the program beside two plain servers in Rust, and compares what they write.

Builds bench/replay/plain_server.rs with rustc, bench/replay/crates_server with cargo on Debian's hashbrown, slab, bytes, memchr and
crc32fast (left out where they aren't there), and the program crates/pw_main with rt (proved, by LLVM). A plain server runs in two ways:
it keeps nothing, or each packet that came or went and an entry for each step, as the program has to.

run.py            the measured tables: load, recordings of 100,000 Echo calls and of calls left open, how both grow, and frames for
                  another address
run.py frames     the last of them alone
run.py compare N  N recordings with damage, repeated names and all packet types; the two must write the same
"""
import os
import random
import resource
import statistics
import subprocess
import sys
import zlib

HERE = os.path.dirname(os.path.abspath(__file__))
TOP = os.path.dirname(os.path.dirname(HERE))
sys.path.insert(0, os.path.join(TOP, "bench", "plain"))
import debian

BUILD = os.path.join(TOP, "bench", "build")
TURNS = 41
INPUT_LIMIT = 67_108_864
SERVICE = 0x70F45CFB
METHODS = [0x8B470EE9, 0xB63613B6, 0x09570BB8, 0x9BA981BC]


def built():
    os.makedirs(BUILD, exist_ok=True)
    plain = os.path.join(BUILD, "plain_server")
    source = os.path.join(HERE, "plain_server.rs")
    subprocess.run(["rustc", "-O", "--edition", "2021", "-o", plain, source], check=True)
    launcher = os.path.join(TOP, "kirofantse")
    subprocess.run([launcher, "build"], check=True)
    return os.path.join(TOP, "crates", "pw_main", "out", "pw_main"), plain


def written(command, recording=b""):
    return subprocess.run(command, input=recording, check=True, capture_output=True).stdout


# The processor time of the commands that have ended, so that other work on the machine counts for little.
def spent():
    usage = resource.getrusage(resource.RUSAGE_CHILDREN)
    return usage.ru_utime + usage.ru_stime


def seconds(command, recording=b""):
    times = []
    for _ in range(5):
        start = spent()
        out = written(command, recording)
        times.append(spent() - start)
        if times[-1] > 10:
            break
    return min(times), out


def measured(what, program, servers, words, recording=b""):
    best, told = seconds([program, *words[0]], recording)
    cells = [what, f"{best:.3f}"]
    for server in servers:
        for keeping in ((), ("keep",)):
            beside, wanted = seconds([server, *keeping, *words[1]], recording)
            if told != wanted:
                sys.exit(f"{what}: the two differ")
            cells += [f"{beside:.3f}", f"{best / beside:.1f}"]
    print(f"| {' | '.join(cells)} |", flush=True)
    return best


def table(program, servers):
    print(f"{os.cpu_count()} processors, seconds of processor time, best of 5 (of 1 where a run takes more than 10)")
    heads = [f"{kind}{keeping} | ratio" for kind in ("std", "crates")[:len(servers)] for keeping in ("", ", keeps")]
    print(f"| what | this program | {' | '.join(heads)} |")
    print("|---" * (2 + 4 * len(servers)) + "|")
    raw = ["replay", "raw"], ["raw"]
    echo = written([servers[0], "recording", "echo", "100000"])
    measured("`replay raw`, 100,000 Echo calls", program, servers, raw, echo)
    spans = []
    for n in ("10000", "30000"):
        left_open = written([servers[0], "recording", "open", n])
        spans.append(measured(f"`replay raw`, {n} calls of Chat left open", program, servers, raw, left_open))
    times = []
    for n in ("7500", "15000", "30000"):
        words = ["load", n, "7"]
        times.append(measured(f"`load {n} 7`", program, servers, (words, words)))
    print(f"three times as many calls left open take {spans[1] / spans[0]:.2f} times as long")
    print(f"load grows by {times[1] / times[0]:.2f} and {times[2] / times[1]:.2f} where its calls double")


# Each reads the same file, and they take turns: a run is so short that one of them tells little.
def frames_table(program, servers):
    print(f"frames for another address, seconds of processor time, {TURNS} turns: best; median")
    heads = [f"{kind} | ratio" for kind in ("std", "crates")[:len(servers)]]
    print(f"| payload | MB | this program | {' | '.join(heads)} |")
    print("|---" * (3 + 2 * len(servers)) + "|")
    commands = [[program, "replay", "raw"], *([server, "raw"] for server in servers)]
    for length in (16, 256, 4096):
        stream = other_frames(length)
        path = os.path.join(BUILD, "frames")
        with open(path, "wb") as file:
            file.write(stream)
        turns = [[spent_on(command, path) for command in commands] for _ in range(TURNS)]
        (best, middle), *beside = [(min(times), statistics.median(times)) for times in zip(*turns)]
        cells = [str(length), f"{len(stream) / 1e6:.0f}", f"{best:.3f}; {middle:.3f}"]
        for least, median in beside:
            cells += [f"{least:.3f}; {median:.3f}", f"{best / least:.2f}; {middle / median:.2f}"]
        print(f"| {' | '.join(cells)} |", flush=True)


# Frames for another address are answered by nothing.
def spent_on(command, path):
    with open(path, "rb") as file:
        start = spent()
        out = subprocess.run(command, stdin=file, check=True, capture_output=True).stdout
    if out:
        sys.exit(f"{command}: it answers frames for another address")
    return spent() - start


# Frames of random octets for the address 123, as many as one input may have.
def other_frames(length):
    rng = random.Random(length)
    heads = (b"\xf7\x03" + rng.randbytes(length) for _ in range((1 << 20) // length))
    block = b"".join(flagged(head + zlib.crc32(head).to_bytes(4, "little")) for head in heads)
    return block * (INPUT_LIMIT // len(block))


def flagged(content):
    return b"\x7e" + content.replace(b"\x7d", b"\x7d\x5d").replace(b"\x7e", b"\x7d\x5e") + b"\x7e"


def varint(value):
    out = bytearray()
    while value > 0x7F:
        out.append(value & 0x7F | 0x80)
        value >>= 7
    return bytes(out) + bytes([value])


def packet(rng):
    method = rng.choice(METHODS * 4 + [0, 12345])
    channel = rng.choice([1] * 12 + [0, 2, 8, 9])
    ptype = rng.choice([0, 0, 0, 2, 2, 2, 4, 8, 8, 1, 3, 5, 99])
    payload = rng.choice([b"", b"\x03", b"\x40", b"\x41", rng.randbytes(rng.randrange(40)), bytes(rng.choice([7990, 8000, 8001]))])
    out = varint(8) + varint(ptype) + varint(16) + varint(channel)
    out += b"\x1d" + SERVICE.to_bytes(4, "little") + b"\x25" + method.to_bytes(4, "little")
    if payload:
        out += b"\x2a" + varint(len(payload)) + payload
    out += varint(48) + varint(rng.choice([0, 1, 6, 17, 200])) + varint(56) + varint(rng.randrange(4))
    return rng.choice([out] * 20 + [out[:-1], out + b"\x07"])


def frame(rng):
    head = rng.choice([b"\xa5"] * 20 + [b"\xf7", b"\xa4\x01"]) + rng.choice([b"\x03"] * 20 + [b"\x13"]) + packet(rng)
    return flagged(head + zlib.crc32(head).to_bytes(4, "little"))


def recording(seed):
    rng = random.Random(seed)
    stream = bytearray(b"".join(frame(rng) for _ in range(rng.randrange(30))))
    for _ in range(rng.choice([0, 0, 1, 5])):
        if stream:
            stream[rng.randrange(len(stream))] = rng.choice([0x7E, 0x7D, rng.randrange(256)])
    return bytes(stream)


def compare(program, plain, count):
    for seed in range(count):
        stream = recording(seed)
        for ours, theirs in ((["replay"], ["report"]), (["replay", "raw"], ["raw"])):
            if written([program, *ours], stream) != written([plain, *theirs], stream):
                sys.exit(f"{' '.join(ours)}: the two differ on recording {seed}")
        text = written([program, "replay", "journal"], stream)
        verdict = written([program, "check"], text)
        if verdict != b"legal %d\n" % text.count(b"\n"):
            sys.exit(f"check: the journal of recording {seed} isn't legal: {verdict}")
    print(f"{count} recordings: the two write the same, and each journal is legal")


def main():
    program, plain = built()
    if sys.argv[1:2] == ["compare"]:
        compare(program, plain, int(sys.argv[2]))
    else:
        crates = ("bytes", "crc32fast", "hashbrown", "memchr", "slab")
        fast = debian.built(os.path.join(HERE, "crates_server"), crates, BUILD)
        servers = [plain] + [fast] * (fast is not None)
        if sys.argv[1:2] != ["frames"]:
            table(program, servers)
        frames_table(program, servers)


if __name__ == "__main__":
    main()
