#!/usr/bin/env python3
"""calls.py TOOLS: writes vectors/recorded/calls.txt, a call a line; docs/VECTORS.md says how the calls are answered.

TOOLS is the folder with the programs `oracle` and `gen` (oracle/README.md, which also describes the calls): the hand-written
scripts of oracle/scripts go through `oracle --expand`, and `gen` writes the generated ones. Left out are the calls on no
connection (has_feature, decode, missing; crates/replay_protocol has them) and lines of over 32,768 characters. Numbers are written in decimal.
"""
import os
import re
import struct
import subprocess
import sys

TOOLS = sys.argv[1]
SCRIPTS = os.path.join(os.path.dirname(os.path.abspath(__file__)), "../oracle/scripts")
SEEDS = range(1, 19)
CALLS = 200
LONGEST = 32768  # characters of a line
VERSION, TOP = 0x0100_0001, 0xFFFF_FFFF


def lines_of(words, script=None):
    return subprocess.run(words, stdin=script, check=True, capture_output=True, text=True).stdout.splitlines()


def expanded(name):
    with open(f"{SCRIPTS}/{name}") as script:
        return lines_of([f"{TOOLS}/oracle", "--expand"], script)


def generated(seed):
    # Every third script also sets budgets to the ends of their range.
    return lines_of([f"{TOOLS}/gen", str(seed), str(CALLS)] + ["--budget"] * (seed % 3 == 0))


def frame(name, arg0, arg1, data=b""):
    word = struct.unpack("<I", name)[0]
    return (struct.pack("<6I", word, arg0, arg1, len(data), 0, word ^ TOP) + data).hex()


def credit(z):
    return struct.pack("<i", z)


def full_table(delayed):
    """64 channels all open, 64 opens that wait, and one more of each; then the table empties."""
    yield f"make 64 16 16 16 {VERSION} 64 {delayed} {delayed}"
    data = credit(9) if delayed else b""
    for i in range(64):
        yield "open 7368 -"
        yield f"open - {frame(b'OKAY', 101 + i, 1 + i, data)}"
    yield "open 7368 -"
    yield "in_use"
    for i in range(65):
        yield f"dispatch {frame(b'OPEN', 201 + i, 32 * delayed, b'd%d' % i)}"
    for i in (63, 0, 31):
        yield f"dispatch {frame(b'WRTE', 101 + i, 1 + i, bytes(range(16)))}"
        yield f"read {i} {1 + i} 5 -"
        yield f"write {i} {1 + i} 0a0b0c -"
    yield f"dispatch {frame(b'CLSE', 232, 0)}"
    yield f"dispatch {frame(b'CLSE', 164, 0)}"
    for i in range(4):
        yield "take_front"
    yield f"dispatch {frame(b'OPEN', 300, 0, b'again')}"
    for i in range(63, -1, -1):
        yield f"close {i} {1 + i}"
    yield "in_use"
    for i in range(62):
        yield "take_front"


def full_payloads(delayed):
    """Payloads of 4,096 bytes, the most that is taken, into a cap of 8,192, read in parts; writes of more than one payload."""
    yield f"make 2 4096 8192 8192 {VERSION} 2000 {delayed} {delayed}"
    yield "open 7368 -"
    yield f"open - {frame(b'OKAY', 7, 1, credit(5000) if delayed else b'')}"
    block = bytes(i * 7 % 251 for i in range(4096))
    yield f"dispatch {frame(b'WRTE', 7, 1, block)}"
    yield f"dispatch {frame(b'WRTE', 7, 1, block)}"
    yield f"dispatch {frame(b'WRTE', 7, 1, block[:1])}"
    for n in (3000, 3000, 3000):
        yield f"read 0 1 {n} -"
    yield f"read 0 1 5000 {frame(b'WRTE', 7, 1, block)}"
    yield f"dispatch {frame(b'WRTE', 7, 1, block + block[:1])}"
    for _ in range(4):
        yield f"write 0 1 {block.hex()} -"
    yield f"write 0 1 {block.hex()} {frame(b'OKAY', 7, 1, credit(1999) if delayed else b'')}"
    yield "close 0 1"


def decimal(line):
    return re.sub(r"\b0x[0-9a-f]+\b", lambda word: str(int(word[0], 16)), line)


def main():
    parts = [expanded("marked.txt"), expanded("findings.txt")]
    parts += [list(part(delayed)) for part in (full_table, full_payloads) for delayed in (0, 1)]
    parts += [generated(seed) for seed in SEEDS]
    for line in (line for part in parts for line in part):
        if line.strip() and not line.startswith(("#", "has_feature", "decode", "missing")) and len(line) <= LONGEST:
            print(decimal(line))


main()
