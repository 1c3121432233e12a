#!/usr/bin/env python3
"""verdicts.py TOOLS: writes vectors/recorded/verdicts.txt, a call a line: accept, reject and let_go on opens of the device's;
docs/VECTORS.md says how the calls are answered.

TOOLS is the folder with the programs `oracle` and `gen` (oracle/README.md): oracle/scripts/verdicts.txt, a table of 64 channels
that are all accepted, with one more that is not, and scripts of `gen`. Left out are the calls on no connection.
"""
import os
import re
import struct
import subprocess
import sys

TOOLS = sys.argv[1]
SCRIPT = os.path.join(os.path.dirname(os.path.abspath(__file__)), "../oracle/scripts/verdicts.txt")
SEEDS, CALLS = range(101, 113), 200
VERSION = 0x0100_0001


def lines_of(words, script=None):
    return subprocess.run(words, stdin=script, check=True, capture_output=True, text=True).stdout.splitlines()


def open_frame(remote, credit, name):
    word = struct.unpack("<I", b"OPEN")[0]
    return (struct.pack("<6I", word, remote, credit, len(name), 0, word ^ 0xFFFF_FFFF) + name).hex()


def full_table(delayed):
    """64 opens that wait, all accepted, every fourth let go first; one more, of which the device is told by a CLSE."""
    yield f"make 64 16 16 16 {VERSION} 64 {delayed} {delayed}"
    for i in range(64):
        yield f"dispatch {open_frame(201 + i, 32 * delayed, b'd%d' % i)}"
    for i in range(64):
        if i % 4 == 0:
            yield "take_front"
            yield "let_go"
        yield "take_front"
        yield "accept"
    yield f"dispatch {open_frame(300, 32 * delayed, b'more')}"
    for call in ("take_front", "accept", "in_use", "close 31 32"):
        yield call
    yield f"dispatch {open_frame(301, 32 * delayed, b'again')}"
    for call in ("take_front", "accept", "in_use"):
        yield call


def main():
    with open(SCRIPT) as script:
        parts = [lines_of([f"{TOOLS}/oracle", "--expand"], script)]
    parts += [list(full_table(delayed)) for delayed in (0, 1)]
    parts += [lines_of([f"{TOOLS}/gen", str(seed), str(CALLS), "--verdicts"]) for seed in SEEDS]
    for line in (line for part in parts for line in part):
        if line.strip() and not line.startswith(("#", "has_feature", "decode", "missing")):
            print(re.sub(r"\b0x[0-9a-f]+\b", lambda word: str(int(word[0], 16)), line))


main()
