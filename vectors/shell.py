#!/usr/bin/env python3
"""Writes the calls that crates/replay_shell replays, one a line, or with --answers the lines that it is to write.

    read BYTES
    write KIND DATA ROOM        zeros KIND LENGTH ROOM
    session PIECE BYTES

BYTES and DATA in hexadecimal, - for none; zeros writes a frame with so many zero bytes; a session's bytes arrive PIECE at a time.
Answers are worked out here by Python's struct, of a session from all its bytes at once, and not by the crates. docs/VECTORS.md says
where the recorded session is from.
"""
import pathlib
import random
import struct
import sys

EXIT = 3
TOP = 0xFFFF_FFFF
answers = "--answers" in sys.argv
chance = random.Random(8)


def hexed(data):
    return data.hex() if data else "-"


def packed(kind, data):
    return struct.pack("<BI", kind, len(data)) + data


def parsed(data):
    """A frame at the start of data: its kind, its data and its length; or a refusal's number, or 100."""
    if not data:
        return 100
    if data[0] > 5:
        return 18
    if len(data) < 5:
        return 100
    kind, length = struct.unpack("<BI", data[:5])
    if kind == EXIT and length == 0:
        return 19
    if len(data) < 5 + length:
        return 100
    return kind, data[5:5 + length], 5 + length


def read(data):
    got = parsed(data)
    if not answers:
        print(f"read {hexed(data)}")
    elif got == 100:
        print("waiting used=0")
    elif isinstance(got, int):
        print(f"refused {got} used=0")
    else:
        kind, body, used = got
        code = body[0] if kind == EXIT else 0
        print(f"frame kind={kind} data={hexed(body)} code={code} back={hexed(data[:used])} used={used}")


def write(kind, data, room, word="write"):
    if not answers:
        print(word, kind, len(data) if word == "zeros" else hexed(data), room)
        return
    number, made = 0, b""
    if kind > 5:
        number = 18
    elif kind == EXIT and not data:
        number = 19
    elif room < 5 + len(data):
        number = 9
    else:
        made = packed(kind, data)
    print(f"written {number} n={len(made)} out={hexed(made + bytes(room - len(made)))}")


def session(piece, data):
    if not answers:
        print(f"session {piece} {hexed(data)}")
        return
    by_kind, used = [b""] * 6, 0
    while not isinstance(got := parsed(data[used:]), int):
        by_kind[got[0]] += got[1]
        used += got[2]
    print(f"session output={hexed(by_kind[1])} errors={hexed(by_kind[2])} exit={hexed(by_kind[3])} ending={got} used={used}")


DATA = [b"", b"a", b"out one\n", bytes(range(256)), bytes(300)]

# every kind with data of each sort: whole, with more behind it, and with room exact, longer, and a byte short
for kind in range(6):
    for data in DATA:
        frame = packed(kind, data)
        read(frame)
        read(frame + b"\x01\x02")
        read(frame + b"\xff")
        for room in (len(frame), len(frame) + 3, len(frame) - 1, 4, 0):
            write(kind, data, room)
    for n in range(13):
        read(packed(kind, b"out one\n")[:n])

# every first byte, alone and with a length of each sort; the writer's kinds past a byte
for kind in range(256):
    read(bytes([kind]))
    read(struct.pack("<BI", kind, 0))
    read(struct.pack("<BI", kind, 1) + b"\x07")
for kind in (6, 7, 255, 256, 257, 259, 0x0100_0003, TOP):
    write(kind, b"", 9)
    write(kind, b"a", 9)
    write(kind, b"a", 0)

# an exit: no data, one byte of every value, more; from each byte of its header
for code in range(256):
    read(packed(EXIT, bytes([code])))
for data in (b"\x07\x08", b"\x00\xff", bytes([255]) * 5):
    read(packed(EXIT, data))
    write(EXIT, data, 10)
for n in range(5):
    read(struct.pack("<BI", EXIT, 0)[:n])
write(EXIT, b"", 0)

# lengths that differ in one byte of four, and the longest
for length in (1, 255, 256, 257, 65_535, 65_536, 65_537, 0x0100_0000, 0x0100_0001, TOP):
    for kind in (1, EXIT):
        for n in (4, 5, 6, 8):
            read((struct.pack("<BI", kind, length) + b"abc")[:n])
for length in (255, 256, 257):
    read(struct.pack("<BI", 2, length) + bytes(i % 251 for i in range(length)))
    write(2, bytes(length), length + 5, "zeros")
for length in (65_535, 65_536, 65_537):
    write(1, bytes(length), 9, "zeros")
write(1, bytes(65_537), 65_542, "zeros")

# sessions: nothing; frames of every kind by chance, some with a refused or an unfinished one at the end, in pieces of several sizes
session(1, b"")
for turn in range(24):
    frames = [packed(kind := chance.randrange(6), chance.randbytes(chance.randrange(30) + (kind == EXIT)))
              for _ in range(chance.randrange(1, 12))]
    tail = [b"", b"\x06", b"\x03\0\0\0\0", b"\x01\x09\0\0\0abc", b"\x02\x09\0", b"\xff\0\0\0\0"][turn % 6]
    for piece in (1, 2, 5, 64, 10_000):
        session(piece, b"".join(frames) + tail + (b"\x01\x01\0\0\0z" if turn % 6 in (1, 2, 5) else b""))

# the recorded session: its frames, each with a few of the bytes behind it and cut in two; then as a whole, in pieces of many
# sizes; and the one frame that the host sent
here = pathlib.Path(__file__).parent / "shell"
got, sent = (here / "session.out").read_bytes(), (here / "session.in").read_bytes()
for data in (got, sent):
    rest = data
    while rest:
        used = parsed(rest)[2]
        read(rest[:used + 5])
        read(rest[:used // 2])
        rest = rest[used:]
for piece in (1, 2, 3, 4, 5, 6, 7, 8, 11, 13, 14, 26, 100, 1000, 2400, 2436, 2437, 4096):
    session(piece, got)
session(1, sent)
session(5, sent)
