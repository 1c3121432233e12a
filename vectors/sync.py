#!/usr/bin/env python3
"""Writes the calls that crates/replay_sync replays, one a line, or with --answers the lines that it is to write.

    read EXCHANGE BYTES
    write EXCHANGE ID LAYOUT A B C D TEXT ROOM        zeros EXCHANGE ID LAYOUT A B C D LENGTH ROOM
    v2 EXCHANGE ID LAYOUT ERROR DEV INO MODE NLINK UID GID SIZE ATIME MTIME CTIME LAST TEXT ROOM
    narrow 0 0 0 ERROR DEV INO MODE NLINK UID GID SIZE ATIME MTIME CTIME        old MODE SIZE MTIME

BYTES and TEXT in hexadecimal, - for none; zeros writes a text of so many zero bytes. Answers are worked out here by Python's
struct, from the table below, and not by the crates. docs/VECTORS.md says where the recorded streams are from.
"""
import pathlib
import struct
import sys

IDS = ["LIST", "RECV", "SEND", "STAT", "DATA", "DONE", "QUIT", "DENT", "OKAY", "FAIL", "LIS2", "STA2", "DNT2"]
TEXT, NUMBER, STAT, ENTRY, END, STAT2, ENTRY2, END2 = range(8)
# an exchange's messages: (id, layout)
EXCHANGES = [
    {"LIST": TEXT, "RECV": TEXT, "SEND": TEXT, "STAT": TEXT, "DATA": TEXT, "DONE": NUMBER, "QUIT": NUMBER,
     "LIS2": TEXT, "STA2": TEXT},
    {"DENT": ENTRY, "DONE": END},
    {"STAT": STAT},
    {"DATA": TEXT, "DONE": NUMBER, "FAIL": TEXT},
    {"OKAY": NUMBER, "FAIL": TEXT},
    {"DNT2": ENTRY2, "DONE": END2},
    {"STA2": STAT2},
]
# a layout's numbers, but for a text's length, and how struct packs them
V1 = ["mode", "size", "mtime"]
V2 = ["error", "dev", "ino", "mode", "nlink", "uid", "gid", "size", "atime", "mtime", "ctime"]
NAMES = {TEXT: [], NUMBER: ["number"], STAT: V1, ENTRY: V1, END: V1 + ["last"], STAT2: V2, ENTRY2: V2, END2: V2 + ["last"]}
PACK = {TEXT: "", NUMBER: "I", STAT: "3I", ENTRY: "3I", END: "4I", STAT2: "IQQ4IQ3q", ENTRY2: "IQQ4IQ3q", END2: "IQQ4IQ3qI"}
HAS_TEXT = (TEXT, ENTRY, ENTRY2)
WIDE = (STAT2, ENTRY2, END2)
TOP = 0xFFFF_FFFF
DATA_MAX = 65_536
answers = "--answers" in sys.argv


def hexed(data):
    return data.hex() if data else "-"


def form(layout):
    return "<" + PACK[layout] + ("I" if layout in HAS_TEXT else "")


def head_of(layout):
    return 4 + struct.calcsize(form(layout))


def packed(name, layout, numbers, text):
    words = list(numbers[:len(NAMES[layout])]) + ([len(text)] if layout in HAS_TEXT else [])
    return name.encode() + struct.pack(form(layout), *words) + text


def read_answer(x, data):
    if len(data) < 4:
        return "waiting used=0"
    name = data[:4].decode("latin-1")
    table = EXCHANGES[x] if x < len(EXCHANGES) else {}
    if name not in table:
        return "refused 14 used=0"
    layout = table[name]
    head = head_of(layout)
    if len(data) < head:
        return "waiting used=0"
    words = struct.unpack(form(layout), data[4:head])
    length = words[-1] if layout in HAS_TEXT else 0
    if name == "DATA" and length > DATA_MAX:
        return "refused 15 used=0"
    used = head + length
    if len(data) < used:
        return "waiting used=0"
    fields = "".join(f" {n}={w}" for n, w in zip(NAMES[layout], words))
    return f"message id={name}{fields} text={hexed(data[head:used])} back={hexed(data[:used])} used={used}"


def read(x, data):
    print(read_answer(x, data) if answers else f"read {x} {hexed(data)}")


def write_answer(x, name, layout, numbers, text, room):
    table = EXCHANGES[x] if x < len(EXCHANGES) else {}
    number, made = 0, b""
    if table.get(name) != layout:
        number = 14
    elif name == "DATA" and len(text) > DATA_MAX:
        number = 15
    elif layout not in HAS_TEXT and text or head_of(layout) + len(text) > room:
        number = 9
    else:
        made = packed(name, layout, numbers, text)
    return f"written {number} n={len(made)} out={hexed(made + bytes(room - len(made)))}"


def write(x, name, layout, numbers, text, room, word="write"):
    numbers = (list(numbers) + [0] * 12)[:12 if layout in WIDE else 4]
    word = "v2" if layout in WIDE else word
    if answers:
        print(write_answer(x, name, layout, numbers, text, room))
    else:
        shown = len(text) if word == "zeros" else hexed(text)
        print(word, x, IDS.index(name), layout, *numbers, shown, room)


SAMPLES = [[0, 0, 0, 0], [1, 2, 3, 4], [0o100644, 65_537, 1_700_000_000, 9], [TOP, TOP, TOP, TOP]]
FILE = [0, 0xFD01, 131_074, 0o100644, 1, 1000, 1000, 4_294_967_296, 1_700_000_001, -1, 1_700_000_003, 9]
WIDES = [[0] * 12, list(range(1, 13)), FILE,
         [TOP, 2 ** 64 - 1, 2 ** 64 - 1, TOP, TOP, TOP, TOP, 2 ** 64 - 1, -2 ** 63, 2 ** 63 - 1, -2, TOP]]
TEXTS = [b"", b"/", b"/data/a.txt", b"/data/x.bin,33188", bytes(range(256))]

# every message of every exchange: whole, with more behind it, and cut at every byte of its head and around its text's end
for x, table in enumerate(EXCHANGES):
    for name, layout in table.items():
        for numbers in WIDES if layout in WIDE else SAMPLES:
            for text in TEXTS if layout in HAS_TEXT else TEXTS[:1]:
                data = packed(name, layout, numbers, text)
                read(x, data)
                read(x, data + b"LIST\x01")
                write(x, name, layout, numbers, text, len(data))
                write(x, name, layout, numbers, text, len(data) + 3)
                write(x, name, layout, numbers, text, len(data) - 1)
        data = packed(name, layout, FILE if layout in WIDE else SAMPLES[2], b"/data")
        for n in range(len(data)):
            read(x, data[:n])

# every id and every number in every exchange, with exchanges that are none
for x in range(len(EXCHANGES) + 2):
    for name in IDS + ["list", "SND2", "\0\0\0\0", "TSIL"]:
        for n in (3, 4, 8, 20):
            read(x, (name.encode() + bytes(16))[:n])
    for name in IDS:
        for layout in range(5):
            write(x, name, layout, [5, 6, 7, 8], b"", 24)
        for layout in WIDE if name in ("STAT", "DONE", "LIS2", "STA2", "DNT2") else ():
            write(x, name, layout, FILE, b"", 76)
    read(TOP - x, b"QUIT\0\0\0\0")

# data at its maximum and past it; other texts have none
for length in (DATA_MAX - 1, DATA_MAX, DATA_MAX + 1, TOP):
    for x in (0, 3):
        for n in (7, 8, 9):
            read(x, (b"DATA" + struct.pack("<I", length) + b"a")[:n])
    read(0, b"SEND" + struct.pack("<I", length) + b"a")
    read(1, b"DENT" + struct.pack("<4I", 1, 2, 3, length) + b"a")
for length in (DATA_MAX, DATA_MAX + 1):
    for name in ("DATA", "RECV"):
        write(0, name, TEXT, [], bytes(length), 8, "zeros")
write(0, "DATA", TEXT, [], bytes(700), 708, "zeros")
read(0, packed("DATA", TEXT, [], bytes(i % 251 for i in range(DATA_MAX))) + b"DO")

# a text where there is none, and room for the head alone
for x, name, layout in ((0, "DONE", NUMBER), (1, "DONE", END), (2, "STAT", STAT), (4, "OKAY", NUMBER),
                        (5, "DONE", END2), (6, "STA2", STAT2)):
    write(x, name, layout, [1, 2, 3, 4], b"a", 96)
for x, name, layout in ((0, "LIST", TEXT), (1, "DENT", ENTRY), (4, "FAIL", TEXT), (5, "DNT2", ENTRY2)):
    write(x, name, layout, [1, 2, 3, 4], b"no", head_of(layout))

# every number of a stat by itself, so that no two can change places
for i in range(len(V2)):
    for bits in (1, 8, 31, 32, 63):
        if i in (1, 2, 7) or i > 7 or bits < 32:
            data = packed("STA2", STAT2, [(2 ** bits - 1 if j == i else 0) for j in range(len(V2))], b"")
            read(6, data)


def narrow(numbers):
    error, mode, size, mtime = numbers[0], numbers[3], numbers[7], numbers[9]
    if not answers:
        print("narrow 0 0 0", *numbers[:11])
    elif error:
        print("narrowed 17")
    elif size >= 2 ** 32 or not 0 <= mtime < 2 ** 32:
        print("narrowed 16")
    else:
        print(f"narrowed 0 mode={mode} size={size} mtime={mtime}")


# between the two layouts: at the ends of 32 bits, an error with and without a size or a time that is out of range, and widened
EDGES = [0, 1, 2 ** 32 - 1, 2 ** 32, 2 ** 63 - 1]
for error in (0, 1, 2, TOP):
    for size in EDGES + [2 ** 64 - 1]:
        for mtime in EDGES + [-1, -2 ** 32, -2 ** 63]:
            narrow([error, 5, 6, 0o100644, 7, 8, 9, size, -3, mtime, 2 ** 40])
OLDS = [(0, 0, 0), (1, 2, 3), (0o100644, 65_537, 1_700_000_000), (TOP, TOP, TOP), (TOP, 0, 1), (0, TOP, 2), (3, 4, TOP)]
for mode, size, mtime in OLDS:
    wide = [0, 0, 0, mode, 0, 0, 0, size, 0, mtime, 0]
    print("widened" + "".join(f" {n}={w}" for n, w in zip(V2, wide)) if answers else f"old {mode} {size} {mtime}")
    narrow(wide)

# the recorded streams, message by message, each with a few of the bytes behind it and cut in two
REPLIES = {"LIST": 1, "STAT": 2, "RECV": 3, "SEND": 4, "LIS2": 5, "STA2": 6}
LAST = {1: ("DONE",), 2: ("STAT",), 3: ("DONE", "FAIL"), 4: ("OKAY", "FAIL"), 5: ("DONE",), 6: ("STA2",)}


def replay(x, data):
    """The message at the start of data, and how long it is."""
    line = read_answer(x, data)
    assert line.startswith("message"), line
    used = int(line.rsplit("used=", 1)[1])
    read(x, data[:used + 5])
    read(x, data[:used // 2])
    return line[len("message id="):][:4], used


for stream in ("ls", "pull", "pull_missing", "push", "push_delayed", "ls_v2", "pull_v2", "pull_missing_v2", "push_v2"):
    sent, got = [(pathlib.Path(__file__).parent / "sync" / f"{stream}.{end}").read_bytes() for end in ("in", "out")]
    while sent:
        name, used = replay(0, sent)
        sent = sent[used:]
        while name in REPLIES or name == "DONE":
            x = REPLIES.get(name, 4)
            if name == "SEND":
                break
            last, used = replay(x, got)
            got = got[used:]
            if last in LAST[x]:
                break
    assert not got
