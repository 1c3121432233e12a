#!/usr/bin/env python3
"""Writes vectors/recorded/slot.txt, a call a line; docs/VECTORS.md says how the calls are answered.

    make 1 MAX_PAYLOAD MAX_RX INITIAL ARG0 ARG1 HOST DEVICE        open DEST FRAME        dispatch FRAME
    settle 0 LOCAL WANT        take 0 LOCAL BUFLEN        write 0 LOCAL DATA -        set_budget 0 LOCAL I64

FRAME and DATA in hexadecimal, - for none. There is one channel, in slot 0; the device's number for it is 7.
"""
import random
import struct

rng = random.Random(1)
VERSION, TOP = 0x0100_0001, 0xFFFF_FFFF
I32 = (-(1 << 31), -1, 0, 1, (1 << 31) - 1)
FROM_0 = (0, 1, 2, 1 << 30, (1 << 31) - 1)
I64 = (-(1 << 63), -(1 << 63) + 1, -(1 << 63) + (1 << 31), -1, 0, 1, 2, 300, (1 << 63) - (1 << 31), (1 << 63) - 2, (1 << 63) - 1)
SIZES = ((1 << 32) - 1, 1 << 32, (1 << 64) - 1)
local = 0  # the number of the last open


def hexed(data):
    return data.hex() if data else "-"


def frame(name, arg0, arg1, data=b"", check=0):
    word = struct.unpack("<I", name)[0]
    return struct.pack("<6I", word, arg0, arg1, len(data), check & TOP, word ^ TOP) + data


def some(n):
    return bytes(rng.randrange(256) for _ in range(n))


def credit(z):
    return struct.pack("<i", z)


def ready(n, delayed):
    """An OKAY's payload of n bytes; in delayed mode of at most 4, and a credit from 0, since libadb takes others."""
    data = some(n)
    return data[:3] + bytes(b & 0x7F for b in data[3:4]) if delayed else data


def make(payload, rx, initial, delayed, arg0=VERSION, arg1=4096, host=None):
    global local
    local = 0
    host = delayed if host is None else host
    print("make 1", payload, rx, initial, arg0, arg1, host, delayed)


def ask():
    global local
    print("open 7368 -")
    local += 1


def answer(data):
    print("open 7368", hexed(data))


def dispatch(data):
    print("dispatch", hexed(data))


def wrte(n, arg0=7, arg1=None):
    dispatch(frame(b"WRTE", arg0, local if arg1 is None else arg1, some(n)))


def okay(data=b"", arg0=7, arg1=None):
    dispatch(frame(b"OKAY", arg0, local if arg1 is None else arg1, data))


def clse(arg0=7, arg1=None):
    dispatch(frame(b"CLSE", arg0, local if arg1 is None else arg1))


def settle(want, place=0, number=None):
    print("settle", place, local if number is None else number, want)


def take(n, place=0, number=None):
    print("take", place, local if number is None else number, n)


def write(n, place=0, number=None):
    print("write", place, local if number is None else number, hexed(some(n)), "-")


def set_budget(z):
    print("set_budget 0", local, z)


def channel(payload, rx, initial, delayed, z=0, remote=7, arg1=4096):
    make(payload, rx, initial, delayed, arg1=arg1)
    ask()
    answer(frame(b"OKAY", remote, local, credit(z) if delayed else b""))


def limits(payload, rx, initial):
    cap = max(payload, rx)
    ceiling = cap - payload + 1
    return cap, min(ceiling, max(initial, payload))


def hold(n, payload):
    while n > 0:
        wrte(min(n, payload))
        n -= payload


# limits: caps, ceilings and watermarks around each other, versions, payloads, modes
for payload in (1, 16, 1048576):
    for rx in (0, payload - 1, payload, payload + 1, 2 * payload - 1, 2 * payload, 16777216):
        for initial in (0, 2147483647):
            make(payload, rx, initial, rng.randrange(2))
for initial in (0, 1, 15, 16, 17, 84, 85, 86):
    for delayed in (0, 1):
        make(16, 100, initial, delayed)
for arg0 in (0, 1, VERSION - 1, VERSION, VERSION + 1, TOP):
    make(16, 100, 8, 1, arg0)
for arg1 in (0, 1, 1048575, 1048576, 1048577, TOP):
    make(16, 100, 8, 1, VERSION, arg1)
for host in (0, 1):
    for device in (0, 1):
        make(16, 100, 8, device, host=host)

# an open: its OKAY of 0 to 5 bytes (to 4 in delayed mode), every credit, a remote number of 0, a WRTE, a CLSE and others' frames before it,
# frames that are refused or not whole, a call that drops it, and a second open
for delayed in (0, 1):
    for n in range(6):
        make(16, 40, 8, delayed)
        ask()
        answer(frame(b"OKAY", 7, local, ready(n, delayed)))
        ask()
        answer(frame(b"OKAY", 7, local, ready(4, delayed)))
    for z in FROM_0 if delayed else I32:
        channel(16, 40, 8, delayed, z)
        write(1)
    channel(16, 40, 8, delayed, 9, remote=0)
    clse(0, 0)
    clse(0, local)
    channel(16, 40, 8, delayed, 9, remote=TOP)
    make(16, 40, 8, delayed)
    for data in (b"", b"\1", frame(b"OKAY", 7, 2, b"\1"), frame(b"WRTE", 7, 9, b"\1"), frame(b"CLSE", 7, 0),
                 frame(b"SYNC", 1, 1), frame(b"AUTH", 1, 1), frame(b"OKAY", 7, 1, b"abcd")):
        if not data:
            ask()
        answer(data)
    for data in (frame(b"WRTE", 7, 1, b"\1"), frame(b"CLSE", 7, 1), frame(b"OKAY", 7, 1, bytes(17)),
                 frame(b"OKAY", 7, 1, b"abcd", 1)):
        make(16, 40, 8, delayed)
        ask()
        answer(data)
        write(1)
        take(1)
        settle(1)
        ask()
        write(0)
        okay(b"abcd")
        ask()
        answer(frame(b"OKAY", 7, local, b"abcd"))

CONFIGS = ((16, 40, 8), (10, 10, 0), (8, 30, 20), (4, 5, 9), (1, 0, 0), (1, 7, 3), (5, 8, 2))

# held bytes at the watermark and at the cap, one less and one more; a WRTE of 0 bytes and of 1 there; settled, and taken;
# settled to the cap with the cap held behind it, which fills the share
for payload, rx, initial in CONFIGS:
    cap, mark = limits(payload, rx, initial)
    for delayed in (0, 1):
        if delayed and payload < 4:
            continue
        for held in sorted({0, 1, mark - 1, mark, mark + 1, cap - 1, cap, cap + 1}):
            channel(payload, rx, initial, delayed)
            hold(held, payload)
            wrte(0)
            wrte(1)
            settle(cap)
            wrte(1)
            take(2 * cap)
        channel(payload, rx, initial, delayed)
        for _ in range(2):
            hold(cap, payload)
            settle(cap)
        wrte(1)
        take(2 * cap)
        settle(2 * cap)
        wrte(1)
        take(2 * cap)

# settling and taking: nothing, less, all and more, twice in a row, without settling, in parts
for delayed in (0, 1):
    for want in (0, 1, 12, 13) + SIZES:
        for room in (0, 5, 13):
            channel(12, 30, 20, delayed)
            wrte(12)
            settle(want)
            settle(want)
            take(room)
            wrte(3)
            take(room)
            settle(room)
            take(100)
    for room in (0, 1, 24, 25, 65536):
        channel(12, 30, 20, delayed)
        take(room)
        settle(room)
        hold(24, 12)
        take(room)
        take(room)
        settle(100)
        take(room)

# closed: by our number, by the device's, and not by a 0; what is buffered stays to be read, and a WRTE still comes in
for delayed in (0, 1):
    for arg0, arg1 in ((7, 1), (0, 1), (9, 1), (7, 0), (0, 0), (9, 0), (7, 2), (TOP, TOP)):
        channel(12, 30, 20, delayed, 50)
        wrte(9)
        clse(arg0, arg1)
        write(3)
        write(0)
        wrte(12)
        wrte(12)
        settle(4)
        okay(b"\1\0\0\0")
        okay(b"\1\0\0")
        take(4)
        settle(9)
        clse(7, 0)
        settle(0)
        take(0)
        take(100)
        take(1)
        settle(5)
        wrte(2)
        settle(5)
        take(0)
        take(5)
        take(0)

# budgets at both ends of 64 bits, with credits that would pass them, and writes of none, of some, of more than the budget
for delayed in (0, 1):
    for budget in I64 if delayed else (I64[0], 0, I64[-1]):
        channel(16, 40, 8, delayed, 3, arg1=rng.choice((0, 1, 7, 4096)))
        for z in FROM_0 if delayed else I32:
            set_budget(budget)
            okay(credit(z))
        write(0)
        write(2)
        write(2)
        okay(credit(4) + b"x" * (1 - delayed))
        write(301)
        okay(credit(4)[:3])
        okay(credit(9 if delayed else -9))
        write(1)
    for n in range(7):
        channel(16, 40, 8, delayed, 3)
        write(4)
        write(4)
        okay(ready(n, delayed))
        write(4)
for most in (0, 1, 2, 5, 4096):
    for n in (0, 1, 2, 4, 5, 6):
        channel(16, 40, 8, n % 2, 5, arg1=most)
        write(n)
        write(n)

# frames for no channel, of other kinds, refused, and not whole; calls on no channel
for delayed in (0, 1):
    make(16, 40, 8, delayed)
    for round_ in range(2):
        for name in (b"SYNC", b"CNXN", b"AUTH", b"STLS", b"OPEN", b"OKAY", b"CLSE", b"WRTE"):
            dispatch(frame(name, 9, 9, b"abcd"))
            dispatch(frame(name, 9, 0, b"abcd"))
        wrte(17)
        dispatch(frame(b"WRTE", 7, 1, b"abcd", 1))
        dispatch(frame(b"WRTE", 7, 1, b"abcd")[:27])
        dispatch(b"")
        for place, number in ((0, 9), (1, 1), (0, 0)):
            settle(1, place, number)
            take(1, place, number)
            write(1, place, number)
            write(0, place, number)
        if not round_:
            ask()
            answer(frame(b"OKAY", 7, local, b"abcd"))

# long runs over small shares: the run is moved down again and again
for payload, rx, initial in ((5, 8, 2), (4, 13, 6), (7, 7, 3)):
    cap = max(payload, rx)
    for delayed in (0, 1):
        channel(payload, rx, initial, delayed, 100)
        for _ in range(20):
            wrte(rng.randrange(payload + 1))
            settle(rng.randrange(2, cap))
            take(rng.randrange(2, cap))
            if rng.randrange(3) == 0:
                take(rng.randrange(cap))
channel(1024, 1500, 700, 1, 100)
for n in (1024, 476, 1):
    wrte(n)
    settle(1000)
    take(900)

# calls in any order
for _ in range(30):
    payload, rx, initial = rng.choice(CONFIGS)
    cap, _mark = limits(payload, rx, initial)
    delayed = rng.randrange(2) if payload >= 4 else 0
    channel(payload, rx, initial, delayed, rng.choice((0, 5, 3, 30)), arg1=rng.choice((0, 3, 4096)))
    for _ in range(rng.randrange(5, 35)):
        what = rng.randrange(20)
        if what < 7:
            wrte(rng.randrange(payload + 1))
        elif what < 11:
            settle(rng.randrange(cap + 2))
        elif what < 15:
            take(rng.randrange(cap + 2))
        elif what < 17:
            write(rng.randrange(6))
        elif what < 19:
            low, ends = (0, FROM_0) if delayed else (-9, I32)
            okay(rng.choice((credit(rng.randrange(low, 20)), credit(rng.choice(ends)), ready(rng.randrange(6), delayed))))
        elif rng.randrange(3) == 0:
            clse(rng.choice((7, 0, 9)), rng.choice((local, 0)))
        else:
            set_budget(rng.choice(I64))
