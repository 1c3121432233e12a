#!/usr/bin/env python3
"""Writes vectors/recorded/credit.txt, a call a line, or with --answers credit.expected: every place where the credit of a
delayed OKAY is read, with payloads that are a credit, too short (5), too long (20) or below 0 (21).

The answers are worked out here, from docs/SCOPE.md, since libadb takes the last two kinds: an OKAY that is refused is used, the
channel stays as it was, and a pending open whose own OKAY it is ends with a CLSE. In the plain mode a payload is not looked at.
"""
import struct
import sys

VERSION, TOP = 0x0100_0001, 0xFFFF_FFFF
PAYLOADS = [b"", b"\1", b"\1\0", b"\1\0\0", b"\xff\xff\xff"]
PAYLOADS += [struct.pack("<i", z) for z in (0, 1, 2, 65_535, (1 << 31) - 1, -1, -2, -(1 << 31), -(1 << 31) + 1)]
PAYLOADS += [struct.pack("<i", z) + more for z in (5, 0, -1) for more in (b"\0", b"\xff", b"\0\0\0\0", b"\1" * 60)]
lines = []


def frame(name, arg0, arg1, data=b""):
    word = struct.unpack("<I", name)[0]
    return (struct.pack("<6I", word, arg0, arg1, len(data), 0, word ^ TOP) + data).hex()


def refusal(payload, delayed=1):
    """The refusal of an OKAY's payload, in the order of the tests, or 0."""
    if not delayed:
        return 0
    if len(payload) < 4:
        return 5
    if len(payload) > 4:
        return 20
    return 21 if payload[3] >= 128 else 0


def call(text, answer, used=0, out="", slots=(), nxt=2, wait="-"):
    state = ";".join(slots) or "-"
    lines.append((text, f"{answer} used={used} out={out or '-'} got=- next={nxt} slots={state} queue=- wait={wait}"))


def slot(place, local, budget, state="open", acked=1):
    return f"{place}:{local}:{6 + local}:{state}:{budget}:{acked}:0:0:-"


def begin(delayed=1):
    made = f"made cap=128 max=64 version={VERSION} delayed={delayed}"
    call(f"make 3 64 128 8 {VERSION} 64 {delayed} {delayed}", made, nxt=1)


def opened(place, before, budget, delayed=1):
    """A channel with this budget; answers its slot."""
    local = place + 1
    data = struct.pack("<i", budget) if delayed else b""
    call("open 61 -", "waiting", out=frame(b"OPEN", local, 8 * delayed, b"a"), slots=before, nxt=local + 1, wait=f"{place}:{local}")
    now = slot(place, local, budget)
    call(f"open - {frame(b'OKAY', 6 + local, local, data)}", f"opened slot={place} local={local}", 24 + len(data), slots=[*before, now], nxt=local + 1)
    return now


def own_open(p):
    begin()
    call("open 61 -", "waiting", out=frame(b"OPEN", 1, 8, b"a"), wait="0:1")
    k, okay = refusal(p), frame(b"OKAY", 7, 1, p)
    if k:
        call(f"open - {okay}", f"refused {k}", 24 + len(p), frame(b"CLSE", 1, 7))
    else:
        call(f"open - {okay}", "opened slot=0 local=1", 24 + len(p), slots=[slot(0, 1, struct.unpack("<i", p)[0])])


def given(p, budget):
    return budget if refusal(p) else budget + struct.unpack("<i", p)[0]


def dispatched(p):
    begin()
    opened(0, [], 1)
    k = refusal(p)
    call(f"dispatch {frame(b'OKAY', 7, 1, p)}", f"refused {k}" if k else "handled", 24 + len(p), slots=[slot(0, 1, given(p, 1))])
    call(f"dispatch {frame(b'CLSE', 7, 1)}", "handled", 24, slots=[slot(0, 1, given(p, 1), "closed")])
    call(f"dispatch {frame(b'OKAY', 7, 1, p)}", f"refused {k}" if k else "handled", 24 + len(p), slots=[slot(0, 1, given(p, given(p, 1)), "closed")])


def in_calls(p):
    """In a read of the channel itself, then in a write of its own, which may go on."""
    begin()
    opened(0, [], 0)
    k, okay = refusal(p), frame(b"OKAY", 7, 1, p)
    said = f"refused {k}" if k else "waiting"
    call(f"read 0 1 4 {okay}", said, 24 + len(p), slots=[slot(0, 1, given(p, 0))])
    if k:
        call(f"write 0 1 aabb {okay}", said, 24 + len(p), slots=[slot(0, 1, 0)])


def own_write(p):
    begin()
    opened(0, [], 0)
    k, okay, n = refusal(p), frame(b"OKAY", 7, 1, p), min(2, max(0, given(p, 0)))
    if n:
        call(f"write 0 1 aabb {okay}", f"written n={n}", 24 + len(p), frame(b"WRTE", 1, 7, b"\xaa\xbb"[:n]), [slot(0, 1, given(p, 0) - n)])
    else:
        call(f"write 0 1 aabb {okay}", f"refused {k}" if k else "waiting", 24 + len(p), slots=[slot(0, 1, 0)])


def another_s(p):
    """For channel 1, in a read and in a write on channel 2, and while an open is pending."""
    k, okay, said = refusal(p), frame(b"OKAY", 7, 1, p), f"refused {refusal(p)}" if refusal(p) else "waiting"
    for text in ("read 1 2 4", "write 1 2 aabb"):
        begin()
        first = opened(0, [], 1)
        second = opened(1, [first], 0)
        call(f"{text} {okay}", said, 24 + len(p), slots=[slot(0, 1, given(p, 1)), second], nxt=3)
    begin()
    first = opened(0, [], 1)
    call("open 61 -", "waiting", out=frame(b"OPEN", 2, 8, b"a"), slots=[first], nxt=3, wait="1:2")
    call(f"open - {okay}", said, 24 + len(p), slots=[slot(0, 1, given(p, 1))], nxt=3, wait="-" if k else "1:2")


def plain(p):
    begin(0)
    opened(0, [], 0, 0)
    call(f"dispatch {frame(b'OKAY', 7, 1, p)}", "handled", 24 + len(p), slots=[slot(0, 1, 0)])


for part in (own_open, dispatched, in_calls, own_write, another_s, plain):
    for payload in PAYLOADS:
        part(payload)
for text, answer in lines:
    print(answer if "--answers" in sys.argv else text)
