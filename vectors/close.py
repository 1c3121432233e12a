#!/usr/bin/env python3
"""Writes vectors/recorded/close.txt, a call a line, or with --answers close.expected: CLSEs that leave our number out, on tables in which
channels share a remote number, open and closed, in any order of places.

The answers come from a model of the table below, by docs/SCOPE.md, 4: among the slots with that remote number the lowest one that is
not closed is closed, and the lowest one only where all are; a remote number of 0 names none; where no slot has it, queued OPENs of that
number are withdrawn. A read or a write takes such a CLSE of its own remote number for its own channel. libadb takes the lowest slot,
closed or not, so these calls are not its own.
"""
import random
import struct
import sys

VERSION, TOP, CHANNELS = 0x0100_0001, 0xFFFF_FFFF, 5
rng = random.Random(2)
lines = []


def frame(name, arg0, arg1, data=b""):
    word = struct.unpack("<I", name)[0]
    return (struct.pack("<6I", word, arg0, arg1, len(data), 0, word ^ TOP) + data).hex()


class Table:
    """Slots as (local, remote, closed) or None; queued OPENs as remote numbers."""

    def __init__(self, delayed):
        self.delayed, self.slots, self.queue, self.next = delayed, [None] * CHANNELS, [], 1
        made = f"made cap=128 max=64 version={VERSION} delayed={delayed}"
        self.say(f"make {CHANNELS} 64 128 8 {VERSION} 64 {delayed} {delayed}", made)

    def say(self, text, answer, used=0, out="", wait="-"):
        slots = [f"{i}:{s[0]}:{s[1]}:{'closed' if s[2] else 'open'}:0:1:0:0:-" for i, s in enumerate(self.slots) if s]
        queue = ";".join(f"{r}:{8 * self.delayed}:{b'to'.hex()}" for r in self.queue) or "-"
        tail = f"next={self.next} slots={';'.join(slots) or '-'} queue={queue} wait={wait}"
        lines.append((text, f"{answer} used={used} out={out or '-'} got=- {tail}"))

    def close_remote(self, remote):
        """The rule."""
        named = [i for i, s in enumerate(self.slots) if s and s[1] == remote] if remote else []
        live = [i for i in named if not self.slots[i][2]]
        if named:
            self.shut((live or named)[0])
        else:
            self.queue = [r for r in self.queue if r != remote]

    def shut(self, i):
        local, remote, _ = self.slots[i]
        self.slots[i] = (local, remote, True)

    def open(self, remote):
        if None not in self.slots:
            self.say("open 61 -", "refused 12")
            return
        place, local = self.slots.index(None), self.next
        self.next += 1
        self.say("open 61 -", "waiting", out=frame(b"OPEN", local, 8 * self.delayed, b"a"), wait=f"{place}:{local}")
        self.slots[place] = (local, remote, False)
        okay = frame(b"OKAY", remote, local, bytes(4 * self.delayed))
        self.say(f"open - {okay}", f"opened slot={place} local={local}", len(okay) // 2)

    def clse(self, remote, local=0):
        if local:
            for i, s in enumerate(self.slots):
                if s and s[0] == local:
                    self.shut(i)
        else:
            self.close_remote(remote)
        self.say(f"dispatch {frame(b'CLSE', remote, local)}", "handled", 24)

    def asks(self, remote):
        request = frame(b"OPEN", remote, 8 * self.delayed, b"to")
        full = len(self.queue) == CHANNELS
        if not full:
            self.queue.append(remote)
        self.say(f"dispatch {request}", "handled", len(request) // 2, frame(b"CLSE", 0, remote) if full else "")

    def close(self, i):
        local, remote, _ = self.slots[i]
        self.slots[i] = None
        self.say(f"close {i} {local}", "closed", out=frame(b"CLSE", local, remote))

    def meets(self, i, call, remote):
        """A read or a write on the channel at place i that looks at a CLSE without our number."""
        local, own, closed = self.slots[i]
        text = f"{call.format(i, local)} {frame(b'CLSE', remote, 0)}"
        if closed:
            self.say(text, "refused 10")
        elif own == remote:
            self.shut(i)
            self.say(text, "refused 10", 24)
        else:
            self.close_remote(remote)
            self.say(text, "waiting", 24)


def one(delayed):
    t = Table(delayed)
    remotes = (7, 7, 8) if rng.randrange(2) else (7, 8, 9, 0)
    for _ in range(40):
        filled = [i for i, s in enumerate(t.slots) if s]
        what = rng.randrange(12)
        if what < 3 or not filled:
            t.open(rng.choice(remotes))
        elif what < 6:
            t.clse(rng.choice(remotes))
        elif what < 8:
            s = t.slots[rng.choice(filled)]
            t.clse(s[1], s[0])
        elif what == 8:
            t.close(rng.choice(filled))
        elif what == 9:
            t.asks(rng.choice(remotes))
        else:
            # In the plain mode a write sends before it looks at a packet.
            t.meets(rng.choice(filled), rng.choice(("read {} {} 4", "write {} {} aa") if delayed else ("read {} {} 4",)), rng.choice(remotes))


for script in range(60):
    one(script % 2)
for text, answer in lines:
    print(answer if "--answers" in sys.argv else text)
