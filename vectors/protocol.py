#!/usr/bin/env python3
"""Writes the calls that crates/replay_protocol replays, one a line; docs/VECTORS.md says how they are answered.

    protocol.py                the calls that libadb answers too; left out are those on which its reading of a
                               feature list and ours differ, and how many is said at the end, on standard error
    protocol.py --texts        calls of has_feature on the texts below that are or stand for real ones
    protocol.py --answers      what those must answer

    decode LIMIT BYTES        missing BYTES        has_feature TEXT NAME        BYTES in hexadecimal, - for none
"""
import random
import struct
import sys

rng = random.Random(1)
COMMANDS = [b"SYNC", b"CNXN", b"OPEN", b"OKAY", b"CLSE", b"WRTE", b"AUTH", b"STLS"]
MAX = 1_048_576
TOP = 0xFFFF_FFFF


def hexed(data):
    return data.hex() if data else "-"


def header(word, arg0, arg1, length, check, magic):
    return struct.pack("<6I", word, arg0, arg1, length, check, magic)


def frame(name, arg0=1, arg1=7, data=b"", check=0, length=None, magic=None):
    word = struct.unpack("<I", name)[0]
    return header(word, arg0, arg1, len(data) if length is None else length, check & TOP,
                  word ^ TOP if magic is None else magic) + data


calls = {"decode": 0, "missing": 0, "has_feature": 0}
left_out = []


def call(kind, *words):
    calls[kind] += 1
    print(kind, *words)


def decode(limit, data):
    call("decode", limit, hexed(data))


def missing(data):
    call("missing", hexed(data))


def begins(text, i):
    """A property begins at place i: behind a semicolon, or behind the second colon."""
    return i > 0 and (text[i - 1:i] == b";" or text[i - 1:i] == b":" and text[:i - 1].count(b":") == 1)


def our_reading(text, name):
    """hasFeature of crates/features/specs/Features.antt."""
    for i in range(len(text)):
        if begins(text, i) and text[i:i + 9] == b"features=":
            return name in text[i + 9:].split(b";")[0].split(b",")
    return False


def first_reading(text, name):
    """libadb's has_feature, firstReading of crates/features/specs/Differ.antt."""
    at = text.find(b"features=")
    return at >= 0 and name in text[at + 9:].replace(b";", b",").split(b",")


def differs(text, name):
    return our_reading(text, name) != first_reading(text, name)


def has_feature(text, name):
    if differs(text, name):
        left_out.append((text, name))
    else:
        call("has_feature", hexed(text), hexed(name))


# Identity texts, the names that they list, and names that they do not. In turn: what AOSP's host sent (34.0.5 as Debian
# packages it, with delayed acknowledgement, as recorded); what a test device answered it, three times; the texts of
# AOSP's own tests (transport_test.cpp); a device's, put together as AOSP's adbd does (adb.cpp); texts whose other
# properties name a feature, the first of them as the tablet's that libadb's reading took for one with the feature.
AOSP = (b"shell_v2,cmd,stat_v2,ls_v2,fixed_push_mkdir,apex,abb,fixed_push_symlink_timestamp,abb_exec,remount_shell,track_app,"
        b"sendrecv_v2,sendrecv_v2_brotli,sendrecv_v2_lz4,sendrecv_v2_zstd,sendrecv_v2_dry_run_send,openscreen_mdns,delayed_ack")
TEST = b"device::ro.product.name=x;ro.product.model=y;ro.product.device=z;features="
PHONE = b"device::ro.product.name=sdk_gphone64_x86_64;ro.product.model=sdk_gphone64_x86_64;ro.product.device=emu64xa;"
REAL = [
    (b"host::features=" + AOSP, AOSP.split(b","), [b"", b"shell", b"v2", b"delayed", b"abb,fixed_push_symlink_timestamp", b"x"]),
    (TEST + b"shell_v2,cmd", [b"shell_v2", b"cmd"], [b"", b"delayed_ack", b"x", b"z"]),
    (TEST + b"shell_v2,cmd,stat_v2,ls_v2", [b"shell_v2", b"stat_v2", b"ls_v2"], [b"delayed_ack", b"features"]),
    (TEST + b"shell_v2,cmd,delayed_ack", [b"delayed_ack"], [b"stat_v2", b"delayed_ac"]),
    (b"host::", [], [b"", b"delayed_ack"]),
    (b"host::ro.product.name=foo;ro.product.model=bar;ro.product.device=baz;", [], [b"", b"foo", b"bar", b"delayed_ack"]),
    (b"host::ro.product.name=foo;ro.product.model=bar;ro.product.device=baz;features=woodly,doodly", [b"woodly", b"doodly"],
     [b"", b"foo", b"baz", b"woodly,doodly"]),
    (PHONE + b"features=" + AOSP, AOSP.split(b","), [b"", b"emu64xa", b"ro.product.model=sdk_gphone64_x86_64"]),
    (b"device::features=shell_v2,cmd;delayed_ack", [b"shell_v2", b"cmd"], [b"delayed_ack", b""]),
    (b"device::features=shell_v2,cmd;delayed_ack=1", [b"shell_v2", b"cmd"], [b"delayed_ack", b"delayed_ack=1"]),
    (PHONE + b"features=shell_v2,cmd;delayed_ack;ro.product.board=x", [b"shell_v2", b"cmd"], [b"delayed_ack"]),
    (PHONE + b"features=shell_v2,cmd;ro.product.features=delayed_ack", [b"shell_v2", b"cmd"], [b"delayed_ack"]),
    (b"device::ro.product.features=delayed_ack;features=shell_v2,cmd", [b"shell_v2", b"cmd"], [b"delayed_ack"]),
]
if len(sys.argv) > 1:
    for text, lists, lacks in REAL:
        for name in lists + lacks:
            if sys.argv[1] == "--answers":
                print("feature", "yes" if name in lists else "no", "used=0")
            else:
                print("has_feature", hexed(text), hexed(name))
    sys.exit()


# every command, with and without a payload, and cut and continued around the header's end
for name in COMMANDS:
    decode(4096, frame(name))
    decode(4096, frame(name, 0, 0, b"abc", 0x126))
    decode(4096, frame(name, TOP, TOP, b"abc", 0x126) + b"rest")
whole = frame(b"WRTE", 1, 7, bytes([1, 2, 255]))
for n in range(len(whole) + 1):
    decode(4096, whole[:n])
    missing(whole[:n])
for n in (0, 23, 24, 25):
    decode(4096, b"\0" * n)
    decode(4096, b"\xff" * n)
    missing(b"\0" * n)
    missing(b"\xff" * n)

# words that are no command, and magics that are not the word's
for name in COMMANDS:
    word = struct.unpack("<I", name)[0]
    for bad in (word ^ 1, word ^ 0x80000000, word + 1, word ^ TOP, word ^ 0x20202020):
        decode(4096, header(bad, 1, 7, 0, 0, bad ^ TOP))
    for bad in (word, 0, TOP, word ^ TOP ^ 1, word ^ TOP ^ 0x80000000):
        decode(4096, header(word, 1, 7, 0, 0, bad))
for bad in (0, 1, TOP, 0x43_4E_59_53):
    decode(4096, header(bad, 1, 7, 0, 0, bad ^ TOP))

# declared lengths around each limit, with only the header here and with the whole frame
for limit in (0, 1, 3, 4, 255, 4096, MAX - 1, MAX, MAX + 1, TOP - 1, TOP):
    for length in (limit - 1, limit, limit + 1, MAX - 1, MAX, MAX + 1, TOP):
        if 0 <= length <= TOP:
            decode(limit, frame(b"WRTE", length=length))
            missing(frame(b"WRTE", length=length))
            if length <= 4097:
                data = bytes(rng.randrange(256) for _ in range(length))
                decode(limit, frame(b"WRTE", data=data, check=sum(data)))
                decode(limit, frame(b"WRTE", data=data[:-1], length=length))
                missing(frame(b"WRTE", data=data + b"x", length=length))

# the check: left out, right, one off, turned, of nothing, of zero bytes
for data in (b"", b"\0", b"\0\0\0\0", b"\1", bytes([1, 2, 255]), b"\xff" * 257, b"\xff" * 258, bytes(range(256)) * 16):
    right = sum(data)
    for check in (0, right, right + 1, right - 1, right ^ TOP, right + 0x10000, right + 0x1000000, TOP, 1):
        decode(4096, frame(b"WRTE", data=data, check=check))

# lengths around runs of 257 bytes, the check right and one off
for n in (0, 1, 256, 257, 258, 514, 515):
    for data in (b"\xff" * n, bytes(i * 7 % 256 for i in range(n))):
        for check in (sum(data), sum(data) + 1, sum(data) - 1):
            decode(4096, frame(b"WRTE", data=data, check=check))

# several faults at once: the first in order is answered
for limit in (4, 4096):
    for word in (struct.unpack("<I", b"WRTE")[0], 5):
        for magic in (word ^ TOP, 9):
            for data, length in ((b"abcdefgh", 8), (b"abc", 8), (b"ab", 2)):
                for check in (0, sum(data), 3):
                    decode(limit, header(word, 1, 7, length, check, magic) + data)

# frames of many lengths, whole, cut, continued and damaged
for n in list(range(0, 40)) + [127, 128, 255, 256, 257, 1000, 4095, 4096]:
    data = bytes(rng.randrange(256) for _ in range(n))
    good = frame(rng.choice(COMMANDS), rng.randrange(1 << 32), rng.randrange(1 << 32), data, rng.choice([0, sum(data)]))
    decode(4096, good)
    decode(4096, good[:rng.randrange(len(good))])
    decode(4096, good + bytes(rng.randrange(256) for _ in range(rng.randrange(1, 30))))
    spoilt = bytearray(good)
    spoilt[rng.randrange(len(spoilt))] ^= 1 << rng.randrange(8)
    decode(4096, bytes(spoilt))
data = b"\xff" * 16384
decode(MAX, frame(b"WRTE", data=data, check=sum(data)))
decode(MAX, frame(b"WRTE", data=data, check=sum(data) + 1))
decode(16383, frame(b"WRTE", data=data, check=sum(data)))

# the feature list: where a property begins, the first of two, both cuts, empty parts, empty names, near misses
TEXTS = [b"", b"features", b"features=", b"features=a", b"device::features=a;b", b"device::features=a,b", b"device::features=a,b;c,",
         b"device::ro.x=1;features=shell_v2,delayed_ack;", b"xfeatures=a", b"features=a;features=b", b"features=features=a",
         b"featurefeatures=a", b"features=,,;", b"features=;a", b"Features=a", b"features =a", b"features=delayed_ack2,delayed_ack",
         b"features=delayed_acK", b"delayed_ack", b"features=\0,\xff", b"a;b,c", b"featuresfeatures=b"]
TEXTS += [b"device::", b"device::features", b"device::features=", b"device::features=a", b"device::features=a,b,c", b"::features=,,",
          b"device::features=,a,", b"device:serial:x=1;features=a,b", b":a:features=b", b"a;features=b,c", b";features=delayed_ack",
          b"a:b;features=c", b"::features=a:b,c", b"a:features=a", b"a:b:c:features=a", b"device::x=1:features=a",
          b"device::features=a;features=b", b"device::xfeatures=a;features=b", b"device::x=features;features=b",
          b"device::features=features=a", b"device::features=delayed_ack2,delayed_ack", b"device::features=delayed_acK",
          b"device::Features=a", b"device::features =a", b"device::features=\0,\xff", b"device::features=shell_v2;x=delayed_ack",
          b"features=a::features=b", b"a;features=b:c:features=a", b"device::,features=a", b"device::=;=features=a;b"]
NAMES = [b"", b"a", b"b", b"c", b"delayed_ack", b"shell_v2", b"features=b", b"features=a", b"a;b", b"a,b", b"\0", b"\xff", b"delayed_ac",
         b"a:b"]
for text in TEXTS:
    for name in NAMES:
        has_feature(text, name)

# texts put together by chance, and a name that is likely to stand in them
PIECES = [b"device::", b"::", b":", b";", b";", b",", b",", b"a", b"b", b"delayed_ack", b"=", b"x=", b"features", b"features=", b"features="]
for _ in range(600):
    start = rng.choice([b"", b"device::", b"device::x=1;", b"device::features=", b"a;features=", b"a:"])
    text = start + b"".join(rng.choice(PIECES) for _ in range(rng.randrange(10)))
    has_feature(text, rng.choice([b"", b"a", b"b", b"delayed_ack", b"ab"] + text[text.rfind(b"=") + 1:].replace(b";", b",").split(b",")))

kinds = ", ".join(f"{n} of {kind}" for kind, n in calls.items())
print(f"{sum(calls.values())} calls: {kinds}; {len(left_out)} more of has_feature left out, on which the readings differ "
      f"({len({text for text, _ in left_out})} texts)", file=sys.stderr)
