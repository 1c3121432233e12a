#!/usr/bin/env python3
"""Writes the stored files that tests/captures.sh runs the programs frames_to_pcap and pcap_to_frames on.

    python3 vectors/captures.py tests/captures

    to/NAME.in, to/NAME.out       received bytes, and the file that they are to become
    from/NAME.in, from/NAME.out   a file, and the bytes that it is to give
    small.in, small.out, ends     a small one of both, and after how many bytes of either each of its frames ends
    recorded/NAME, sums           recorded bytes, which stand there already, and the sum of the file that each is to become

What is to come out is worked out here by Python's struct, from docs/SCOPE.md, 2 and 12, and not by the crates.
"""
import hashlib
import pathlib
import struct
import sys

COMMANDS = (b"SYNC", b"CNXN", b"OPEN", b"OKAY", b"CLSE", b"WRTE", b"AUTH", b"STLS")
HOLD, SNAP = 65_536, 1_048_600


def header(magic=0xA1B2C3D4, major=2, minor=4, zone=0, accuracy=0, snap=SNAP, link=147, order="<"):
    return struct.pack(order + "IHHiIII", magic, major, minor, zone, accuracy, snap, link)


def record(frame, seconds=0, micros=0, kept=None, original=None):
    kept = len(frame) if kept is None else kept
    return struct.pack("<4I", seconds, micros, kept, kept if original is None else original) + frame


def frame(command, arg0, arg1, payload=b"", check=None, length=None, magic=None):
    word = int.from_bytes(command, "little")
    return struct.pack("<6I", word, arg0, arg1, len(payload) if length is None else length,
                       sum(payload) if check is None else check, word ^ 0xFFFFFFFF if magic is None else magic) + payload


def file_of(received):
    """The file, and the ends of its frames in what was received and in it."""
    out, at, ends = header(), 0, []
    while len(received) - at >= 24:
        word, _, _, length, check, magic = struct.unpack_from("<6I", received, at)
        end = at + 24 + length
        if word.to_bytes(4, "little") not in COMMANDS or magic != word ^ 0xFFFFFFFF or length > 1_048_576:
            break
        if end - at > HOLD or end > len(received):
            break
        if check and check != sum(received[at + 24:end]) % 2**32:
            break
        out += record(received[at:end])
        at = end
        ends.append((at, len(out)))
    return out, ends


def bytes_of(file):
    if file[:24] != header():
        return b""
    out, at = b"", 24
    while len(file) - at >= 16:
        _, _, kept, original = struct.unpack_from("<4I", file, at)
        if kept != original or kept > SNAP or kept > HOLD or len(file) - at - 16 < kept:
            break
        out += file[at + 16:at + 16 + kept]
        at += 16 + kept
    return out


small = frame(b"OKAY", 1, 7, check=0) + frame(b"WRTE", 7, 1, b"\1\2\xff") + frame(b"CLSE", 0, 7)
longest = frame(b"WRTE", 3, 9, bytes(HOLD - 24 - 1) + b"\1")
longer = frame(b"WRTE", 3, 9, bytes(HOLD - 24 + 1), check=0)
TO = {
    "nothing": b"",
    "one": frame(b"CNXN", 0x01000001, 1 << 20, b"host::features=delayed_ack"),
    "every_command": b"".join(frame(c, i, 8 - i, bytes(range(i)), check=None if i % 2 else 0) for i, c in enumerate(COMMANDS)),
    "incomplete": small + frame(b"WRTE", 7, 1, b"abcdef")[:-1],
    "header_cut": small + frame(b"WRTE", 7, 1)[:23],
    "longest": small + longest + small,
    "longer": small + longer + small,
    "length_of_1048576": small + frame(b"WRTE", 7, 1, length=1_048_576),
    "length_of_1048577": small + frame(b"WRTE", 7, 1, length=1_048_577) + small,
    "other_command": small + frame(b"WRTF", 7, 1, b"x") + small,
    "other_magic": small + frame(b"WRTE", 7, 1, b"x", magic=0xBAAAADA9) + small,
    "other_check": small + frame(b"WRTE", 7, 1, b"\1\2\xff", check=257) + small,
    "refused_first": frame(b"WRTE", 7, 1, b"\1", check=2) + small,
}
good = record(frame(b"OKAY", 1, 7, check=0), 1_600_000_000, 999_999) + record(frame(b"WRTE", 7, 1, b"\1\2\xff"), 0xFFFFFFFF, 0xFFFFFFFF)
FROM = {
    "nothing": b"",
    "header_alone": header(),
    "times": header() + good,
    "no_frame": header() + record(b"") + record(b"any bytes") + good,
    "longest": header() + record(longest) + good,
    "longer": header() + good + record(longer) + good,
    "of_the_snap_length": header() + good + record(bytes(100), kept=SNAP),
    "over_the_snap_length": header() + good + record(b"", kept=SNAP + 1) + good,
    "kept_under_original": header() + good + record(b"abc", original=4) + good,
    "kept_over_original": header() + good + record(b"abc", original=2) + good,
    "record_cut": header() + good + record(b"abc")[:-1],
    "record_header_cut": header() + good + record(b"")[:15],
    "big_endian": header(order=">") + good,
    "nanoseconds": header(magic=0xA1B23C4D) + good,
    "version_2_3": header(minor=3) + good,
    "version_3_4": header(major=3) + good,
    "zone_1": header(zone=1) + good,
    "accuracy_1": header(accuracy=1) + good,
    "snap_262144": header(snap=262_144) + good,
    "link_1": header(link=1) + good,
}


def main(top):
    for name, received in TO.items():
        (top / "to").mkdir(parents=True, exist_ok=True)
        (top / "to" / f"{name}.in").write_bytes(received)
        (top / "to" / f"{name}.out").write_bytes(file_of(received)[0])
    for name, file in FROM.items():
        (top / "from").mkdir(parents=True, exist_ok=True)
        (top / "from" / f"{name}.in").write_bytes(file)
        (top / "from" / f"{name}.out").write_bytes(bytes_of(file))
    file, ends = file_of(small)
    (top / "small.in").write_bytes(small)
    (top / "small.out").write_bytes(file)
    (top / "ends").write_text("".join(f"{a} {b}\n" for a, b in ends))
    sums = []
    for path in sorted((top / "recorded").iterdir()):
        file, _ = file_of(path.read_bytes())
        assert bytes_of(file) == path.read_bytes(), path
        sums.append(f"{hashlib.sha256(file).hexdigest()}  {path.name}\n")
    (top / "sums").write_text("".join(sums))


main(pathlib.Path(sys.argv[1]))
