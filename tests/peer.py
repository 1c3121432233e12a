#!/usr/bin/env python3
"""The program tests/peer.c with a real adb, which opens the channels: streams through `adb forward`, every byte compared.

    ADB=adb tests/peer.py PROGRAM [STREAMS [BYTES]]        (default 40 and 1048576: streams at once, bytes each way on each)

Needs Python 3 and AOSP's adb; ADB is the command, of one or several words. Debian's package adb will do. Delayed
acknowledgement is tried too where adb has it (34 and later); its variables are set here. An adb server of our own is started
on a free port and ended again. Says what was seen; exit status 1 on a difference."""
import random, re, sys, zlib
sys.dont_write_bytecode = True
from real_adb import Program, dial, echoes, fault, rejected, with_server

PROGRAM = sys.argv[1]
STREAMS = int(sys.argv[2]) if len(sys.argv) > 2 else 40
BYTES = int(sys.argv[3]) if len(sys.argv) > 3 else 1 << 20
CLOSING = 600000


class Peer(Program):
    """Limits: payload, cap, initial_ack_bytes, delayed, slow."""

    def __init__(self, *limits):
        super().__init__(PROGRAM, 0, *limits)

    def ended(self):
        """The line of one channel's end, and (place, length) of what it lost."""
        lost = []
        while True:
            line = self.p.stdout.readline()
            if not line.startswith('lost '):
                return line, lost
            lost.append(tuple(int(x) for x in re.findall(r'=(\d+)', line)))


def settings(payload, cap, ack, delayed, slow):
    return 'payload %d, cap %d, initial_ack_bytes %d, %s, ' % (payload, cap, ack, 'delayed' if delayed else 'plain') + \
        ('every reader slow' if slow == 1 else 'every %dth reader slow' % slow)


def together(*limits):
    with Peer(*limits) as p:
        echoes([p.forward('tcp:7')], STREAMS, BYTES)
        rejected(p.forward('tcp:13'))
        for _ in range(STREAMS):
            p.ended()
    want = {'accepted': STREAMS, 'rejected': 1, 'refused12': 0, 'refused11': 0, 'read': STREAMS * BYTES,
            'wrote': STREAMS * BYTES}
    if any(p.end[k] != v for k, v in want.items()) or p.end['longest'] > limits[0] + 24 or p.delayed != limits[3]:
        fault('%s: %s' % (settings(*limits), p.end))
    print('%s: %d streams, %d bytes each way on each, every byte compared, no refusal 11' % (settings(*limits), STREAMS, BYTES),
          flush=True)


def closing(room, *limits):
    """A program behind adb that writes all its bytes and closes at once; where there is room, none are lost."""
    data = random.Random(5).randbytes(CLOSING)
    with Peer(*limits) as p:
        s = dial(p.forward('tcp:9'))
        s.sendall(data)
        s.close()
        line, lost = p.ended()
    for at, length in reversed(lost):
        data = data[:at] + data[at + length:]
    said = dict(re.findall(r'(\w+)=(\w+)', line))
    if int(said['read']) != len(data) or int(said['crc'], 16) != zlib.crc32(data) or p.end['refused11'] != len(lost):
        fault('%s: other bytes: %s' % (settings(*limits), line))
    if room == bool(lost) or p.delayed != limits[3]:
        fault('%s: %s' % (settings(*limits), line))
    print('%s: %d bytes and closed at once: ' % (settings(*limits), CLOSING) +
          ('all read, no refusal 11' if room else '%d lost by %d refusals 11' % (CLOSING - len(data), len(lost))), flush=True)


def main():
    with Peer(4096, 4096, 4096, 1, 0) as p:
        modes = range(p.delayed + 1)
    print('its ' + p.cnxn.strip(), flush=True)
    for delayed in modes:
        together(4096, 1 << 20, 32768, delayed, 5)
        together(65536, 1 << 20, 131072, delayed, 5)
        together(4096, 16384, 8192, delayed, 5)  # a cap with little room will do where nothing is left at closing
        closing(True, 4096, 1 << 20, 8192, delayed, 1)
        closing(False, 4096, 16384, 8192, delayed, 1)


with_server(main)
