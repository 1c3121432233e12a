#!/usr/bin/env python3
"""The program tests/device_peer.c with a real adb as the host: streams through `adb forward`, commands, and files.

    ADB=adb tests/device_peer.py PROGRAM [STREAMS [BYTES]]   (default 40 and 1048576: streams at once, bytes each way on each)

Needs Python 3 and AOSP's adb; ADB is the command, of one or several words. Debian's package adb will do. Delayed
acknowledgement is tried too where adb has it (34 and later). An adb server of our own is started on a free port and ended
again. Says what was seen; exit status 1 on a difference."""
import os, random, re, sys, tempfile, zlib
sys.dont_write_bytecode = True
from real_adb import ENV, Program, dial, echoes, fault, rejected, run, with_server

PROGRAM = sys.argv[1]
STREAMS = int(sys.argv[2]) if len(sys.argv) > 2 else 40
BYTES = int(sys.argv[3]) if len(sys.argv) > 3 else 1 << 20
CLOSING = 600000
SLOTS = 64
TYPED = 300000
SIZES = {'route.bin': 300007, 'sheet.bin': 655360, 'one': 1, 'empty': 0}
# What adb asks for by `adb shell`; it names the terminal too, where there is one.
COMMANDS = ['ls /data', 'ls /none', 'cat', 'exit 7', 'pwd']
TABLE = ['tcp:7', 'localabstract:echo', 'localabstract:drop', 'sync:'] + ['shell,v2,raw:' + c for c in COMMANDS]
ENV.pop('TERM', None)


class Device(Program):
    def __init__(self, payload, cap, ack, delayed, ls_v2):
        features = 'cmd,shell_v2' + (',ls_v2' if ls_v2 else '') + (',delayed_ack' if delayed else '')
        super().__init__(PROGRAM, 0, payload, cap, ack, features, *TABLE)

    def shell(self, command, stdin=None):
        """Its status, output and errors."""
        with tempfile.TemporaryFile() as f:
            f.write(stdin or b'')
            f.seek(0)
            return run('-s', self.name, 'shell', command, stdin=f)

    def until(self, word):
        """The next line of the program that begins so."""
        for line in self.p.stdout:
            if line.startswith(word):
                return line
        fault('no line that begins with ' + word)


def expect(what, got, want):
    if got != want:
        fault('%s: %.200r, not %.200r' % (what, got, want))


def full(port):
    """As many streams as there are slots, and one more."""
    all_ = [dial(port) for _ in range(SLOTS)]
    for s in all_:
        s.sendall(b'x')
        expect('a byte', s.recv(1), b'x')
    rejected(port)
    for s in all_:
        s.close()


def streams(d):
    echoes([d.forward('tcp:7'), d.forward('localabstract:echo')], STREAMS, BYTES)
    rejected(d.forward('tcp:13'))
    expect('an OPEN that is refused', d.until('refused'), 'refused tcp:13\n')
    data = random.Random(5).randbytes(CLOSING)
    s = dial(d.forward('localabstract:drop'))
    s.sendall(data)
    s.close()
    said = dict(re.findall(r'(\w+)=(\w+)', d.until('stream %d ' % STREAMS)))
    expect('bytes ahead of a close', (int(said['read']), int(said['crc'], 16)), (CLOSING, zlib.crc32(data)))
    full(d.forward('tcp:7'))
    expect('an OPEN past the slots', d.until('refused'), 'refused tcp:7\n')


def commands(d, files):
    names = ''.join(n + '\n' for n in files).encode()
    expect('ls', d.shell('ls /data'), (0, names, b''))
    expect('ls of nothing', d.shell('ls /none'), (1, b'', b'no such file or directory\n'))
    typed = random.Random(6).randbytes(TYPED)
    status, out, err = d.shell('cat', typed)
    expect('cat', (status, out == typed, err), (0, True, b''))
    expect('exit', d.shell('exit 7'), (7, b'', b''))
    expect('no such command', d.shell('pwd'), (127, b'', b'not found\n'))
    status, out, _ = d.shell('whoami')
    if status == 0 or out:
        fault('a command that is not in the table: %d, %r' % (status, out))
    expect('a command that is refused', d.until('refused'), 'refused shell,v2,raw:whoami\n')


def files(d, folder):
    """Through /proc, so that adb finds the folder where it runs below another root."""
    seen = '/proc/%d/root%s' % (os.getpid(), folder)
    for seed, (name, size) in enumerate(SIZES.items()):
        with open(os.path.join(folder, name), 'wb') as f:
            f.write(random.Random(seed).randbytes(size))
        os.chmod(f.name, 0o640)
        os.utime(f.name, (1600000000 + seed, 1600000000 + seed))
        d.adb('push', seen + '/' + name, '/data/' + name)
    listed = [tuple(line.split()) for line in d.adb('ls', '/data').splitlines()]
    expect('adb ls', listed, [('%08x' % 0o100640, '%08x' % size, '%08x' % (1600000000 + i), name)
                              for i, (name, size) in enumerate(SIZES.items())])
    for name in SIZES:
        d.adb('pull', '/data/' + name, seen + '/' + name + '.back')
        with open(os.path.join(folder, name), 'rb') as a, open(os.path.join(folder, name + '.back'), 'rb') as b:
            if a.read() != b.read():
                fault('other bytes in ' + name)
    status, out, err = run('-s', d.name, 'pull', '/data/none', seen + '/none')
    if status == 0 or os.path.exists(folder + '/none'):
        fault('a file that is not there: %r %r' % (out, err))


def works(payload, cap, ack, delayed, ls_v2):
    with Device(payload, cap, ack, delayed, ls_v2) as d, tempfile.TemporaryDirectory() as folder:
        streams(d)
        files(d, folder)
        commands(d, SIZES)
    expect('the mode', d.delayed, delayed)
    end = d.end
    if end['refused'] != 3 or end['refused11'] or end['echo'] != STREAMS * BYTES + SLOTS or end['longest'] > payload + 24:
        fault('at the end: %s' % end)
    print('payload %d, cap %d, initial_ack_bytes %d, %s: %d streams, %d bytes each way on each; %d bytes and closed at once, all read; '
          '%d files of %d bytes pushed, listed by %s and pulled; %d commands, %d bytes through one; 2 OPENs refused by name, 1 past %d slots; '
          'no refusal 11' % (payload, cap, ack, 'delayed' if delayed else 'plain', STREAMS, BYTES, CLOSING, len(SIZES), sum(SIZES.values()),
                             'LIS2' if end['lis2'] else 'LIST', len(COMMANDS), TYPED, SLOTS), flush=True)


def main():
    with Device(4096, 1 << 20, 32768, True, False) as d:
        modes = range(d.delayed + 1)
    print('its ' + d.cnxn.strip(), flush=True)
    for delayed in modes:
        works(4096, 1 << 20, 32768, delayed, False)
        works(65536, 1 << 20, 131072, delayed, True)
        works(1 << 20, 1 << 20, 1 << 20, delayed, True)


with_server(main)
