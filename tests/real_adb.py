"""What the scripts share that run a program of ours with a real adb: its command and server, streams through `adb forward`, and the
program that it connects to. ADB in the environment is the command, of one or several words."""
import os, random, re, select, shlex, signal, socket, subprocess, threading

ADB = shlex.split(os.environ.get('ADB', 'adb'))
LIMIT = 120  # seconds for a stream or a command
WHOLE = 600  # and for all
ENV = dict(os.environ, ADB_DELAYED_ACK='1', ADB_BURST_MODE='1')
started = []  # programs, to be ended where something went wrong


def fault(what):
    raise SystemExit('FAULT: ' + what)


def free_port():
    with socket.socket() as s:
        s.bind(('127.0.0.1', 0))
        return s.getsockname()[1]


def run(*words, stdin=subprocess.DEVNULL):
    """A command of adb: its status, output and errors, as bytes."""
    p = subprocess.run(ADB + list(words), env=ENV, stdin=stdin, stdout=subprocess.PIPE, stderr=subprocess.PIPE, timeout=LIMIT)
    return p.returncode, p.stdout, p.stderr


def adb(*words):
    """One that is to succeed: its output."""
    status, out, err = run(*words)
    if status:
        fault('adb %s: %s%s' % (' '.join(words), out.decode(), err.decode()))
    return out.decode()


def dial(port):
    s = socket.create_connection(('127.0.0.1', port), timeout=LIMIT)
    s.setsockopt(socket.IPPROTO_TCP, socket.TCP_NODELAY, 1)
    return s


def echo(port, seed, size, start, wrong):
    """Writes and reads at the same time, compares, and closes when all came back. What is wrong is added to the list."""
    data = random.Random(seed).randbytes(size)
    back, sent = bytearray(), 0
    try:
        s = dial(port)
        start.wait(LIMIT)
        s.setblocking(False)
        while len(back) < size:
            r, w, _ = select.select([s], [s] if sent < size else [], [], LIMIT)
            if not r and not w:
                raise OSError('nothing moved')
            if w:
                sent += s.send(data[sent:sent + 65536])
            if r:
                part = s.recv(65536)
                if not part:
                    raise OSError('closed early')
                back += part
        if back != data:
            raise OSError('other bytes')
        s.close()
    except Exception as e:
        wrong.append('stream %d: %s, sent %d, back %d' % (seed, e, sent, len(back)))


def echoes(ports, streams, size):
    """Streams at once, on these ports in turn."""
    wrong, start = [], threading.Barrier(streams)
    all_ = [threading.Thread(target=echo, args=(ports[i % len(ports)], i, size, start, wrong), daemon=True) for i in range(streams)]
    for t in all_:
        t.start()
    for t in all_:
        t.join()
    if wrong:
        fault('; '.join(wrong))


def rejected(port):
    s = dial(port)
    try:
        if s.recv(1) != b'':
            fault('bytes on a channel that was to be rejected')
    except socket.timeout:
        fault('a channel that was to be rejected stays open')
    s.close()


class Program:
    """A program of ours, connected to adb: `with` gives it, and after it its last line's numbers are there."""

    def __init__(self, program, *words):
        self.words = [program] + [str(w) for w in words]

    def __enter__(self):
        self.p = subprocess.Popen(self.words, stdout=subprocess.PIPE, text=True)
        started.append(self.p)
        self.name = '127.0.0.1:' + self.p.stdout.readline().split()[1]
        adb('connect', self.name)
        self.cnxn = self.p.stdout.readline()
        self.delayed = int(re.search(r'delayed=(\d)', self.cnxn).group(1))
        adb('-s', self.name, 'wait-for-device')
        return self

    def adb(self, *words):
        return adb('-s', self.name, *words)

    def forward(self, name):
        return int(self.adb('forward', 'tcp:0', name))

    def __exit__(self, kind, *_):
        if kind:
            return
        adb('disconnect', self.name)
        out, _ = self.p.communicate(timeout=LIMIT)
        if self.p.returncode:
            fault('the program: ' + out)
        self.end = {k: int(v) for k, v in re.findall(r'(\w+)=(\d+)', out.splitlines()[-1])}


def with_server(body):
    """An adb server of our own on a free port; ended again, as are the programs."""
    signal.signal(signal.SIGALRM, lambda *_: fault('no end in %d s' % WHOLE))
    signal.alarm(WHOLE)
    version = adb('--version').splitlines()
    ENV['ANDROID_ADB_SERVER_PORT'] = str(free_port())
    print('adb: ' + next(l for l in version if l.startswith('Version')), flush=True)
    try:
        # its output is not for us to wait for: the server keeps it open
        subprocess.run(ADB + ['start-server'], env=ENV, stdin=subprocess.DEVNULL, stdout=subprocess.DEVNULL,
                       stderr=subprocess.DEVNULL, timeout=LIMIT)
        body()
    finally:
        for p in started:
            p.kill()
        adb('kill-server')
