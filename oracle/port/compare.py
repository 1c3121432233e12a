#!/usr/bin/env python3
"""compare.py ORACLE_DIR WORK FIRST LAST CALLS DRIVER.. -- SCRIPT..

Runs the scripts, and generated ones with seeds FIRST to LAST of CALLS calls each, on the oracle and on each driver, and
compares every line: answer, bytes used, frames written, bytes handed over, and the state after the call. ORACLE_DIR has the
programs `oracle` and `gen`; WORK is for intermediate files. Prints one line where all agree. Otherwise exits 1 with the first
mismatch and the smallest script that still shows it, which is also left as WORK/mismatch.txt.
"""
import os, re, subprocess, sys

BATCH = 100


def normal(line):
    """An oracle line without what the C interface does not tell."""
    line = re.sub(r'^(made cap=\d+) ceiling=\d+ watermark=\d+ credit=\d+', r'\1', line)
    return re.sub(r'^(refused 6) command=\S+', r'\1', line)


class Runner:
    def __init__(self, tools, work):
        self.oracle, self.gen, self.work = f'{tools}/oracle', f'{tools}/gen', work
        self.left_out = 0

    def generated(self, seed, calls):
        # Every fifth script also sets budgets to the ends of their range.
        words = [self.gen, str(seed), str(calls)] + (['--budget'] if seed % 5 == 0 else []) + (['--verdicts'] if seed % 3 else [])
        done = subprocess.run(words, check=True, capture_output=True, text=True)
        self.left_out += int(re.search(r'left out: (\d+)', done.stderr)[1])
        return done.stdout.splitlines()

    def expanded(self, path):
        with open(path) as script:
            text = subprocess.run([self.oracle, '--expand'], stdin=script, check=True, capture_output=True, text=True).stdout
        return [l for l in text.splitlines() if l.strip() and not l.startswith('#')]

    def both(self, script, drivers):
        """What the oracle and each driver print, and a word on each driver that failed; at most two processes at a time."""
        path = f'{self.work}/script.txt'
        with open(path, 'w') as f:
            f.write('\n'.join(script) + '\n')
        programs = [self.oracle] + drivers
        results = []
        for pair in (programs[:2], *([p] for p in programs[2:])):
            running = []
            for i, program in enumerate(pair):
                at = f'{self.work}/{len(results) + i}'
                out, err = open(at + '.out', 'w+'), open(at + '.err', 'w+')
                running.append((subprocess.Popen([program], stdin=open(path), stdout=out, stderr=err), out, err))
            for p, out, err in running:
                status = p.wait()
                out.seek(0), err.seek(0)
                trouble = f'exit status {status}: {err.read()[:2000]}' if status else ''
                results.append((out.read().splitlines(), trouble))
                out.close(), err.close()
        if results[0][1]:
            sys.exit(f'compare.py: the oracle failed: {results[0][1]}')
        return results[0][0], results[1:]

    def mismatch(self, script, drivers):
        """(calls compared, None), or (calls, (index of the call or None, driver, oracle's line, port's line))."""
        want, ports = self.both(script, drivers)
        if len(want) != len(script):
            sys.exit(f'compare.py: {len(script)} calls, {len(want)} lines of the oracle')
        for line in want:
            if line.startswith(('panic', 'error')) or ' DESYNC' in line:
                sys.exit(f'compare.py: the oracle: {line[:300]}')
        compared = 0
        for driver, (got, trouble) in zip(drivers, ports):
            compared = 0
            for i, (w, g) in enumerate(zip(want, got)):
                if g == 'skipped':
                    continue
                compared += 1
                if w != g and normal(w) != g:
                    return compared, (i, driver, w, g)
            if trouble or len(got) != len(want):
                return compared, (None, driver, '-', trouble or f'{len(got)} lines for {len(want)} calls')
        return compared, None


def smallest(runner, script, found):
    """Drops calls while the driver still differs."""
    drivers = [found[1]]

    def cut(lines):
        wrong = runner.mismatch(lines, drivers)[1]
        return (lines if wrong[0] is None else lines[:wrong[0] + 1], wrong) if wrong else None

    best, wrong = cut(script) or (script, found)
    if wrong[0] is None:
        # The driver failed, and no line tells where: the shortest beginning on which it fails.
        low, high = 0, len(best)
        while high - low > 1:
            middle = (low + high) // 2
            low, high = (low, middle) if cut(best[:middle]) else (middle, high)
        best, wrong = cut(best[:high]) or (best, wrong)
    for i in range(len(best) - 1, 0, -1):
        if best[i].startswith('make'):
            less = cut(best[i:])
            if less:
                best, wrong = less
                break
    size = max(1, len(best) // 2)
    while size:
        at = len(best) - 1
        while at > 0:
            low = max(1, at - size)
            less = cut(best[:low] + best[at:]) if low < at else None
            if less:
                best, wrong = less
                at = min(low, len(best) - 1)
            else:
                at = low if low < at else at - 1
        size //= 2
    return best, wrong


def report(runner, name, script, found):
    best, (at, driver, want, got) = smallest(runner, script, found)
    path = f'{runner.work}/mismatch.txt'
    with open(path, 'w') as f:
        f.write('\n'.join(best) + '\n')
    want = normal(want)
    differ = next((i for i, (a, b) in enumerate(zip(want, got)) if a != b), 0)

    def short(line, at=0):
        low = max(0, at - 200)
        return ('..' if low else '') + line[low:low + 1500] + ('..' if len(line) > low + 1500 else '')

    print(f'mismatch: {name}, {os.path.basename(driver)}; smallest script ({path}):')
    for l in best:
        print('   ', short(l))
    print('  Rust:', short(want, differ))
    print('  port:', short(got, differ))
    sys.exit(1)


def main():
    tools, work, first, last, calls = sys.argv[1], sys.argv[2], *map(int, sys.argv[3:6])
    rest = sys.argv[6:]
    drivers, scripts = rest[:rest.index('--')], rest[rest.index('--') + 1:]
    os.makedirs(work, exist_ok=True)
    runner = Runner(tools, work)
    agreed = count = 0
    for path in scripts:
        script = runner.expanded(path)
        n, wrong = runner.mismatch(script, drivers)
        if wrong:
            report(runner, os.path.basename(path), script, wrong)
        agreed, count = agreed + n, count + 1
    for low in range(first, last + 1, BATCH):
        seeds = range(low, min(low + BATCH, last + 1))
        parts = [runner.generated(seed, calls) for seed in seeds]
        # Each script starts with a make, which starts afresh: they can be run as one.
        n, wrong = runner.mismatch([l for part in parts for l in part], drivers)
        if wrong:
            for seed, part in zip(seeds, parts):
                wrong = runner.mismatch(part, drivers)[1]
                if wrong:
                    report(runner, f'seed {seed}', part, wrong)
            report(runner, f'seeds {seeds[0]} to {seeds[-1]} together', [l for part in parts for l in part], wrong)
        agreed, count = agreed + n, count + len(seeds)
    ways = ' and '.join(os.path.basename(d) for d in drivers)
    print(f'{count} scripts, {agreed} calls agree ({ways}); {runner.left_out} generated calls left out, on which the port has a rule of its own')


main()
