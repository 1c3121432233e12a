#!/bin/sh
# Checks the oracle itself on generated scripts (default seeds 1 to 200, 200 calls each): no panic, no harness fault, and the
# same answers with the open's future kept alive (--keep) as with it resumed through await_open_ack. Then the marked cases,
# the findings, the runs with books, the differences, and what the port does otherwise. Run build.sh first.
#   check.sh [FIRST [LAST [CALLS]]]
#   BUILD  as for build.sh
set -eu
here=$(cd "$(dirname "$0")" && pwd)
BUILD=${BUILD:-$here/../target/oracle}
bin=$BUILD/target/release
first=${1:-1}; last=${2:-200}; calls=${3:-200}
work=$BUILD/check
rm -rf "$work"; mkdir -p "$work"
seed=$first
while [ "$seed" -le "$last" ]; do
    budget=""; [ $((seed % 5)) -ne 0 ] || budget=--budget
    verdicts=""; [ $((seed % 3)) -eq 0 ] || verdicts=--verdicts
    "$bin/gen" "$seed" "$calls" $budget $verdicts > "$work/$seed.txt"
    "$bin/oracle" < "$work/$seed.txt" > "$work/$seed.out"
    "$bin/oracle" --keep < "$work/$seed.txt" > "$work/$seed.keep"
    if grep -n -E '^(panic|error)|DESYNC|HARNESS' "$work/$seed.out" "$work/$seed.keep"; then
        echo "check.sh: seed $seed" >&2; exit 1
    fi
    seed=$((seed + 1))
done
python3 - "$work" "$first" "$last" "$calls" <<'PY'
import sys, collections, re
work, first, last, calls = sys.argv[1], *map(int, sys.argv[2:])
seen = collections.Counter(); n = 0; kept = 0
for seed in range(first, last + 1):
    script = [l for l in open(f"{work}/{seed}.txt")]
    out = open(f"{work}/{seed}.out").read().splitlines()
    keep = open(f"{work}/{seed}.keep").read().splitlines()
    assert len(script) == len(out) == len(keep) == calls, seed
    for i, (s, a, b) in enumerate(zip(script, out, keep)):
        n += 1
        if "next=?" in b:
            kept += 1
            b0 = b
            a = re.sub(r"next=\S+ slots=\S+ queue=\S+", "next=? slots=? queue=?", a)
            if s.startswith("in_use"):
                a = re.sub(r"in_use n=\d+", "in_use n=?", a)
        assert a == b, (seed, i + 1, s, a, b)
        w = a.split()
        ans = w[0] + (" " + w[1] if w[0] == "refused" else "")
        if w[0] in ("settled", "feature"): ans += " " + ("none" if "none" in w[1] else w[1].split("=")[0])
        f = a.split("out=")[1].split()[0]
        used = "used" if " used=0 " not in a else "-"
        seen[(s.split()[0], ans, used, "wrote" if f != "-" else "")] += 1
print(f"{n} calls in {last-first+1} scripts agree in both modes ({kept} while an open was kept)")
for k, v in sorted(seen.items()): print(f"{v:7} ", *k)
PY
for list in marked findings ledger differences verdicts apart/credit apart/close; do
    "$bin/oracle" < "$here/scripts/$list.txt" | cmp - "$here/scripts/$list.expected"
    echo "scripts/$list.txt as expected"
done
