#!/bin/sh
# libadb's parse_stat_v2_body against adb_sync_read_v2, on random bodies (default seed 1, 100,000 of them) and on bodies with one
# number at an end of its range; each is also written again byte for byte. Prints how many agree, or the first that does not.
#   stat2.sh [SEED [COUNT]]
#   SEEDS     libadb's folder libadb/src                   (no default)
#   BUILD     where everything is built                    (default target/oracle of this repository)
#   SYNC_LIB  the static library                           (default target/staticlib/libadb_sync.a, which is then made)
#   CC, CFLAGS
set -eu
here=$(cd "$(dirname "$0")" && pwd)
root=$(dirname "$here")
export BUILD="${BUILD:-$root/target/oracle}"
"$here/build.sh" >&2
BUILD=$(cd "$BUILD" && pwd)
if [ -z "${SYNC_LIB:-}" ]; then
    make -s -C "$root" target/staticlib/libadb_sync.a >&2
    SYNC_LIB=$root/target/staticlib/libadb_sync.a
fi
${CC:-cc} -std=c99 -Wall -Wextra -pedantic ${CFLAGS:--O2} -I "$root/include" "$here/port/stat2.c" "$SYNC_LIB" -o "$BUILD/stat2"
python3 - "${1:-1}" "${2:-100000}" > "$BUILD/stat2.txt" <<'PY'
import random, struct, sys
rng = random.Random(int(sys.argv[1]))
form = "<IQQIIIIQqqq"
ends = {"I": (0, 1, 2 ** 31, 2 ** 32 - 1), "Q": (0, 1, 2 ** 32, 2 ** 63, 2 ** 64 - 1), "q": (0, 1, -1, 2 ** 63 - 1, -2 ** 63)}
for i, kind in enumerate(form[1:]):
    for n in ends[kind]:
        print(struct.pack(form, *(n if j == i else 0 for j in range(11))).hex())
for _ in range(int(sys.argv[2])):
    print(rng.randbytes(68).hex())
PY
"$BUILD/target/release/stat2" < "$BUILD/stat2.txt" > "$BUILD/stat2.rust"
"$BUILD/stat2" < "$BUILD/stat2.txt" > "$BUILD/stat2.port"
cmp "$BUILD/stat2.rust" "$BUILD/stat2.port"
echo "$(wc -l < "$BUILD/stat2.rust") bodies agree"
