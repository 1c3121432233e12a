#!/bin/sh
# This library against libadb in time: builds libadb's core for release and the static library into one program, which tests
# that both do the same, times them, and prints tables (docs/PERFORMANCE.md). Two to three minutes, on an idle machine.
#   run.sh [REPEATS [MS [TEXT]]]     default 7 repeats of 32 ms each; TEXT: only rows whose name has it
#   SEEDS  libadb's folder libadb/src                          (no default)
#   BUILD  where everything is built                           (default target/oracle of this repository)
#   LIB    the static library                                  (default target/staticlib/libadb.a, which is then made)
#   SUM_LIB  that of the sum alone                             (default target/staticlib/libbench_sum.a, which is then made)
#   JOBS   how many compilers cargo may run at a time          (default 1)
set -eu
here=$(cd "$(dirname "$0")" && pwd)
root=$(dirname "$here")
export BUILD="${BUILD:-$root/target/oracle}"
TREE_ONLY=1 "$root/oracle/build.sh" >&2
BUILD=$(cd "$BUILD" && pwd)
if [ -z "${LIB:-}" ]; then
    make -s -C "$root" target/staticlib/libadb.a >&2
    LIB=$root/target/staticlib/libadb.a
fi
if [ -z "${SUM_LIB:-}" ]; then
    make -s -C "$root" target/staticlib/libbench_sum.a >&2
    SUM_LIB=$root/target/staticlib/libbench_sum.a
fi
export LIB SUM_LIB
# Below the generated tree, whose crate it uses.
mkdir -p "$BUILD/bench/src"
for file in Cargo.toml build.rs src/before.rs src/frames.rs src/main.rs src/ours.rs src/sum.rs src/theirs.rs; do
    cmp -s "$here/$file" "$BUILD/bench/$file" || cp "$here/$file" "$BUILD/bench/$file"
done
cd "$BUILD/bench"
CARGO_TARGET_DIR=$BUILD/bench/target cargo build --release --offline --quiet -j "${JOBS:-1}" >&2
exec "$BUILD/bench/target/release/bench" "$@"
