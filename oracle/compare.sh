#!/bin/sh
# The port against the Rust: builds the oracle, the static library and the driver, runs the scripts of oracle/scripts and
# generated ones (default seeds 1 to 2000, 300 calls each), and prints how many agree or the first mismatch.
#   compare.sh [FIRST [LAST [CALLS]]]
#   SEEDS     libadb's folder libadb/src                   (no default)
#   BUILD     where everything is built                    (default target/oracle of this repository)
#   LIB       the static library                           (default target/staticlib/libadb.a, which is then made)
#   SANITIZE  0: leave out the driver's second build, with -fsanitize=address,undefined
#   CC, CFLAGS
set -eu
here=$(cd "$(dirname "$0")" && pwd)
root=$(dirname "$here")
export BUILD="${BUILD:-$root/target/oracle}"
CC=${CC:-cc}
"$here/build.sh" >&2
BUILD=$(cd "$BUILD" && pwd)
if [ -z "${LIB:-}" ]; then
    make -s -C "$root" target/staticlib/libadb.a >&2
    LIB=$root/target/staticlib/libadb.a
fi
port() { # NAME FLAGS..
    name=$1; shift
    $CC -std=c99 -Wall -Wextra -pedantic ${CFLAGS:--O2} "$@" -I "$root/include" "$here/port/driver.c" "$LIB" -o "$BUILD/$name"
}
port driver
set -- "${1:-1}" "${2:-2000}" "${3:-300}" "$BUILD/driver"
if [ "${SANITIZE:-1}" != 0 ]; then
    port driver-sanitized -g -fsanitize=address,undefined -fno-sanitize-recover=all
    set -- "$@" "$BUILD/driver-sanitized"
fi
exec python3 "$here/port/compare.py" "$BUILD/target/release" "$BUILD/work" "$@" -- "$here"/scripts/*.txt
