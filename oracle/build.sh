#!/bin/sh
# Generates a source tree under $BUILD from the harness beside this script and libadb's own files under $SEEDS, which are
# copied byte for byte, and builds the programs `oracle`, `gen` and `stat2` there.
#   SEEDS  libadb's folder libadb/src                          (no default)
#   BUILD  where to generate and build                         (default target/oracle of this repository)
#   JOBS   how many compilers cargo may run at a time          (default 1)
#   TREE_ONLY  1: generates the tree and builds nothing
set -eu
here=$(cd "$(dirname "$0")" && pwd)
BUILD=${BUILD:-$here/../target/oracle}
if [ ! -f "${SEEDS:-}/base/connection.rs" ]; then
    echo "build.sh: SEEDS must name libadb's folder libadb/src, the one with base/connection.rs" >&2
    exit 2
fi
for crate in bytes log; do
    if ! ls -d /usr/share/cargo/registry/$crate-* >/dev/null 2>&1; then
        echo "build.sh: Debian's librust-bytes-dev and librust-log-dev are needed" >&2
        exit 2
    fi
done
SEEDS=$(cd "$SEEDS" && pwd)
mkdir -p "$BUILD/.cargo"
BUILD=$(cd "$BUILD" && pwd)

# The tree is put together aside and copied over where it differs, so that cargo builds only what changed.
fresh=$BUILD/fresh
rm -rf "$fresh"
mkdir -p "$fresh"
cp -R "$here/harness/src" "$here/harness/shims" "$here/harness/Cargo.toml" "$fresh/"

# file of libadb (without .rs) -> place in the tree.
# The four .seed.rs files are taken in by include! in a wrapper of the same name, which adds a child module that may see
# private fields.
while read -r seed place; do
    [ -n "$seed" ] || continue
    from="$SEEDS/$seed.rs"
    to="$fresh/src/$place"
    [ ! -e "$to" ] || { echo "build.sh: $to would hide a harness file" >&2; exit 1; }
    mkdir -p "$(dirname "$to")"
    cp "$from" "$to"
    cmp "$from" "$to"
done <<MAP
error                       error.rs
base/auth                   base/auth.rs
base/channel                base/channel.rs
base/channel_table          base/channel_table.seed.rs
base/connection             base/connection.rs
base/connection/accept      base/connection/accept.rs
base/connection/config      base/connection/config.seed.rs
base/connection/handshake   base/connection/handshake.rs
base/device_banner          base/device_banner.rs
base/ids                    base/ids.rs
base/incoming               base/incoming.seed.rs
base/negotiated             base/negotiated.rs
base/protocol/checksum      base/protocol/checksum.rs
base/protocol/command       base/protocol/command.rs
base/protocol/constant      base/protocol/constant.rs
base/protocol/features      base/protocol/features.rs
base/protocol/message       base/protocol/message.rs
base/protocol/packet        base/protocol/packet.rs
base/send_queue             base/send_queue.rs
base/session                base/session.rs
base/slot                   base/slot.seed.rs
base/wire                   base/wire.rs
sync/format                 sync/format.rs
MAP

if ! { diff -r "$fresh/src" "$BUILD/src" && diff -r "$fresh/shims" "$BUILD/shims"; } >/dev/null 2>&1; then
    rm -rf "$BUILD/src" "$BUILD/shims"
    mv "$fresh/src" "$fresh/shims" "$BUILD/"
fi
cmp -s "$fresh/Cargo.toml" "$BUILD/Cargo.toml" || cp "$fresh/Cargo.toml" "$BUILD/"
cp "$here/harness/cargo-config/config.toml" "$BUILD/.cargo/"
rm -rf "$fresh"
[ "${TREE_ONLY:-0}" = 0 ] || exit 0

cd "$BUILD"
CARGO_TARGET_DIR=$BUILD/target cargo build --release --offline --quiet -j "${JOBS:-1}"
echo "built: $BUILD/target/release/oracle $BUILD/target/release/gen $BUILD/target/release/stat2"
