#!/bin/bash
# Runs frames_to_pcap and pcap_to_frames on the stored files of tests/captures (docs/VECTORS.md), compares what they write, and prints
# counts. Where a capture is named, the frames that it gives are to become a file of its length that gives the same.
#
#   tests/captures.sh [CAPTURE]
set -eu -o pipefail
cd "$(dirname "$0")/.."
to=target/bin/frames_to_pcap from=target/bin/pcap_to_frames stored=tests/captures
room=$(mktemp -d)
trap 'rm -rf "$room"' EXIT

fault() { echo "FAULT: $*"; exit 1; }
same() { cmp "$1" "$2" || fault "$3"; }

whole=0
for input in "$stored"/to/*.in; do
    "$to" < "$input" > "$room/out"
    same "$room/out" "${input%.in}.out" "$input"
    whole=$((whole + 1))
done
for input in "$stored"/from/*.in; do
    "$from" < "$input" > "$room/out"
    same "$room/out" "${input%.in}.out" "$input"
    whole=$((whole + 1))
done

# The first $1 bytes of $2, one at a time.
bytes_of() { dd if="$2" bs=1 count="$1" status=none; }

# A small one, cut at every byte, which arrives byte by byte: what comes out is what its whole frames or records give.
cuts=0
for program in to from; do
    if [ $program = to ]; then in=small.in out=small.out mine=1 other=2 least=24; else in=small.out out=small.in mine=2 other=1 least=0; fi
    for ((n = 0; n <= $(stat -c %s "$stored/$in"); n++)); do
        k=$(awk -v n="$n" -v m=$mine -v o=$other -v least=$least 'BEGIN { k = least } $m <= n { k = $o } END { print k }' "$stored/ends")
        bytes_of "$n" "$stored/$in" | "${!program}" > "$room/out"
        head -c "$k" "$stored/$out" > "$room/want"
        same "$room/out" "$room/want" "$in cut at $n"
        cuts=$((cuts + 1))
    done
done

# What a real host and a device sent goes in and comes back.
recorded=0
while read -r sum name; do
    "$to" < "$stored/recorded/$name" > "$room/file"
    echo "$sum  $room/file" | sha256sum -c --quiet || fault "$name"
    "$from" < "$room/file" > "$room/out"
    same "$room/out" "$stored/recorded/$name" "$name, back"
    recorded=$((recorded + 1))
done < "$stored/sums"

# All of it in one, arriving in pieces of 7 bytes: more than a buffer, and no frame whole in a piece.
cat "$stored"/recorded/* > "$room/all"
dd if="$room/all" bs=7 status=none | "$to" | dd bs=5 status=none | "$from" > "$room/out"
same "$room/out" "$room/all" "all that was recorded, in pieces"

if [ $# -gt 0 ]; then
    "$from" < "$1" > "$room/frames"
    "$to" < "$room/frames" > "$room/file"
    [ "$(stat -c %s "$room/file")" = "$(stat -c %s "$1")" ] || fault "$1: another length"
    "$from" < "$room/file" > "$room/out"
    same "$room/out" "$room/frames" "$1"
fi
echo "captures: $whole stored files, $cuts cuts, $recorded recorded streams: all as they should be"
