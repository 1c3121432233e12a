#!/bin/bash
# Has Wireshark's own readers read captures that frames_to_pcap makes of recorded bytes, and compares the number of records and their
# lengths with those of the frames; then a capture, where one is named, by its count alone. Needs capinfos and tshark (Debian:
# apt-get install wireshark-common tshark), and that the programs were built; the tests do not need it.
#
#   tests/viewer.sh [CAPTURE]
set -eu -o pipefail
cd "$(dirname "$0")/.."
for tool in capinfos tshark; do
    command -v $tool > /dev/null || { echo "viewer: no $tool here"; exit 2; }
done
room=$(mktemp -d)
trap 'rm -rf "$room"' EXIT

fault() { echo "FAULT: $*"; exit 1; }
word() { od -An -tu4 -j "$2" -N 4 "$1" | tr -d ' '; }

# The length of each frame of a file of frames, by the lengths in their headers.
lengths() {
    local at=0 n
    while [ "$at" -lt "$(stat -c %s "$1")" ]; do
        n=$((24 + $(word "$1" $((at + 12)))))
        echo "$n $n"
        at=$((at + n))
    done
}

for bytes in tests/captures/recorded/*; do
    name=$(basename "$bytes")
    target/bin/frames_to_pcap < "$bytes" > "$room/$name.pcap"
    lengths "$bytes" > "$room/want"
    tshark -r "$room/$name.pcap" -T fields -E separator=' ' -e frame.len -e frame.cap_len 2> "$room/said" > "$room/got" \
        || fault "$name: $(cat "$room/said")"
    cmp "$room/got" "$room/want" || fault "$name: other lengths"
    count=$(capinfos -Mcr "$room/$name.pcap" | awk '/Number of packets/ { print $NF }')
    [ "$count" = "$(wc -l < "$room/want")" ] || fault "$name: $count records"
    echo "viewer: $name: $count records, $(awk '{ n += $1 } END { print n }' "$room/got") bytes"
done
if [ $# -gt 0 ]; then
    count=$(capinfos -Mcr "$1" | awk '/Number of packets/ { print $NF }')
    [ "$count" = "$(tshark -r "$1" 2> /dev/null | wc -l)" ] || fault "$1: counts differ"
    echo "viewer: $1: $count records"
fi
