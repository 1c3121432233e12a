#!/bin/sh
# The program demo/console.c, as PROGRAM, on the recorded session cut into pieces of every length up to 20 and some longer, and on
# sessions that do not end: output, errors and exit code each time. Says what it ran; exit status 1 on a difference.
#
#   tests/console.sh PROGRAM
set -eu
program=$1
here=$(dirname "$0")
session=$here/../vectors/shell/session.out
work=$(mktemp -d)
trap 'rm -rf "$work"' EXIT

fault() { echo "FAULT: $1"; exit 1; }

# what the device's program printed: one line, 300 lines, and one of errors
{ echo 'out one'; i=0; while [ $i -lt 300 ]; do echo 'out two'; i=$((i + 1)); done; echo 'exit code 7'; } > "$work/output"
echo 'err one' > "$work/errors"

count=0
for piece in 1 2 3 4 5 6 7 8 9 10 11 12 13 14 15 16 17 18 19 20 100 1000 2400 2436 2437 4096 2000000; do
    "$program" $piece < "$session" > "$work/out" 2> "$work/err" || fault "exit status, pieces of $piece"
    cmp -s "$work/out" "$work/output" || fault "output, pieces of $piece"
    cmp -s "$work/err" "$work/errors" || fault "errors, pieces of $piece"
    count=$((count + 1))
done

# bytes in octal, the reason on standard error, exit status 1
broken() {
    for piece in 1 2 3 5 4096; do
        status=0
        printf "$1" | "$program" $piece > "$work/out" 2> "$work/err" || status=$?
        [ $status = 1 ] || fault "exit status $status: $2"
        [ "$(cat "$work/err")" = "console: $2" ] || fault "not $2, but $(cat "$work/err")"
        count=$((count + 1))
    done
}
broken '\001\001\000\000\000a\006' 'refused: a kind above 5'
broken '\003\000\000\000\000' 'refused: an exit frame of length 0'
broken '\001\005\000\000\000abc' 'the session ends before its exit'
broken '\004\000\000\000\000' 'the session ends before its exit'
echo "console: $count sessions"
