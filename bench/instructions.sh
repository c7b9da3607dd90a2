#!/bin/sh
# Counts the instructions of `fed loop`, by valgrind's callgrind, at 500 and 1,000 events of 3 clients: of the built program crates/fed/out/fed (after
# `rt run < stdin` there), or of PROGRAM.
#
#     bench/instructions.sh [PEER]
#
# PEER is a program that does the same for `PEER loop --events N --clients N`, to compare with. Prints the counts and their ratio. Threads take turns as
# they please, so counts differ by some tenths of a percent; the processor's own instructions for SHA, which a peer may use, are one instruction each,
# and valgrind has none of them.
set -e
here=$(cd "$(dirname "$0")" && pwd)
program=${PROGRAM:-$here/../crates/fed/out/fed}
[ -x "$program" ] || { echo "no $program: run 'rt run < stdin' in crates/fed first" >&2; exit 2; }
command -v valgrind >/dev/null || { echo "valgrind is not installed" >&2; exit 2; }
room=$(mktemp -d)
trap 'rm -rf "$room"' EXIT
count() {
  valgrind --tool=callgrind --callgrind-out-file="$room/out" "$1" loop --events "$2" --clients 3 2>"$room/said" >"$room/told"
  grep -q "^delivered $2\$" "$room/told" || { cat "$room/told" "$room/said" >&2; exit 1; }
  sed -n 's/.*Collected : \([0-9]*\).*/\1/p' "$room/said"
}
for events in 500 1000; do
  ours=$(count "$program" "$events")
  if [ -n "$1" ]; then
    theirs=$(count "$1" "$events")
    echo "$events events: $ours instructions, the peer $theirs: $(awk "BEGIN { printf \"%.2f\", $ours / $theirs }") times"
  else
    echo "$events events: $ours instructions"
  fi
done
