#!/bin/sh
# Tries the wrong bodies of crates/NAME/mutants/ as `rt must-fail` tries those of must-fail/: the prover has to refuse each. It works in a
# copy, over what earlier checks left in out/, and tells what it found of a crate before it begins with the next one.
#
#     tests/mutants.sh [CRATE..]      all crates that have some, where none is named
set -eu
top=$(cd "$(dirname "$0")/.." && pwd)
room=$(mktemp -d)
trap 'rm -rf "$room"' EXIT
cp -r "$top/crates" "$top/crates.txt" "$top/HANDLES" "$room"
cd "$room"
rm -rf crates/*/must-fail
named=""
for mutants in crates/*/mutants; do
  crate=$(basename "$(dirname "$mutants")")
  mv "$mutants" "crates/$crate/must-fail"
  named="$named $crate"
done
[ $# -eq 0 ] || named="$*"
status=0
for crate in $named; do
  echo "== $crate"
  rt must-fail "$crate" || status=1
done
exit "$status"
