#!/bin/sh
# Runs the hub's threads under many schedules: the built program crates/fed_hub_play/out/fed_hub_play (after `rt run` there) plays the script
# all_at_once with other seeds than the gate does. Each time four hubs have to end by themselves, and all that was told, taken and delivered has to
# fit together, as is written beside the script.
#
#     tests/threads/run.sh [SEEDS] [FIRST] [PROGRAM]      200 seeds from 1000 on, where no other are named
set -e
here=$(cd "$(dirname "$0")" && pwd)
program=${3:-$here/../../crates/fed_hub_play/out/fed_hub_play}
script=$here/../../crates/fed_hub_play/data/all_at_once
[ -x "$program" ] || { echo "no $program: run 'rt run' in crates/fed_hub_play first" >&2; exit 2; }
room=$(mktemp -d)
trap 'rm -rf "$room"' EXIT
seeds=${1:-200}
first=${2:-1000}
seed=$first
while [ "$seed" -lt $((first + seeds)) ]; do
  sed "s/9001/$seed/" "$script.play" >"$room/script"
  timeout 60 "$program" <"$room/script" >"$room/told" || { echo "seed $seed: status $?" >&2; exit 1; }
  cmp "$room/told" "$script.out" || { echo "seed $seed does not tell what is written" >&2; exit 1; }
  seed=$((seed + 1))
done
echo "$seeds schedules ended as they should"
