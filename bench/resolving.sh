#!/bin/sh
# Measures what resolving the states of 8 branches of a room costs, in rooms of 2,000, 10,000, 16,000 and 50,000 events: the built program
# crates/fed_bench/out/fed_bench (after `rt run < stdin` there) beside PEER, a program which does the same work for
# `PEER resolve EVENTS BRANCHES TIMES --dump FILE`, and writes that room and its states to FILE.
#
#     bench/resolving.sh PEER [RUNS]
#
# Prints for each size the least time of both, their ratio, and whether both resolve to the same state. Figures of two machines can't be
# compared.
set -e
here=$(cd "$(dirname "$0")" && pwd)
program=$here/../crates/fed_bench/out/fed_bench
[ -x "$program" ] || { echo "no $program: run 'rt run < stdin' in crates/fed_bench first" >&2; exit 2; }
[ -n "$1" ] || { echo "usage: bench/resolving.sh PEER [RUNS]" >&2; exit 2; }
python3 - "$program" "$1" "${2:-3}" <<'PY'
import os, subprocess, sys, tempfile

program, peer, runs = sys.argv[1], sys.argv[2], int(sys.argv[3])
BRANCHES, TIMES = 8, 5


def told(command, given=b""):
    done = subprocess.run(command, input=given, capture_output=True)
    if done.returncode != 0:
        sys.exit(f"{command}: {done.stdout} {done.stderr}")
    state, time = done.stdout.decode().split()
    return state, int(time)


def least(one, other):
    states, times = set(), ([], [])
    for _ in range(runs):
        for run, kept in zip((one, other), times):
            state, time = run()
            states.add(state)
            kept.append(time)
    return *map(min, times), "same" if len(states) == 1 else "different"


print("events   a resolution  the peer's     ratio  states")
with tempfile.TemporaryDirectory() as room:
    for events in (2_000, 10_000, 16_000, 50_000):
        file = os.path.join(room, str(events))
        theirs = lambda: told([peer, "resolve", str(events), str(BRANCHES), str(TIMES), "--dump", file])
        theirs()
        ours = lambda: told([program], f"resolve {file}\n".encode())
        one, other, states = least(ours, theirs)
        print(f"{events:<8} {one / 1e3:9.3f} ms {other / 1e3:9.3f} ms {one / other:9.2f}  {states}")
PY
