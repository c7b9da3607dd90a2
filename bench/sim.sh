#!/bin/sh
# Measures what `fed sim` takes for scripts of 1,000, 10,000 and 20,000 sends in one room of two servers, of which the first 50 are delivered: the
# built program crates/fed/out/fed (after `rt run < stdin` there), or PROGRAM.
#
#     bench/sim.sh [RUNS [PROGRAM]]
#
# In each of RUNS rounds the first script runs ten times, which takes about as long as the second, and each of the others once. Prints for each the
# least processor time of the rounds, of the first the mean of its ten runs, the time for a send, and how many times the time of the script before
# it is. Figures of two machines can't be compared.
set -e
here=$(cd "$(dirname "$0")" && pwd)
program=${2:-$here/../crates/fed/out/fed}
[ -x "$program" ] || { echo "no $program: run 'rt run < stdin' in crates/fed first" >&2; exit 2; }
python3 - "$program" "${1:-9}" <<'PY'
import os, statistics, subprocess, sys, tempfile

program, runs = sys.argv[1], int(sys.argv[2])
SIZES = (1_000, 10_000, 20_000)
BEGIN = ["servers a.example b.example", "room !r:a.example @u:a.example @v:b.example"]
PAIR = "a.example b.example"
DELIVERY = [f"collect {PAIR}"] * 50 + [f"cut {PAIR}", f"post {PAIR}", "arrive 1", "answer 2", "show b.example a.example"]
WANTED = "taken 50 0 acked 50 0"


def script(sends):
    one = 'send a.example !r:a.example @u:a.example m.room.message - {"body":"message %d"}'
    return "\n".join(BEGIN + [one % number for number in range(sends)] + DELIVERY).encode() + b"\n"


# The processor time of a run.
def took(given):
    with tempfile.TemporaryFile() as lines, tempfile.TemporaryFile() as said:
        lines.write(given)
        lines.seek(0)
        running = subprocess.Popen([program, "sim"], stdin=lines, stdout=said)
        _, status, used = os.wait4(running.pid, 0)
        said.seek(0)
        told = said.read().decode()
    if status != 0 or told.split("\n")[-2] != WANTED:
        sys.exit(f"{program}: status {status}, {told[-200:]}")
    return used.ru_utime + used.ru_stime


first, *others = map(script, SIZES)
rounds = [[statistics.mean(took(first) for _ in range(10)), *map(took, others)] for _ in range(runs)]
least = [min(times) for times in zip(*rounds)]
print("sends        time       a send   times the one before")
for sends, time, before in zip(SIZES, least, [0, *least]):
    print(f"{sends:<8} {time * 1e3:8.0f} ms {time / sends * 1e6:9.1f} us" + (f" {time / before:9.1f}" if before else ""))
PY
