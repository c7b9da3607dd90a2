#!/bin/sh
# Measures what two servers over sockets cost: the built program crates/fed/out/fed (after `rt run < stdin` there) runs `fed loop`, in which
# clients of one server send events that another one takes.
#
#     bench/loop.sh [RUNS [EVENTS [CLIENTS [PEER]]]]
#
# PEER is a program that does the same for `PEER loop --events N --clients N`, to compare with: the two are run in turn. Prints the time of the
# fastest run, from the start of the process to its end, events a second and the peak memory, and the ratio of the times. What a run takes
# less than this script itself, some 14 MiB, is not seen in the peak. Figures of two machines can't be compared.
set -e
here=$(cd "$(dirname "$0")" && pwd)
program=$here/../crates/fed/out/fed
[ -x "$program" ] || { echo "no $program: run 'rt run < stdin' in crates/fed first" >&2; exit 2; }
python3 - "$program" "${1:-9}" "${2:-1000}" "${3:-3}" "${4:-}" <<'PY'
import os, subprocess, sys, tempfile, time

program, runs, events, clients, peer = sys.argv[1], *map(int, sys.argv[2:5]), sys.argv[5]
words = ["loop", "--events", str(events), "--clients", str(clients)]
wanted = f"sent {events}\ntaken {events}\ndelivered {events}\n"


def run(command):
    """The time of one run, and its peak memory."""
    with tempfile.TemporaryFile() as told:
        start = time.perf_counter()
        running = subprocess.Popen([command, *words], stdin=subprocess.DEVNULL, stdout=told)
        _, status, used = os.wait4(running.pid, 0)
        took = time.perf_counter() - start
        told.seek(0)
        said = told.read().decode()
    if status != 0 or said != wanted:
        sys.exit(f"{command}: status {status}, {said!r}")
    return took, used.ru_maxrss


commands = [program, peer] if peer else [program]
told = {it: [] for it in commands}
for _ in range(runs):
    for it in commands:
        told[it].append(run(it))
for it in commands:
    least, peak = min(took for took, _ in told[it]), max(memory for _, memory in told[it])
    print(f"{it}: {events} events of {clients} clients, least of {runs} runs {least * 1e3:.1f} ms, {events / least:.0f} events/s, {peak / 1024:.1f} MiB")
if peer:
    least = [min(took for took, _ in told[it]) for it in commands]
    print(f"ratio {least[0] / least[1]:.3f}")
PY
