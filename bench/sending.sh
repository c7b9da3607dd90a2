#!/bin/sh
# Measures what sending costs as it grows: the built program crates/fed_bench/out/fed_bench (after `rt run < stdin` there) enters 1,000,
# 10,000 and 100,000 events in a journal, each for 64 destinations, feeds an outbox with them, goes over what is addressed to each
# destination, and cuts, writes and settles to the end.
#
#     bench/sending.sh [RUNS]
#
# Prints for each size the time of the fastest run, the peak memory, and both for one event. Figures of two machines can't be compared.
set -e
here=$(cd "$(dirname "$0")" && pwd)
program=$here/../crates/fed_bench/out/fed_bench
[ -x "$program" ] || { echo "no $program: run 'rt run < stdin' in crates/fed_bench first" >&2; exit 2; }
python3 - "$program" "${1:-3}" <<'PY'
import os, subprocess, sys, time
program, runs = sys.argv[1], int(sys.argv[2])
print("events   time      memory    time/event  memory/event")
for size in (1_000, 10_000, 100_000):
    times, peak = [], 0
    for _ in range(runs):
        start = time.perf_counter()
        running = subprocess.Popen([program], stdin=subprocess.PIPE, stdout=subprocess.PIPE)
        running.stdin.write(b"send %d\n" % size)
        running.stdin.close()
        told = running.stdout.read().decode()
        _, status, used = os.wait4(running.pid, 0)
        times.append(time.perf_counter() - start)
        peak = max(peak, used.ru_maxrss * 1024)
        if status != 0 or not told.endswith(f"settled {size}\n"):
            sys.exit(f"{program}: status {status}: {told}")
    least = min(times)
    print(f"{size:<8} {least:7.3f} s {peak / 2**20:6.0f} MiB {least / size * 1e6:8.1f} us {peak / size:9.0f} B")
PY
