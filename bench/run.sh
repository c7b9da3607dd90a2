#!/bin/sh
# Measures the built program (crates/fed/out/fed, after `rt run` there) on generated transactions: 400 of them, and ten times as many,
# whose time tells what an inbox that has grown costs.
#
#     bench/run.sh [RUNS] [generate.py's arguments but --transactions]
#
# Prints for each size MB/s and lines/s of the fastest run and the peak memory, and then how many times the smaller size the larger one
# takes. Figures of two machines can't be compared.
set -e
here=$(cd "$(dirname "$0")" && pwd)
fed=$here/../crates/fed/out/fed
[ -x "$fed" ] || { echo "no $fed: run 'rt run < stdin' in crates/fed first" >&2; exit 2; }
runs=${1:-5}
[ $# -eq 0 ] || shift
room=$(mktemp -d)
trap 'rm -rf "$room"' EXIT
for size in 400 4000; do
  python3 "$here/generate.py" "$@" --transactions "$size" > "$room/$size"
done
python3 - "$fed" "$runs" "$room/400" "$room/4000" <<'PY'
import os, subprocess, sys, time
fed, runs, paths = sys.argv[1], int(sys.argv[2]), sys.argv[3:]
leasts = []
for path in paths:
    data = open(path, "rb").read()
    times, peak = [], 0
    for _ in range(runs):
        with open(path, "rb") as lines:
            start = time.perf_counter()
            running = subprocess.Popen([fed], stdin=lines, stdout=subprocess.DEVNULL)
            _, status, used = os.wait4(running.pid, 0)
            times.append(time.perf_counter() - start)
            peak = max(peak, used.ru_maxrss / 1024)
        if status != 0:
            sys.exit(f"{fed}: status {status}")
    least = min(times)
    leasts.append(least)
    print(f"{len(data) / 1e6:.1f} MB, {data.count(10)} lines: least of {runs} runs {least * 1e3:.0f} ms, "
          f"{len(data) / 1e6 / least:.1f} MB/s, {data.count(10) / least:.0f} lines/s, peak memory {peak:.1f} MiB")
print(f"ten times the transactions take {leasts[1] / leasts[0]:.1f} times as long")
PY
