#!/bin/sh
# Measures what kept replies cost: the built program crates/fed_replies_bench/out/fed_replies_bench (after `rt run < stdin` there) keeps
# 1,000, 10,000 and 100,000 replies of 50 events in a list store and in a packed store, and gets each again; once all events were accepted,
# and once each second one has failed.
#
#     bench/replies.sh [RUNS]
#
# Prints for each size the memory of a reply (the peak, less that of a store of none) and the least times of keeping and getting one, for
# both stores, and how many times the list store's figures the packed store's are. Figures of two machines can't be compared.
set -e
here=$(cd "$(dirname "$0")" && pwd)
program=$here/../crates/fed_replies_bench/out/fed_replies_bench
[ -x "$program" ] || { echo "no $program: run 'rt run < stdin' in crates/fed_replies_bench first" >&2; exit 2; }
python3 - "$program" "${1:-3}" <<'PY'
import os, subprocess, sys

program, runs = sys.argv[1], int(sys.argv[2])


def run(store, verdicts, size):
    running = subprocess.Popen([program], stdin=subprocess.PIPE, stdout=subprocess.PIPE, stderr=subprocess.PIPE)
    running.stdin.write(f"{store} {verdicts} {size}\n".encode())
    running.stdin.close()
    told, times = running.stdout.read().decode(), running.stderr.read().decode()
    _, status, used = os.wait4(running.pid, 0)
    if status != 0 or told != f"kept {size}\n":
        sys.exit(f"{program}: status {status}: {told}{times}")
    _, keep, _, get = times.split()
    return used.ru_maxrss * 1024, int(keep), int(get)


def least(store, verdicts, size):
    empty = min(run(store, verdicts, 0)[0] for _ in range(runs))
    bytes_, keep, get = (min(column) for column in zip(*(run(store, verdicts, size) for _ in range(runs))))
    return (bytes_ - empty) / size, keep / size / 1e3, get / size / 1e3


print("events    replies   list: bytes  keep us   get us   packed: bytes  keep us   get us   times: bytes   keep    get")
for verdicts in ("accepted", "failed"):
    for size in (1_000, 10_000, 100_000):
        one, other = least("list", verdicts, size), least("packed", verdicts, size)
        ratios = [b / a if a else float("nan") for a, b in zip(one, other)]
        print(f"{verdicts:<9} {size:<9} {one[0]:11.0f} {one[1]:8.2f} {one[2]:8.2f} {other[0]:15.0f} {other[1]:8.2f} {other[2]:8.2f}"
              f" {ratios[0]:14.2f} {ratios[1]:6.2f} {ratios[2]:6.2f}")
PY
