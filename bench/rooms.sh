#!/bin/sh
# Measures what an event costs in a room, by how many members and how many events it has: the built program crates/fed_bench/out/fed_bench
# (after `rt run < stdin` there) makes rooms of 2 and of 1,000 members and receives 1,000, 10,000 and 50,000 messages one by one, in one line
# and with a fork every 10 events; and then 100 and 1,000 messages that all follow one event, so that each is a forward extremity. Then one
# member changes the own display name again and again, which is state: each change follows one event, so that all are forward extremities; or
# each third follows the two before it, so that two states are merged.
#
#     bench/rooms.sh [RUNS]
#
# Prints for each the least time for an event, of receiving alone, and what the peak memory grows by for an event, the event itself among it;
# and then how many times those of a room of 2 members they are. Both rooms are run in turn: on a machine that does other work too, the more
# runs, the likelier that each room meets a quiet moment. What a run of 1,000 messages takes is less than the script's own memory, which
# counts in the peak. Of a merge what it takes beyond a change in a line is told. Figures of two machines can't be compared.
set -e
here=$(cd "$(dirname "$0")" && pwd)
program=$here/../crates/fed_bench/out/fed_bench
[ -x "$program" ] || { echo "no $program: run 'rt run < stdin' in crates/fed_bench first" >&2; exit 2; }
python3 - "$program" "${1:-15}" <<'PY'
import os, subprocess, sys, tempfile

program, runs = sys.argv[1], int(sys.argv[2])


# The time of receiving in microseconds, and the peak memory of the run in bytes.
def told(members, messages, fork, kind=b"room"):
    with tempfile.TemporaryFile() as lines, tempfile.TemporaryFile() as said:
        lines.write(b"%s %d %d %d\n" % (kind, members, messages, fork))
        lines.seek(0)
        running = subprocess.Popen([program], stdin=lines, stdout=said)
        _, status, used = os.wait4(running.pid, 0)
        said.seek(0)
        counts = said.read().split()
    if status != 0 or int(counts[0]) != messages:
        sys.exit(f"{program}: status {status}, received {counts} of {messages} messages")
    return int(counts[1]), used.ru_maxrss * 1024


# How many times one figure another one is; of memory that is less than what the script itself holds there is none.
def ratio(one, other):
    return f"{one / other:6.2f}" if other > 0 else "     -"


print("fork  messages     2 members              1,000 members           ratios")
for fork in (0, 10):
    for messages in (1_000, 10_000, 50_000):
        empty = [min(told(members, 0, 0)[1] for _ in range(3)) for members in (2, 1_000)]
        rounds = [[told(members, messages, fork) for members in (2, 1_000)] for _ in range(runs)]
        time, longer = (min(took for took, _ in rows) / messages for rows in zip(*rounds))
        memory, larger = ((min(peak for _, peak in rows) - least) / messages for rows, least in zip(zip(*rounds), empty))
        figures = f"{time:8.2f} us {memory:7.0f} B {longer:10.2f} us {larger:7.0f} B"
        print(f"{fork:<5} {messages:<9} {figures} {ratio(longer, time)} {ratio(larger, memory)}", flush=True)
for extremities in (100, 1_000):
    times = [min(told(members, extremities, 1)[0] for _ in range(runs)) / extremities for members in (2, 1_000)]
    print(f"{extremities} forward extremities: {times[0]:.2f} us an event with 2 members, {times[1]:.2f} us with 1,000", flush=True)
for members, extremities in ((2, 100), (2, 1_000), (100, 1_000), (1_000, 100), (1_000, 200), (1_000, 400)):
    time = min(told(members, extremities, 1, b"names")[0] for _ in range(max(1, runs // 5))) / extremities
    print(f"{extremities} forward extremities, each another state, {members} members: {time:.1f} us an event", flush=True)
for members, changes in ((2, 500), (2, 3_000), (100, 3_000), (1_000, 3_000), (2, 50_000)):
    line, merged = ([told(members, changes, fork, b"names") for _ in range(max(1, runs // 5))] for fork in (0, 3))
    time, memory = ((min(rows[at] for rows in merged) - min(rows[at] for rows in line)) / (changes / 3) for at in (0, 1))
    print(f"merges of two states, {members} members, {changes} events: {time:.1f} us and {memory:.0f} B a merge", flush=True)
PY
