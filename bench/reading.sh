#!/bin/sh
# Measures what reading a request costs whose body has 64,000 bytes, as a transaction of 50 events may have, and one of 8,000,000: the built
# program crates/fed_bench/out/fed_bench (after `rt run < stdin` there) reads one whose body comes by its length and one that comes in chunks of
# 65,536 bytes, from pieces of 65,536, 4,096, 256, 16 and 1 bytes; and then one whose head has 16,000 bytes, and its body none.
#
#     bench/reading.sh [RUNS [PEER]]
#
# PEER is a program that does the same work for `PEER http FILE TIMES PIECE`, to compare with. Prints the least processor time for one
# request, less what a run without a request takes, and the peak memory of a run, the text of the request among it. Both programs run in turn:
# on a machine that does other work too, the more runs, the likelier that each meets a quiet moment. Of the long body in large pieces nearly
# all of the time is one copy of it, whose pace hangs on where its bytes lie; so what large pieces take is the mean for heads of eight
# lengths. Figures of two machines can't be compared.
set -e
here=$(cd "$(dirname "$0")" && pwd)
program=$here/../crates/fed_bench/out/fed_bench
[ -x "$program" ] || { echo "no $program: run 'rt run < stdin' in crates/fed_bench first" >&2; exit 2; }
python3 - "$program" "${1:-9}" "${2:-}" <<'PY'
import os, subprocess, sys, tempfile

program, runs, peer = sys.argv[1], int(sys.argv[2]), sys.argv[3]
SIZES, CHUNK, SHIFT, LONG = (64_000, 8_000_000), 65_536, 525, 16_000


# The text is never held here as a whole: a process that is started counts what its parent holds as its own peak.
def write_text(file, coding, size, field):
    file.write(b"PUT /p HTTP/1.1\r\nA: %s\r\n" % (b"b" * field))
    file.write(b"Content-Length: %d\r\n\r\n" % size if coding == "whole" else b"Transfer-Encoding: chunked\r\n\r\n")
    for at in range(0, size, CHUNK):
        data = b"a" * min(CHUNK, size - at)
        file.write(data if coding == "whole" else b"%x\r\n%s\r\n" % (len(data), data))
    file.write(b"" if coding == "whole" else b"0\r\n\r\n")
    file.flush()


# The processor time of a run and its peak memory.
def once(command, given):
    with tempfile.TemporaryFile() as lines:
        lines.write(given)
        lines.seek(0)
        running = subprocess.Popen(command, stdin=lines, stdout=subprocess.DEVNULL)
        _, status, used = os.wait4(running.pid, 0)
    if status != 0:
        sys.exit(f"{command}: status {status}")
    return used.ru_utime + used.ru_stime, used.ru_maxrss / 1024


def ours(coding, size, field, piece, times):
    return once([program], b"read %s %d %d %d %d\n" % (coding.encode(), size, piece, times, field))


def theirs(coding, size, field, piece, times):
    with tempfile.NamedTemporaryFile() as file:
        write_text(file, coding, size, field)
        return once([peer, "http", file.name, str(times), str(piece)], b"")


# The time for one request, and the peak memory, of so many, for each of these readers.
def costs(readers, coding, size, fields, piece, times):
    took, peak = [0.0] * len(readers), [0.0] * len(readers)
    for field in fields:
        rounds = [[(read(coding, size, field, piece, times), read(coding, size, field, piece, 0)) for read in readers] for _ in range(runs)]
        for k, pairs in enumerate(zip(*rounds)):
            took[k] += min(some[0] for some, _ in pairs) - min(none[0] for _, none in pairs)
            peak[k] = max([peak[k]] + [some[1] for some, _ in pairs])
    return [(one / times / len(fields), memory) for one, memory in zip(took, peak)]


def show(coding, size, fields, piece, times):
    (one, memory), *rest = costs([ours, theirs] if peer else [ours], coding, size, fields, piece, times)
    row = f"{coding:<8} {size:<9} {piece:<7} {one * 1e6:11.1f} us {memory:6.1f} MiB"
    for other, used in rest:
        row += f" {other * 1e6:11.1f} us {used:6.1f} MiB {one / other:7.2f} {memory / used:7.2f}"
    print(row, flush=True)


print("coding   bytes     piece     a request      memory" + ("      the peer's                  ratios" if peer else ""))
for size in SIZES:
    for coding in ("whole", "chunked"):
        for piece, repeats in ((65_536, 80), (4_096, 80), (256, 40), (16, 10), (1, 1)):
            fields = [length * SHIFT for length in range(8)] if piece >= 4_096 else [0]
            show(coding, size, fields, piece, repeats * SIZES[-1] // size)
print("a long head")
for piece, times in ((65_536, 8_000), (256, 2_000), (16, 1_000), (1, 400)):
    show("whole", 0, [LONG], piece, times)
PY
