#!/usr/bin/env python3
"""Refuses each thread of the built program in turn: of `fed loop`, crates/fed/out/fed after `rt run` there, or of the program that is named.

    tests/threads/refused.py [PROGRAM]

It fails unless each run ends by itself within two minutes: with all events delivered, or with status 1 and a line that tells why; unless a run in which no
thread is refused delivers all; and unless most runs tell that there are too few threads. A few deliver all, since the thread that is refused had nothing to
do; where many do, a server waits for fewer threads than it has. The runs go on side by side, since each waits for some seconds.
"""
import os
import pathlib
import subprocess
import sys
import tempfile

HERE = pathlib.Path(__file__).resolve().parent
FED = HERE.parent.parent / "crates" / "fed"
EVENTS = 40
ALL = "".join(f"{word} {EVENTS}\n" for word in ("sent", "taken", "delivered"))
TOO_FEW = "fed: too few threads\n"
FAULTS = {TOO_FEW, "fed: input or output failed\n"}

# More than the two servers have.
MOST = 32


def main():
    path = pathlib.Path(sys.argv[1] if len(sys.argv) > 1 else FED / "out" / "fed").resolve()
    with tempfile.TemporaryDirectory() as name:
        folder = pathlib.Path(name)
        shim = folder / "refuse.so"
        subprocess.run(["cc", "-shared", "-fPIC", "-O1", "-o", shim, HERE / "refuse.c", "-ldl"], check=True)
        runs = []
        for at in range(MOST + 1):
            log = folder / f"refused-{at}"
            env = dict(os.environ, LD_PRELOAD=str(shim), REFUSE_AT=str(at), REFUSE_LOG=str(log))
            pipes = dict(stdout=subprocess.PIPE, stderr=subprocess.PIPE, text=True)
            runs.append((at, log, subprocess.Popen([path, "loop", "--events", str(EVENTS)], env=env, **pipes)))
        told = []
        for at, log, run in runs:
            try:
                out, fault = run.communicate(timeout=120)
            except subprocess.TimeoutExpired:
                for _, _, other in runs:
                    other.kill()
                sys.exit(f"thread {at} was refused, and the run does not end")
            is_well = (run.returncode, out, fault) == (0, ALL, "")
            if not log.exists() and not is_well or log.exists() and not is_well and not (run.returncode == 1 and fault in FAULTS):
                sys.exit(f"thread {at}: status {run.returncode}, {out!r}, {fault!r}")
            told += [fault] * log.exists()
    if len(told) == MOST or 2 * told.count(TOO_FEW) <= len(told):
        sys.exit(f"of {MOST} threads {len(told)} were refused, and {told.count(TOO_FEW)} runs told of it")
    print(f"{len(told)} threads refused in turn: {sum(bool(it) for it in told)} runs told why they ended, the others delivered all")


if __name__ == "__main__":
    main()
