#!/usr/bin/env python3
"""Refuses each allocation of the built program in turn: crates/fed/out/fed, after `rt run` there, or the program that is named.

    tests/memory/run.py [PROGRAM]

The input is the program's sample lines and a transaction of events with every verdict after the tests of an event, each line three
times. It fails unless

- each run either answers every line, one of them by 500 and all others as without a refusal, and ends with status 0; or ends with
  `fed: out of memory` and status 1 after a front of the usual answers, with no 500 among them; or shows nothing of the refusal;
- some runs end so before the first answer, and some after one;
- for each line of the listed server, and each of its three times, there is a run in which that answer is 500: so a run goes on after a
  500, to its last line.

A line whose answer was 500 at its first or second time is thus seen to get its usual answer afterwards: a 500 is not kept as a reply,
and a reply that is kept stays. What was taken no line of the program tells.
"""
import base64
import hashlib
import json
import os
import pathlib
import subprocess
import sys
import tempfile

HERE = pathlib.Path(__file__).resolve().parent
FED = HERE.parent.parent / "crates" / "fed"
REFUSED = b'500 {"errcode":"M_UNKNOWN","error":"out of memory"}'
TIMES = 3


def text(value):
    return json.dumps(value, sort_keys=True, separators=(",", ":"), ensure_ascii=False).encode()


def without(event, *names):
    return {name: value for name, value in event.items() if name not in names}


def event_of(number, room, signed):
    """An event of a.example, whose signature is made up (the program trusts every one), and its id."""
    event = {
        "auth_events": [], "content": {"n": number}, "depth": 1, "origin_server_ts": 1, "prev_events": [], "room_id": room,
        "sender": "@u:a.example", "signatures": {"a.example": {"k:1": "A" * 86}} if signed else {}, "type": "m.x",
    }
    hashed = hashlib.sha256(text(without(event, "signatures"))).digest()
    event["hashes"] = {"sha256": base64.b64encode(hashed).decode().rstrip("=")}
    reference = hashlib.sha256(text(without(event | {"content": {}}, "signatures"))).digest()
    return event, "$" + base64.urlsafe_b64encode(reference).decode().rstrip("=")


def transaction():
    """A line of a right event, one that is to be redacted, one that is not signed and one of an unknown room, and its answer."""
    right, right_id = event_of(1, "!r:a.example", True)
    other, other_id = event_of(2, "!r:a.example", True)
    other["content"] = {"n": 3}
    bare, bare_id = event_of(4, "!r:a.example", False)
    far, far_id = event_of(5, "!q:a.example", True)
    body = {"origin": "a.example", "origin_server_ts": 1, "pdus": [right, other, bare, far]}
    verdicts = {right_id: {}, other_id: {}, bare_id: {"error": "bad signature"}, far_id: {"error": "unknown room"}}
    return b"a.example 9-1 " + text(body), b"200 " + text({"pdus": verdicts})


def repeated(path, last):
    return [line for line in [*path.read_bytes().splitlines(), last] for _ in range(TIMES)]


def run(program, shim, at, folder, lines):
    log = folder / f"refused-{at}"
    env = dict(os.environ, LD_PRELOAD=str(shim), REFUSE_AT=str(at), REFUSE_LOG=str(log))
    done = subprocess.run([program], input=b"\n".join(lines) + b"\n", env=env, capture_output=True)
    return done, log.exists()


def judge(done, want):
    """What a run shows, and at which answer; None where it is wrong."""
    got = done.stdout.splitlines()
    if done.returncode == 1 and done.stderr == b"fed: out of memory\n" and got == want[: len(got)]:
        return "ended", len(got)
    if done.returncode != 0 or done.stderr or len(got) != len(want):
        return None
    others = [place for place, line in enumerate(got) if line != want[place]]
    if not others:
        return "nothing", len(got)
    return ("500", others[0]) if len(others) == 1 and got[others[0]] == REFUSED else None


def seen_in(program, shim, folder, lines, want):
    """What each run shows, up to the first that meets no refusal."""
    seen = []
    for at in range(1, 1_000_000):
        done, refused = run(program, shim, at, folder, lines)
        shown = judge(done, want)
        if not refused and shown == ("nothing", len(want)):
            return seen
        if not refused or shown is None:
            sys.exit(f"allocation {at}: status {done.returncode}, {done.stdout!r}, {done.stderr!r}")
        seen.append(shown)
    sys.exit("the allocations do not end")


def main():
    program = pathlib.Path(sys.argv[1] if len(sys.argv) > 1 else FED / "out" / "fed").resolve()
    line, answer = transaction()
    lines, want = repeated(FED / "stdin", line), repeated(FED / "stdout", answer)
    with tempfile.TemporaryDirectory() as name:
        folder = pathlib.Path(name)
        shim = folder / "refuse.so"
        subprocess.run(["cc", "-shared", "-fPIC", "-O1", "-o", shim, HERE / "refuse.c", "-ldl"], check=True)
        seen = seen_in(program, shim, folder, lines, want)
    ended = [place for shown, place in seen if shown == "ended"]
    if not any(ended) or all(ended):
        sys.exit("no run ended with `fed: out of memory` before the first answer, or none after it")
    for place, line in enumerate(lines):
        if line.startswith(b"a.example ") and ("500", place) not in seen:
            sys.exit(f"no run went on after a 500 at line {place + 1}: {line!r}")
    answered = sum(shown == "500" for shown, _ in seen)
    print(f"{len(seen)} allocations refused in turn: {answered} made one answer 500, {len(ended)} ended the run")


if __name__ == "__main__":
    main()
