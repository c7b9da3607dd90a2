#!/usr/bin/env python3
"""Refuses each allocation of each step of a world in turn: crates/fed/out/fed, after `rt run` there, or the program that is named.

    tests/memory/worlds.py [PROGRAM]

Each step of the scripts below is made twice in a script of its own, with all that `show` tells of the servers in front of it and between the
two, and each allocation of the first time is refused in a run of its own. It fails unless in each of these runs

- the program ends with `fed: out of memory` and status 1 after the lines of the steps before, where there is no memory for a line; or
- the step answers `no memory`, what is shown stays as it was, and the step made again answers as the script says, and so do all after it; or
- the step is an arrival that is answered by 500: that answer is a packet more, so all packets after it have numbers that are one greater, what
  is shown stays as it was, and the rest is as above;

or where memory for a world's beginning is refused, and `fed: out of memory` is not told; or where no run shows `no memory` at a kind of step that
takes memory, or none shows a 500.
"""
import itertools
import pathlib
import re
import sys
import tempfile

from refusing import HERE, Program

FED = HERE.parent.parent / "crates" / "fed"

# The steps that take memory.
MAKERS = {"send", "edu", "collect", "post", "arrive", "answer", "apply"}

# A command, and what it prints.
SCRIPTS = {
    "answers are lost, and one comes late": """
servers a b > ok
room !r:a @u:a @v:b > ok
send a !r:a @u:a m.x - {} > sent 1 to b
collect a b > collected event
cut a b > cut 1: 1 pdus 0 edus
post a b > packet 1
failed a b > due 1000
post a b > not due until 1000
tick 1000 > now 1000
post a b > packet 2
failed a b > due 3000
tick 2000 > now 3000
post a b > packet 3
arrive 3 > packet 4 status 200
failed a b > due 7000
tick 4000 > now 7000
post a b > packet 5
arrive 5 > packet 6 status 200
answer 6 > settled
show b a > taken 1 0 acked 1 0
send a !r:a @u:a m.x - {} > sent 2 to b
collect a b > collected event
cut a b > cut 2: 1 pdus 0 edus
answer 4 > ignored
post a b > packet 7
arrive 7 > packet 8 status 200
arrive 1 > packet 9 status 200
show b a > taken 2 0 acked 1 0
answer 9 > ignored
answer 8 > settled
show b a > taken 2 0 acked 2 0
apply b !r:a > accepted
""",
    "refusals, and an ephemeral data unit": """
servers a b > ok
room !r:a @u:a @v:b > ok
send a !r:a @v:b m.x - {} > refused not own user
send a !q:a @u:a m.x - {} > refused unknown room
edu a m.x b {"n":1} > edu to b
collect a b > collected edu
cut a b > cut 1: 0 pdus 1 edus
post a b > packet 1
arrive 1 > packet 2 status 200
answer 2 > settled
show b a > taken 0 1 acked 0 1
close a b > closed
send a !r:a @u:a m.x - {} > sent 1 to -
close a b > was closed
collect a b > collected end
cut a b > no cut
""",
}


def steps_of(script):
    return [tuple(line.split(" > ", 1)) for line in script.strip().splitlines()]


def later(line, packet):
    """A command or what it prints, where all packets from this one on have numbers that are one greater."""
    return re.sub(r"^(arrive|answer|packet) (\d+)", lambda it: f"{it[1]} {int(it[2]) + (int(it[2]) >= packet)}", line)


def front_of(lines, want):
    """How many lines are as they are wanted, from the first on."""
    return next((place for place, (line, wanted) in enumerate(zip(lines, want)) if line != wanted), min(len(lines), len(want)))


def first_within(program, commands, want, place):
    """The first allocation whose refusal leaves so many lines right: those before it are made for earlier lines."""
    low, high = 1, 2
    reaches = lambda at: front_of(program.run(commands, at)[0], want) >= place
    while not reaches(high):
        low, high = high, 2 * high
    while low < high:
        middle = (low + high) // 2
        low, high = (low, middle) if reaches(middle) else (middle + 1, high)
    return low


def judge(program, commands, want, place, at):
    """What a run shows at a place, whose step is made once more behind it; None where it is past that place."""
    lines, status, told, refused = program.run(commands, at)
    if not refused or front_of(lines, want) > place:
        return None
    fail = lambda why: sys.exit(f"allocation {at}, at `{commands[place]}`: {why}: status {status}, {lines!r}, {told!r}")
    if status == 1:
        if told != "fed: out of memory\n" or lines != want[:place]:
            fail("the run ended otherwise than for want of memory")
        return "ended"
    if status != 0 or told:
        fail("the run failed")
    answer = lines[place]
    number = re.fullmatch(r"packet (\d+) status 500", answer)
    if number and commands[place].startswith("arrive "):
        moved = lambda them: them[: place + 1] + [later(it, int(number[1])) for it in them[place + 1 :]]
        commands, want = moved(commands), moved(want)
        lines, status, told, refused = program.run(commands, at)
    elif answer != "no memory":
        fail("another answer")
    if status != 0 or told or not refused or len(lines) != len(want) or lines[:place] + lines[place + 1 :] != want[:place] + want[place + 1 :]:
        fail("something else is not as it was")
    if lines[place] != answer:
        fail("two runs differ")
    return "500" if number else answer


def seen_of(program, name, steps):
    """What the runs of a script show, at each of its commands."""
    commands, want = map(list, zip(*steps))
    lines, status, told, _ = program.run(commands, 0)
    if (lines, status, told) != (want, 0, ""):
        sys.exit(f"{name}: with all memory: {lines!r}, {status}, {told!r}")
    servers = commands[0].split()[1:]
    shows = [f"show {one} {other}" for one, other in itertools.permutations(servers, 2)]
    beginnings = sum(it.startswith(("servers ", "room ")) for it in commands)
    seen = {}
    for place in range(beginnings, len(commands)):
        looked = program.run(commands[:place] + shows, 0)[0][place:]
        twice = commands[:place] + shows + [commands[place]] + shows + commands[place:]
        wanted = want[:place] + looked + [want[place]] + looked + want[place:]
        there = place + len(shows)
        at = first_within(program, twice, wanted, there)
        found = set()
        while shown := judge(program, twice, wanted, there, at):
            found.add(shown)
            at += 1
        seen[commands[place]] = seen.get(commands[place], set()) | found
    for at in range(1, first_within(program, commands, want, beginnings)):
        lines, status, told, _ = program.run(commands, at)
        # What a smaller piece serves as well shows nothing.
        if (lines, status, told) != (want, 0, "") and (lines, status, told) != ([], 1, "fed: out of memory\n"):
            sys.exit(f"{name}: allocation {at}, before the first step: status {status}, {lines!r}, {told!r}")
    return seen


def main():
    path = pathlib.Path(sys.argv[1] if len(sys.argv) > 1 else FED / "out" / "fed").resolve()
    with tempfile.TemporaryDirectory() as folder:
        program = Program(path, pathlib.Path(folder), "sim")
        seen = [it for name, script in SCRIPTS.items() for it in seen_of(program, name, steps_of(script)).items()]
    refused = {command.split()[0] for command, found in seen if "no memory" in found}
    if missing := MAKERS - refused:
        sys.exit(f"no run was refused at a step of these: {', '.join(sorted(missing))}")
    if not any("500" in found for _, found in seen):
        sys.exit("no run had an arrival that was answered by 500")
    print(f"{program.runs} runs of {len(SCRIPTS)} scripts: each allocation of each of their steps refused")


if __name__ == "__main__":
    main()
