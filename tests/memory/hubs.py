#!/usr/bin/env python3
"""Refuses each allocation of what hubs are asked in turn: crates/fed_hub_play/out/fed_hub_play, after `rt run` there, or the program that is named.

    tests/memory/hubs.py [PROGRAM]

The scripts below, and one of 120 events, ask hubs with all of their threads one thing after another (docs/SCRIPTS.md), so that each thread makes
the same allocations in every run. Each allocation of each thread is refused in a run of its own, once all hubs have begun. It fails unless in each of
these runs all lines are told as is written here, but for at most one; and that one

- is empty, or the beginning of a report, where there was no memory for what is told; or is the last, where the script's own thread had none to read
  the next line; or
- tells that memory ran out (a request is answered by 500): then all that the hubs show is as before, the boards, each room and the inboxes, or, where a
  thread that sends was refused, as before or as behind the call; and the same asked again tells what is written, as do all lines behind it, with what
  the hubs report at their ends;

or where a call of a hub that takes memory told of it in no run. Without a refusal no call tells that memory ran out.
"""
import concurrent.futures
import functools
import os
import pathlib
import re
import sys
import tempfile

from refusing import HERE, Program

PLAY = HERE.parent.parent / "crates" / "fed_hub_play"

# What the program says of a line that it cannot read, for whatever reason.
WRONG_LINE = re.compile(r"fed_hub_play: line \d+: wrong words\n")

# What is told where memory ran out, in the call or in what the script's own threads make for it.
REFUSED = {"refused out of memory", "no memory", "not finished: out of memory", "answered 500", "bad content", "unknown server"}

# The calls that take memory.
CALLS = {"send", "edu", "shut", "drain", "turns", "store", "bring", "finish"}

# How many allocations, one after another, one worker refuses, and how many runs may be made again.
TURN, MOST_AGAIN = 50, 10

# A command, and what it tells, if it tells anything. A hub is shut down twice where a thread then goes on until it is: the first time may be refused.
SCRIPTS = {
    "two clients send, and an outbox is closed": """
servers a b c
paper b c
clients a 2
room !r:a @u:a @v:b @w:c
rest 30
shown a !r:a b > stored 6, waiting 0, dropped 0, extremities 1, inputs 0, requests 0, taken 0
delivered a b > delivered 0
send a/1 !r:a @u:a m.x - {} > sent 1
send a/2 !r:a @u:a m.x - {} > sent 2
edu a/2 m.x b,c {} > edu 1
drain a c > nothing
close a b > closed
close a b > was closed
send a/1 !r:a @u:a m.x - {} > sent 3
send a/2 !r:a @u:a m.x - {} > sent 4
drain a b > closed
shut a > shut down
send a/1 !r:a @u:a m.x - {} > refused shut down
drain a c > closed
finish a > finished
report a journal > journal: 4 events, 1 edus, 2 closings
report a told > told: 4 events, each number once
report a whole b > whole b: yes
report a whole c > whole c: yes
""",
    "what is sent is delivered, taken and stored": """
servers a b
room !r:a @u:a @v:b
rest 30
send a !r:a @u:a m.x - {} > sent 1
edu a m.x b {"n":1} > edu 1
send a !r:a @u:a m.x - {} > sent 2
shown a !r:a b > stored 7, waiting 0, dropped 0, extremities 1, inputs 2, requests 0, taken 0
shut a > shut down
shut a > shut down
turns a b max > drained
delivered a b > delivered 2
shut b > shut down
shut b > shut down
store b !r:a 1 > turns spent
store b !r:a 1 > turns spent
store b !r:a max > drained
drain b a > closed
finish a > finished
finish b > finished
report a journal > journal: 2 events, 1 edus, 1 closings
report a whole b > whole b: yes
report a b > b: 2 of 2 events, 1 edus, the end
report a !r:a > !r:a: received 0, of 2 inputs
report b taken a > taken a: 2
report b !r:a > !r:a: received 2, of 2 inputs
""",
    "what comes is answered, waits and is stored": """
servers a b
paper b
room !r:a @u:a @v:b
made b !r:a @v:b 3 > made 3
pack later b a 1 !r:a 3 3
pack first b a 2 !r:a 1 1
rest 30
bring a later > answered 200
shown a !r:a b > stored 5, waiting 0, dropped 0, extremities 1, inputs 0, requests 1, taken 1
bring a later > answered 200
bring a first > answered 200
shown a !r:a b > stored 5, waiting 0, dropped 0, extremities 1, inputs 0, requests 3, taken 2
shut a > shut down
shut a > shut down
store a !r:a 1 > turns spent
shown a !r:a b > stored 5, waiting 1, dropped 0, extremities 1, inputs 1, requests 3, taken 2
store a !r:a 1 > turns spent
shown a !r:a b > stored 6, waiting 1, dropped 0, extremities 1, inputs 2, requests 3, taken 2
store a !r:a 1 > drained
drain a b > closed
finish a > finished
report a requests > requests: 3
report a taken b > taken b: 2
report a !r:a > !r:a: received 2, of 2 inputs
""",
}


def crossing(each):
    """Two clients that send so many events each, in turn, while an outbox is closed in the middle, and all that its wire has is collected."""
    lines = ["servers a b c", "paper b c", "clients a 2", "room !r:a @u:a @v:b @w:c", "rest 30"]
    sends = [f"send a/{number % 2 + 1} !r:a @u:a m.x - {{}} > sent {number + 1}" for number in range(2 * each)]
    lines += [*sends[:each], "close a b > closed", *sends[each:], "drain a b > closed", "shut a > shut down", "drain a c > closed", "finish a > finished"]
    lines += [f"report a journal > journal: {2 * each} events, 0 edus, 2 closings", f"report a told > told: {2 * each} events, each number once"]
    lines += ["report a whole b > whole b: yes", "report a whole c > whole c: yes"]
    return "\n".join(lines)


def steps_of(script):
    lines = [line.partition(" > ") for line in script.strip().splitlines()]
    return [command for command, _, _ in lines], [told if arrow else None for _, arrow, told in lines]


class Wrong(Exception):
    """What is wrong with a run."""


class Hubs:
    """A script on hubs: its commands, and what each tells, if it tells anything."""

    def __init__(self, program, name, script):
        self.program, self.name, self.again = program, name, []
        self.commands, self.told = steps_of(script)
        self.telling = [place for place, told in enumerate(self.told) if told is not None]
        named = lambda word: [command.split()[1:] for command in self.commands if command.split()[0] == word]
        servers, papers, rooms = named("servers")[0], sum(named("paper"), []), [words[0] for words in named("room")]
        pairs = [(hub, other) for hub in servers if hub not in papers for other in servers if other != hub]
        self.readings = [f"delivered {hub} {other}" for hub, other in pairs] + [f"shown {hub} {room} {other}" for hub, other in pairs for room in rooms]

    def written(self, first=0, last=None):
        """What is told by the commands from one place to another, where none is refused."""
        return [told for told in self.told[first:last] if told is not None]

    def readings_at(self, place):
        """The calls that read of those hubs that have not ended before the command at a place."""
        ended = {command.split()[1] for command in self.commands[:place] if command.startswith("finish ")}
        return tuple(it for it in self.readings if it.split()[1] not in ended)

    def fail(self, thread, at, why, *more):
        raise Wrong(f"{self.name}: allocation {at} of thread {thread}: {why}: {more}")

    def run(self, commands, thread, at, **more):
        return self.program.run(commands, at, REFUSE_THREAD=thread, REFUSE_ASLEEP="1", **more)

    def counts(self):
        """How many allocations each thread makes where none is refused, and all is told as is written."""
        path = self.program.folder / "counts"
        lines, status, told, _ = self.run(self.commands, "0", 0, REFUSE_COUNTS=str(path))
        if (lines, status, told) != (self.written(), 0, ""):
            sys.exit(f"{self.name}: with all memory: status {status}, {lines}, {told!r}")
        return [(name, int(count)) for name, count, *_ in map(str.split, path.read_text().splitlines())]

    def refused_in_turn(self, thread, first, last):
        """The commands that told that memory ran out, where each allocation from one to another is refused in a run that is right."""
        found, place = set(), None
        for at in range(first, last + 1):
            # Mostly it is the same command that meets it.
            if place is None or not self.is_asked_again(thread, at, place):
                place = self.refused_once(thread, at)
            if place is not None:
                found.add(self.commands[place].split()[0])
        return found

    def refused_once(self, thread, at):
        """The same of one allocation. On a machine that has much to do hubs may take longer to begin than the script waits, so that another allocation is
        refused than is meant: what is wrong three times is wrong."""
        for _ in range(2):
            try:
                return self.refused(thread, at)
            except (Wrong, SystemExit) as wrong:
                self.again.append(str(wrong))
        return self.refused(thread, at)

    def refused(self, thread, at):
        """The place of the command that told that memory ran out, if one did, in a run that is right."""
        want = self.written()
        lines, status, told, was_refused = self.run(self.commands, thread, at)
        if not was_refused:
            self.fail(thread, at, "it was not made")
        is_cut = status == 1 and WRONG_LINE.fullmatch(told)
        if not is_cut and (status != 0 or told or len(lines) != len(want)):
            self.fail(thread, at, f"status {status}", lines, told)
        places = [place for place, line in enumerate(lines) if line != want[place]]
        if not places:
            return None
        answer, place = lines[places[0]], self.telling[places[0]]
        command = self.commands[place]
        if len(places) == 1 and (answer == "" or command.startswith("report ") and want[places[0]].startswith(answer)):
            return None
        # Behind a hub that has not ended there is no report.
        if answer not in REFUSED or is_cut and not command.startswith("finish "):
            self.fail(thread, at, "another answer", lines, told)
        if not self.is_asked_again(thread, at, place):
            self.fail(thread, at, f"`{command}` told `{answer}`, and something else is not as it was, or it is refused once more")
        return place

    def is_asked_again(self, thread, at, place):
        """Whether the command at a place tells that memory ran out, and all else is as is written where it is asked once more."""
        readings, before = self.readings_at(place), self.written(0, place)
        lines, status, told, refused = self.run((*self.commands[: place + 1], *readings, *self.commands[place:]), thread, at)
        mine, behind = len(before), len(before) + 1 + len(readings)
        if status != 0 or told or not refused or len(lines) <= mine or lines[mine] not in REFUSED:
            return False
        if lines[:mine] + lines[behind:] != [*before, *self.written(place)]:
            return False
        shown, was = lines[mine + 1 : behind], self.read_before(place)
        if self.commands[place].startswith("turns "):
            return all(it in pair for it, pair in zip(shown, zip(was, self.read_before(place + 1), strict=True), strict=True))
        return tuple(shown) == was

    @functools.lru_cache(maxsize=None)
    def read_before(self, place):
        """What the calls that read tell before the command at a place."""
        readings = self.readings_at(place)
        if not readings:
            return ()
        lines = self.run((*self.commands[:place], *readings, *self.commands[place:]), "0", 0)[0]
        return tuple(lines[len(self.written(0, place)) :][: len(readings)])


def main():
    path = pathlib.Path(sys.argv[1] if len(sys.argv) > 1 else PLAY / "out" / "fed_hub_play").resolve()
    # Each run rests for a while.
    with tempfile.TemporaryDirectory() as folder, concurrent.futures.ThreadPoolExecutor(3 * os.cpu_count()) as pool:
        program = Program(path, pathlib.Path(folder))
        found, again = set(), []
        for name, script in {**SCRIPTS, "two clients send 60 events each": crossing(60)}.items():
            hubs = Hubs(program, name, script)
            turns = [(thread, at, min(at + TURN - 1, count)) for thread, count in hubs.counts() for at in range(1, count + 1, TURN)]
            try:
                found.update(*pool.map(lambda turn: hubs.refused_in_turn(*turn), turns))
            except Wrong as wrong:
                sys.exit(str(wrong))
            again += hubs.again
    if missing := CALLS - found:
        sys.exit(f"no run was refused at these: {', '.join(sorted(missing))}")
    for wrong in again:
        print(f"made again: {wrong}")
    if len(again) > MOST_AGAIN:
        sys.exit(f"{len(again)} runs were made again, and not at most {MOST_AGAIN}")
    print(f"{program.runs} runs of {len(SCRIPTS) + 1} scripts: each allocation of each thread refused")


if __name__ == "__main__":
    main()
