#!/usr/bin/env python3
"""Counts what is asked of memory as rooms, stores of replies and messages grow: how many allocations, and how large the largest. Other than times these
are the same in every run and on every machine, so that what costs more with all that is kept shows here.

    tests/memory/growth.py [FED_BENCH [FED_REPLIES_BENCH [FED_VECTORS]]]      after `rt run` in these crates

It fails unless

- a message takes as many allocations in a room of 1,000 members as in one of 2, in a line and where each tenth event follows two of one state;
- a change of a member's name, which is state, takes at most twice as many there;
- two states that differ in names are merged by at most three allocations for a member;
- an equal state more that is resolved takes at most nine, those among them that read it;
- a reply takes no more allocations in a packed store than in a list, and twice as many replies at most 2.3 times the bytes;
- the head of a request that announces 16,000,000 bytes takes no more than some 1,048,576 at once.
"""
import pathlib
import sys
import tempfile

from calls import event, text
from refusing import HERE, Program

CRATES = HERE.parent.parent / "crates"


class Counted(Program):
    """A program of which what it asks of memory is counted."""

    def asked(self, line):
        """How many allocations a line of input takes, how many bytes these are together, and how many the largest is."""
        path = self.folder / "counts"
        _, status, told, _ = self.run([line], 0, REFUSE_COUNTS=str(path))
        if status != 0:
            sys.exit(f"{line}: status {status}: {told}")
        return tuple(map(int, path.read_text().split()[1:]))

    def each(self, line, count):
        """How many allocations each of so many more takes."""
        return (self.asked(line.format(2 * count))[0] - self.asked(line.format(count))[0]) / count


def most(what, found, bound):
    if found > bound:
        sys.exit(f"{what}: {found:.1f}, and not at most {bound:.1f}")
    print(f"{what}: {found:.1f}")


def rooms(bench):
    for what, fork in ("a message in a line", 0), ("a message where each tenth event follows two", 10):
        few, many = (bench.each(f"room {members} {{}} {fork}", 1_000) for members in (2, 1_000))
        most(f"{what}, with 1,000 members, beside {few:.1f} with 2", many, few + 1)
    few, many = (bench.each(f"names {members} {{}} 0", 1_000) for members in (2, 1_000))
    most(f"a change of a name, with 1,000 members, beside {few:.1f} with 2", many, 2 * few)
    few, many = (3 * bench.each(f"names {members} {{}} 3", 300) for members in (2, 1_000))
    most(f"a merge, with 1,000 members, beside {few:.1f} with 2", many, few + 3 * 1_000)


def states(vectors):
    create, _ = event("m.room.create", {"creator": "@u:a", "room_version": "10"}, {"creator": "@u:a"}, [], [], state_key="")
    graph = [{"event": create, "verdict": "accepted"}]
    lines = (text({"call": "resolution", "graph": graph, "keys": "trusting", "operations": [{"resolve": [[0]] * count}]}) for count in (40, 80))
    few, many = (vectors.asked(line)[0] for line in lines)
    most("an equal state more", (many - few) / 40, 9)


def stores(replies):
    listed, packed = (replies.each(f"{kind} accepted {{}}", 1_000) for kind in ("list", "packed"))
    most(f"a reply that is kept and got, packed, beside {listed:.1f} in a list", packed, listed)
    few, many = (replies.asked(f"packed accepted {count}")[1] for count in (2_000, 4_000))
    most("the bytes of 4,000 packed replies, in times those of 2,000", many / few, 2.3)


def heads(vectors):
    head = "PUT /p HTTP/1.1\r\nContent-Length: 16000000\r\n\r\n"
    _, _, largest = vectors.asked(text({"call": "stream", "kind": "requests", "text": head}))
    most("the largest allocation for the head of a request of 16,000,000 bytes", largest, 1_100_000)


def main():
    names = ("fed_bench", "fed_replies_bench", "fed_vectors")
    paths = [pathlib.Path(it).resolve() for it in sys.argv[1:]] + [CRATES / it / "out" / it for it in names[len(sys.argv) - 1 :]]
    with tempfile.TemporaryDirectory() as folder:
        bench, replies, vectors = (Counted(path, pathlib.Path(folder)) for path in paths)
        rooms(bench)
        stores(replies)
        states(vectors)
        heads(vectors)


if __name__ == "__main__":
    main()
