#!/usr/bin/env python3
"""Refuses each allocation of calls of the libraries in turn: crates/fed_vectors/out/fed_vectors, after `rt run` there, or the program that is named.

    tests/memory/calls.py [PROGRAM]

The calls are a transaction that is written, an inbox over each store of replies, one that is asked for another path, an outbox of 120 events and 30
EDUs, a request that is read in pieces, and rooms that receive events, let them wait and store what is ready, and that make events of drafts; of a room
with a thousand that wait, for which a run takes long, only the last hundred allocations are refused. The program makes an operation that memory runs out for once more, and tells
what was to be seen in between (docs/VECTORS.md, "Lines"). It fails unless in each run

- the call answers `out of memory`, or the program ends so, where it has none for the line or for what it prints; or
- what was to be seen after the refusal is what was to be seen before the operation, the operation made again answers as is written here, and so
  do all behind it; or
- nothing shows of the refusal;

or where an operation that takes memory was refused in no run. Without a refusal nothing answers that memory ran out.
"""
import base64
import hashlib
import json
import pathlib
import sys
import tempfile

from refusing import HERE, Program

VECTORS = HERE.parent.parent / "crates" / "fed_vectors"
OUT_OF_MEMORY = {"error": "out of memory"}
ENDED = ([], 1, "fed_vectors: out of memory\n")
H = "$RBNvo1WzZ4oRRq0W9-hknpT7T8If536DEMBg9hyq_4o"


def text(value):
    return json.dumps(value, sort_keys=True, separators=(",", ":"), ensure_ascii=False)


def unpadded(data, encode=base64.b64encode):
    return encode(data).decode().rstrip("=")


def event(kind, content, kept, names, prevs, **more):
    """An event of @u:a under signatures that are not looked at, and its id; `kept` is what redaction leaves of its content."""
    made = {"auth_events": names, "content": content, "depth": 1, "origin_server_ts": 1, "prev_events": prevs, "room_id": "!r:a", "sender": "@u:a",
            "type": kind} | more
    made["hashes"] = {"sha256": unpadded(hashlib.sha256(text(made).encode()).digest())}
    reference = text(made | {"content": kept}).encode()
    made["signatures"] = {"a": {"standin:1": "A" * 86}}
    return made, "$" + unpadded(hashlib.sha256(reference).digest(), base64.urlsafe_b64encode)


class Call:
    """A call with its operations, under one of its members, the answer to each, and what is to be seen at the end."""

    # What is told of a refused operation beside what is to be seen.
    FIRST = {}

    def __init__(self, of, member, operations, answers, seen):
        self.of, self.member, self.operations, self.answers, self.seen = of, member, operations, answers, seen
        self.name = f"{of['call']} {of.get('store', '')}"

    def line(self, operations):
        return text(self.of | {self.member: operations})

    def parts(self, value):
        """The answers, and what is to be seen behind them."""
        return value["answers"], {name: it for name, it in value.items() if name != "answers"}

    def seen_before(self, program, place):
        """What is to be seen before an operation."""
        return self.parts(answer_of(program, self.line(self.operations[:place]))[0]["ok"])[1]


class InboxCall(Call):
    FIRST = {"answer": {"body": text({"errcode": "M_UNKNOWN", "error": "out of memory"}), "fresh": [], "status": 500}}


class RoomCall(Call):
    """What is to be seen of a room stands in each answer, and so it does in that to a look at its current state."""

    def parts(self, value):
        return value, None

    def seen_before(self, program, place):
        return answer_of(program, self.line(self.operations[:place] + [{"current": True}]))[0]["ok"][-1]


def answer_of(program, line, at=0):
    """The answer to a line, and whether an allocation was refused."""
    lines, status, told, refused = program.run([line], at)
    if refused and (lines, status, told) == ENDED:
        return OUT_OF_MEMORY, True
    if status != 0 or told or len(lines) != 1:
        sys.exit(f"allocation {at} of {line[:300]}: status {status}, {lines!r}, {told!r}")
    return json.loads(lines[0]), refused


def shown(call, wanted, value):
    """The place of the operation that was refused, if one was, in a run that is right; else a text."""
    answers, seen = call.parts(value)
    places = [place for place, it in enumerate(answers) if isinstance(it, dict) and "again" in it]
    if [it["again"] if place in places else it for place, it in enumerate(answers)] != call.answers or seen != call.seen:
        return "something behind it is not as it was"
    if any(answers[place]["refused"] != wanted[place] for place in places):
        return "what was to be seen is not as it was"
    return places[0] if places else None


def refused_in_turn(program, call):
    """Each allocation of a call, in a run of its own: the operations that were refused."""
    line = call.line(call.operations)
    value, _ = answer_of(program, line)
    if "ok" not in value or call.parts(value["ok"]) != (call.answers, call.seen):
        sys.exit(f"{call.name}: with all memory: {value}")
    wanted = [call.seen_before(program, place) | call.FIRST for place in range(len(call.operations))]
    found = set()
    for at in range(1, 1_000_000):
        value, refused = answer_of(program, line, at)
        if value != OUT_OF_MEMORY:
            place = shown(call, wanted, value["ok"])
            if isinstance(place, str) or not refused and place is not None:
                sys.exit(f"{call.name}: allocation {at}: {place}: {value}")
            found |= set() if place is None else {place}
        if not refused:
            return found
    sys.exit(f"{call.name}: the allocations do not end")


def takes_memory(program, call, places):
    """Each of these operations was refused in some run."""
    if missing := set(places) - refused_in_turn(program, call):
        sys.exit(f"{call.name}: no run was refused at {[call.operations[it] for it in sorted(missing)]}")


def made_twice(program, name, line, wanted):
    """Each allocation of a call, in a run that makes it twice: it answers what is wanted the second time."""
    for at in range(1, 1_000_000):
        lines, status, told, refused = program.run([line, line], at)
        if refused and (lines, status, told) == ENDED:
            continue
        values = [json.loads(it) for it in lines]
        if refused and values in ([wanted], [wanted, OUT_OF_MEMORY]):
            # It is the second time that was refused.
            return
        if status != 0 or told or values[1:] != [wanted] or values[0] not in ([wanted, OUT_OF_MEMORY] if refused else [wanted]):
            sys.exit(f"{name}: allocation {at}: status {status}, {values}, {told!r}")
        if not refused:
            return


def last_allocation(program, line):
    """The number of the last allocation of a call."""
    low, high = 1, 2
    while answer_of(program, line, high)[1]:
        low, high = high, 2 * high
    while high - low > 1:
        middle = (low + high) // 2
        low, high = (middle, high) if answer_of(program, line, middle)[1] else (low, middle)
    return low


def made_once_more(program, name, line, wanted, newest=None):
    """Each allocation of a call, or so many of the last, in a run of its own: the call is right, and tells how often it made something once more."""
    count, last = 0, last_allocation(program, line)
    for at in range(last - newest if newest else 1, last + 2):
        value, refused = answer_of(program, line, at)
        if value != OUT_OF_MEMORY:
            again = value["ok"].pop("refused", 0)
            if value != wanted or again > int(refused):
                sys.exit(f"{name}: allocation {at}: made {again} times once more: {value}")
            count += again
    return count


def inbox(store):
    """The requests of the program `fed` with no words, to an inbox over a store."""
    of = {"call": "inbox", "own": "b.example", "servers": ["a.example"], "rooms": [], "keys": "trusting", "store": store}
    reply = lambda status, body: {"body": body, "fresh": [], "status": status}
    failed = lambda status, code, error: reply(status, text({"errcode": code, "error": error}))
    second = reply(200, text({"pdus": {H: {"error": "missing field: auth_events"}}}))
    rows = [
        ("a.example", "7-1", '{"origin":"a.example","origin_server_ts":1,"pdus":[]}', reply(200, '{"pdus":{}}')),
        ("a.example", "7-2", '{"origin":"a.example","origin_server_ts":1,"pdus":[{},{"unsigned":{"age":1}},5]}', second),
        ("a.example", "7-2", '{"origin":"a.example","origin_server_ts":9,"pdus":[]}', second),
        ("a.example", "7-3", '{"origin":"c.example","origin_server_ts":1,"pdus":[]}', failed(401, "M_UNAUTHORIZED", "origin differs")),
        ("x.example", "1", "{}", failed(403, "M_FORBIDDEN", "server not listed")),
        ("a.example", "7-4", '{"origin":', failed(400, "M_NOT_JSON", "not json")),
        ("a.example", "7-4", '{"origin":"a.example","origin_server_ts":1.5,"pdus":[]}', failed(400, "M_BAD_JSON", "not canonical")),
        ("a.example", "7-4", '{"origin":"a.example","pdus":[]}', failed(400, "M_BAD_JSON", "bad field: origin_server_ts")),
        ("a.example", "7-4", '{"origin":"a.example","origin_server_ts":1,"pdus":[]}', reply(200, '{"pdus":{}}')),
    ]
    requests = [{"origin": origin, "txn": txn, "text": body} for origin, txn, body, _ in rows]
    seen = {"taken": {"a.example": ["{}", '{"unsigned":{"age":1}}', "5"]}, "taken_edus": {"a.example": []}}
    return InboxCall(of, "requests", requests, [it[3] for it in rows], seen)


def other_path():
    """A request for another path, which is answered without memory."""
    of = {"call": "inbox", "own": "b", "servers": ["a"], "rooms": [], "keys": "trusting"}
    request = {"fields": [["Host", "b"]], "method": "GET", "target": "/x", "text": ""}
    answer = {"body": text({"errcode": "M_UNRECOGNIZED", "error": "no such path"}), "fresh": [], "status": 404}
    return InboxCall(of, "requests", [request], [answer], {"taken": {"a": []}, "taken_edus": {"a": []}})


def outbox():
    """120 events and 30 EDUs, each transaction settled."""
    message, _ = event("m.x", {}, {}, [], [])
    of = {"call": "outbox", "counts": True, "dest": 1, "edus": [{"content": {}, "edu_type": "m.x"}], "events": [message],
          "keys": "trusting"}
    operations = [{"event": 0, "at": at + 1} for at in range(120)] + [{"edu": 0, "at": at + 121} for at in range(30)]
    answers = ["ok"] * 150
    for number, (pdus, edus) in enumerate([(50, 30), (50, 0), (20, 0)], 1):
        sent = {"at_ms": number, "edus": edus, "number": number, "pdus": pdus}
        operations += [{"cut": number}, {"unanswered": True}, {"settle": [number, 200, number]}]
        answers += [sent, sent, "settled"]
    operations += [{"cut": 9}, {"acked": True}]
    answers += [None, [120, 30]]
    seen = {"accepted": 120, "accepted_edus": 30, "acked": [120, 30], "due_at": 0, "ended": False, "expected": 151}
    return Call(of, "operations", operations, answers, seen)


def room():
    """An event before its prev event, the prev event, and what then can be stored; and a room with a thousand that wait, which drops the next."""
    create, at_create = event("m.room.create", {"creator": "@u:a", "room_version": "10"}, {"creator": "@u:a"}, [], [], state_key="")
    join, at_join = event("m.room.member", {"membership": "join"}, {"membership": "join"}, [at_create], [at_create], state_key="@u:a")
    first, at_first = event("m.x", {"n": 1}, {}, [at_create, at_join], [at_join])
    second, at_second = event("m.x", {"n": 2}, {}, [at_create, at_join], [at_first])
    of = {"call": "room", "events": [create, join], "keys": "trusting", "own": "a"}
    state = [["m.room.create", "", at_create], ["m.room.member", "@u:a", at_join]]
    operations = [{"receive": second}, {"receive": first}, {"advance": True}, {"advance": True}, {"current": True}, {"extremities": True}]
    told = [("waiting", 2, [at_second]), ("accepted", 3, [at_second]), ([at_second, "accepted"], 4, []), (None, 4, []), (state, 4, []), ([at_second], 4, [])]
    stored = [[it, "accepted"] for it in (at_create, at_join, at_first, at_second)]
    answers = [{"answer": it, "dropped": 0, "stored": stored[:count], "waiting": waits} for it, count, waits in told]
    parts = {"auth_events": [], "content": {}, "depth": 1, "prev_events": ["$none"], "room_id": "!r:a", "sender": "@u:a", "type": "m.x"}
    waiting = [(text(of | {"call": "waiting", "count": count, "parts": parts}), {"ok": told}) for count, told in [
        (5, {"dropped": 0, "last": "waiting", "stored": 2, "waiting": 5}), (1001, {"dropped": 1, "last": "dropped", "stored": 2, "waiting": 1000})]]
    return RoomCall(of, "operations", operations, answers, None), waiting


def drafts():
    """A room that makes an event of a draft, and another one that is not stored; and stores all that is ready of two events that come late."""
    create, at_create = event("m.room.create", {"creator": "@u:a", "room_version": "10"}, {"creator": "@u:a"}, [], [], state_key="")
    join, at_join = event("m.room.member", {"membership": "join"}, {"membership": "join"}, [at_create], [at_create], state_key="@u:a")
    auths = [at_create, at_join]
    draft = lambda number: {"room": "!r:a", "sender": "@u:a", "kind": "m.x", "content": {"n": number}, "at_ms": number}
    _, at_sent = event("m.x", {"n": 1}, {}, auths, [at_join], depth=2)
    _, at_prepared = event("m.x", {"n": 2}, {}, auths, [at_sent], depth=3, origin_server_ts=2)
    before, at_before = event("m.x", {"n": 3}, {}, auths, [at_sent])
    late, at_late = event("m.x", {"n": 4}, {}, auths, [at_before])
    of = {"call": "room", "events": [create, join], "keys": "trusting", "own": "a"}
    operations = [{"send": draft(1)}, {"prepare": draft(2)}, {"receive": late}, {"receive": before}, {"advance_all": True}, {"extremities": True}]
    told = [(at_sent, 3, []), (at_prepared, 3, []), ("waiting", 3, [at_late]), ("accepted", 4, [at_late]), (1, 5, []), ([at_late], 5, [])]
    stored = [[it, "accepted"] for it in (*auths, at_sent, at_before, at_late)]
    answers = [{"answer": it, "dropped": 0, "stored": stored[:count], "waiting": waits} for it, count, waits in told]
    return RoomCall(of, "operations", operations, answers, None)


def main():
    path = pathlib.Path(sys.argv[1] if len(sys.argv) > 1 else VECTORS / "out" / "fed_vectors").resolve()
    with tempfile.TemporaryDirectory() as folder:
        program = Program(path, pathlib.Path(folder))
        written = {"call": "write", "at_ms": 5, "edus": [{"content": {}, "edu_type": "m.x"}], "events": [], "keys": "trusting", "number": 1, "origin": "a.example"}
        body = '{"edus":[{"content":{},"edu_type":"m.x"}],"origin":"a.example","origin_server_ts":5,"pdus":[]}'
        made_twice(program, "a transaction", text(written), {"ok": body})
        for store in ("list", "packed"):
            takes_memory(program, inbox(store), [0, 1, 2, 3, 5, 6, 7, 8])
        if refused_in_turn(program, other_path()):
            sys.exit("another path: it took memory to tell")
        takes_memory(program, outbox(), [0, 120])
        request = {"call": "stream", "kind": "requests", "text": "GET /x HTTP/1.1\r\nHost: b\r\n\r\n"}
        message = {"body": "", "end": 28, "fields": [["Host", "b"]], "method": "GET", "target": "/x"}
        if not made_once_more(program, "a request", text(request), {"ok": {"end": "open", "messages": [message]}}):
            sys.exit("a request: no run fed a reader once more")
        call, ((few, told_of_few), (many, told_of_many)) = room()
        takes_memory(program, call, [0, 1, 2])
        takes_memory(program, drafts(), [0, 1, 2, 3, 4])
        if not made_once_more(program, "a room in which events wait", few, told_of_few):
            sys.exit("a room: no run gave it an event once more")
        # What is dropped takes no memory, and is seen among the last allocations.
        made_once_more(program, "a full room", many, told_of_many, newest=100)
        print(f"{program.runs} runs: each allocation of a transaction, inboxes, an outbox, a request and rooms refused")


if __name__ == "__main__":
    main()
