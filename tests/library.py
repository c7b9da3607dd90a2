#!/usr/bin/env python3
"""Builds the library for other languages by c/build.sh, and calls it as C and as Python do.

    tests/library.py [--built]

With --built it takes what c/build.sh left. It compares every line of the vectors (crates/fed_vectors) that one of the library's calls
answers; the answers of whole buffers, of ones a byte short and of empty ones; what a refused call leaves; the auth events of an event; what differs
between room versions 10 and 11, by their published tables; values in place of texts, and what the module refuses itself; texts with null bytes, and
of 16 MB; eight threads at once; the numbers of wikzord.h with those of wikzord.py; what c/install.sh and pip install; the C example, where valgrind
is on the machine under it too; each of its allocations refused in turn; and, where matrix.org's packages are installed, tests/receipt.py and
tests/interop.py.

Prints `N passed, M failed`, and ends with status 1 where one failed.
"""
import base64
import concurrent.futures
import ctypes
import hashlib
import json
import os
import pathlib
import re
import shutil
import subprocess
import sys
import tempfile

sys.dont_write_bytecode = True
ROOT = pathlib.Path(__file__).resolve().parent.parent
C = ROOT / "c"
VECTORS = ROOT / "crates" / "fed_vectors"
MIB = 1 << 20

passed = failed = 0


def check(name, got, wanted):
    global passed, failed
    if got == wanted:
        passed += 1
    else:
        failed += 1
        print(f"FAILED: {name}\n  got    {str(got)[:500]}\n  wanted {str(wanted)[:500]}")


def text(value):
    return json.dumps(value, sort_keys=True, separators=(",", ":"), ensure_ascii=False).encode()


def without(event, *names):
    return {name: value for name, value in event.items() if name not in names}


def unpadded(alphabet, value):
    return alphabet(hashlib.sha256(text(value)).digest()).decode().rstrip("=")


# What redaction keeps of an event and, by its type, of its content ("Redactions" of room versions 10 and 11), but that in version 11 all of the
# content of a create event stays, and of a `third_party_invite` in that of a member event its `signed`.
TOP = {
    "auth_events", "content", "depth", "event_id", "hashes", "origin_server_ts", "prev_events", "room_id", "sender", "signatures", "state_key",
    "type"}
TOP_KEYS = {10: TOP | {"membership", "origin", "prev_state"}, 11: TOP}
LEVELS = {"ban", "events", "events_default", "kick", "redact", "state_default", "users", "users_default"}
CONTENT = {
    "m.room.history_visibility": {"history_visibility"}, "m.room.join_rules": {"allow", "join_rule"},
    "m.room.member": {"join_authorised_via_users_server", "membership"}}
CONTENT_KEYS = {
    10: CONTENT | {"m.room.create": {"creator"}, "m.room.power_levels": LEVELS},
    11: CONTENT | {"m.room.power_levels": LEVELS | {"invite"}, "m.room.redaction": {"redacts"}}}


def redacted(event, version):
    """What the tables leave of an event."""
    kind, content = event.get("type"), event.get("content")
    kept = {name: value for name, value in event.items() if name in TOP_KEYS[version]}
    if content is None or (version, kind) == (11, "m.room.create"):
        return kept
    kept["content"] = {name: value for name, value in content.items() if name in CONTENT_KEYS[version].get(kind, ())}
    if (version, kind) == (11, "m.room.member") and isinstance(content.get("third_party_invite"), dict):
        kept["content"]["third_party_invite"] = {name: value for name, value in content["third_party_invite"].items() if name == "signed"}
    return kept


def id_of(event, version=10):
    return "$" + unpadded(base64.urlsafe_b64encode, without(redacted(event, version), "signatures", "unsigned"))


def event_of(number, **fields):
    """An event with a content of its own, with its id, by Python's own JSON and hashes; a type that redaction leaves nothing of has the same in both
    versions."""
    event = {
        "auth_events": [], "content": {"n": number}, "depth": 1, "origin_server_ts": 1, "prev_events": [], "room_id": "!r:a.example",
        "sender": "@u:a.example", "signatures": {"a.example": {"ed25519:1": "A" * 86}}, "type": "m.x", **fields,
    }
    event["hashes"] = {"sha256": unpadded(base64.b64encode, without(event, "hashes", "signatures", "unsigned"))}
    return event, id_of(event)


# ---- the vectors


def lines(name):
    return [line for line in (VECTORS / name).read_text(encoding="utf-8").split("\n") if line and not line.startswith("#")]


def given(call):
    """The bytes of `value`, `text` or `hex`, of which a call has one."""
    if "value" in call:
        return text(call["value"])
    return bytes.fromhex(call["hex"]) if "hex" in call else call["text"].encode()


def answered(function):
    """What a line of the vectors says of a call: `ok` with what it gives, or `error` with the words of what it refuses."""
    try:
        return {"ok": function()}
    except wikzord.Refused as refused:
        return {"error": WORDS.get(refused.status.name, str(refused))}


def room(call):
    """The version of the room that a call names, by name."""
    return {"version": int(call.get("room_version", "10"))}


def id_answer(call, of_one, of_many, **room):
    """What is made of one event, which the call on many makes of it too, beside another event."""
    one = answered(lambda: of_one(given(call), **room))
    several = answered(lambda: of_many([b"{}", given(call)], **room))
    check("of many", several, {"ok": [of_one(b"{}", **room), one["ok"]]} if "ok" in one else one)
    return one


def event_answer(call):
    event = given(call)
    fault = wikzord.event_fault(event)
    if fault:
        return {"error": fault.error}
    return {"ok": {"hash_fits": wikzord.hash_fits(event), "id": wikzord.event_id(event, **room(call))}}


def transaction_answer(call, wanted):
    """The fault of a body; where it has none, what the vectors say of its parts is not for this library."""
    fault = wikzord.transaction_fault(given(call))
    return {"error": fault.error} if fault else {"ok": wanted.get("ok")}


def texts_answer(call, wanted):
    value = text(call["value"])
    covered = wanted["ok"]["covered"].encode()
    same = wikzord.content_hash(value) == base64.b64encode(hashlib.sha256(covered).digest()).decode().rstrip("=")
    return {"ok": {
        "covered": wanted["ok"]["covered"] if same else None,
        "signed": wikzord.signed_text(value, **room(call)).decode(),
        "whole": wikzord.canonical(value).decode(),
    }}


def request_answer(call):
    return answered(lambda: wikzord.request_text(call["method"], call["target"], call["origin"], call["destination"], given(call)).decode())


def x_matrix_answer(call):
    def said():
        read = wikzord.x_matrix(given(call))
        check("a header that is written is read again", wikzord.x_matrix(wikzord.x_matrix_header(read)), read)
        parts = {"key": read.key, "origin": read.origin, "sig": read.signature.hex()}
        return parts if read.destination is None else parts | {"destination": read.destination}

    return answered(said)


def reply_answer(call):
    """Of an event that is named twice the first verdict counts."""
    verdicts = {}
    for event_id, *error in call["verdicts"]:
        verdicts.setdefault(event_id, error[0] if error else None)
    return answered(lambda: wikzord.reply(verdicts).decode())


def selection_answer(call):
    """The places of the events that the state of the line has at the keys of the selection, each once."""
    state = {}
    for place in call["state"]:
        event = call["graph"][place]["event"]
        state[event["type"], event["state_key"]] = place
    event = text(call["event"])
    keys = wikzord.auth_selection(event if wikzord.hash_fits(event) else wikzord.redaction(event, **room(call)))
    return {"ok": list(dict.fromkeys(state[key] for key in keys if key in state))}


def events_and_ids(call):
    events = [text(row["event"]) for row in call["graph"]]
    return events, wikzord.event_ids(events, **room(call))


def holding(call, places):
    """Those of these places that hold: state events, and of two at one type and state key, which the library refuses, the later one."""
    held = {}
    for place in places:
        event = call["graph"][place]["event"]
        if "state_key" in event:
            held[event["type"], event["state_key"]] = place
    return list(held.values())


def allowed_answer(call, wanted):
    """The keys of the lines trust every signature. That a create event is not the first of its room, where the state has none, is not for this
    library."""
    events, _ = events_and_ids(call)
    if call["event"].get("type") == "m.room.create" and events and 0 not in call["state"]:
        return wanted
    state = [events[place] for place in holding(call, call["state"])]
    rule = wikzord.allowed(text(call["event"]), state, authorised=True, **room(call))
    return {"error": str(rule)} if rule else {"ok": None}


def auth_chains(events, ids, wanted):
    """Those of the events that are wanted or stand in the auth chain of one, in their order."""
    kept, wanted = [], set(wanted)
    for event, event_id in reversed(list(zip(events, ids))):
        if event_id in wanted:
            wanted.update(json.loads(event)["auth_events"])
            kept.insert(0, event)
    return kept


def resolution_answer(call, wanted):
    """The places of what states resolve to; of the other operations the answer is not for this library."""
    events, ids = events_and_ids(call)
    rejected = [event_id for event_id, row in zip(ids, call["graph"]) if row["verdict"].startswith("rejected")]
    answers = list(wanted["ok"])
    for number, operation in enumerate(call["operations"]):
        if list(operation) == ["resolve"]:
            states = [[ids[place] for place in holding(call, state)] for state in operation["resolve"]]
            resolved = wikzord.resolve(events, states, rejected, **room(call))
            chains = auth_chains(events, ids, (event_id for state in states for event_id in state))
            check("the states' auth chains are enough", wikzord.resolve(chains, states, rejected, **room(call)), resolved)
            answers[number] = [ids.index(event_id) for event_id in resolved]
    return {"ok": answers}


def destinations_answer(call, wanted):
    """The servers that an event goes to, and by the empty name of a server, which none has, those that are joined."""
    if wanted.get("error") == "a server is listed twice":
        return wanted
    state = [text(call["graph"][place]["event"]) for place in holding(call, call["state"])]
    members = [event for event in state if json.loads(event)["type"] == "m.room.member"]
    servers = sorted(call["servers"])

    def told(events):
        return {"destinations": wikzord.destinations(events, servers, call["own"]), "joined": wikzord.destinations(events, servers, "")}

    if "ok" in wanted:
        check("the member events of a state are enough", told(members), told(state))
    return answered(lambda: told(state))


def signing_answer(call, wanted):
    """What is said of a request that is signed, after it was written and read."""
    if "error" in wanted:
        return wanted
    said = wanted["ok"]
    header = wikzord.x_matrix_header(wikzord.XMatrix(said["origin"], said["destination"], said["key"], bytes.fromhex(said["sig"])))
    return x_matrix_answer({"text": header})


# Each call of the vectors that the library answers, by what is given and what is wanted.
CALLS = {
    "canonical": lambda call, wanted: answered(lambda: wikzord.canonical(given(call), call.get("levels", 127)).decode()),
    "redact": lambda call, wanted: answered(lambda: json.loads(wikzord.redaction(given(call), **room(call)))),
    "signed_text": lambda call, wanted: answered(lambda: wikzord.signed_text(given(call), **room(call)).decode()),
    "event_id": lambda call, wanted: id_answer(call, wikzord.event_id, wikzord.event_ids, **room(call)),
    "content_hash": lambda call, wanted: id_answer(call, wikzord.content_hash, wikzord.content_hashes),
    "texts": texts_answer,
    "event": lambda call, wanted: event_answer(call),
    "request_text": lambda call, wanted: request_answer(call),
    "transaction": transaction_answer,
    "x_matrix": lambda call, wanted: x_matrix_answer(call),
    "reply": lambda call, wanted: reply_answer(call),
    "selection": lambda call, wanted: selection_answer(call),
    "allowed": allowed_answer,
    "destinations": destinations_answer,
    "resolution": resolution_answer,
    "sign_request": signing_answer,
}

# The words of the vectors for what is refused, where they are not those of the status.
WORDS = {"BAD_HEADER": "bad authorization header"}


def try_vectors():
    counts = dict.fromkeys(CALLS, 0)
    for number, (line, answer) in enumerate(zip(lines("stdin"), lines("stdout"), strict=True), 1):
        call, wanted = read(line), json.loads(answer)
        # (a line that is no call is the program's own to refuse)
        if not isinstance(call, dict) or call.get("call") not in CALLS or "wrong" in wanted:
            continue
        counts[call["call"]] += 1
        try:
            got = CALLS[call["call"]](call, wanted)
        except Exception as e:
            got = repr(e)
        check(f"line {number} of the vectors, {call['call']}", got, wanted)
    for name, count in counts.items():
        check(f"the vectors have lines of {name}", count > 0, True)
    print(f"lines of the vectors: {sum(counts.values())}")


def read(line):
    try:
        return json.loads(line)
    except ValueError:
        return None


# ---- buffers


class Output:
    """A buffer of the caller's with a margin of known bytes behind it, and where a call tells the length."""

    MARGIN = 64

    def __init__(self, size):
        self.size = size
        self.room = ctypes.create_string_buffer(b"\xa5" * (size + Output.MARGIN), size + Output.MARGIN)
        self.needed = ctypes.c_size_t(12_345)

    def give(self, function, *arguments):
        return function(*arguments, ctypes.byref(self.room), ctypes.c_size_t(self.size), ctypes.byref(self.needed))

    def is_kept(self):
        return self.room.raw == b"\xa5" * len(self.room)

    def holds(self, answer):
        return self.room.raw == answer + b"\xa5" * (len(self.room) - len(answer))


def slices(*parts):
    return [it for part in parts for it in (part, ctypes.c_size_t(len(part)))]


TEN = ctypes.c_uint32(10)

# The calls that take the version of a room, before all else.
IN_ROOMS = {"redaction", "signed_text", "event_id", "event_ids", "allowed", "allowed_by_auth_events", "resolve"}


def in_rooms(name, arguments, refusals):
    """The arguments of a call, and those that it refuses, in a room of version 10; and in one of another version what is right and what is wrong."""
    if name.split()[0] not in IN_ROOMS:
        return arguments, refusals
    tried = [arguments, *(given for given, _ in refusals[:1])]
    others = [(ctypes.c_uint32(number), *given) for number in (0, 9, 12, 110, 2**32 - 1) for given in tried]
    return (TEN, *arguments), [*(((TEN, *given), status) for given, status in refusals), *((given, wikzord.Status.BAD_VERSION) for given in others)]


def several(texts, lengths=None):
    """Texts one behind another, and the length of each."""
    lengths = list(map(len, texts)) if lengths is None else lengths
    return [*slices(b"".join(texts)), (ctypes.c_size_t * len(lengths))(*lengths), ctypes.c_size_t(len(lengths))]


def small_room():
    """A create event, the join of its creator, and their ids."""
    create = event_of(0, type="m.room.create", state_key="", content={"creator": "@u:a.example", "room_version": "10"})[0]
    create_id = wikzord.event_id(text(create))
    join = event_of(
        0, type="m.room.member", state_key="@u:a.example", content={"membership": "join"}, prev_events=[create_id], auth_events=[create_id])[0]
    return create, join, create_id, wikzord.event_id(text(join))


def room_functions():
    """The calls on rooms, as `try_buffers` tries each."""
    refused, no, yes = wikzord.Status, ctypes.c_bool(False), ctypes.c_bool(True)
    create, join, create_id, join_id = small_room()
    events, state = text([create, join]), text([create_id, join_id])
    mine, other = text(event_of(1)[0]), text(event_of(1, sender="@v:a.example")[0])
    unsigned = text(event_of(1, signatures={})[0])
    wrong_events = [b"{}", b"[5]", b"[{}]", text([join]), text([create, create]), text([create | {"signatures": {}}])]
    wrong_states = [b"{}", b"null", b"[5]", b'["$x"]', text([wikzord.event_id(other)]), text([create_id, join_id, create_id])]
    wrong_ids = [b"{}", b"null", b"7", b'"x"', b'{"$id":true}', b"[7]", b"[null]", b'[["$x"]]', b'["$x",{}]', b"true"]
    rejoin = event_of(7, type="m.room.member", state_key="@u:a.example", content={"membership": "join", "n": 7})[0]
    return [
        ("allowed", wikzord._allowed, (*slices(mine, events), no), b"", [
            *(((*slices(mine, wrong), no), refused.BAD_EVENTS)
                for wrong in (b"{}", b"[5]", b"[{}]", text([create, 5]), text([create | {"signatures": {}}]))),
            *(((*slices(mine, wrong), no), refused.BAD_STATE)
                for wrong in (text([create, create]), text([join, create, rejoin]), text([create, join, json.loads(other)]))),
            ((*slices(mine, text([create, create, 5])), no), refused.BAD_EVENTS), ((*slices(b"{}", text([create, create])), no), refused.BAD_STATE),
            ((*slices(mine, b"["), no), refused.NOT_JSON), ((*slices(mine, b"[1.5]"), no), refused.NOT_CANONICAL),
            ((*slices(b"{}", events), no), refused.MISSING_FIELD), ((*slices(unsigned, events), no), refused.NOT_SIGNED)]),
        ("allowed of an event of one who is not joined", wikzord._allowed, (*slices(other, events), yes), bytes([5, 0, 0]), []),
        ("allowed where nothing is held", wikzord._allowed, (*slices(mine, b"[]"), yes), bytes([2, 4, 0]), []),
        ("allowed by one alone who is not joined", wikzord._allowed, (*slices(mine, text([create])), yes), bytes([5, 0, 0]), []),
        ("destinations", wikzord._destinations, slices(events, b'["b","a.example","a.example"]', b"b"), b'["a.example","a.example"]', [
            *((slices(wrong, b"[]", b"a"), refused.BAD_EVENTS) for wrong in (b"{}", b"null", b"[5]", b"[{}]", text([create | {"signatures": {}}]))),
            *((slices(wrong, b"[]", b"a"), refused.BAD_STATE) for wrong in (text([create, create]), text([join, create, rejoin]), text([create, json.loads(other)]))),
            *((slices(b"{}", wrong, b"a"), refused.BAD_SERVERS) for wrong in (b"{}", b"[5]", b'["a b"]', b'["a",["a"]]', b'[""]')),
            (slices(events, b"[", b"a"), refused.NOT_JSON), (slices(b"[", b"[]", b"a"), refused.NOT_JSON),
            (slices(events, b"[1.5]", b"a"), refused.NOT_CANONICAL), (slices(b"[1.5]", b"[]", b"a"), refused.NOT_CANONICAL)]),
        ("destinations by the member event alone", wikzord._destinations, slices(text([join]), b'["a.example"]', b"b"), b'["a.example"]', []),
        ("destinations without the own server", wikzord._destinations, slices(events, b'["a.example"]', b"a.example"), b"[]", []),
        ("resolve", wikzord._resolve, slices(events, b"[]", b"[%s,%s]" % (state, state)), text([create_id, join_id]), [
            *((slices(wrong, b"[]", b"[]"), refused.BAD_EVENTS) for wrong in wrong_events),
            *((slices(events, b"[]", b"[%s]" % wrong), refused.BAD_STATE) for wrong in wrong_states),
            *((slices(b"[5]", wrong, b"5"), refused.BAD_IDS) for wrong in wrong_ids),
            (slices(b"[5]", b"[1.5]", b"5"), refused.NOT_CANONICAL), (slices(b"[5]", b"[]", b"5"), refused.BAD_EVENTS),
            (slices(events, b"[]", state), refused.BAD_STATE), (slices(events, b"", b"[]"), refused.NOT_JSON)]),
        ("resolve of no states", wikzord._resolve, slices(b"[]", b"[]", b"[]"), b"[]", []),
        ("resolve where others were rejected", wikzord._resolve, slices(events, b'["$x"]', b"[%s]" % state), text([create_id, join_id]), []),
        *auth_functions(create, join, create_id, join_id, wrong_ids),
    ]


def auth_functions(create, join, create_id, join_id, wrong_ids):
    """The call on the auth events of an event, as `try_buffers` tries it: each condition of rule 2, and the faults in their order."""
    refused, no, call = wikzord.Status, ctypes.c_bool(False), wikzord._allowed_by_auth_events
    both, mine = text([join, create]), event_of(1, auth_events=[create_id, join_id])[0]
    levels = event_of(2, type="m.room.power_levels", state_key="", content={"users": {"@u:a.example": 100}})[0]
    topic = event_of(3, type="m.room.topic", state_key="", content={"topic": "t"})[0]
    other = event_of(0, type="m.room.create", state_key="", content=create["content"], room_id="!s:a.example")[0]
    given = text([topic, other, levels, join, create])
    levels_id, topic_id, other_id = map(wikzord.event_id, map(text, (levels, topic, other)))

    def naming(*ids, **fields):
        return text(event_of(1, auth_events=list(ids), **fields)[0])

    refusals = [
        *(((*slices(b"{}", b"[5]", wrong), no), refused.BAD_IDS) for wrong in wrong_ids),
        ((*slices(b"{}", b"[5]", b"["), no), refused.NOT_JSON), ((*slices(b"{}", b"[5]", b"[1.5]"), no), refused.NOT_CANONICAL),
        *(((*slices(b"{}", wrong, b"[]"), no), refused.BAD_EVENTS)
            for wrong in (b"{}", b"null", b"[5]", b"[{}]", text([create | {"signatures": {}}]))),
        ((*slices(b"{}", b"[", b"[]"), no), refused.NOT_JSON), ((*slices(b"{}", b"[1.5]", b"[]"), no), refused.NOT_CANONICAL),
        ((*slices(b"{}", b"[]", b"[]"), no), refused.MISSING_FIELD),
        ((*slices(naming(create_id, signatures={}), b"[]", b"[]"), no), refused.NOT_SIGNED),
        ((*slices(text(mine), text([create]), b"[]"), no), refused.MISSING_EVENTS), ((*slices(text(mine), b"[]", b"[]"), no), refused.MISSING_EVENTS),
    ]
    lines = [
        ("", text(mine), both, b"[]", b"", refusals),
        ("where others are given and rejected", text(mine), given, text([topic_id, "$x"]), b"", []),
        ("2.1", naming(create_id, join_id, create_id), given, b"[]", bytes([2, 1, 0]), []),
        ("2.1 before 2.2", naming(topic_id, topic_id), given, b"[]", bytes([2, 1, 0]), []),
        ("2.2", naming(topic_id), given, text([topic_id]), bytes([2, 2, 0]), []),
        ("2.2 of a message", naming(wikzord.event_id(text(mine)), create_id), text([mine, create]), b"[]", bytes([2, 2, 0]), []),
        ("2.3", naming(join_id), given, text(["$x", join_id]), bytes([2, 3, 0]), []),
        ("2.4", naming(join_id), given, b"[]", bytes([2, 4, 0]), []),
        ("2.4 of none", naming(), b"[]", b"[]", bytes([2, 4, 0]), []),
        ("2.5", naming(other_id, join_id), given, b"[]", bytes([2, 5, 0]), []),
        ("without a join", naming(create_id, levels_id), given, b"[]", bytes([5, 0, 0]), []),
        ("of a level", naming(create_id, join_id, levels_id, type="m.room.topic", state_key="", content={}), given, b"[]", b"", []),
        ("of a create event", text(create), b"[]", b"[]", b"", []),
        ("of a create event with a prev event", text(event_of(
            0, type="m.room.create", state_key="", content=create["content"], prev_events=["$x"])[0]), b"[]", b"[]", bytes([1, 1, 0]), []),
    ]
    return [
        (f"allowed_by_auth_events {name}", call, (*slices(event, auth, rejected), no), answer, wrong)
        for name, event, auth, rejected, answer, wrong in lines]


def try_buffers():
    event, event_id = event_of(1)
    event = text(event)
    bad = b'{"a":1.5}'
    request = (b"PUT", b"/x", b"a", b"b", b' {"b":\t1,\r\n"a":"\\u00e9","b":[{"d":0,"c":0}]} ')
    refused, levels = wikzord.Status, ctypes.c_size_t
    functions = [
        ("canonical", wikzord._canonical, (*slices(event), levels(127)), event, [((*slices(b"["), levels(127)), refused.NOT_JSON),
            ((*slices(bad), levels(127)), refused.NOT_CANONICAL), ((*slices(b"[[1]]"), levels(1)), refused.TOO_DEEP)]),
        ("redaction", wikzord._redaction, slices(event), text(json.loads(event) | {"content": {}}), [(slices(b""), refused.NOT_JSON),
            (slices(bad), refused.NOT_CANONICAL)]),
        ("signed_text", wikzord._signed_text, slices(event), text(without(json.loads(event), "signatures") | {"content": {}}),
            [(slices(b"\xff"), refused.NOT_JSON), (slices(bad), refused.NOT_CANONICAL)]),
        ("event_id", wikzord._event_id, slices(event), event_id.encode(), [(slices(b"{"), refused.NOT_JSON),
            (slices(bad), refused.NOT_CANONICAL)]),
        ("content_hash", wikzord._content_hash, slices(event), json.loads(event)["hashes"]["sha256"].encode(),
            [(slices(b"nul"), refused.NOT_JSON), (slices(bad), refused.NOT_CANONICAL)]),
        ("event_ids", wikzord._event_ids, several([event, b"{}", event]), (event_id + wikzord.event_id(b"{}") + event_id).encode(), [
            (several([event, b"{"]), refused.NOT_JSON), (several([b"5", bad, b""]), refused.NOT_CANONICAL), (several([b""]), refused.NOT_JSON)]),
        ("event_ids of none", wikzord._event_ids, several([]), b"", []),
        ("event_ids where a length is past the end", wikzord._event_ids, several([event], [2**63]), event_id.encode(), [
            (several([event], [2**63, 1]), refused.NOT_JSON), (several([event], [len(event) - 1]), refused.NOT_JSON)]),
        ("content_hashes", wikzord._content_hashes, several([event, event]), json.loads(event)["hashes"]["sha256"].encode() * 2,
            [(several([event, bad]), refused.NOT_CANONICAL)]),
        ("event_error", wikzord._event_error, slices(b"{}"), b"missing field: auth_events", []),
        ("event_error of an event", wikzord._event_error, slices(event), b"", []),
        ("transaction_error", wikzord._transaction_error, slices(b"[]"), b"bad field: body", []),
        ("transaction_error of a transaction", wikzord._transaction_error, slices(b'{"origin":"a","origin_server_ts":1,"pdus":[]}'), b"", []),
        ("request_text", wikzord._request_text, slices(*request),
            '{"content":{"a":"é","b":[{"c":0,"d":0}]},"destination":"b","method":"PUT","origin":"a","uri":"/x"}'.encode(), [
            *((slices(*request[:place], b"\xff", *request[place + 1:4], b"{"), refused.NOT_UTF8) for place in range(4)),
            *((slices(*request[:4], wrong), refused.NOT_JSON) for wrong in (b" ", b"{", b"{}{}", b"\xff", b"\0", b"[" * 128 + b"]" * 128)),
            *((slices(*request[:4], wrong), refused.NOT_CANONICAL) for wrong in (b"1.0", b'{"a":9007199254740992}', b"[1e2]", b"-0"))]),
        ("request_text of 127 levels", wikzord._request_text, slices(*request[:4], b"[ " * 127 + b"]" * 127),
            b'{"content":' + b"[" * 127 + b"]" * 127 + b',"destination":"b","method":"PUT","origin":"a","uri":"/x"}', []),
        ("request_text without a body", wikzord._request_text, slices(*request[:4], b""),
            b'{"destination":"b","method":"PUT","origin":"a","uri":"/x"}', []),
        ("auth_selection", wikzord._auth_selection, slices(event),
            b'[["m.room.create",""],["m.room.power_levels",""],["m.room.member","@u:a.example"]]',
            [(slices(b"{}"), refused.MISSING_FIELD), (slices(b"5"), refused.WRONG_KIND), (slices(bad), refused.NOT_CANONICAL)]),
        ("reply", wikzord._reply, slices(b'{"$b":"no","$a":""}'), b'{"pdus":{"$a":{},"$b":{"error":"no"}}}',
            [(slices(b"[]"), refused.BAD_VERDICTS), (slices(b'{"$a":null}'), refused.BAD_VERDICTS), (slices(b"{"), refused.NOT_JSON)]),
        ("reply to no event", wikzord._reply, slices(b"{}"), b'{"pdus":{}}', [(slices(b"1.5"), refused.NOT_CANONICAL)]),
        *((f"x_matrix_{part}", function, slices(b'X-Matrix origin="a\\"",destination=b,key=k,sig="%s"' % (b"A" * 86)), answer,
            [(slices(b"Bearer x"), refused.BAD_HEADER), (slices(b""), refused.BAD_HEADER), (slices(b"\xff"), refused.NOT_UTF8)])
            for part, function, answer in zip(wikzord.XMatrix._fields, wikzord._x_matrix, (b'a"', b"b", b"k", bytes(64)))),
        ("x_matrix_header", wikzord._x_matrix_header, slices(b'a"', b"b", b"k", bytes(64)),
            b'X-Matrix origin="a\\"",destination="b",key="k",sig="%s"' % (b"A" * 86),
            [(slices(b"\xff", b"b", b"k", b""), refused.NOT_UTF8), (slices(b"a", b"\xff", b"k", bytes(64)), refused.NOT_UTF8),
            (slices(b"a", b"b", b"\xff", bytes(64)), refused.NOT_UTF8), *((slices(b"a", b"b", b"k", bytes(count)), refused.BAD_SIGNATURE)
            for count in (0, 63, 65))]),
        ("x_matrix_header without destination", wikzord._x_matrix_header, slices(b"a", b"", b"k", bytes(64)),
            b'X-Matrix origin="a",key="k",sig="%s"' % (b"A" * 86), []),
        *room_functions(),
    ]
    for name, function, arguments, answer, refusals in functions:
        arguments, refusals = in_rooms(name, arguments, refusals)
        for size in {len(answer), len(answer) + 1, len(answer) + 40, MIB}:
            out = Output(size)
            status = out.give(function, *arguments)
            check(f"{name} in {size} bytes", (status, out.needed.value, out.holds(answer)), (0, len(answer), True))
        for size in {size for size in (len(answer) - 1, len(answer) // 2, 1, 0) if 0 <= size < len(answer)}:
            out = Output(size)
            status = out.give(function, *arguments)
            check(f"{name} in {size} bytes", (status, out.needed.value, out.is_kept()), (1, len(answer), True))
        for given, wanted in refusals:
            for size in (0, MIB):
                out = Output(size)
                status = out.give(function, *given)
                check(f"{name}: {wanted.name} in {size} bytes", (status, out.needed.value, out.is_kept()), (wanted, 12_345, True))


def try_numbers():
    """What a test of an event and of a transaction tells of the place, and what stays."""
    event = event_of(1)[0]
    status, field = wikzord.Status, wikzord.Field
    for name, value, wanted in [
        ("an event", event, None),
        ("no object", [], (status.WRONG_KIND, field.EVENT, "wrong kind: event")),
        ("no sender", without(event, "sender"), (status.MISSING_FIELD, field.SENDER, "missing field: sender")),
        ("a sender of another kind", event | {"sender": "u"}, (status.WRONG_KIND, field.SENDER, "wrong kind: sender")),
        ("a long type", event | {"type": "a" * 256}, (status.FIELD_TOO_LONG, field.TYPE, "field too long: type")),
        ("21 prev events", event | {"prev_events": ["$a"] * 21}, (status.TOO_MANY_IDS, field.PREV_EVENTS, "too many: prev_events")),
        ("65,537 bytes", event | {"x": "a" * (65_537 - len(text(event | {"x": ""})))}, (status.EVENT_TOO_LARGE, None, "event too large")),
        ("65,536 bytes", event | {"x": "a" * (65_536 - len(text(event | {"x": ""})))}, None),
        ("101 levels", event | {"x": json.loads("[" * 100 + "]" * 100)}, (status.TOO_DEEP, None, "event too deep")),
    ]:
        check(f"the test of {name}", wikzord.event_fault(text(value)), wanted)
    check("the test of an event that is no JSON", wikzord.event_fault(b"{"), (status.NOT_JSON, None, "not json"))
    part = wikzord.Part
    body = {"origin": "a", "origin_server_ts": 1, "pdus": []}
    for name, value, wanted in [
        ("a transaction", body, None),
        ("no object", 5, (status.BAD_BODY, part.BODY, "bad field: body")),
        ("no origin", without(body, "origin"), (status.BAD_BODY, part.ORIGIN, "bad field: origin")),
        ("a time that is a text", body | {"origin_server_ts": "1"}, (status.BAD_BODY, part.ORIGIN_SERVER_TS, "bad field: origin_server_ts")),
        ("no events", without(body, "pdus"), (status.BAD_BODY, part.PDUS, "bad field: pdus")),
        ("edus that are null", body | {"edus": None}, (status.BAD_BODY, part.EDUS, "bad field: edus")),
        ("51 events", body | {"pdus": [{}] * 51}, (status.TOO_MANY_PDUS, None, "too many pdus")),
        ("101 ephemeral data units", body | {"edus": [{}] * 101}, (status.TOO_MANY_EDUS, None, "too many edus")),
    ]:
        check(f"the form of {name}", wikzord.transaction_fault(text(value)), wanted)
    check("another content has another hash", wikzord.hash_fits(text(event | {"content": {}})), False)
    check("an event has its own hash", wikzord.hash_fits(text(event)), True)
    check("no event without a value has one", answered(lambda: wikzord.hash_fits(b"")), {"error": "not json"})


def try_rooms():
    """Whose signatures count, and what is no event of an array."""
    create, join, create_id, join_id = small_room()
    events, state = [text(create), text(join)], [create_id, join_id]
    named = event_of(
        1, type="m.room.member", sender="@v:a.example", state_key="@v:a.example", prev_events=[join_id],
        content={"membership": "join", "join_authorised_via_users_server": "@w:b.example"},
        signatures={server: {"ed25519:1": "A" * 86} for server in ("a.example", "b.example")})[0]
    rule = wikzord.Rule
    check("a join that is authorised by a server whose signature has not checked", wikzord.allowed(text(named), events), rule(4, 2, 0))
    check("the same where it has", wikzord.allowed(text(named), events, True), rule(4, 3, 7))
    leave = event_of(2, type="m.room.member", state_key="@u:a.example", content={"membership": "leave"})[0]
    check("a state of a leave", wikzord.allowed(text(event_of(1)[0]), [text(create), text(leave)]), rule(5, 0, 0))
    # (one rule of all calls: two events at one type and state key are no state)
    bad_state = {"error": "bad state"}
    room, leave_id = [*events, text(leave)], wikzord.event_id(text(leave))
    check("two memberships of one user", answered(lambda: wikzord.allowed(text(event_of(1)[0]), room)), bad_state)
    check("the same in another order", answered(lambda: wikzord.allowed(text(event_of(1)[0]), room[::-1])), bad_state)
    check("two memberships in a state that resolves", answered(lambda: wikzord.resolve(room, [state, [*state, leave_id]])), bad_state)
    check("two memberships where servers are asked for", answered(lambda: wikzord.destinations(room, [], "")), bad_state)
    check("one membership or the other", wikzord.destinations([text(create), text(leave)], ["a.example"], ""), [])
    changed = event_of(3, type="m.room.member", state_key="@u:a.example", content={"membership": "join", "n": 1})[0]
    check("a redacted join is one", wikzord.allowed(text(event_of(1)[0]), [text(create), text(changed | {"content": {"membership": "join"}})]), None)
    another = event_of(0, type="m.room.create", state_key="", content=create["content"], origin_server_ts=2)[0]
    check("a create event in its own state", wikzord.allowed(text(create), [text(create)]), None)
    check("another create event", wikzord.allowed(text(another), [text(create)]), rule(1, 5, 0))
    check("the text of a rule", [str(rule(4, 3, 7)), str(rule(4, 2, 0)), str(rule(5, 0, 0))], ["4.3.7", "4.2", "5"])
    check("two events in one text are none", answered(lambda: wikzord.resolve([text(create) + b"," + text(join)], [])), {"error": "not json"})
    check("a rejected event stays where all states agree", wikzord.resolve(events, [state, state], [join_id]), [create_id, join_id])


# ---- versions of rooms


def try_tables():
    """What the tables of both versions leave of an event, and its id by them."""
    for name, event, of_10, of_11 in [
        ("a create event", {"content": {"body": "x", "creator": "@u:a"}, "origin": "a", "type": "m.room.create"},
            b'{"content":{"creator":"@u:a"},"origin":"a","type":"m.room.create"}',
            b'{"content":{"body":"x","creator":"@u:a"},"type":"m.room.create"}'),
        ("an invite", {"content": {"membership": "invite", "third_party_invite": {"display_name": "x", "signed": {}}}, "type": "m.room.member"},
            b'{"content":{"membership":"invite"},"type":"m.room.member"}',
            b'{"content":{"membership":"invite","third_party_invite":{"signed":{}}},"type":"m.room.member"}'),
        ("levels", {"content": {"ban": 1, "invite": 2}, "type": "m.room.power_levels"},
            b'{"content":{"ban":1},"type":"m.room.power_levels"}', b'{"content":{"ban":1,"invite":2},"type":"m.room.power_levels"}'),
        ("a redaction", {"content": {"reason": "x", "redacts": "$a"}, "redacts": "$a", "type": "m.room.redaction"},
            b'{"content":{},"type":"m.room.redaction"}', b'{"content":{"redacts":"$a"},"type":"m.room.redaction"}'),
    ]:
        check(f"{name} in version 10", (wikzord.redaction(event), wikzord.redaction(event, version=10)), (of_10, of_10))
        check(f"{name} in version 11", wikzord.redaction(event, version=11), of_11)
    event = {"origin": "a", "unsigned": {}}
    check("an id in version 11", wikzord.event_id(event, version=11), "$RBNvo1WzZ4oRRq0W9-hknpT7T8If536DEMBg9hyq_4o")
    check("the same event in version 10", wikzord.event_id(event), id_of(event))
    names = sorted(set().union(["body", "creator", "third_party_invite"], *CONTENT_KEYS[11].values()))
    for kind in sorted({"m.room.message", *CONTENT_KEYS[10], *CONTENT_KEYS[11]}):
        for invite in ({"signed": {"a": [1]}, "x": 1}, {"x": 1}, {}, 1, None):
            content = dict.fromkeys(names, "x") | {"third_party_invite": invite}
            event = dict.fromkeys([*TOP_KEYS[10], "unsigned", "redacts", "age_ts"], 1) | {"content": content, "type": kind}
            for version in (10, 11):
                left = redacted(event, version)
                check(f"{kind} with {invite} in version {version}", wikzord.redaction(event, version=version), text(left))
                signed, event_id = wikzord.signed_text(event, version=version), wikzord.event_id(event, version=version)
                check(f"what is signed of {kind} in version {version}", signed, text(without(left, "signatures")))
                ids = [id_of(event, version), id_of({}, version)]
                check(f"the ids of {kind} in version {version}", (event_id, wikzord.event_ids([event, {}], version=version)), (ids[0], ids))


def room_of(version, content):
    """A create event by @u and the joins of @u and @v, and the ids of all three, in a room of this version."""
    create = event_of(0, type="m.room.create", state_key="", content=content)[0]
    create_id = id_of(create, version)
    joins = [
        event_of(number, type="m.room.member", sender=user, state_key=user, content={"membership": "join"}, prev_events=[create_id],
            auth_events=[create_id])[0] for number, user in ((1, "@u:a.example"), (2, "@v:a.example"))]
    return create, *joins, [id_of(it, version) for it in (create, *joins)]


def try_versions():
    """Who made a room, and which events those are that ids name."""
    rule = wikzord.Rule
    for version, creator, other in ((10, "@v:a.example", "@u:a.example"), (11, "@u:a.example", "@v:a.example")):
        # (the create event is by @u and names @v, whom version 11 does not ask)
        create, one, two, ids = room_of(version, {"creator": "@v:a.example", "room_version": str(version)})
        joins = {join["sender"]: join for join in (one, two)}
        check(f"the first join in version {version}", wikzord.allowed(joins[creator], [create], version=version), None)
        check(f"the first join of another in version {version}", wikzord.allowed(joins[other], [create], version=version), rule(4, 3, 7))
        by_auth_events = wikzord.allowed_by_auth_events(joins[creator], [create], version=version)
        check(f"the first join by its auth events in version {version}", by_auth_events, None)
        for sender, wanted in ((creator, True), (other, False)):
            ban = event_of(3, type="m.room.member", sender=sender, state_key="@w:a.example", content={"membership": "ban"})[0]
            check(f"a ban by {sender} in version {version}", wikzord.allowed(ban, [create, one, two], version=version) is None, wanted)
        check(f"a state in version {version}", wikzord.resolve([create, one, two], [ids, ids], version=version), ids)
        # (an id of the other version names no event)
        message = event_of(4, auth_events=ids[:2])[0]
        check(f"auth events in version {version}", wikzord.allowed_by_auth_events(message, [one, create], version=version), None)
        missing, bad_events = {"error": "missing events"}, {"error": "bad events"}
        of_other = {"version": 21 - version}
        check(f"the same in version {21 - version}", answered(lambda: wikzord.allowed_by_auth_events(message, [one, create], **of_other)), missing)
        check(f"its state in version {21 - version}", answered(lambda: wikzord.resolve([create, one], [], **of_other)), bad_events)
    without_creator = event_of(0, type="m.room.create", state_key="", content={"room_version": "11"})[0]
    check("a create event without a creator in version 10", wikzord.allowed(without_creator, []), rule(1, 4, 0))
    check("a create event without a creator in version 11", wikzord.allowed(without_creator, [], version=11), None)
    # (of one whose content hash does not fit, version 10 leaves no m.federate)
    create = event_of(0, type="m.room.create", state_key="", content={"creator": "@u:a.example"})[0]
    create["content"]["m.federate"] = False
    far = event_of(5, sender="@x:b.example", signatures={"b.example": {"ed25519:1": "A" * 86}})[0]
    check("a changed create event in version 10", wikzord.allowed(far, [create]), rule(5, 0, 0))
    check("a changed create event in version 11", wikzord.allowed(far, [create], version=11), rule(3, 0, 0))


def try_other_versions():
    """What is no number of a version that is known, and what is no number."""
    calls = [
        lambda **room: wikzord.redaction(b"{", **room), lambda **room: wikzord.signed_text({}, **room), lambda **room: wikzord.event_id({}, **room),
        lambda **room: wikzord.event_ids([], **room), lambda **room: wikzord.event_ids([b"{"], **room),
        lambda **room: wikzord.allowed({}, [b"5"], **room), lambda **room: wikzord.allowed_by_auth_events({}, [], [5], **room),
        lambda **room: wikzord.resolve([], [], [5], **room)]
    for number in (0, 1, 9, 12, 1_000, -1, -10, 2**31, 2**32 + 10, 2**64 + 11, True):
        check(f"version {number}", [answered(lambda: call(version=number)) for call in calls], [{"error": "bad version"}] * len(calls))
    for number in ("10", "11", 10.0, None, b"\n"):
        check(f"version {number!r} is no number", [raised(lambda: call(version=number)) for call in calls], [TypeError] * len(calls))
    check("a version without its name", raised(lambda: wikzord.event_id({}, 11)), TypeError)


# ---- values in place of texts, and what the module refuses itself


def raised(function):
    """The kind of what a call raises."""
    try:
        function()
    except Exception as e:
        return type(e)


def try_values():
    event, event_id = event_of(1)
    spaced = json.dumps(event, indent=1)
    for name, value in (("a dict", event), ("a spaced str", spaced), ("bytes", spaced.encode()), ("a bytearray", bytearray(spaced.encode())),
            ("a memoryview", memoryview(text(event)))):
        check(f"the canonical text of {name}", wikzord.canonical(value), text(event))
        check(f"the ids of {name}", (wikzord.event_id(value), wikzord.event_ids([value, value])), (event_id, [event_id] * 2))
        check(f"the test of {name}", wikzord.event_fault(value), None)
        check(f"the content of {name}", wikzord.request_text("PUT", "/", "a", "b", value),
            b'{"content":%s,"destination":"b","method":"PUT","origin":"a","uri":"/"}' % text(event))
    check("a list", wikzord.canonical([{"b": "é", "a": [True, None, -1]}]), '[{"a":[true,null,-1],"b":"é"}]'.encode())
    check("an empty list and an empty dict", (wikzord.canonical([]), wikzord.canonical({})), (b"[]", b"{}"))
    check("an empty dict is a content", wikzord.request_text("PUT", "/", "a", "b", {}),
        b'{"content":{},"destination":"b","method":"PUT","origin":"a","uri":"/"}')
    check("a transaction as a dict", wikzord.transaction_fault({"origin": "a", "origin_server_ts": 1, "pdus": []}), None)
    create, join, create_id, join_id = small_room()
    check("a room of dicts", wikzord.resolve([create, join], [[create_id, join_id]]), [create_id, join_id])
    check("a state of dicts and texts", wikzord.allowed(event, iter([create, text(join)])), None)
    named = event_of(1, auth_events=[create_id, join_id])[0]
    check("auth events", wikzord.allowed_by_auth_events(named, [create, join]), None)
    check("a rejected auth event", wikzord.allowed_by_auth_events(named, [create, join], {join_id}), wikzord.Rule(2, 3, 0))
    missing = answered(lambda: wikzord.allowed_by_auth_events(named, [create]))
    check("an auth event that is not there", missing, {"error": "missing events"})
    check("a number that is no whole one", answered(lambda: wikzord.canonical([1.0])), {"error": "not canonical"})
    check("no number", answered(lambda: wikzord.canonical([float("nan")])), {"error": "not json"})
    for levels, wanted in ((127, {"ok": b"[" * 127 + b"]" * 127}), (128, {"error": "not json"}), (100_000, {"error": "not json"})):
        deep = []
        for _ in range(levels - 1):
            deep = [deep]
        check(f"a list of {levels} levels", answered(lambda: wikzord.canonical(deep)), wanted)
        while deep:
            deep = deep.pop()


def try_refusals():
    """Lone surrogates, of which UTF-8 has none, and arguments of another kind."""
    lone, (event, _) = "\ud800", event_of(1)
    not_json, not_utf8 = {"error": "not json"}, {"error": "not utf8"}
    for name, value in (("a text", f'"{lone}"'), ("a list", [lone]), ("a key", {lone: 1}), ("two halves", '"\ud83d\ude00"')):
        check(f"a lone surrogate in {name}", answered(lambda: wikzord.canonical(value)), not_json)
    check("an escaped one", answered(lambda: wikzord.canonical('"\\ud800"')), not_json)
    check("one in an event", wikzord.event_fault(event | {"type": lone}), (wikzord.Status.NOT_JSON, None, "not json"))
    check("one in one of several events", answered(lambda: wikzord.event_ids([event, {"x": lone}])), not_json)
    for place in range(4):
        texts = ["PUT", "/", "a", "b"]
        texts[place] = lone
        check(f"one in text {place} of a request", answered(lambda: wikzord.request_text(*texts, b"{")), not_utf8)
    check("one in a content", answered(lambda: wikzord.request_text("PUT", "/", "a", "b", {"x": lone})), not_json)
    check("one in a header", answered(lambda: wikzord.x_matrix(lone)), not_utf8)
    check("one in a name of a header", answered(lambda: wikzord.x_matrix_header(wikzord.XMatrix("a", lone, "k", bytes(3)))), not_utf8)
    check("one in a verdict", answered(lambda: wikzord.reply({"$a": lone})), not_json)
    check("one in a state", answered(lambda: wikzord.allowed(event, [{"x": lone}])), not_json)
    check("one in rejected ids", answered(lambda: wikzord.resolve([], [], [lone])), not_json)
    check("one in a state's ids", answered(lambda: wikzord.resolve([], [[lone]])), not_json)
    check("one in the name of a server", answered(lambda: wikzord.destinations([], [lone], "a")), not_json)
    check("one in the own name", answered(lambda: wikzord.destinations([], [], lone)), not_utf8)
    # (the first fault in the order of the header, wherever the module sees it)
    check("rejected ones before events", answered(lambda: wikzord.resolve([b"{"], [[5]], [5])), {"error": "bad ids"})
    check("events before states", answered(lambda: wikzord.resolve([b"5"], [[5]])), {"error": "bad events"})
    check("no JSON before no whole numbers", answered(lambda: wikzord.allowed(b"{", [b"1.5", b"{"])), not_json)
    check("no whole numbers before no events", answered(lambda: wikzord.allowed(b"{", [b"1.5", b"5"])), {"error": "not canonical"})
    check("rejected ids of another kind", answered(lambda: wikzord.resolve([], [], [None])), {"error": "bad ids"})
    for name, value in (("a number", 7), ("None", None), ("a float", 1.5)):
        calls = (wikzord.canonical, wikzord.event_id, wikzord.x_matrix)
        check(f"{name} is no text", [raised(lambda: call(value)) for call in calls], [TypeError] * 3)
    for name, value in (("a str", "$x"), ("bytes", b"[]"), ("a dict", {"$x": True}), ("None", None)):
        check(f"{name} is no list", [raised(call) for call in (
            lambda: wikzord.resolve([], [], value), lambda: wikzord.resolve([], value), lambda: wikzord.resolve(value, []),
            lambda: wikzord.allowed(event, value), lambda: wikzord.destinations([], value, "a"), lambda: wikzord.event_ids(value),
            lambda: wikzord.allowed_by_auth_events(event, value), lambda: wikzord.allowed_by_auth_events(event, [], value))], [TypeError] * 8)


# ---- null bytes, large texts, threads


def try_null_bytes():
    check("a null byte is no JSON", answered(lambda: wikzord.canonical(b"1\0")), {"error": "not json"})
    check("a null byte in a text is no JSON", answered(lambda: wikzord.canonical(b'"\0"')), {"error": "not json"})
    check("a null character", wikzord.canonical(b'"\\u0000"'), b'"\\u0000"')
    check("a null byte in a target", wikzord.request_text("GET", b"/\0", "a", "b"),
        b'{"destination":"b","method":"GET","origin":"a","uri":"/\\u0000"}')
    check("a null byte in a body", answered(lambda: wikzord.request_text("PUT", "/", "a", "b", b"\0")), {"error": "not json"})


def try_large():
    large = b'"' + b"a" * (16 * MIB - 2) + b'"'
    check("16 MB", wikzord.canonical(large) == large, True)
    many = b"[" + b"1," * (8 * MIB - 1) + b"1]"
    check("16 MB of small values", wikzord.canonical(many[:-1] + b" ]") == many, True)
    body = b'{"edus":[],"origin":"a","origin_server_ts":1,"pdus":[],"x":"%s"}'
    fill = 16 * MIB - len(body % b"")
    check("a transaction of 16,777,216 bytes", wikzord.transaction_fault(body % (b"a" * fill)), None)
    check("a transaction of one byte more", wikzord.transaction_fault(body % (b"a" * (fill + 1))),
        (wikzord.Status.BODY_TOO_LARGE, None, "body too large"))


def try_many():
    events = [event_of(number) for number in range(1_000)]
    check("1,000 ids", wikzord.event_ids(text(event) for event, _ in events), [event_id for _, event_id in events])
    check("1,000 content hashes", wikzord.content_hashes([text(event) for event, _ in events]), [event["hashes"]["sha256"] for event, _ in events])
    check("no ids", wikzord.event_ids([]), [])


def try_threads():
    events = [event_of(number) for number in range(200)]

    def ids(_):
        return [wikzord.event_id(text(event)) for event, _ in events for _ in range(5)]

    wanted = [event_id for _, event_id in events for _ in range(5)]
    with concurrent.futures.ThreadPoolExecutor(8) as threads:
        for number, got in enumerate(threads.map(ids, range(8)), 1):
            check(f"thread {number}", got == wanted, True)


# ---- the header, the module and the example


def try_header():
    header = (C / "wikzord.h").read_text()
    for name, values in (("status", wikzord.Status), ("field", wikzord.Field), ("part", wikzord.Part)):
        body = re.search(r"enum wikzord_%s \{(.*?)\};" % name, header, re.S)[1]
        prefix = "WIKZORD_" if name == "status" else f"WIKZORD_{name.upper()}_"
        found = {word.removeprefix(prefix): int(number) for word, number in re.findall(r"(WIKZORD_\w+) = (\d+)", body)}
        check(f"the numbers of wikzord_{name}", {it.name: it.value for it in values}, found)
    version = int(re.search(r"^#define WIKZORD_VERSION (\d+)$", header, re.M)[1])
    check("the number of the interface", (wikzord._library.wikzord_version(), wikzord.VERSION), (version, version))
    public = {name for name, value in vars(wikzord).items() if getattr(value, "__module__", None) == "wikzord" and not name.startswith("_")}
    check("the names of the module", set(wikzord.__all__), public | {"VERSION"})
    declared = set(re.findall(r"^uint32_t (wikzord_\w+)\(", header, re.M))
    sources = "".join(path.read_text() for path in (ROOT / "crates" / "fed_c" / "src").glob("*.rt"))
    exported = set(re.findall(r'pub extern "C" fn (wikzord_\w+)\(', sources))
    check("the header declares what the crate exports", declared, exported)
    symbols = subprocess.run(["nm", "-D", "--defined-only", C / "out" / "libwikzord.so"], capture_output=True, text=True, check=True).stdout
    check("the shared library has these symbols alone", {line.split()[-1] for line in symbols.splitlines()}, exported)


def try_example():
    event, event_id = event_of(7)
    example = [str(C / "out" / "example")]
    valgrind = ["valgrind", "-q", "--error-exitcode=9", "--leak-check=full", "--show-leak-kinds=all", "--errors-for-leak-kinds=all"]
    runs = [("the example", example)]
    if shutil.which("valgrind"):
        runs.append(("the example under valgrind", valgrind + example))
    else:
        print("no valgrind on this machine: the example was not run under it")
    for name, command in runs:
        for given, wanted in [
            (text(event), (0, f"{event_id}\npasses\n")),
            (text(without(event, "sender")), (0, wikzord.event_id(text(without(event, "sender"))) + "\nmissing field: sender\n")),
            (b"{", (0, "no id: status 3\nnot json\n")),
            (text(event | {"x": "a" * 70_000}), (0, f"{event_id}\nevent too large\n")),
        ]:
            done = subprocess.run(command, input=given, capture_output=True)
            check(f"{name}: {given[:60]}", (done.returncode, done.stdout.decode(), done.stderr.decode()), (*wanted, ""))


# ---- what is loaded and installed

# Where no `rt` is found, so that nothing is built.
PLAIN = os.environ | {"PATH": "/usr/bin:/bin", "PYTHONDONTWRITEBYTECODE": "1"}


def python(command, environment, folder=C):
    done = subprocess.run([sys.executable, "-c", command], capture_output=True, text=True, env=PLAIN | environment, cwd=folder)
    return done.returncode, done.stdout.strip(), done.stderr.strip().rpartition("\n")[2]


def try_loading():
    """Libraries that are not the one that the module is for."""
    with tempfile.TemporaryDirectory() as room:
        for name, source in (("none", ""), ("another", "unsigned wikzord_version(void) { return 4711; }")):
            (pathlib.Path(room) / f"{name}.c").write_text(source)
            subprocess.run(["cc", "-shared", "-o", f"{room}/{name}.so", f"{room}/{name}.c"], check=True)
        (pathlib.Path(room) / "text.so").write_text("no library")
        for name, words in [
            ("missing", [f"there is no library {room}/missing.so", "c/build.sh makes it"]),
            ("text", [f"the library {room}/text.so can't be loaded", "c/build.sh makes one"]),
            ("none", [f"the library {room}/none.so has no number", f"is for interface {wikzord.VERSION}", "make it again by c/build.sh"]),
            ("another", [f"the library {room}/another.so has interface 4711", "make it again by c/build.sh"]),
        ]:
            status, _, error = python("import wikzord", {"WIKZORD_LIBRARY": f"{room}/{name}.so"})
            unsaid = [it for it in words if it not in error]
            check(f"a library that is {name}", (status, error.startswith("ImportError: wikzord: "), unsaid), (1, True, []))


def try_install():
    """What c/install.sh leaves, by pkg-config where that is there, and what pip installs, where that is there."""
    event, event_id = event_of(7)
    with tempfile.TemporaryDirectory() as room:
        done = subprocess.run([C / "install.sh", room], capture_output=True, text=True, env=PLAIN)
        files = ["include/wikzord.h", "lib/libwikzord.a", "lib/libwikzord.so", "lib/pkgconfig/wikzord.pc"]
        check("c/install.sh", (done.returncode, done.stdout, done.stderr), (0, f"{room}: {' '.join(files)}\n", ""))
        check("what it leaves", sorted(str(it.relative_to(room)) for it in pathlib.Path(room).rglob("*") if it.is_file()), files)
        if shutil.which("pkg-config"):
            asked = ["pkg-config", "--cflags", "--libs", "--print-errors", "wikzord"]
            flags = subprocess.run(asked, capture_output=True, text=True, check=True, env=PLAIN | {"PKG_CONFIG_PATH": f"{room}/lib/pkgconfig"}).stdout
            subprocess.run(["cc", "-std=c99", "-o", f"{room}/example", C / "example.c", *flags.split()], check=True)
            ran = subprocess.run([f"{room}/example"], input=text(event), capture_output=True, env=PLAIN | {"LD_LIBRARY_PATH": f"{room}/lib"})
            check("the example by pkg-config", ran.stdout.decode(), f"{event_id}\npasses\n")
        else:
            print("no pkg-config on this machine: the example was not made by it")
        check("c/install.sh without a folder", subprocess.run([C / "install.sh"], capture_output=True, env=PLAIN).returncode, 2)
    if subprocess.run([sys.executable, "-m", "pip", "--version"], capture_output=True).returncode:
        print("no pip on this machine: the package was not installed")
        return
    with tempfile.TemporaryDirectory() as room:
        options = ["--quiet", "--no-index", "--no-compile", "--disable-pip-version-check", "--target", room]
        done = subprocess.run([sys.executable, "-m", "pip", "install", *options, C], capture_output=True, text=True, env=PLAIN)
        check("pip install ./c", (done.returncode, done.stderr.replace("\n", " ") if done.returncode else ""), (0, ""))
        packed = sorted(it.name for it in (pathlib.Path(room) / "wikzord").iterdir())
        check("what it installs", packed, ["__init__.py", "libwikzord.so", "py.typed"])
        ask = "import sys, wikzord; print(wikzord.__file__, wikzord.event_id(sys.argv[1]))".replace("sys.argv[1]", repr(text(event)))
        check("the package", python(ask, {"PYTHONPATH": room}, room), (0, f"{room}/wikzord/__init__.py {event_id}", ""))
        bare = pathlib.Path(room) / "c"
        shutil.copytree(C, bare, ignore=shutil.ignore_patterns("out"))
        status, _, error = python(f"import build_wheel; build_wheel.build_wheel({room!r})", {}, bare)
        check("a package without the library", (status, "there is no library" in error and "c/build.sh" in error), (1, True))


def run_with(modules, script, wanted):
    """A script beside this one, by a Python that has these modules: this one, or the system's, for which Debian packs them."""
    for interpreter in (sys.executable, "/usr/bin/python3"):
        if os.path.exists(interpreter) and not subprocess.run([interpreter, "-c", f"import {modules}"], capture_output=True).returncode:
            done = subprocess.run([interpreter, ROOT / "tests" / script], capture_output=True, text=True)
            check(f"tests/{script}", (done.returncode, done.stdout.endswith(wanted), done.stderr), (0, True, ""))
            print(f"tests/{script}: {done.stdout.strip()}")
            return
    print(f"no {modules} on this machine: tests/{script} was not run")


def try_receipt():
    """The checks on receipt with signatures by signedjson."""
    run_with("signedjson.sign", "receipt.py", " passed, 0 failed\n")


def try_interop():
    """The library beside matrix.org's packages."""
    run_with("canonicaljson, signedjson.sign, unpaddedbase64", "interop.py", "2000 cases, 0 differ\n")


def try_refused_memory():
    """Refuses each allocation of the example in turn."""
    event, event_id = event_of(7)
    usual, seen = (0, f"{event_id}\npasses\n", ""), []
    with tempfile.TemporaryDirectory() as room:
        shim = pathlib.Path(room) / "refuse.so"
        subprocess.run(["cc", "-shared", "-fPIC", "-O1", "-o", shim, ROOT / "tests" / "memory" / "refuse.c", "-ldl"], check=True)
        for at in range(1, 10_000):
            log = pathlib.Path(room) / str(at)
            refusing = {"LD_PRELOAD": str(shim), "REFUSE_AT": str(at), "REFUSE_LOG": str(log)}
            done = subprocess.run([C / "out" / "example"], input=text(event), capture_output=True, env=os.environ | refusing)
            seen.append((done.returncode, done.stdout.decode(), done.stderr.decode()))
            if not log.exists():
                break
    check("the example where no memory is refused", seen[-1], usual)
    no_id, no_error = (0, "no id: status 2\npasses\n", ""), (1, f"{event_id}\n", "out of memory\n")
    check("the example where memory is refused", set(seen), {usual, (1, "", "no input\n"), no_id, no_error})
    print(f"allocations refused in turn: {len(seen) - 1}, of which {seen.count(no_id) + seen.count(no_error)} in a call")


if sys.argv[1:] != ["--built"]:
    build = subprocess.run([C / "build.sh"], capture_output=True, text=True)
    check("c/build.sh", (build.returncode, build.stdout, build.stderr), (0, "c/out: libwikzord.a libwikzord.so example\n", ""))
if not failed:
    sys.path.insert(0, str(C))
    import wikzord

    parts = (
        try_vectors, try_buffers, try_numbers, try_rooms, try_tables, try_versions, try_other_versions, try_values, try_refusals, try_null_bytes,
        try_large, try_many, try_threads, try_header,
        try_loading, try_install, try_example, try_refused_memory, try_receipt,
        try_interop)
    for part in parts:
        part()
print(f"{passed} passed, {failed} failed")
sys.exit(1 if failed else 0)
