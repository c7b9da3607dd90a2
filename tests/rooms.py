#!/usr/bin/env python3
"""Plays rooms that are made at random, with forks by which members try to undo what others did, and compares what crates/fed_vectors/out/fed_vectors,
after `rt run` there, or the program that is named, makes of them with what this script does: another program of room versions 10 and 11, written
from the standard alone.

    tests/rooms.py [PROGRAM] [ROOMS] [SEED]

Of each room all events are received, one after another: each has to be accepted, rejected or soft-failed alike. Then the state before some of them,
the current state and the forward extremities have to be the same, and so has what states after events resolve to, by a call that tells too where
the fast program and the plain one of fed_resolve differ.
"""
import base64
import concurrent.futures
import hashlib
import heapq
import json
import os
import pathlib
import random
import subprocess
import sys

ROOT = pathlib.Path(__file__).resolve().parent.parent
ROOMS, PART = 2_000, 50
LISTED, LISTED_IN_STATE = 8, 6

# ---- events (Server-Server API, "Signing Events"; room versions 10 and 11, "Redactions", "Event IDs")

KEPT = {"auth_events", "content", "depth", "hashes", "origin_server_ts", "prev_events", "room_id", "sender", "state_key", "type"}
KEPT_IN_10 = {"membership", "origin", "prev_state"}
KEPT_CONTENT = {
    "m.room.join_rules": {"join_rule", "allow"},
    "m.room.member": {"membership", "join_authorised_via_users_server"},
    "m.room.power_levels": {"ban", "events", "events_default", "kick", "redact", "state_default", "users", "users_default"},
}


def redacted(version, fields):
    """What redaction leaves of the fields of an event."""
    kind, content = fields["type"], fields["content"]
    names = KEPT_CONTENT.get(kind, set())
    if version == "10":
        names = names | ({"creator"} if kind == "m.room.create" else set())
    elif kind == "m.room.create":
        names = set(content)
    else:
        names = names | {"m.room.power_levels": {"invite"}, "m.room.redaction": {"redacts"}}.get(kind, set())
    kept = {name: value for name, value in fields.items() if name in KEPT or version == "10" and name in KEPT_IN_10}
    return kept | {"content": {name: value for name, value in content.items() if name in names}}


def digest(value):
    text = json.dumps(value, sort_keys=True, separators=(",", ":"), ensure_ascii=False)
    return hashlib.sha256(text.encode()).digest()


class Event:
    """An event with what a room made of it."""

    def __init__(self, version, fields, prevs, auths):
        fields = fields | {
            "auth_events": [it.id for it in auths], "depth": 1 + max((it.fields["depth"] for it in prevs), default=0),
            "prev_events": [it.id for it in prevs], "room_id": "!r:a"}
        hashes = {"sha256": base64.b64encode(digest(fields)).decode().rstrip("=")}
        kept = redacted(version, fields | {"hashes": hashes})
        self.id = "$" + base64.urlsafe_b64encode(digest(kept)).decode().rstrip("=")
        self.fields = fields | {"hashes": hashes, "signatures": {domain(fields["sender"]): {"ed25519:1": "A" * 86}}}
        self.type, self.sender, self.content, self.at = fields["type"], fields["sender"], fields["content"], fields["origin_server_ts"]
        self.state_key = fields.get("state_key")
        self.key = None if self.state_key is None else (self.type, self.state_key)
        self.creator = self.content.get("creator") if version == "10" else self.sender
        self.prevs, self.auths = prevs, auths
        self.chain = frozenset(auths).union(*(it.chain for it in auths))
        self.verdict, self.before, self.after = None, None, None

    def __repr__(self):
        return f"{self.type} of {self.sender}"


def domain(user):
    return user.partition(":")[2]


# ---- authorization rules (room versions 10 and 11, "Authorization rules"), by a state: events by their types and state keys


def selection(event):
    """Where the auth events of an event stand (Server-Server API, "Auth events selection")."""
    if event.type == "m.room.create":
        return set()
    keys = {("m.room.create", ""), ("m.room.power_levels", ""), ("m.room.member", event.sender)}
    if event.type == "m.room.member":
        keys.add(("m.room.member", event.state_key))
        if event.content.get("membership") in ("join", "invite", "knock"):
            keys.add(("m.room.join_rules", ""))
    return keys


class Levels:
    """What a state says of power levels."""

    def __init__(self, state):
        self.event, create = state.get(("m.room.power_levels", "")), state.get(("m.room.create", ""))
        self.content = self.event.content if self.event else {}
        self.creator = create.creator if create else None

    def of_user(self, user):
        if self.event is None:
            return 100 if user == self.creator else 0
        return self.content.get("users", {}).get(user, self.content.get("users_default", 0))

    def to(self, what):
        return self.content.get(what, 0 if what == "invite" else 50)

    def to_send(self, event):
        default = ("state_default", 50 if self.event else 0) if event.key else ("events_default", 0)
        return self.content.get("events", {}).get(event.type, self.content.get(*default))


def membership(state, user):
    event = state.get(("m.room.member", user))
    return event.content["membership"] if event else "leave"


def allows(state, event):
    create = state.get(("m.room.create", ""))
    if create is None:
        return False
    if create.content.get("m.federate") is False and domain(event.sender) != domain(create.sender):
        return False
    levels = Levels(state)
    if event.type == "m.room.member":
        return allows_member(state, levels, event)
    if membership(state, event.sender) != "join":
        return False
    if levels.to_send(event) > levels.of_user(event.sender):
        return False
    if event.key and event.state_key.startswith("@") and event.state_key != event.sender:
        return False
    return event.type != "m.room.power_levels" or allows_levels(levels, event)


def allows_member(state, levels, event):
    target, sender = event.state_key, event.sender
    was, mine = membership(state, target), levels.of_user(sender)
    rules = state.get(("m.room.join_rules", ""))
    rule = rules.content["join_rule"] if rules else "invite"
    wanted = event.content["membership"]
    if wanted == "join":
        if [it.type for it in event.prevs] == ["m.room.create"] and event.prevs[0].creator == target:
            return True
        if sender != target or was == "ban":
            return False
        return rule == "public" or rule in ("invite", "knock") and was in ("invite", "join")
    if wanted == "knock":
        return rule == "knock" and sender == target and was not in ("ban", "invite", "join")
    if wanted == "leave" and sender == target:
        return was in ("invite", "join", "knock")
    if membership(state, sender) != "join":
        return False
    if wanted == "invite":
        return was not in ("join", "ban") and mine >= levels.to("invite")
    if wanted == "leave":
        return (was != "ban" or mine >= levels.to("ban")) and mine >= levels.to("kick") and levels.of_user(target) < mine
    return wanted == "ban" and mine >= levels.to("ban") and levels.of_user(target) < mine


def allows_levels(levels, event):
    if levels.event is None:
        return True
    mine, old, new = levels.of_user(event.sender), levels.content, event.content
    for name in ("users_default", "events_default", "state_default", "ban", "redact", "kick", "invite"):
        if old.get(name) != new.get(name) and max(old.get(name, mine), new.get(name, mine)) > mine:
            return False
    for name in ("events", "notifications"):
        was, now = old.get(name, {}), new.get(name, {})
        for key in {*was, *now}:
            if was.get(key) != now.get(key) and max(was.get(key, mine), now.get(key, mine)) > mine:
                return False
    was, now = old.get("users", {}), new.get("users", {})
    for user in {*was, *now}:
        if was.get(user) == now.get(user):
            continue
        if user != event.sender and was.get(user, mine - 1) >= mine or now.get(user, mine) > mine:
            return False
    return True


def allows_auth_events(event):
    """Rule 2, and then the others by the auth events."""
    if event.type == "m.room.create":
        return not event.prevs
    state = {it.key: it for it in event.auths}
    if len(state) != len(event.auths) or not set(state) <= selection(event):
        return False
    return all(it.verdict != "rejected" for it in event.auths) and allows(state, event)


# ---- state resolution (room version 2, "State resolution")


def is_power_event(event):
    if event.type in ("m.room.power_levels", "m.room.join_rules"):
        return event.key is not None
    return event.type == "m.room.member" and event.content["membership"] in ("leave", "ban") and event.sender != event.state_key


def levels_event(event):
    return next((it for it in event.auths if it.key == ("m.room.power_levels", "")), None)


def power_order(events):
    """Each behind those of its auth chain; of those that may come next the one whose sender has the greatest level, then the earliest one."""
    rank = {it: (-Levels({auth.key: auth for auth in it.auths}).of_user(it.sender), it.at, it.id) for it in events}
    waits = {it: len(it.chain & events) for it in events}
    ready = [(rank[it], it) for it in events if not waits[it]]
    heapq.heapify(ready)
    listed = []
    while ready:
        _, first = heapq.heappop(ready)
        listed.append(first)
        for it in events:
            if first in it.chain:
                waits[it] -= 1
                if not waits[it]:
                    heapq.heappush(ready, (rank[it], it))
    return listed


def mainline_order(events, levels):
    line = []
    while levels:
        line.append(levels)
        levels = levels_event(levels)
    place = {it: number for number, it in enumerate(line)}

    def position(event):
        while event and event not in place:
            event = levels_event(event)
        return place[event] if event else float("inf")

    return sorted(events, key=lambda it: (-position(it), it.at, it.id))


def checked(state, events):
    """The iterative auth checks."""
    state = dict(state)
    for event in events:
        held = {it.key: it for it in event.auths if it.verdict != "rejected"}
        held |= {key: state[key] for key in selection(event) if key in state}
        if allows(held, event):
            state[event.key] = event
    return state


def resolve(states):
    if all(it == states[0] for it in states):
        return dict(states[0]) if states else {}
    keys = {key for state in states for key in state}
    agreed = {key: states[0][key] for key in keys if all(it.get(key) == states[0].get(key) for it in states)}
    conflicted = {state[key] for state in states for key in keys - set(agreed) if key in state}
    chains = [frozenset().union(*(it.chain for it in state.values())) for state in states]
    full = conflicted | (frozenset.union(*chains) - frozenset.intersection(*chains))
    power = {it for it in full if is_power_event(it)}
    power |= {it for event in power for it in event.chain & full}
    state = checked(agreed, power_order(power))
    state = checked(state, mainline_order(full - power, state.get(("m.room.power_levels", ""))))
    return state | agreed


# ---- a room (Server-Server API, "Checks performed on receipt of a PDU", 4 to 6)


class Room:
    def __init__(self):
        self.events = []

    def extremities(self):
        accepted = [it for it in self.events if it.verdict == "accepted"]
        named = {prev for it in accepted for prev in it.prevs}
        return [it for it in accepted if it not in named]

    def current(self):
        return resolve([it.after for it in self.extremities()])

    def receive(self, event):
        event.before = resolve([it.after for it in event.prevs])
        if not allows_auth_events(event) or event.type != "m.room.create" and not allows(event.before, event):
            event.verdict = "rejected"
        elif self.events and not allows(self.current(), event):
            event.verdict = "soft-failed"
        else:
            event.verdict = "accepted"
        event.after = dict(event.before)
        if event.key and event.verdict != "rejected":
            event.after[event.key] = event
        self.events.append(event)


# ---- rooms at random


class Author:
    """Makes the events of a room, honest ones and others."""

    def __init__(self, seed):
        self.dice, self.room = random.Random(seed), Room()
        self.version = self.dice.choice(("10", "11"))
        self.users = [f"@{name}:{self.dice.choice('abc')}" for name in "uvwxyz"[: self.dice.randint(2, 6)]]
        self.users[0] = "@u:a"
        self.forks = self.dice.choice((0.1, 0.4, 0.8))
        self.begin()
        for _ in range(self.dice.randint(6, 36)):
            self.room.receive(self.next())

    def begin(self):
        content = {"creator": "@u:a", "room_version": self.version}
        if self.version == "11":
            content = {"room_version": "11"} | self.dice.choice(({}, {"creator": "@v:b"}, {"creator": 5, "predecessor": {}}))
        if self.dice.random() < 0.1:
            content["m.federate"] = False
        self.add("m.room.create", "@u:a", "", content)
        self.add("m.room.member", "@u:a", "@u:a", {"membership": "join"})
        if self.dice.random() < 0.9:
            self.add("m.room.power_levels", "@u:a", "", {"users": {"@u:a": 100, self.dice.choice(self.users): self.dice.choice((50, 99, 100))}})
        self.add("m.room.join_rules", "@u:a", "", {"join_rule": self.dice.choice(("public", "public", "invite", "knock"))})

    def add(self, kind, sender, key, content):
        """Adds an event behind all others."""
        room = self.room
        fields = {"content": content, "origin_server_ts": self.dice.randint(0, 40), "sender": sender, "state_key": key, "type": kind}
        prevs = room.events[-1:]
        room.receive(self.made(fields, prevs, prevs[0].after if prevs else {}))

    def made(self, fields, prevs, state):
        bare = Event(self.version, fields, prevs, [])
        return Event(self.version, fields, prevs, [state[key] for key in sorted(selection(bare)) if key in state])

    def next(self):
        dice, room = self.dice, self.room
        tips = room.extremities()
        if dice.random() < self.forks:
            prevs = dice.sample(room.events, min(dice.choice((1, 1, 1, 2, 3)), len(room.events)))
        else:
            prevs = dice.sample(tips, dice.randint(1, min(len(tips), 5)))
        before = resolve([it.after for it in prevs])
        fields = self.fields(before)
        event = self.made(fields, prevs, before)
        if dice.random() < 0.2:
            event = Event(self.version, fields, prevs, self.other_auths(event))
        return event if all(event.id != it.id for it in room.events) else self.next()

    def other_auths(self, event):
        """Other auth events than those of the state before: of a state elsewhere, an older one, one left out or one too many."""
        dice, events, auths = self.dice, self.room.events, list(event.auths)
        choice = dice.random()
        if choice < 0.4:
            state = dice.choice(events).after
            return [state[key] for key in sorted(selection(event)) if key in state]
        if choice < 0.8 and auths:
            place = dice.randrange(len(auths))
            auths[place] = dice.choice([it for it in events if it.key == auths[place].key])
        elif choice < 0.9 and auths:
            auths.pop(dice.randrange(len(auths)))
        elif event.type != "m.room.create":
            other = dice.choice([it for it in events if it.key])
            auths += [other] if other not in auths else []
        return auths

    def fields(self, state):
        dice = self.dice
        joined = [it for it in self.users if membership(state, it) == "join"]
        sender = dice.choice(joined if joined and dice.random() < 0.85 else self.users)
        kind = dice.choices(("member", "levels", "rules", "topic", "message", "own", "redaction"), (9, 4, 2, 3, 3, 1, 1))[0]
        fields = {"origin_server_ts": dice.randint(0, 60), "sender": sender, "content": {"n": dice.randint(0, 999)}, "type": "m.room.message"}
        if dice.random() < 0.2:
            fields[dice.choice(("age", "membership", "origin", "prev_state"))] = dice.randint(0, 9)
        if kind == "member":
            wanted = dice.choice(("join", "join", "join", "leave", "leave", "ban", "ban", "invite", "knock"))
            target = sender if wanted in ("join", "knock") and dice.random() < 0.95 else dice.choice(self.users)
            return fields | {"type": "m.room.member", "state_key": target, "content": fields["content"] | {"membership": wanted}}
        if kind == "levels":
            return fields | {"type": "m.room.power_levels", "state_key": "", "content": self.levels(state, sender)}
        if kind == "rules":
            return fields | {"type": "m.room.join_rules", "state_key": "", "content": {"join_rule": dice.choice(("public", "invite", "knock"))}}
        if kind == "topic":
            return fields | {"type": dice.choice(("m.room.topic", "m.room.name")), "state_key": dice.choice(("", "", "k"))}
        if kind == "redaction":
            return fields | {"type": "m.room.redaction", "content": fields["content"] | {"redacts": dice.choice(self.room.events).id}}
        if kind == "own":
            return fields | {"type": "m.x", "state_key": dice.choice((sender, *self.users))}
        return fields

    def levels(self, state, sender):
        """The levels of a state with a change or two."""
        dice, old = self.dice, Levels(state)
        content = json.loads(json.dumps(old.content)) or {"users": {"@u:a": 100}}
        for _ in range(dice.randint(1, 2)):
            choice, level = dice.random(), dice.choice((0, 10, 49, 50, 51, 99, 100, old.of_user(sender), old.of_user(sender) + 1))
            if choice < 0.6:
                content.setdefault("users", {})[dice.choice(self.users)] = level
            elif choice < 0.7 and content.get("users"):
                content["users"].pop(dice.choice(list(content["users"])))
            elif choice < 0.85:
                content[dice.choice(("ban", "kick", "invite", "events_default", "state_default", "users_default"))] = min(level, 60)
            else:
                content.setdefault("events", {})[dice.choice(("m.room.topic", "m.room.power_levels", "m.room.message"))] = level
        return content


# ---- what the program makes of it


def entries(state):
    return sorted([kind, key, event.id] for (kind, key), event in state.items())


def lines_of(seed):
    """The lines for a room, and what is wanted of them."""
    author = Author(seed)
    dice, events = author.dice, author.room.events
    begun = next((place for place, it in enumerate(events) if it.verdict != "accepted"), len(events))
    begun = min(begun, 4)
    looks = dice.sample(events[begun:], min(LISTED, len(events) - begun))
    room = {"call": "room", "keys": "trusting", "room_version": author.version, "own": "a", "events": [it.fields for it in events[:begun]], "operations": [
        *({"receive": it.fields} for it in events[begun:]), *({"state_before": it.id} for it in looks), {"current": None}, {"extremities": None}]}
    want = [it.verdict for it in events[begun:]], [entries(it.before) for it in looks], entries(author.room.current()), [
        it.id for it in author.room.extremities()]
    place = {it: number for number, it in enumerate(events)}
    several = [dice.sample(events, min(dice.choice((2, 2, 3, 5)), len(events))) for _ in range(LISTED_IN_STATE)]
    resolution = {"call": "resolution", "keys": "trusting", "room_version": author.version, "graph": [
        {"event": it.fields, "verdict": "rejected 5" if it.verdict == "rejected" else "accepted"} for it in events],
        "operations": [{"resolve": [[place[held] for held in it.after.values()] for it in some]} for some in several]}
    wanted = [sorted(place[held] for held in resolve([it.after for it in some]).values()) for some in several]
    return seed, room, want, resolution, wanted


def told_of_room(answers, count, looks):
    """What was told, in the form of what is wanted."""
    received, behind = answers[:count], answers[count:]
    verdicts = [it["answer"].split()[0] for it in received]
    return verdicts, [sorted(it["answer"]) for it in behind[:looks]], sorted(behind[looks]["answer"]), behind[looks + 1]["answer"]


def compared(program, seeds):
    """What differs in the rooms of these seeds, and how many events were accepted, rejected and soft-failed."""
    rooms = [lines_of(seed) for seed in seeds]
    text = "".join(json.dumps(line) + "\n" for _, room, _, resolution, _ in rooms for line in (room, resolution))
    ran = subprocess.run([program], input=text.encode(), capture_output=True, check=True)
    told = [json.loads(line) for line in ran.stdout.splitlines()]
    wrong, counts = [], {"accepted": 0, "rejected": 0, "soft-failed": 0}
    for (seed, _, want, _, wanted), answers, resolved in zip(rooms, told[::2], told[1::2], strict=True):
        for verdict in want[0]:
            counts[verdict] += 1
        try:
            here = told_of_room(answers["ok"], len(want[0]), len(want[1]))
            places = [sorted(it) for it in resolved["ok"]]
        except (KeyError, TypeError, IndexError) as fault:
            wrong.append(f"room {seed}: {fault!r}: {str(answers)[:300]} {str(resolved)[:300]}")
            continue
        names = ("verdicts", "states before events", "current state", "forward extremities")
        wrong += [f"room {seed}: {name}: {mine} and not {other}" for name, mine, other in zip(names, here, want) if mine != other]
        wrong += [f"room {seed}: states resolve to {mine} and not {other}" for mine, other in zip(places, wanted, strict=True) if mine != other]
    return wrong, counts


def main():
    words = sys.argv[1:] + [None] * 3
    program = pathlib.Path(words[0] or ROOT / "crates/fed_vectors/out/fed_vectors").resolve()
    count, first = int(words[1] or ROOMS), int(words[2] or 1)
    if not program.exists():
        sys.exit(f"no {program}: run `rt run < stdin` in crates/fed_vectors first")
    parts = [range(at, min(at + PART, first + count)) for at in range(first, first + count, PART)]
    counts = {}
    with concurrent.futures.ProcessPoolExecutor(os.cpu_count()) as pool:
        for wrong, more in pool.map(compared, [program] * len(parts), parts):
            if wrong:
                sys.exit("\n".join(it[:2_000] for it in wrong[:3]))
            counts = {verdict: counts.get(verdict, 0) + number for verdict, number in more.items()}
    told = ", ".join(f"{number} {verdict}" for verdict, number in counts.items())
    print(f"{count} rooms as another program has them: {told} events")


if __name__ == "__main__":
    main()
