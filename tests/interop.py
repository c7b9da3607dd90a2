#!/usr/bin/env python3
"""The library for Python beside matrix.org's own packages, python3-canonicaljson and python3-signedjson, with real Ed25519.

    tests/interop.py [CASES [SEED]]

It needs these packages and, in c/out or as an installed package, the library. Over random values, and events of rooms of versions 10 and 11, it compares canonical texts and what is
signed of an event; the signature that signedjson makes over a redacted event checks over `signed_text`, and the other way round; and the signature
that it makes over a request checks over `request_text`. Prints how many cases there were and how many differ; the status is 1 where one does.
"""
import json
import pathlib
import random
import sys

import canonicaljson
import signedjson.key
import signedjson.sign
from unpaddedbase64 import decode_base64, encode_base64

sys.dont_write_bytecode = True
sys.path.append(str(pathlib.Path(__file__).resolve().parent.parent / "c"))
import wikzord

PIECES = ["", "a", "é", "本", "日", "\u2028", "\x00", "\x1f", "\x7f", "\"", "\\", "/", "😀", "\ud7ff", "\ue000", "A" * 40, "\t\n\r\b\f"]
WHOLE = [0, 1, -1, 2**53 - 1, -(2**53) + 1]

# What redaction keeps of an event's content and of the event ("Redactions" of room versions 10 and 11). In version 11 it keeps all of the content of a
# create event, and of a `third_party_invite` in that of a member event its `signed`.
CONTENT = {
    "m.room.member": ["membership", "join_authorised_via_users_server"],
    "m.room.create": ["creator"],
    "m.room.join_rules": ["join_rule", "allow"],
    "m.room.power_levels": ["ban", "events", "events_default", "kick", "redact", "state_default", "users", "users_default"],
    "m.room.history_visibility": ["history_visibility"],
}
CONTENT_11 = CONTENT | {"m.room.power_levels": CONTENT["m.room.power_levels"] + ["invite"], "m.room.redaction": ["redacts"]}
TOP_11 = ["event_id", "type", "room_id", "sender", "state_key", "content", "hashes", "signatures", "depth", "prev_events", "auth_events",
          "origin_server_ts"]
TOP = TOP_11 + ["prev_state", "origin", "membership"]


class Values:
    """Random values, the same for the same seed."""

    def __init__(self, seed):
        self.rng = random.Random(seed)

    def text(self):
        return "".join(self.rng.choice(PIECES) for _ in range(self.rng.randrange(4)))

    def value(self, depth):
        kind = self.rng.randrange(7 if depth else 5)
        if kind == 0:
            return self.rng.choice(WHOLE + [self.rng.randrange(-10**15, 10**15)])
        if kind == 1:
            return self.rng.choice([True, False, None])
        if kind <= 4:
            return self.text()
        if kind == 5:
            return [self.value(depth - 1) for _ in range(self.rng.randrange(4))]
        return {self.text(): self.value(depth - 1) for _ in range(self.rng.randrange(5))}

    def event(self):
        names = self.rng.sample(["body", "third_party_invite"] + sum(CONTENT_11.values(), []), 5)
        event = {
            "type": self.rng.choice([*CONTENT_11, "m.room.message", "x"]), "room_id": "!r:a.example", "sender": "@u:a.example",
            "content": {name: self.value(1) for name in names}, "depth": self.rng.randrange(100), "prev_events": [], "auth_events": [],
            "origin_server_ts": self.rng.randrange(10**12), "hashes": {"sha256": self.text()},
        }
        if self.rng.random() < .2:
            event["content"]["third_party_invite"] = {"signed": self.value(1), "display_name": self.text()}
        for name in ["unsigned", "redacts", "age_ts", "origin", "membership", "prev_state", "state_key", "x"]:
            if self.rng.random() < .3:
                event[name] = self.value(2)
        return event

    def written(self, value):
        """JSON of the value in one of its many forms."""
        separators = self.rng.choice([(",", ":"), (", ", ": ")])
        text = json.dumps(value, ensure_ascii=self.rng.random() < .5, indent=self.rng.choice([None, 1]), separators=separators)
        return text.encode("utf-8", "surrogatepass")


def redacted(event, version):
    top, content = (TOP, CONTENT) if version == 10 else (TOP_11, CONTENT_11)
    kept = {name: event[name] for name in top if name in event}
    if (version, event["type"]) == (11, "m.room.create"):
        return kept
    kept["content"] = {name: it for name, it in event["content"].items() if name in content.get(event["type"], [])}
    invite = event["content"].get("third_party_invite")
    if (version, event["type"]) == (11, "m.room.member") and isinstance(invite, dict):
        kept["content"]["third_party_invite"] = {name: it for name, it in invite.items() if name == "signed"}
    return kept


def what_is_signed(event, version):
    return {name: it for name, it in redacted(event, version).items() if name not in ("signatures", "unsigned")}


def checks(event, server, verify):
    try:
        signedjson.sign.verify_signed_json(event, server, verify)
    except signedjson.sign.SignatureVerifyException as fault:
        return repr(fault)
    return True


def signatures_differ(values, event, version):
    """Which signatures of one side the other does not take."""
    key = signedjson.key.generate_signing_key("v1")
    verify = signedjson.key.get_verify_key(key)
    signed_text = wikzord.signed_text(values.written(event), version=version)
    theirs = signedjson.sign.sign_json(redacted(event, version), "a.example", key)["signatures"]["a.example"]["ed25519:v1"]
    ours = encode_base64(key.sign(signed_text).signature)
    body = {"pdus": [event], "origin": "a.example", "origin_server_ts": 1}
    target = f"/_matrix/federation/v1/send/{values.rng.randrange(10**9)}"
    request = {"method": "PUT", "uri": target, "origin": "a.example", "destination": "b.example", "content": body}
    of_request = signedjson.sign.sign_json(request, "a.example", key)["signatures"]["a.example"]["ed25519:v1"]
    text = wikzord.request_text("PUT", target, "a.example", "b.example", values.written(body))
    told = {
        "their signature of an event": bool(verify.verify(signed_text, decode_base64(theirs))),
        "our signature of an event": checks({**redacted(event, version), "signatures": {"a.example": {"ed25519:v1": ours}}}, "a.example", verify),
        "their signature of a request": bool(verify.verify(text, decode_base64(of_request))),
    }
    return [name for name, it in told.items() if it is not True]


def main(cases=2000, seed=1):
    values, differ = Values(int(seed)), 0
    for case in range(int(cases)):
        value, event, version, wrong = values.value(4), values.event(), values.rng.choice([10, 11]), []
        if wikzord.canonical(values.written(value)) != canonicaljson.encode_canonical_json(value):
            wrong.append(f"the canonical text of {value!r}")
        if wikzord.signed_text(values.written(event), version=version) != canonicaljson.encode_canonical_json(what_is_signed(event, version)):
            wrong.append(f"what is signed of {event!r} in version {version}")
        if case % 5 == 0:
            wrong += signatures_differ(values, event, version)
        differ += bool(wrong)
        if wrong and differ < 8:
            print(f"case {case}: {', '.join(wrong)}")
    print(f"{cases} cases, {differ} differ")
    return 1 if differ else 0


if __name__ == "__main__":
    sys.exit(main(*sys.argv[1:]))
