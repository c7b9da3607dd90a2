#!/usr/bin/env python3
"""Writes lines of transactions for `fed inbox` to standard output.

    generate.py [--seed S] [--transactions N] [--events N] [--repeats PERCENT]

Each line is `a.example <number> <body>`. The events have every field, text with escapes and characters of one to four bytes, and
an `unsigned` part; some transactions are sent again. The same arguments give the same bytes.
"""

import argparse
import json
import random
import sys

WORDS = "room event state power level member topic reply server key chain hash auth prev sent 日本 ñandú 🎉 back\\slash tab\tquote\"".split(" ")


def text(rng, count):
    return " ".join(rng.choice(WORDS) for _ in range(count))


def name(rng):
    return "$" + "".join(rng.choice("ABCDEFGHIJKLMNOPQRSTUVWXYZabcdefghijklmnopqrstuvwxyz0123456789-_") for _ in range(43))


def event(rng, depth):
    return {
        "auth_events": [name(rng) for _ in range(rng.randint(2, 5))],
        "content": {"body": text(rng, rng.randint(5, 40)), "msgtype": "m.text", "format": text(rng, 2)},
        "depth": depth,
        "hashes": {"sha256": name(rng)[1:]},
        "origin_server_ts": 1700000000000 + depth,
        "prev_events": [name(rng)],
        "room_id": "!r:a.example",
        "sender": "@user%d:a.example" % rng.randint(0, 99),
        "signatures": {"a.example": {"standin:1": name(rng)[1:] * 2}},
        "type": "m.room.message",
        "unsigned": {"age": rng.randint(0, 100000)},
    }


def main():
    options = argparse.ArgumentParser(description=__doc__, formatter_class=argparse.RawDescriptionHelpFormatter)
    options.add_argument("--seed", type=int, default=1)
    options.add_argument("--transactions", type=int, default=400)
    options.add_argument("--events", type=int, default=50)
    options.add_argument("--repeats", type=int, default=5, help="of a hundred transactions, how many are sent twice")
    args = options.parse_args()
    rng = random.Random(args.seed)
    out = sys.stdout
    depth = 0
    for number in range(1, args.transactions + 1):
        events = []
        for _ in range(args.events):
            depth += 1
            events.append(event(rng, depth))
        body = {"origin": "a.example", "origin_server_ts": number, "pdus": events}
        if rng.random() < 0.5:
            body["edus"] = [{"content": {"typing": True, "user_id": "@u:a.example"}, "edu_type": "m.typing"}]
        line = "a.example 1-%d %s\n" % (number, json.dumps(body, ensure_ascii=False, separators=(",", ":")))
        out.write(line)
        if rng.randint(1, 100) <= args.repeats:
            out.write(line)


main()
