#!/bin/sh
# Measures the library for other languages, after c/build.sh: the canonical texts, the ids and the content hashes of 10,000 events, in one
# thread, through c/wikzord.py beside Python's own json and hashlib, and through C (bench/library.c) beside PEER, a program that does the same
# work for `PEER canonical FILE` and `PEER eventid FILE`.
#
#     bench/library.sh [RUNS [PEER [FILE]]]
#
# FILE has an event a line; without it they are made as bench/generate.py makes them. Prints the least processor time of each, how
# many times as fast the library is, the ratio of both, and whether they answer the same. Figures of two machines can't be compared.
set -e
here=$(cd "$(dirname "$0")" && pwd)
c=$here/../c
[ -f "$c/out/libwikzord.a" ] || { echo "no $c/out/libwikzord.a: run c/build.sh first" >&2; exit 2; }
room=$(mktemp -d)
trap 'rm -rf "$room"' EXIT
${CC:-cc} -O2 -D_GNU_SOURCE -I"$c" -o "$room/library" "$here/library.c" "$c/out/libwikzord.a"
if [ -z "$3" ]; then
  python3 "$here/generate.py" --transactions 200 --events 50 --repeats 0 | python3 -c '
import json, sys
for line in sys.stdin:
    for event in json.loads(line.split(" ", 2)[2])["pdus"]:
        print(json.dumps(event, ensure_ascii=False, separators=(",", ":")))' >"$room/events"
fi
PYTHONDONTWRITEBYTECODE=1 PYTHONPATH=$c python3 - "$room/library" "${1:-5}" "${3:-$room/events}" "${2:-}" <<'PY'
import base64, hashlib, json, pathlib, resource, subprocess, sys
import wikzord

program, runs, file, peer = sys.argv[1], int(sys.argv[2]), sys.argv[3], sys.argv[4]
KEPT = {"auth_events", "content", "depth", "event_id", "hashes", "membership", "origin", "origin_server_ts", "prev_events", "prev_state",
        "room_id", "sender", "state_key", "type"}
CONTENT = {
    "m.room.create": {"creator"}, "m.room.history_visibility": {"history_visibility"}, "m.room.join_rules": {"allow", "join_rule"},
    "m.room.member": {"join_authorised_via_users_server", "membership"},
    "m.room.power_levels": {"ban", "events", "events_default", "kick", "redact", "state_default", "users", "users_default"},
}
write = json.JSONEncoder(sort_keys=True, separators=(",", ":"), ensure_ascii=False, allow_nan=False).encode


def canonical(event):
    return write(json.loads(event)).encode()


def content_hash(event):
    event = {name: value for name, value in json.loads(event).items() if name not in ("hashes", "signatures", "unsigned")}
    return base64.b64encode(hashlib.sha256(write(event).encode()).digest()).decode().rstrip("=")


def event_id(event):
    event = {name: value for name, value in json.loads(event).items() if name in KEPT}
    kept = CONTENT.get(event.get("type"), ())
    event["content"] = {name: value for name, value in event["content"].items() if name in kept}
    return "$" + base64.urlsafe_b64encode(hashlib.sha256(write(event).encode()).digest()).decode().rstrip("=")


def spent():
    """The processor time of this process and of those that it has waited for, in seconds."""
    return sum(it.ru_utime + it.ru_stime for it in map(resource.getrusage, (resource.RUSAGE_SELF, resource.RUSAGE_CHILDREN)))


def least(run):
    times = []
    for _ in range(runs):
        start = spent()
        answers = run()
        times.append(spent() - start)
    return min(times), answers


def printed(command):
    done = subprocess.run(command, capture_output=True)
    if done.returncode != 0:
        sys.exit(f"{command}: {done.stderr.decode()}")
    return done.stdout


def show(name, one, other):
    same = "same answers" if one[1] == other[1] else "OTHER ANSWERS"
    print(f"{name:<36} {one[0] * 1e3:9.1f} ms {other[0] * 1e3:9.1f} ms {other[0] / one[0]:7.2f} {one[0] / other[0]:7.2f}  {same}")


events = pathlib.Path(file).read_bytes().splitlines()
print(f"{len(events)} events, {sum(map(len, events))} bytes; least of {runs} runs")
print(f"{'':<36} {'the library':>12} {'the other':>12} {'times':>7} {'ratio':>7}")
for name, ours, of_many, theirs in (("canonical", wikzord.canonical, None, canonical),
                                    ("event_id", wikzord.event_id, wikzord.event_ids, event_id),
                                    ("content_hash", wikzord.content_hash, wikzord.content_hashes, content_hash)):
    plain = least(lambda: list(map(theirs, events)))
    show(f"Python, {name}", least(lambda: list(map(ours, events))), plain)
    if of_many:
        show(f"Python, {name}, of many by a call", least(lambda: of_many(events)), plain)
if peer:
    for name in ("canonical", "eventid"):
        show(f"C, {name}, a run", least(lambda: printed([program, name, file])), least(lambda: printed([peer, name, file])))
PY
