#!/bin/sh
# Measures hubs at work, by scripts of the built program crates/fed_hub_play/out/fed_hub_play (after `rt run` there): events that client threads send
# through one hub, in turn to eight rooms, to three destinations whose carriers answer 200 from memory; and events of eight rooms that threads take
# from other servers, each from one of its own: by a server that is in none of the rooms, so that taking is all that it does, and by one that is in
# all of them, while a thread for each room stores the events. Then events of one client to 1, 3 and 63 destinations, as many as a list of
# servers has at most. Then two hubs of four clients each that send to one another, and one of them that sends
# while the other does not; and a hub of which one destination answers nothing, while a client waits for room in the wire to it.
#
#     bench/hub.sh [RUNS] [EVENTS] [TRANSACTIONS]
#
# Prints for one thread and for eight the time of the fastest run, events a second and the peak memory for one event (of what is taken, with the
# requests, which are made before the time is taken), and then how many times as many events a second eight threads send or take; of what is taken
# also the share of looks at the inbox's lock, in all runs, at which a thread had it. Of the destinations it prints how many times as long 3 and 63 take as
# one, and how many times the memory of 3. Of the two hubs it prints how many times as long both ways take
# as one, and the longest time in which nothing was settled, of looks each 100 ms; of the silent destination, which part of its rate a client keeps that
# sends to others. Figures of two machines can't be compared.
set -e
here=$(cd "$(dirname "$0")" && pwd)
program=${PROGRAM:-$here/../crates/fed_hub_play/out/fed_hub_play}
[ -x "$program" ] || { echo "no $program: run 'rt run' in crates/fed_hub_play first" >&2; exit 2; }
python3 - "$program" "${1:-5}" "${2:-100000}" "${3:-4000}" <<'PY'
import os, re, subprocess, sys, tempfile
program, runs, events, transactions = sys.argv[1], *map(int, sys.argv[2:])
ROOMS = [f"!{it}:a" for it in range(8)]


def sending(clients):
    """A script: clients of a send to b, c and d."""
    lines = ["servers a b c d", "paper b c d", f"clients a {clients}"]
    lines += [f"room {it} @u:a @u:b @u:c @u:d" for it in ROOMS] + ["time"]
    lines += [f"& turns a {it} max" for it in "bcd"]
    lines += [f"& sends a/{it + 1} {events // clients} {','.join(ROOMS)} @u:a" for it in range(clients)]
    lines += ["wait sends", "shut a", "wait", "time"] + [f"delivered a {it}" for it in "bcd"]
    wanted = [f"sent {events // clients}"] * clients + ["shut down"] + ["drained"] * 3 + [f"delivered {events}"] * 3
    return lines, wanted


def spreading(count, events):
    """A script: a client of a sends to so many destinations."""
    dests = [f"s{it}" for it in range(count)]
    lines = [f"servers a {' '.join(dests)}", f"paper {' '.join(dests)}", f"room !r:a @u:a {' '.join(f'@u:{it}' for it in dests)}", "time"]
    lines += [f"& turns a {it} max" for it in dests] + [f"sends a {events} !r:a @u:a", "shut a", "wait", "time"]
    lines += [f"delivered a {it}" for it in dests]
    return lines, [f"sent {events}", "shut down"] + ["drained"] * count + [f"delivered {events}"] * count


def serving(threads, is_in_rooms):
    """A script: so many threads of a answer transactions, each of another server."""
    servers = "bcdefghi"
    each = transactions // threads
    lines = [f"servers a {' '.join(servers)}", f"paper {' '.join(servers)}"]
    lines += [f"room {it} @u:a {' '.join(f'@u:{at}' for at in servers)}" for it in ROOMS]
    lines += [] if is_in_rooms else [f"absent a {' '.join(ROOMS)}"]
    lines += [f"packs {it} {it} a {each} {','.join(ROOMS)} @u:{it}" for it in servers[:threads]] + ["time", "& look a done"]
    # The transactions of each server are of one room after another.
    stored = [(each + len(ROOMS) - 1 - place) // len(ROOMS) * 50 for place in range(len(ROOMS))]
    lines += [f"& store a {it} {count * threads}" for it, count in zip(ROOMS, stored) if is_in_rooms]
    lines += [f"& bring a/{place + 2} {it}" for place, it in enumerate(servers[:threads])] + ["wait bring", "wait store", "time", "raise done", "wait"]
    wanted = [f"answered 200, {each} times"] * threads + ["turns spent"] * (8 if is_in_rooms else 0) + ["held"]
    if is_in_rooms:
        lines += [f"stored a {room} {it}" for room in ROOMS for it in servers[:threads]]
        wanted += [f"stored {count} of {count}" for count in stored for _ in range(threads)]
    return lines, wanted


def two_hubs(ways, each):
    """A script: two hubs, with four clients each, of which one sends or both do."""
    senders = ["a", "b"][:ways]
    lines = ["servers a b", "clients a 4", "clients b 4", "room !r:a @u:a @v:b", "time", "& turns a b max", "& turns b a max"]
    lines += ["& store a !r:a max", "& store b !r:a max"]
    lines += [f"& sends {it}/{client} {each // 4} !r:a {'@u:a' if it == 'a' else '@v:b'}" for client in range(1, 5) for it in senders]
    lines += ["wait sends", "shut a", "shut b", "wait", "time"] + [f"delivered {it} {'b' if it == 'a' else 'a'}" for it in senders]
    wanted = [f"sent {each // 4}"] * (4 * ways) + ["shut down"] * 2 + ["drained"] * 4 + [f"delivered {each // 4 * 4}"] * ways
    return lines, wanted


def watched(script):
    """The same, and what was delivered is looked at each 100 ms for the first three seconds."""
    lines, wanted = script
    first = lines.index("wait sends")
    looks = ["rest 100", "delivered a b", "delivered b a"] * 30
    return lines[:first] + looks + lines[first:], wanted


def one_is_silent(events, is_waited_for):
    """A script: a client sends to b and c, while d answers nothing until it is done, and perhaps another client waits for room in its wire."""
    lines = ["servers a b c d", "paper b c d", "clients a 2", "room !r:a @u:a @u:b @u:c", "room !s:a @u:a @u:d", "carry a d hold:done+pass .."]
    lines += [f"& turns a {it} max" for it in "bcd"] + (["& sends a/2 3000 !s:a @u:a", "rest 300"] if is_waited_for else [])
    lines += ["time", f"sends a/1 {events} !r:a @u:a", "time", "raise done", "wait sends", "shut a", "wait"] + [f"delivered a {it}" for it in "bcd"]
    waits = 3000 if is_waited_for else 0
    wanted = ["planned", f"sent {events}"] + ["sent 3000"] * is_waited_for + ["shut down"] + ["drained"] * 3
    return lines, wanted + [f"delivered {count}" for count in (events, events, waits)]


def longest_pause(script, patience):
    """The longest time in milliseconds in which nothing was delivered, while not all was."""
    lines, wanted = watched(script)
    done = subprocess.run([program], input="".join(f"{it}\n" for it in lines), capture_output=True, text=True, timeout=patience)
    told = done.stdout.splitlines()
    looks, rest = told[:60], told[60:]
    if done.returncode != 0 or rest != wanted:
        sys.exit(f"{program}: looked at: status {done.returncode}, {rest[:40]}")
    counts = [sum(int(it.split()[1]) for it in looks[at:at + 2]) for at in range(0, 60, 2)]
    longest = still = 0
    for before, after in zip([0] + counts, counts):
        still = 0 if after > before or after >= 2 * int(wanted[-1].split()[1]) else still + 1
        longest = max(longest, still)
    return longest * 100


room_of = {}


def measure(name, script, count):
    times, peak, held, looks = [], 0, 0, 0
    lines, wanted = script
    for _ in range(runs):
        with tempfile.TemporaryFile() as told, tempfile.TemporaryFile() as timed, tempfile.TemporaryFile() as given:
            given.write("".join(f"{line}\n" for line in lines).encode())
            given.seek(0)
            running = subprocess.Popen([program], stdin=given, stdout=told, stderr=timed)
            _, status, used = os.wait4(running.pid, 0)
            told.seek(0)
            timed.seek(0)
            said = told.read().decode()
            for had, looked in re.findall(r"^held (\d+) of (\d+)$", said, re.M):
                held, looks = held + int(had), looks + int(looked)
            if status != 0 or re.sub(r"^held .*$", "held", said, flags=re.M).splitlines() != wanted:
                sys.exit(f"{program}: {name}: status {status}, {said[:2000]}")
            times.append(int(timed.read()) / 1e6)
            peak = max(peak, used.ru_maxrss)
    room_of[name] = peak * 1024 / count
    print(f"{name}, {count} events: least of {runs} runs {min(times) * 1e3:.0f} ms, {count / min(times):.0f} events/s, "
          f"{peak * 1024 / count:.0f} bytes/event" + (f", the inbox's lock is held in {100 * held / looks:.1f}% of {looks} looks" if looks else ""))
    return count / min(times)


one, eight = (measure(f"{it} clients", sending(it), events) for it in (1, 8))
print(f"eight clients send {eight / one:.1f} times as many events a second as one")
single, some, many = (measure(f"{it} destinations", spreading(it, events // 4), events // 4) for it in (1, 3, 63))
print(f"to 3 destinations takes {single / some:.2f} times as long as to one, to 63 {single / many:.2f} times; "
      f"63 take {room_of['63 destinations'] / room_of['3 destinations']:.2f} times the memory of 3")
for rooms, what in (0, "take"), (8, "take, while they are stored,"):
    one, eight = (measure(f"{it} serving threads, {rooms} rooms", serving(it, rooms > 0), transactions * 50) for it in (1, 8))
    print(f"eight threads {what} {eight / one:.1f} times as many events a second as one")
one, both = (measure(f"two hubs, {it} of which send", two_hubs(it, events), it * events) for it in (1, 2))
print(f"both ways take {2 * one / both:.2f} times as long as one; nothing was settled for {longest_pause(two_hubs(2, events), 600)} ms at most")
alone, beside = (measure(f"a client sends to others, {it} waits for a silent server", one_is_silent(events, it), events) for it in (0, 1))
print(f"beside a silent server {beside / alone:.2f} of the rate is kept")
PY
