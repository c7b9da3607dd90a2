#!/usr/bin/env python3
"""What the built program prints for its words and its standard streams, and how it ends: crates/fed/out/fed, after `rt run` there, or
the program that is named.

    tests/command_line.py [PROGRAM]

Prints `N passed, M failed`, and ends with status 1 where one failed.
"""
import os
import pathlib
import select
import subprocess
import sys
import tempfile

sys.dont_write_bytecode = True
from memory.run import FED, event_of, text

EXAMPLES = FED.parent.parent / "examples"

# The id of an event that is redacted to `{}`.
EMPTY_ID = "$RBNvo1WzZ4oRRq0W9-hknpT7T8If536DEMBg9hyq_4o"

INPUT = """\
Standard input has a transaction a line: the origin, the transaction number and the body, with one space between.
For each line the status and the body of the reply are printed. A repeat of a number gets the reply that it got.
Every signature that decodes is trusted: this shows an inbox and gives no security. To try it, paste

    a.example 7-1 {"origin":"a.example","origin_server_ts":1,"pdus":[]}
"""

SCRIPT = """\
A script has a command a line, with one space between its words. A line that begins with # is skipped.
The script is read to its end, and then a line is printed for each command when it is done. A wrong line is told by its number, and then
nothing is run.

First come the servers, then the rooms that stand on all of them, each with an id and its users:

    servers <name>..
    room <id> <user>..

A user sends an event, or a server an ephemeral data unit. A key is - for none, or = and the state key:

    send <server> <room> <sender> <type> <key> <content>
    edu <server> <type> <servers with commas> <content>

What is sent waits for each destination. It is collected into the outbox and cut into transactions. A transaction is posted as a packet,
which may arrive once, again or never. What arrives is answered by another packet. Events that came wait to be applied to their room:

    collect <server> <dest>
    cut <server> <dest>
    post <server> <dest>
    arrive <packet>
    answer <packet>
    apply <server> <room>

Sending may fail, time goes by, and an outbox may be closed:

    failed <server> <dest>
    tick <milliseconds>
    close <server> <dest>

In a round of calm all that waits is sent and applied, and nothing is lost. show tells how many events and ephemeral data units a server
took from another one, and how many of them that one counts as delivered:

    calm <rounds>
    show <server> <origin>

No signature here gives security. To try it, paste

    servers a b
    room !r:a @u:a @v:b
    send a !r:a @u:a m.room.topic = {"topic":"x"}
    collect a b
    cut a b
    post a b
    failed a b
    tick 1000
    post a b
    arrive 2
    answer 3
    show b a
    apply b !r:a
    send b !r:a @v:b m.x - {}
    edu b m.x a {}
    calm 1
    show a b
"""

HELP = f"""\
The federation inbox of a Matrix server; with no words, `inbox` with its defaults

Usage: fed [COMMAND]

Commands:
  inbox  Answers the lines of standard input: origin, transaction number and body
  sim    Simulates servers that send each other events, by a script
  loop   Runs two servers that send and serve over sockets
  help   Print this message or the help of the given subcommand(s)

Options:
  -h, --help     Print help
  -V, --version  Print version

{INPUT}"""

INBOX_HELP = f"""\
Answers the lines of standard input: origin, transaction number and body

Usage: fed inbox [OPTIONS]

Options:
      --name <N>       The name of the server whose inbox it is [default: b.example]
      --servers <A,B>  The other servers, which it takes transactions from, each once however often it is named [default: a.example]
      --room <R>       The room that it knows [default: !r:a.example]
  -h, --help           Print help

{INPUT}"""

SIM_HELP = f"""\
Simulates servers that send each other events, by a script

Usage: fed sim [FILE]

Arguments:
  [FILE]  The script; standard input where none is named

Options:
  -h, --help  Print help

{SCRIPT}"""

LOOP_HELP = """\
Runs two servers that send and serve over sockets

Usage: fed loop [OPTIONS]

Options:
      --events <N>   How many events are sent, 1 to 1,000 [default: 120]
      --clients <N>  How many clients send them, 1 to 8 [default: 3]
  -h, --help         Print help

The servers a.example and b.example run in one process, each with its threads, and have one room with a user of each. Clients at a.example
send events, which go to b.example over the loopback interface, a connection for each transaction. Then three lines are printed:

    sent <n>        how many events a.example offered
    taken <n>       how many of them b.example took
    delivered <n>   how many of them count as delivered at a.example
"""

# Commands, and what each of them prints. The first answer is lost, and the request comes again.
RETRIED = [
    ("servers a b", "ok"),
    ("room !r:a @u:a @v:b", "ok"),
    ("send a !r:a @u:a m.x - {}", "sent 1 to b"),
    ("collect a b", "collected event"),
    ("cut a b", "cut 1: 1 pdus 0 edus"),
    ("post a b", "packet 1"),
    ("arrive 1", "packet 2 status 200"),
    ("failed a b", "due 1000"),
    ("post a b", "not due until 1000"),
    ("tick 1000", "now 1000"),
    ("post a b", "packet 3"),
    ("arrive 3", "packet 4 status 200"),
    ("answer 4", "settled"),
    ("answer 2", "ignored"),
    ("show b a", "taken 1 0 acked 1 0"),
    ("apply b !r:a", "accepted"),
    ("apply b !r:a", "nothing"),
]

# All kinds of lines that the commands above don't print, but for those of rooms whose events come out of order.
REFUSED = [
    ("servers c b a", "ok"),
    ("room !r:a @u:a @v:b @w:c", "ok"),
    ("send a !q:a @u:a m.x - {}", "refused unknown room"),
    ("send a !r:a @v:b m.x - {}", "refused not own user"),
    ("send a !r:a @u:a m.x - 5", "refused bad draft"),
    ("send b !r:a @v:b m.room.topic = {}", "refused rule 7"),
    ("send b !r:a @v:b m.room.member =@w:c {\"membership\":\"join\"}", "refused rule 4.3.2"),
    ("edu a m.x b 5", "refused bad edu"),
    (f"edu a m.x b {{\"x\":\"{'x' * 65_536}\"}}", "refused edu too large"),
    (f"edu a m.x b {'[' * 100}{']' * 100}", "refused bad edu"),
    (f"edu a m.x b {{\"x\":{'[' * 99}{']' * 99}}}", "refused edu too deep"),
    ("edu a m.x c,b,c {}", "edu to b,c"),
    ("collect a b", "collected edu"),
    ("close a b", "closed"),
    ("close a b", "was closed"),
    ("send a !r:a @u:a m.x - {}", "sent 1 to c"),
    ("close a c", "closed"),
    ("edu a m.x b,c {}", "edu to -"),
    ("send a !r:a @u:a m.x - {}", "sent 2 to -"),
    ("collect a b", "collected end"),
    ("collect a b", "nothing"),
    ("post a b", "nothing to post"),
    ("failed a b", "ignored"),
    ("cut a b", "cut 1: 0 pdus 1 edus"),
    ("cut a b", "no cut"),
    ("arrive 1", "no such request"),
    ("answer 1", "no such answer"),
    ("tick 9007199254740991", "now 9007199254740991"),
    ("tick 1", "too late"),
    ("calm 1", "calm now 9007199254740991"),
]

# A room two of whose events come to a server the other way round.
TURNED = [
    ("servers a b c", "ok"),
    ("room !r:a @u:a @v:b @w:c", "ok"),
    ("send a !r:a @u:a m.x - {}", "sent 1 to b,c"),
    ("collect a c", "collected event"),
    ("cut a c", "cut 1: 1 pdus 0 edus"),
    ("post a c", "packet 1"),
    ("arrive 1", "packet 2 status 200"),
    ("apply c !r:a", "accepted"),
    ("send c !r:a @w:c m.x - {}", "sent 1 to a,b"),
    ("collect c b", "collected event"),
    ("cut c b", "cut 1: 1 pdus 0 edus"),
    ("post c b", "packet 3"),
    ("arrive 3", "packet 4 status 200"),
    ("apply b !r:a", "waiting"),
    ("collect a b", "collected event"),
    ("cut a b", "cut 1: 1 pdus 0 edus"),
    ("post a b", "packet 5"),
    ("arrive 5", "packet 6 status 200"),
    ("apply b !r:a", "accepted and 1 more"),
]

# A thousand events in one line: each tenth one sets the topic, and by the 500th, which still goes to c, the user of c is sent away.
AWAY = 'send a !r:a @u:a m.room.member =@w:c {"membership":"leave"}'
SAID = [AWAY if number == 500 else f"send a !r:a @u:a {'m.x -' if number % 10 else 'm.room.topic ='} {{}}" for number in range(1, 1001)]
IN_LINE = [
    ("servers a b c", "ok"),
    ("room !r:a @u:a @v:b @w:c", "ok"),
    *((line, f"sent {number} to {'b,c' if number <= 500 else 'b'}") for number, line in enumerate(SAID, 1)),
    ("calm 20", "calm now 0"),
    ("show b a", "taken 1000 0 acked 1000 0"),
    ("show c a", "taken 500 0 acked 500 0"),
    ("send b !r:a @v:b m.x - {}", "sent 1 to a"),
    ("send c !r:a @w:c m.x - {}", "refused rule 5"),
]

# What a script begins with, and lines that are wrong behind it.
BEGUN = "servers a b\nroom !r:a @u:a @v:b\n"
WRONG_LINES = [
    ("frob", "unknown command"),
    (" tick 1", "unknown command"),
    ("servers a", "wrong words"),
    ("room !r:a @u:a", "wrong words"),
    ("room !q:a @u:a @x:q", "unknown server"),
    ("tick 1\nroom !q:a @u:a", "wrong words"),
    ("tick", "wrong words"),
    ("tick 1 ", "wrong words"),
    ("tick 00000000000000001", "wrong words"),
    ("tick +1", "wrong words"),
    ("close q q", "wrong words"),
    ("close a q", "unknown server"),
    ("edu a m.x q,a x", "wrong words"),
    ("edu a m.x b,q x", "unknown server"),
    ("edu a m.x b x", "bad content"),
    ("send q !r:a @u:a m.x k x", "wrong words"),
    ("send q !r:a @u:a m.x - x", "unknown server"),
    ("send a !r:a @u:a m.x - {\"x\":1.5}", "bad content"),
]

NOT_LISTED = '403 {"errcode":"M_FORBIDDEN","error":"server not listed"}\n'
TAKEN = '200 {"pdus":{}}\n'
FAILED = "fed: input or output failed\n"
BAD_SERVERS = "fed: bad servers\n"


def refused(*parts):
    """The parser's text for a command line that it refuses."""
    return "error: " + "\n\n".join([*parts, "For more information, try '--help'."]) + "\n"


def empty(*origins):
    """A line of a transaction without events from each of the servers."""
    return "".join(f'{it} 1 {{"origin":"{it}","origin_server_ts":1,"pdus":[]}}\n' for it in origins)


def named(count):
    """So many servers, with a comma between."""
    return ",".join(f"s{number}" for number in range(1, count + 1))


def two_rooms():
    """A line of an event of the room !r:a.example and one of !q:a.example, and its answer where just the room of one is known."""
    (of_r, r), (of_q, q) = event_of(1, "!r:a.example", True), event_of(2, "!q:a.example", True)
    line = b"a.example 1 " + text({"origin": "a.example", "origin_server_ts": 1, "pdus": [of_r, of_q]}) + b"\n"
    unknown = {"error": "unknown room"}
    answer = lambda verdicts: f"200 {text({'pdus': verdicts}).decode()}\n"
    return line.decode(), answer({r: {}, q: unknown}), answer({r: unknown, q: {}})


def looped(count, *words):
    """The same of two servers of which one sends so many events to the other."""
    return ["loop", *words], "", f"sent {count}\ntaken {count}\ndelivered {count}\n", "", 0


def out_of_range(name, value, most):
    """The same where a count is refused."""
    told = f"invalid value '{value}' for '--{name} <N>': {value} is not in 1..={most}"
    return ["loop", f"--{name}", value], "", "", refused(told), 2


def scripted(commands):
    """The words, standard input, standard output, standard error and the status of a script."""
    given, out = ("".join(f"{line}\n" for line in lines) for lines in zip(*commands))
    return ["sim"], given, out, "", 0


def wrong(line, what):
    """The same of a script that has wrong lines behind its beginning, of which the last is told."""
    told = BEGUN.count("\n") + line.count("\n") + 1
    return ["sim"], f"{BEGUN}{line}\nfrob\n", "", f"fed: line {told}: {what}\n", 1


def malicious():
    """Lines whose bodies are to do harm, and their answers."""
    whole = '{"origin":"a.example","origin_server_ts":1,"pdus":[]}'
    not_json = '400 {"errcode":"M_NOT_JSON","error":"not json"}\n'
    of = lambda pdus: whole.replace("[]", pdus)
    deep = lambda levels: of(f"[{{\"a\":{'[' * levels}{']' * levels}}}]")
    verdict = lambda error: f'200 {{"pdus":{{"{EMPTY_ID}":{{"error":"{error}"}}}}}}\n'
    bodies = [
        (deep(99), verdict("missing field: auth_events")),
        (deep(100), verdict("event too deep")),
        (deep(200), not_json),
        (of('[{"a":1},{"a":2}]'), verdict("missing field: auth_events")),
        *((whole[:end], not_json) for end in range(1, len(whole))),
        ("[" * 10_000, not_json),
        (whole.replace("a.example", "a\udcff"), not_json),
        (whole + " " * (16_777_216 - len(whole)), "200 {\"pdus\":{}}\n"),
        (whole + " " * (16_777_217 - len(whole)), '413 {"errcode":"M_TOO_LARGE","error":"body too large"}\n'),
    ]
    given = "".join(f"a.example {number} {body}\n" for number, (body, _) in enumerate(bodies))
    return ["inbox"], given, "".join(answer for _, answer in bodies), "", 0


def cases():
    """The words, standard input, standard output, standard error and the status."""
    sample, answers = (FED / "stdin").read_text(), (FED / "stdout").read_text()
    rooms, with_r, with_q = two_rooms()
    others = ["inbox", "--name", "c.example", "--servers", "d.example,c.example,b.example"]
    return [
        (["--help"], "", HELP, "", 0),
        (["-h"], "", HELP, "", 0),
        (["help"], "", HELP, "", 0),
        (["inbox", "--help"], "", INBOX_HELP, "", 0),
        (["help", "inbox"], "", INBOX_HELP, "", 0),
        (["sim", "--help"], "", SIM_HELP, "", 0),
        (["help", "sim"], "", SIM_HELP, "", 0),
        (["loop", "--help"], "", LOOP_HELP, "", 0),
        (["help", "loop"], "", LOOP_HELP, "", 0),
        (["--version"], "", "fed 0.1.0\n", "", 0),
        (["word"], "", "", refused("unrecognized subcommand 'word'", "Usage: fed [COMMAND]"), 2),
        (["--name", "c.example"], "", "", refused("unexpected argument '--name' found", "Usage: fed [COMMAND]"), 2),
        (["inbox", "word"], "", "", refused("unexpected argument 'word' found", "Usage: fed inbox [OPTIONS]"), 2),
        (["sim", "one", "two"], "", "", refused("unexpected argument 'two' found", "Usage: fed sim [FILE]"), 2),
        (["loop", "word"], "", "", refused("unexpected argument 'word' found", "Usage: fed loop [OPTIONS]"), 2),
        (["loop", "--events", "x"], "", "", refused("invalid value 'x' for '--events <N>': invalid digit found in string"), 2),
        out_of_range("events", "0", 1000),
        out_of_range("events", "1001", 1000),
        out_of_range("clients", "0", 8),
        out_of_range("clients", "9", 8),
        (["inbox", "--name"], "", "", refused("a value is required for '--name <N>' but none was supplied"), 2),
        (["inbox", "--name", b"\xff"], "", "", "error: an argument is not UTF-8\n", 2),
        ([], "", "", "", 0),
        ([], sample, answers, "", 0),
        (["inbox"], sample, answers, "", 0),
        ([], sample.rstrip("\n"), answers, "", 0),
        ([], "word\n", "", "fed: line 1: wrong words\n", 1),
        ([], empty("a.example", "x.example") + "\n" + empty("a.example"), TAKEN + NOT_LISTED, "fed: line 3: wrong words\n", 1),
        (["inbox", "--servers", "c.example"], empty("b.example", "a.example"), NOT_LISTED + NOT_LISTED, "", 0),
        (["inbox", "--servers", "b.example"], empty("b.example", "a.example"), NOT_LISTED + NOT_LISTED, "", 0),
        (["inbox", "--name", "a.example"], empty("a.example"), NOT_LISTED, "", 0),
        (["inbox", "--servers", "a.example,a.example"], sample, answers, "", 0),
        (["inbox", "--servers", "a.example,c.example,a.example"], sample, answers, "", 0),
        (["inbox", "--servers", "b.example,a.example,b.example"], sample, answers, "", 0),
        (["inbox", "--servers", "a.example,a_b,a.example"], sample, "", BAD_SERVERS, 2),
        (["inbox", "--servers", "a.example,"], sample, "", BAD_SERVERS, 2),
        (["inbox", "--servers", "a_b"], sample, "", BAD_SERVERS, 2),
        (["inbox", "--name", "b:"], sample, "", BAD_SERVERS, 2),
        (["inbox", "--servers", named(64)], sample, "", BAD_SERVERS, 2),
        (["inbox", "--servers", named(63)], empty("s63", "s64"), TAKEN + NOT_LISTED, "", 0),
        (["inbox", "--servers", f"{named(63)},b.example,{named(63)}"], empty("s63", "s64"), TAKEN + NOT_LISTED, "", 0),
        (["inbox", "--servers", f"{named(63)},{named(64)}"], sample, "", BAD_SERVERS, 2),
        (others, empty("a.example", "b.example", "c.example", "d.example"), NOT_LISTED + TAKEN + NOT_LISTED + TAKEN, "", 0),
        ([], empty("x.example") * 100_000, NOT_LISTED * 100_000, "", 0),
        (["inbox"], rooms, with_r, "", 0),
        (["inbox", "--room", "!q:a.example"], rooms, with_q, "", 0),
        malicious(),
        looped(120),
        looped(1, "--events", "1", "--clients", "8"),
        looped(1000, "--events", "1000", "--clients", "8"),
        scripted(RETRIED),
        scripted(REFUSED),
        scripted(TURNED),
        scripted(IN_LINE),
        *((["sim", f"{EXAMPLES / name}.sim"], "frob\n", (EXAMPLES / f"{name}.out").read_text(), "", 0) for name in ("calm_rounds", "lost_answer")),
        (["sim", "/no/such/script"], "servers a b\n", "", "fed: cannot open /no/such/script\n", 1),
        (["sim", "/"], "servers a b\n", "", FAILED, 1),
        (["sim"], "\n# a comment\nservers a b\n\ntick 5", "ok\nnow 5\n", "", 0),
        (["sim"], "", "", "fed: line 1: wrong words\n", 1),
        (["sim"], "\n# a comment\ntick 1\n", "", "fed: line 3: wrong words\n", 1),
        (["sim"], "servers a a\n", "", "fed: line 1: wrong words\n", 1),
        *(wrong(line, what) for line, what in WRONG_LINES),
    ]


def ends(program, words, **streams):
    return subprocess.run(["fed", *words], executable=program, stderr=subprocess.PIPE, timeout=int(os.environ.get("PATIENCE", 60)), **streams)


def prints(program, words, given, out, err, status):
    done = ends(program, words, input=given.encode(errors="surrogateescape"), stdout=subprocess.PIPE)
    return (done.stdout.decode(), done.stderr.decode(), done.returncode) == (out, err, status)


def output_fails(program, words):
    """Standard output that takes nothing."""
    given = b"servers a\n" if words == ["sim"] else (FED / "stdin").read_bytes()
    with open("/dev/full", "wb") as full:
        done = ends(program, words, input=given, stdout=full)
    return (done.stderr.decode(), done.returncode) == (FAILED, 1)


def input_fails(program, words):
    """Standard input that can't be read, since it is a folder."""
    folder = os.open("/", os.O_RDONLY)
    done = ends(program, words, stdin=folder, stdout=subprocess.PIPE)
    os.close(folder)
    return (done.stdout, done.stderr.decode(), done.returncode) == (b"", FAILED, 1)


def answers_at_once(program):
    """A line is answered before the next one is given."""
    with subprocess.Popen(["fed"], executable=program, stdin=subprocess.PIPE, stdout=subprocess.PIPE) as fed:
        answers = []
        for line in (FED / "stdin").read_bytes().splitlines(keepends=True):
            os.write(fed.stdin.fileno(), line)
            if not select.select([fed.stdout], [], [], 10)[0]:
                break
            answers.append(fed.stdout.readline())
        fed.stdin.close()
    return b"".join(answers) == (FED / "stdout").read_bytes() and fed.returncode == 0


def ends_with_its_reader(program):
    """A script ends by the first line that nobody reads, and not by its own end."""
    given = b"servers a b\n" + b"tick 1\n" * 100_000
    with tempfile.TemporaryFile() as script:
        script.write(given)
        script.seek(0)
        with subprocess.Popen(["fed", "sim"], executable=program, stdin=script, stdout=subprocess.PIPE, stderr=subprocess.PIPE) as fed:
            first = [fed.stdout.readline(), fed.stdout.readline()]
            fed.stdout.close()
            told = fed.stderr.read().decode()
    return (first, told, fed.returncode) == ([b"ok\n", b"now 1\n"], FAILED, 1)


def main():
    program = pathlib.Path(sys.argv[1] if len(sys.argv) > 1 else FED / "out" / "fed").resolve()
    passed = [(f"fed {words}, given {given[:200]!r}", prints(program, words, given, *want)) for words, given, *want in cases()]
    passed += [(f"fed {words} > /dev/full", output_fails(program, words)) for words in (["--help"], ["--version"], [], ["sim"], ["loop"])]
    passed += [(f"fed {words} < /", input_fails(program, words)) for words in ([], ["sim"])]
    passed += [("answers before the next line", answers_at_once(program)), ("fed sim | head", ends_with_its_reader(program))]
    failed = [name for name, good in passed if not good]
    for name in failed:
        print(f"failed: {name}")
    print(f"{len(passed) - len(failed)} passed, {len(failed)} failed")
    sys.exit(1 if failed else 0)


if __name__ == "__main__":
    main()
