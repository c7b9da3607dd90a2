#!/usr/bin/env python3
"""What the built server answers and sends over sockets of the loopback interface: crates/fed_embedding/out/fed_embedding, after `rt run` there,
or the program that is named.

    tests/loopback.py [PROGRAM]

Prints `N passed, M failed`, and ends with status 1 where one failed.
"""
import base64
import concurrent.futures
import contextlib
import hashlib
import http.client
import json
import pathlib
import re
import shutil
import socket
import struct
import subprocess
import sys
import tempfile
import time
import types

TOP = pathlib.Path(__file__).resolve().parent.parent
PROGRAM = TOP / "crates" / "fed_embedding" / "out" / "fed_embedding"
OWN, PEER, ROOM = "b.example", "a.example", "!r:a.example"
PATH = "/_matrix/federation/v1/send/"
BAD_REQUEST = (400, {"errcode": "M_UNKNOWN", "error": "bad request"})
TOO_LARGE = (413, {"errcode": "M_TOO_LARGE", "error": "body too large"})
NO_PATH = (404, {"errcode": "M_UNRECOGNIZED", "error": "no such path"})
NO_METHOD = (405, {"errcode": "M_UNRECOGNIZED", "error": "method not allowed"})
BAD_SIGNATURE = (401, {"errcode": "M_UNAUTHORIZED", "error": "bad signature"})
# How many seconds a request and an exchange have where they are not to have 30, and how late an end of theirs may be seen.
SECONDS, LATE = 2, 6
# Words that the program can't read, each with what is wrong.
WRONG = [
    ("address", ["x"]), ("number", ["-", "x"]), ("number", ["-", "-1"]), ("number", ["-", "30", "0"]), ("number", ["-", "30", "65"]),
]
# What a proxy is told: where it listens and whom it asks.
NGINX = """
daemon off;
master_process off;
pid {room}/pid;
events {{}}
http {{
    access_log off;
    client_body_temp_path {room}/body;
    proxy_temp_path {room}/proxy;
    fastcgi_temp_path {room}/fastcgi;
    uwsgi_temp_path {room}/uwsgi;
    scgi_temp_path {room}/scgi;
    server {{
        listen {proxy};
        location / {{
            proxy_pass http://{server};
            proxy_http_version 1.1;
            proxy_set_header Host {host};
        }}
    }}
}}
"""


def text(value):
    return json.dumps(value, sort_keys=True, separators=(",", ":"), ensure_ascii=False).encode()


def unpadded(value):
    return base64.b64encode(value).decode().rstrip("=")


def signature(server, message):
    """The stand-in signature of docs/FORMATS.md."""
    return unpadded(hashlib.sha512(f"stand-in secret of {server}\n".encode() + message).digest())


def message(number):
    """A message of a user of a.example, and its id."""
    event = {
        "auth_events": [], "content": {"body": f"message {number}"}, "depth": 1, "origin_server_ts": 1, "prev_events": [], "room_id": ROOM,
        "sender": "@u:a.example", "type": "m.room.message",
    }
    event["hashes"] = {"sha256": unpadded(hashlib.sha256(text(event)).digest())}
    redacted = text(event | {"content": {}})
    event["signatures"] = {PEER: {"standin:1": signature(PEER, redacted)}}
    return event, "$" + base64.urlsafe_b64encode(hashlib.sha256(redacted).digest()).decode().rstrip("=")


def authorization(origin, destination, target, body):
    signed = text({"method": "PUT", "uri": target, "origin": origin, "destination": destination, "content": json.loads(body)})
    return f'X-Matrix origin="{origin}",destination="{destination}",key="standin:1",sig="{signature(origin, signed)}"'


class Transaction:
    """A transaction of a.example with one message, and the answer to it."""

    def __init__(self, number):
        event, event_id = message(number)
        self.target = f"{PATH}test-{number}"
        self.body = text({"origin": PEER, "origin_server_ts": number, "pdus": [event]})
        self.signed = authorization(PEER, OWN, self.target, self.body)
        self.answer = (200, {"pdus": {event_id: {}}})

    def head(self, *fields):
        lines = [f"PUT {self.target} HTTP/1.1", f"Host: {OWN}", f"Authorization: {self.signed}", *fields]
        return "".join(f"{line}\r\n" for line in [*lines, ""]).encode()

    def whole(self):
        return self.head(f"Content-Length: {len(self.body)}") + self.body

    def chunked(self):
        cut = [self.body[at:at + 100] for at in range(0, len(self.body), 100)]
        chunks = b"".join(b"%x\r\n%b\r\n" % (len(piece), piece) for piece in [*cut, b""])
        return self.head("Transfer-Encoding: chunked") + chunks


def parsed(reply):
    """The status and the body of a reply of which every line is as docs/FORMATS.md says."""
    form = rb"HTTP/1\.1 (\d{3}) [^\r\n]+\r\nContent-Type: application/json\r\nContent-Length: (\d+)\r\nConnection: close\r\n\r\n(.*)"
    found = re.fullmatch(form, reply, re.DOTALL)
    if not found or int(found[2]) != len(found[3]):
        return reply
    return int(found[1]), json.loads(found[3])


def free_address():
    with socket.create_server(("127.0.0.1", 0)) as listener:
        return listener.getsockname()


class Server:
    """The program while it runs."""

    def __init__(self, program, *words):
        self.running = subprocess.Popen([program, *words], stdin=subprocess.PIPE, stdout=subprocess.PIPE, stderr=subprocess.PIPE)
        host, port = self.running.stderr.readline().decode().strip().rsplit(":", 1)
        self.at = (host, int(port))

    def connect(self):
        return socket.create_connection(self.at, timeout=30)

    def ask(self, *pieces):
        """The reply to these bytes, each piece sent by itself."""
        with self.connect() as connection:
            connection.setsockopt(socket.IPPROTO_TCP, socket.TCP_NODELAY, 1)
            for piece in pieces:
                connection.sendall(piece)
            return parsed(rest_of(connection))

    def end(self):
        """What is printed once the input ends, and the status."""
        out, err = self.running.communicate(timeout=60)
        return out.decode(), err.decode(), self.running.returncode


def rest_of(connection):
    pieces = iter(lambda: connection.recv(65_536), b"")
    return b"".join(pieces)


def by_library(server, transaction):
    connection = http.client.HTTPConnection(*server.at, timeout=30)
    connection.request("PUT", transaction.target, transaction.body, {"Authorization": transaction.signed})
    reply = connection.getresponse()
    body = reply.read()
    connection.close()
    return (reply.status, json.loads(body)) if int(reply.headers["Content-Length"]) == len(body) else body


def byte_by_byte(server, transaction):
    whole = transaction.whole()
    return server.ask(*(whole[at:at + 1] for at in range(len(whole))))


def lower_case(server, transaction):
    head, body = transaction.whole().split(b"\r\n\r\n", 1)
    first, *fields = head.split(b"\r\n")
    lowered = [name.lower() + b":" + value for name, value in (field.split(b":", 1) for field in fields)]
    return server.ask(b"\r\n".join([first, *lowered, b"", body]))


def at_once(server, transactions):
    with concurrent.futures.ThreadPoolExecutor(len(transactions)) as threads:
        return list(threads.map(lambda it: server.ask(it.whole()), transactions))


def get(server, target):
    return server.ask(f"GET {target} HTTP/1.1\r\nHost: {OWN}\r\n\r\n".encode())


def whole_reply(server, method, target):
    """The bytes of the reply to a request without a body."""
    with server.connect() as connection:
        connection.sendall(f"{method} {target} HTTP/1.1\r\nHost: {OWN}\r\n\r\n".encode())
        return rest_of(connection)


def head_alone(server, target):
    """The reply to a HEAD, and what it is to be: the head of the reply to a GET."""
    head = whole_reply(server, "GET", target).split(b"\r\n\r\n")[0]
    return whole_reply(server, "HEAD", target), head + b"\r\n\r\n"


def first_pieces(server, target):
    """What is read first of each of some replies to a GET: a reply that is written at once comes whole."""
    pieces = []
    for _ in range(5):
        with server.connect() as connection:
            connection.sendall(f"GET {target} HTTP/1.1\r\nHost: {OWN}\r\n\r\n".encode())
            pieces.append(parsed(connection.recv(65_536)))
    return pieces


def with_more_behind(server, transaction):
    """The reply to a request behind which more is sent than is read with it, or that the connection was broken before its end."""
    with server.connect() as connection:
        try:
            connection.sendall(transaction.whole() + b"x" * 100_000)
            return parsed(rest_of(connection))
        except OSError as error:
            return error


def two_lengths(transaction):
    length = f"Content-Length: {len(transaction.body)}"
    return transaction.head(length, length) + transaction.body


def closed_within_the_body(server, transaction):
    """What comes back where the client ends its side before the request is whole."""
    with server.connect() as connection:
        connection.sendall(transaction.whole()[:-1])
        connection.shutdown(socket.SHUT_WR)
        return rest_of(connection)


def gone_before_the_reply(server, transaction):
    """Sends a request and breaks the connection at once."""
    with server.connect() as connection:
        connection.setsockopt(socket.SOL_SOCKET, socket.SO_LINGER, struct.pack("ii", 1, 0))
        connection.sendall(transaction.whole())


def timed(call, *words):
    """What a call gives, and how many seconds it took."""
    begun = time.monotonic()
    got = call(*words)
    return got, time.monotonic() - begun


def said_nothing(server):
    """What comes back where nothing is sent, and whether it comes when a request has to be done."""
    with server.connect() as connection:
        reply, took = timed(rest_of, connection)
    return reply, is_at(took, SECONDS)


def is_at(took, seconds):
    return seconds - 0.5 < took < seconds + LATE


def dribble(connection, message):
    """Sends a message a byte at a time, and tells what comes back before it is whole; nothing where the connection is cut."""
    connection.settimeout(0.2)
    for at in range(len(message)):
        try:
            connection.sendall(message[at:at + 1])
            return connection.recv(65_536)
        except socket.timeout:
            pass
        except OSError:
            return b""
    return "all of it was sent"


def dribbled(server, transactions, honest):
    """What comes back to clients that dribble, and to an honest one behind them, and after how many seconds that one was answered."""
    connections = [server.connect() for _ in transactions]
    with concurrent.futures.ThreadPoolExecutor(len(transactions)) as threads:
        dribbles = [threads.submit(dribble, *each) for each in zip(connections, (it.whole() for it in transactions))]
        answer, took = timed(server.ask, honest.whole())
    for connection in connections:
        connection.close()
    return [it.result() for it in dribbles], answer, took


def unread(server, transactions, honest):
    """The answer to an honest client behind others that never read theirs, and whether it comes before they have to be done."""
    connections = [server.connect() for _ in transactions]
    for connection, transaction in zip(connections, transactions):
        connection.sendall(transaction.whole())
    answer, took = timed(server.ask, honest.whole())
    for connection in connections:
        connection.close()
    return answer, took < SECONDS + LATE


def gone_within_the_body(server, transaction):
    """Sends most of a request, and breaks the connection."""
    with server.connect() as connection:
        connection.setsockopt(socket.SOL_SOCKET, socket.SO_LINGER, struct.pack("ii", 1, 0))
        connection.sendall(transaction.whole()[:-1])


def ended_meanwhile(server, transactions):
    """What the server prints, and whether it ends in time, where its input ends while clients dribble."""
    connections = [server.connect() for _ in transactions]
    with concurrent.futures.ThreadPoolExecutor(len(transactions)) as threads:
        for each in zip(connections, (it.whole() for it in transactions)):
            threads.submit(dribble, *each)
        time.sleep(1)
        end, took = timed(server.end)
    return end, took < SECONDS + LATE


def by_curl(server, target):
    done = subprocess.run(["curl", "-s", "-w", "\n%{http_code}", "http://{}:{}{}".format(*server.at, target)], stdout=subprocess.PIPE, timeout=30)
    body, status = done.stdout.rsplit(b"\n", 1)
    return int(status), json.loads(body)


def served(server):
    """The names of what is tried against a server, each with whether it went well."""
    first, second, third, fourth, fifth, *others = (Transaction(number) for number in range(1, 14))
    tries = [
        ("a request of http.client", by_library(server, first), first.answer),
        ("the same again", server.ask(first.whole()), first.answer),
        ("byte by byte", byte_by_byte(server, second), second.answer),
        ("chunked", server.ask(third.chunked()), third.answer),
        ("lower-case names", lower_case(server, fourth), fourth.answer),
        ("a body that is not the signed one", server.ask(fifth.whole().replace(b"message 5", b"message 6")), BAD_SIGNATURE),
        ("GET of the path", get(server, f"{PATH}test-1"), NO_METHOD),
        ("GET of another path", get(server, "/x"), NO_PATH),
        ("HEAD of another path", *head_alone(server, "/x")),
        ("HEAD of the path", *head_alone(server, f"{PATH}test-1")),
        ("a reply in one piece", first_pieces(server, "/x"), [NO_PATH] * 5),
        ("garbage", server.ask(b"garbage\r\n\r\n"), BAD_REQUEST),
        ("bytes of no text", server.ask(bytes(range(256)) * 8), BAD_REQUEST),
        ("a head of 20 kB", server.ask(b"GET /x HTTP/1.1\r\nX: " + b"x" * 20_000), TOO_LARGE),
        ("a body of 17 MB, as told", server.ask(fifth.head("Content-Length: 17000000")), TOO_LARGE),
        ("two lengths", server.ask(two_lengths(fifth)), BAD_REQUEST),
        ("a length and chunks", server.ask(fifth.head("Content-Length: 5", "Transfer-Encoding: chunked")), BAD_REQUEST),
        ("closed within the body", closed_within_the_body(server, fifth), b""),
        ("gone before the reply", gone_before_the_reply(server, first), None),
        ("two requests in one piece, of which the first is answered", server.ask(first.whole() + fifth.whole()), first.answer),
        ("100 kB behind a request", with_more_behind(server, first), first.answer),
        ("gone within the body", gone_within_the_body(server, fifth), None),
        ("and then the request", server.ask(fifth.whole()), fifth.answer),
        ("eight at once", at_once(server, others), [it.answer for it in others]),
    ]
    if shutil.which("curl"):
        tries.append(("curl", by_curl(server, "/x"), NO_PATH))
    tries.append(("the end", server.end(), ("took 13\nsent 0\nfinished\n", "", 0)))
    return tries


def ended_in_a_crowd(program):
    """What a server prints, and whether it ends in time, where its input ends while as many wait to be accepted as may."""
    server = Server(program, "-", str(SECONDS))
    crowd = [socket.socket() for _ in range(200)]
    for one in crowd:
        one.setblocking(False)
        one.connect_ex(server.at)
    # By now the system has tried again to connect those for whom there was no room.
    time.sleep(SECONDS - 0.3)
    end, took = timed(server.end)
    for one in crowd:
        one.close()
    return end, took < SECONDS + LATE


def in_time(program, peers):
    """What is tried against a server that gives a request little time, and has a thread that serves for each of so many peers and one more."""
    server, threads = Server(program, "-", str(SECONDS), str(peers)), peers + 1
    first, second, third, fourth, fifth, *others = (Transaction(number) for number in range(1, 6 + 2 * threads))
    *replies, early = dribbled(server, others[1:threads], first)
    *all_replies, late = dribbled(server, others, second)
    taken = 4 + len(others)
    return [
        ("nothing is said", said_nothing(server), (b"", True)),
        ("and then the request", server.ask(fifth.whole()), fifth.answer),
        ("behind clients that dribble, of whom there are fewer than threads", replies, [[b""] * peers, first.answer]),
        ("which is at once", early < SECONDS - 0.5, True),
        ("behind twice as many as there are threads", all_replies, [[b""] * len(others), second.answer]),
        ("which is once each thread had two of them", is_at(late, 2 * SECONDS), True),
        ("behind clients that read nothing", unread(server, others, third), (third.answer, True)),
        ("and what these get when they ask again", at_once(server, others), [it.answer for it in others]),
        ("the end while clients dribble", ended_meanwhile(server, [fourth] * threads), ((f"took {taken}\nsent 0\nfinished\n", "", 0), True)),
    ]


def begun(at):
    """Waits until something listens at an address."""
    for _ in range(100):
        try:
            socket.create_connection(at).close()
            return
        except OSError:
            time.sleep(0.1)


def by_nginx(program):
    """A request that comes by a proxy, where there is one."""
    if not shutil.which("nginx"):
        return []
    server, transaction = Server(program), Transaction(1)
    proxy = types.SimpleNamespace(at=free_address())
    with tempfile.TemporaryDirectory() as room:
        words = {"room": room, "host": OWN, "proxy": "{}:{}".format(*proxy.at), "server": "{}:{}".format(*server.at)}
        pathlib.Path(room, "conf").write_text(NGINX.format(**words))
        running = subprocess.Popen(["nginx", "-p", room, "-c", f"{room}/conf", "-e", f"{room}/log"])
        try:
            begun(proxy.at)
            answer = by_library(proxy, transaction)
        finally:
            running.terminate()
            running.wait()
    return [("by nginx", answer, transaction.answer), ("the end of who was behind it", server.end(), ("took 1\nsent 0\nfinished\n", "", 0))]


def request_of(connection):
    """The first line, the fields and the body of a request."""
    with connection.makefile("rb") as stream:
        first = stream.readline().decode().strip()
        fields = dict(line.decode().strip().split(": ", 1) for line in iter(stream.readline, b"\r\n"))
        return first, fields, stream.read(int(fields["Content-Length"]))


def answer(listener, reply):
    """Takes one request, and gives it this reply."""
    connection, _ = listener.accept()
    with connection:
        request = request_of(connection)
        connection.sendall(reply)
    return request


def as_it_should_be(request, number):
    """Whether it is a transaction with one message, signed for a.example."""
    first, fields, body = request
    line = re.fullmatch(rf"PUT ({PATH}\d+-{number}) HTTP/1\.1", first)
    target = line[1] if line else ""
    value = json.loads(body)
    return (
        target and fields["Host"] == PEER and fields["Authorization"] == authorization(OWN, PEER, target, body)
        and value["origin"] == OWN and [it["content"] for it in value["pdus"]] == [{"body": f"{number}"}] and body == text(value)
    )


def sent(program):
    """A server that sends: its second transaction is answered by 500, by nothing, and then by 200."""
    good = b"HTTP/1.1 200 OK\r\nContent-Length: 11\r\n\r\n{\"pdus\":{}}"
    bad = b"HTTP/1.1 500 Internal Server Error\r\nContent-Length: 2\r\n\r\n{}"
    with socket.create_server(("127.0.0.1", 0)) as listener:
        listener.settimeout(30)
        server = Server(program, "127.0.0.1:{}".format(listener.getsockname()[1]))
        requests = []
        for number, replies in ((1, [good]), (2, [bad, b"", good])):
            server.running.stdin.write(f'{{"body":"{number}"}}\n'.encode())
            server.running.stdin.flush()
            requests += [(number, answer(listener, reply)) for reply in replies]
        end = server.end()
    repeated = requests[1:]
    return [
        ("what is sent", all(as_it_should_be(request, number) for number, request in requests), True),
        ("what is sent again", all(request == repeated[0][1] for _, request in repeated), True),
        ("the end of who sends", end, ("took 0\nsent 2\nfinished\n", "", 0)),
    ]


def refused(program):
    """A server whose messages are never taken ends all the same, some seconds behind its input."""
    no = b"HTTP/1.1 401 Unauthorized\r\nContent-Length: 2\r\n\r\n{}"
    with socket.create_server(("127.0.0.1", 0)) as listener:
        server = Server(program, "127.0.0.1:{}".format(listener.getsockname()[1]))
        with concurrent.futures.ThreadPoolExecutor(1) as threads:
            threads.submit(lambda: [answer(listener, no) for _ in iter(int, 1)])
            try:
                server.running.stdin.write(b'{"body":"1"}\n')
                end = server.end()
            finally:
                listener.shutdown(socket.SHUT_RDWR)
    return [("nothing is taken", end, ("took 0\nsent 1\nfinished\n", "", 0))]


def slowly_answered(program):
    """A server whose message gets a reply that dribbles ends that exchange in time, answers requests meanwhile, and sends the message again."""
    good = b"HTTP/1.1 200 OK\r\nContent-Length: 11\r\n\r\n{\"pdus\":{}}"
    transactions = [Transaction(number) for number in range(1, 5)]
    with socket.create_server(("127.0.0.1", 0)) as listener:
        listener.settimeout(30)
        server = Server(program, "127.0.0.1:{}".format(listener.getsockname()[1]), str(SECONDS))
        server.running.stdin.write(b'{"body":"1"}\n')
        server.running.stdin.flush()
        connection, _ = listener.accept()
        with connection, concurrent.futures.ThreadPoolExecutor(1) as threads:
            first = request_of(connection)
            exchange = threads.submit(timed, dribble, connection, good)
            answers = [server.ask(it.whole()) for it in transactions]
            meanwhile = not exchange.done()
            reply, took = exchange.result()
        second = answer(listener, good)
        end = server.end()
    return [
        ("a reply that dribbles", (reply, is_at(took, SECONDS)), (b"", True)),
        ("requests meanwhile", (answers, meanwhile), ([it.answer for it in transactions], True)),
        ("what was not answered in time is sent again", as_it_should_be(first, 1) and second == first, True),
        ("the end of who was answered slowly", end, ("took 4\nsent 1\nfinished\n", "", 0)),
    ]


def small_until_large(listener, reply):
    """Takes requests and gives them this reply, up to the first one that is larger than what fits between the two, of which it reads nothing."""
    while True:
        connection, _ = listener.accept()
        length = int(re.search(rb"Content-Length: (\d+)", connection.recv(500, socket.MSG_PEEK))[1])
        if length > 150_000:
            return connection, length
        with connection:
            request_of(connection)
            with contextlib.suppress(OSError):
                connection.sendall(reply)


def never_read(program):
    """A server whose large request is not read by its peer ends that exchange in time, and sends it again."""
    good = b"HTTP/1.1 200 OK\r\nContent-Length: 11\r\n\r\n{\"pdus\":{}}"
    with socket.create_server(("127.0.0.1", 0)) as listener:
        listener.settimeout(30)
        listener.setsockopt(socket.SOL_SOCKET, socket.SO_RCVBUF, 4096)
        listener.setsockopt(socket.IPPROTO_TCP, socket.TCP_MAXSEG, 536)
        server = Server(program, "127.0.0.1:{}".format(listener.getsockname()[1]), str(SECONDS))
        # Several of these are in one request as soon as one was answered after all were offered.
        server.running.stdin.write(8 * (text({"body": "x" * 60_000}) + b"\n"))
        server.running.stdin.flush()
        connection, length = small_until_large(listener, good)
        with connection:
            (again, _), took = timed(listener.accept)
            front = rest_of(connection)
        with again, concurrent.futures.ThreadPoolExecutor(1) as threads:
            again.setsockopt(socket.SOL_SOCKET, socket.SO_RCVBUF, 1_000_000)
            request_of(again)
            again.sendall(good)
            threads.submit(lambda: [answer(listener, good) for _ in iter(int, 1)])
            try:
                end = server.end()
            finally:
                listener.shutdown(socket.SHUT_RDWR)
    return [
        # It is sent again a second after it has failed.
        ("a peer that reads nothing", (is_at(took, SECONDS + 1), len(front) < length), (True, True)),
        ("the end of who was not read", end, ("took 0\nsent 8\nfinished\n", "", 0)),
    ]


def wrong_words(program):
    """What the program says of words that it can't read."""
    said = [subprocess.run([program, *words], stdin=subprocess.DEVNULL, stderr=subprocess.PIPE, timeout=60) for _, words in WRONG]
    told = [(it.stderr.decode(), it.returncode) for it in said]
    return [("wrong words", told, [(f"fed_embedding: bad {what}\n", 1) for what, _ in WRONG])]


def unreachable(program):
    """A server whose messages reach nobody ends all the same."""
    server = Server(program, "{}:{}".format(*free_address()))
    server.running.stdin.write(b'{"body":"1"}\n')
    return [("nobody is reached", server.end(), ("took 0\nsent 1\nfinished\n", "", 0))]


def documented():
    """Whether each piece of code in docs/EMBEDDING.md stands in the program's crate, however it is indented."""
    bare = lambda text: "\n".join(line.strip() for line in text.strip().splitlines())
    pieces = re.findall(r"^```rust\n(.*?)^```$", (TOP / "docs" / "EMBEDDING.md").read_text(), re.DOTALL | re.MULTILINE)
    files = [bare(it.read_text()) for it in (TOP / "crates" / "fed_embedding" / "src").glob("*.rt")]
    lost = [piece for piece in pieces if not any(bare(piece) in it for it in files)]
    return [("the document's code is the program's", lost if pieces else "no code", [])]


def main():
    program = pathlib.Path(sys.argv[1] if len(sys.argv) > 1 else PROGRAM).resolve()
    tries = [*documented(), *served(Server(program)), *in_time(program, 1), *in_time(program, 7), *by_nginx(program), *wrong_words(program)]
    tries.append(("the end in a crowd", ended_in_a_crowd(program), (("took 0\nsent 0\nfinished\n", "", 0), True)))
    tries += [*sent(program), *slowly_answered(program), *never_read(program), *refused(program), *unreachable(program)]
    failed = [(name, got, want) for name, got, want in tries if got != want]
    for name, got, want in failed:
        print(f"failed: {name}: {got!r} and not {want!r}")
    print(f"{len(tries) - len(failed)} passed, {len(failed)} failed")
    sys.exit(1 if failed else 0)


if __name__ == "__main__":
    main()
