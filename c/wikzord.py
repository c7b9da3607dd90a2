"""Wikzord's federation core: Matrix's canonical JSON, events, requests and transactions.

A module over libwikzord.so, which c/build.sh builds: the file beside this one, or in out/ beside it, or the one that the environment's
WIKZORD_LIBRARY names. A JSON value is given as its text, bytes or a str, or as a dict or a list, which is written as JSON. A text is given as bytes,
or as a str, which is encoded in UTF-8. What a call refuses raises `Refused`, with the first fault in the order in which it names them, also where a
str has a lone surrogate and so no UTF-8; memory that runs out raises `MemoryError`, and an argument that is no text and no value `TypeError`. Calls
may run in any number of threads, and several at once: ctypes lets others run meanwhile.

A call whose answer depends on the version of the room takes its number by name, as `version=11`; without it the room is of version 10. Of another
version than 10 and 11 each of them is refused, BAD_VERSION, before its other arguments are looked at.
"""
import collections.abc
import ctypes
import enum
import json
import operator
import os
import pathlib
import threading
import typing


__all__ = [
    "EventFault", "Field", "Part", "Refused", "Rule", "Status", "TransactionFault", "VERSION", "XMatrix", "allowed", "allowed_by_auth_events",
    "auth_selection", "canonical", "content_hash", "content_hashes", "destinations", "event_fault", "event_id", "event_ids", "hash_fits", "redaction",
    "reply", "request_text", "resolve", "signed_text", "transaction_fault", "x_matrix", "x_matrix_header",
]

# The number of the interface that this module is for: `WIKZORD_VERSION` of wikzord.h.
VERSION = 3


class Status(enum.IntEnum):
    """How a call ends: `enum wikzord_status` of wikzord.h."""

    DONE = 0
    BUFFER_TOO_SMALL = 1
    MEMORY = 2
    NOT_JSON = 3
    NOT_CANONICAL = 4
    TOO_DEEP = 5
    HASH_DIFFERS = 6
    NOT_UTF8 = 7
    MISSING_FIELD = 8
    WRONG_KIND = 9
    EVENT_TOO_LARGE = 10
    FIELD_TOO_LONG = 11
    TOO_MANY_IDS = 12
    BODY_TOO_LARGE = 13
    BAD_BODY = 14
    TOO_MANY_PDUS = 15
    TOO_MANY_EDUS = 16
    BAD_VERDICTS = 17
    BAD_HEADER = 18
    BAD_SIGNATURE = 19
    NOT_SIGNED = 20
    BAD_EVENTS = 21
    BAD_STATE = 22
    BAD_SERVERS = 23
    BAD_IDS = 24
    MISSING_EVENTS = 25
    BAD_VERSION = 26


class Field(enum.IntEnum):
    """A field of an event: `enum wikzord_field`. EVENT stands for the event itself."""

    EVENT = 0
    AUTH_EVENTS = 1
    CONTENT = 2
    DEPTH = 3
    HASHES = 4
    ORIGIN_SERVER_TS = 5
    PREV_EVENTS = 6
    ROOM_ID = 7
    SENDER = 8
    SIGNATURES = 9
    STATE_KEY = 10
    TYPE = 11


class Part(enum.IntEnum):
    """A part of the body of a transaction: `enum wikzord_part`. BODY stands for the body itself."""

    BODY = 0
    ORIGIN = 1
    ORIGIN_SERVER_TS = 2
    PDUS = 3
    EDUS = 4


class Refused(ValueError):
    """A call that gives no answer; `status` says why."""

    def __init__(self, status: Status):
        super().__init__(status.name.lower().replace("_", " "))
        self.status = status


class EventFault(typing.NamedTuple):
    """The first test that an event fails, the field that fails it, where it is a test of one, and its text in a transaction's reply."""

    status: Status
    field: typing.Optional[Field]
    error: str


class TransactionFault(typing.NamedTuple):
    """The first fault of a transaction's body, the part that has it, where it is a fault of one, and its text in an error reply."""

    status: Status
    part: typing.Optional[Part]
    error: str


class Rule(typing.NamedTuple):
    """An authorization rule, a condition of it and a branch of that condition, 0 where there is none; its text is as `4.3.7`."""

    section: int
    condition: int
    branch: int

    def __str__(self):
        return ".".join(str(part) for part in self if part)


class XMatrix(typing.NamedTuple):
    """What the Authorization field of a request says; `destination` is None where it names no receiver."""

    origin: str
    destination: typing.Optional[str]
    key: str
    signature: bytes


Text = typing.Union[bytes, bytearray, memoryview, str]
Value = typing.Union[Text, typing.Dict[str, typing.Any], typing.List[typing.Any]]


def _load():
    """The library, where it is there and has the interface that this module is for."""
    here = pathlib.Path(__file__).resolve().parent
    beside, built = here / "libwikzord.so", here / "out" / "libwikzord.so"
    path = os.environ.get("WIKZORD_LIBRARY") or str(beside if beside.exists() else built)
    if not os.path.exists(path):
        raise ImportError(f"wikzord: there is no library {path}: c/build.sh makes it in c/out, and WIKZORD_LIBRARY can name another file")
    try:
        library = ctypes.CDLL(path)
    except OSError as error:
        raise ImportError(f"wikzord: the library {path} can't be loaded: {error}; c/build.sh makes one for this machine in c/out") from error
    version = library.wikzord_version() if hasattr(library, "wikzord_version") else None
    if version != VERSION:
        has = "no number of its interface" if version is None else f"interface {version}"
        raise ImportError(f"wikzord: the library {path} has {has}, and this module is for interface {VERSION}: make it again by c/build.sh")
    return library


_library = _load()

# A function gets a text as bytes, lengths as an array, and each other argument as a parameter of its C type. Most of these are made once, since
# ctypes takes about as long to make them as a short call takes.


def _function(name):
    function = getattr(_library, "wikzord_" + name)
    function.restype = ctypes.c_uint32
    return function


_canonical = _function("canonical")
_redaction = _function("redaction")
_signed_text = _function("signed_text")
_event_id = _function("event_id")
_content_hash = _function("content_hash")
_event_ids = _function("event_ids")
_content_hashes = _function("content_hashes")
_hash_fits = _function("hash_fits")
_event_test = _function("event_test")
_event_error = _function("event_error")
_request_text = _function("request_text")
_auth_selection = _function("auth_selection")
_x_matrix = [_function(f"x_matrix_{part}") for part in XMatrix._fields]
_x_matrix_header = _function("x_matrix_header")
_reply = _function("reply")
_transaction_test = _function("transaction_test")
_transaction_error = _function("transaction_error")
_allowed = _function("allowed")
_allowed_by_auth_events = _function("allowed_by_auth_events")
_destinations = _function("destinations")
_resolve = _function("resolve")

_number = ctypes.c_size_t.from_param
_truth = ctypes.c_bool.from_param

# The lengths of most texts, and the levels of all.
_NUMBERS = [_number(number) for number in range(4_096)]

_VERSIONS = {number: ctypes.c_uint32.from_param(number) for number in (10, 11)}


def _room(version):
    """The number of a room's version as a parameter; for one past 32 bits 0, which is refused as well."""
    number = operator.index(version)
    return _VERSIONS.get(number) or ctypes.c_uint32.from_param(number if 0 <= number < 2**32 else 0)


class _Output:
    """A buffer, where a call tells the length of its answer, and both as the parameters of calls, made once."""

    def __init__(self, size):
        self.buffer, self.needed = ctypes.create_string_buffer(size), ctypes.c_size_t()
        self.parameters = ctypes.byref(self.buffer), _number(size), ctypes.byref(self.needed)


class _Outputs(threading.local):
    """A thread's output, which its calls use one after another."""

    def __init__(self):
        output = _Output(65_536)
        self.parts = output.buffer, output.needed, *output.parameters


_outputs = _Outputs()


def _bytes(value):
    """The text of a JSON value. What is no UTF-8 in a str is none in the bytes either, and so no JSON."""
    if type(value) is bytes:
        return value
    if isinstance(value, (dict, list)):
        value = _written(value)
    return value.encode("utf-8", "surrogatepass") if isinstance(value, str) else bytes(memoryview(value))


def _text(text):
    """The bytes of a text."""
    if not isinstance(text, str):
        return bytes(memoryview(text))
    try:
        return text.encode()
    except UnicodeEncodeError:
        raise Refused(Status.NOT_UTF8) from None


def _written(value):
    """The JSON text of a value; of one that nests too deep for Python, and so for JSON that is read, a text that is no JSON."""
    try:
        return json.dumps(value, ensure_ascii=False, separators=(",", ":"))
    except RecursionError:
        return "["


def _items(values):
    """Those of a list, a set or another iterable; a text or an object is none, though Python goes over its parts."""
    if isinstance(values, (str, bytes, bytearray, memoryview, collections.abc.Mapping)):
        raise TypeError(f"a list is wanted, not {type(values).__name__}")
    return list(values)


def _refuse(status):
    if status == Status.MEMORY:
        raise MemoryError("wikzord")
    raise Refused(Status(status))


def _answer(function, *arguments):
    """The bytes that a call makes."""
    buffer, needed, *parameters = _outputs.parts
    status = function(*arguments, *parameters)
    if status:
        return _long_answer(status, function, arguments, needed.value)
    return buffer[: needed.value]


def _text_answer(function, text, *room):
    """The bytes that a call makes of one text, in a room of the version that is given, where one is."""
    if type(text) is not bytes:
        text = _bytes(text)
    length = len(text)
    length = _NUMBERS[length] if length < 4_096 else _number(length)
    buffer, needed, out, size, told = _outputs.parts
    status = function(*room, text, length, out, size, told)
    if status:
        return _long_answer(status, function, (*room, text, length), needed.value)
    return buffer[: needed.value]


def _answers(function, texts, size, *room):
    """What calls make of texts, so many bytes of each, as texts; in a room of the version that is given, where one is."""
    texts = [text if type(text) is bytes else _bytes(text) for text in _items(texts)]
    answers = []
    for start in range(0, len(texts) or 1, 128):
        some = texts[start : start + 128]
        whole, lengths = b"".join(some), (ctypes.c_size_t * len(some))(*map(len, some))
        answer = _answer(function, *room, whole, _number(len(whole)), lengths, _number(len(some))).decode()
        answers += [answer[at : at + size] for at in range(0, len(answer), size)]
    return answers


def _long_answer(status, function, arguments, needed):
    """The bytes of a call that asks for a larger buffer; one that ends in another way is refused."""
    if status != Status.BUFFER_TOO_SMALL:
        _refuse(status)
    output = _Output(needed)
    status = function(*arguments, *output.parameters)
    if status:
        _refuse(status)
    return output.buffer.raw


def canonical(value: Value, levels: int = 127) -> bytes:
    """The canonical text of a value that nests at most so deep. Refused: NOT_JSON, NOT_CANONICAL, TOO_DEEP."""
    if levels < 0:
        raise ValueError("levels below 0")
    text = _bytes(value)
    return _answer(_canonical, text, _number(len(text)), _NUMBERS[levels if levels < 127 else 127])


def redaction(event: Value, *, version: int = 10) -> bytes:
    """The canonical text of what redaction leaves of an event. Refused: BAD_VERSION, NOT_JSON, NOT_CANONICAL."""
    return _text_answer(_redaction, event, _room(version))


def signed_text(event: Value, *, version: int = 10) -> bytes:
    """The bytes of an event that its servers sign. Refused: BAD_VERSION, NOT_JSON, NOT_CANONICAL."""
    return _text_answer(_signed_text, event, _room(version))


def event_id(event: Value, *, version: int = 10) -> str:
    """The id of an event. Refused: BAD_VERSION, NOT_JSON, NOT_CANONICAL."""
    return _text_answer(_event_id, event, _room(version)).decode()


def content_hash(event: Value) -> str:
    """The content hash of an event. Refused: NOT_JSON, NOT_CANONICAL."""
    return _text_answer(_content_hash, event).decode()


def event_ids(events: typing.Iterable[Value], *, version: int = 10) -> typing.List[str]:
    """The ids of events, of many by each call. Refused: as `event_id` refuses the first that has none."""
    return _answers(_event_ids, events, 44, _room(version))


def content_hashes(events: typing.Iterable[Value]) -> typing.List[str]:
    """The content hashes of events, of many by each call. Refused: as `content_hash` refuses the first that has none."""
    return _answers(_content_hashes, events, 43)


def hash_fits(event: Value) -> bool:
    """Whether the hash that an event gives is its content hash. Refused: NOT_JSON, NOT_CANONICAL."""
    status = _hash_fits(*_slices(event))
    if status not in (Status.DONE, Status.HASH_DIFFERS):
        _refuse(status)
    return status == Status.DONE


def event_fault(event: Value) -> typing.Optional[EventFault]:
    """The first of the tests on receipt that an event fails, and None where it passes all."""
    event = _bytes(event)
    told = _fault(_event_test, _event_error, Field, event)
    return told and EventFault(*told)


def transaction_fault(body: Value) -> typing.Optional[TransactionFault]:
    """The first fault of the body of a transaction, whose events are not tested, and None where it has none."""
    body = _bytes(body)
    told = _fault(_transaction_test, _transaction_error, Part, body)
    return told and TransactionFault(*told)


def _fault(test, error, places, text):
    """The status of a text that fails a test, the place that is told, where one is, and the words; None where it passes."""
    untold = 2**32 - 1
    place = ctypes.c_uint32(untold)
    status = test(*_slices(text), ctypes.byref(place))
    if status == Status.DONE:
        return None
    if status == Status.MEMORY:
        _refuse(status)
    words = _text_answer(error, text).decode()
    return Status(status), None if place.value == untold else places(place.value), words


def request_text(method: Text, target: Text, origin: Text, destination: Text, content: Value = b"") -> bytes:
    """The bytes that are signed for a request: its canonical JSON, with the value of its body, `content`, where it has one.

    The body may be given as it came, in any spacing, or as its value. Refused: NOT_UTF8, and then, of the body, NOT_JSON, NOT_CANONICAL.
    """
    texts = map(_text, (method, target, origin, destination))
    return _answer(_request_text, *_slices(*texts, _bytes(content)))


def auth_selection(event: Value) -> typing.List[typing.Tuple[str, str]]:
    """At which types and state keys of a state the auth events of an event stand, in their order. Refused: as the event's test fails."""
    return [(kind, state_key) for kind, state_key in json.loads(_text_answer(_auth_selection, event))]


def x_matrix(header: Text) -> XMatrix:
    """What the text of an Authorization field says by the scheme X-Matrix. Refused: NOT_UTF8, BAD_HEADER."""
    header = _text(header)
    origin, destination, key, signature = (_text_answer(part, header) for part in _x_matrix)
    return XMatrix(origin.decode(), destination.decode() or None, key.decode(), signature)


def x_matrix_header(said: XMatrix) -> str:
    """The text of an Authorization field by the scheme X-Matrix. Refused: NOT_UTF8, BAD_SIGNATURE."""
    return _answer(_x_matrix_header, *_slices(*map(_text, (said.origin, said.destination or "", said.key, said.signature)))).decode()


def reply(verdicts: typing.Mapping[str, typing.Optional[str]]) -> bytes:
    """The body of the reply to a transaction, by the id of each event: None where it was taken, or the text of its error. Refused: NOT_JSON."""
    return _text_answer(_reply, {event_id: error or "" for event_id, error in verdicts.items()})


def allowed(event: Value, state: typing.Iterable[Value], authorised: bool = False, *, version: int = 10) -> typing.Optional[Rule]:
    """The authorization rule that rejects an event by a state of its room, and None where the room allows it.

    `state` has the events of the state, of which those at the keys of `auth_selection` are enough. `authorised` tells whether the signatures of
    other servers than the sender's have checked. Refused: BAD_VERSION; of the state NOT_JSON, NOT_CANONICAL, BAD_EVENTS, BAD_STATE; then as the
    event's test fails, NOT_SIGNED.
    """
    return _rule(_answer(_allowed, _room(version), *_slices(event, _array(state)), _truth(authorised)))


def allowed_by_auth_events(
    event: Value, auth_events: typing.Iterable[Value], rejected: typing.Iterable[str] = (), authorised: bool = False, *, version: int = 10
) -> typing.Optional[Rule]:
    """The authorization rule that rejects an event by the auth events that it names, and None where they allow it.

    `auth_events` has these events, and may have others, which count for nothing; `rejected` the ids of those that were rejected. `authorised` is as
    in `allowed`. Refused: BAD_VERSION; of the ids NOT_JSON, BAD_IDS; of the auth events NOT_JSON, NOT_CANONICAL, BAD_EVENTS; then as the event's test
    fails, NOT_SIGNED, MISSING_EVENTS.
    """
    slices = _slices(event, _array(auth_events), _items(rejected))
    return _rule(_answer(_allowed_by_auth_events, _room(version), *slices, _truth(authorised)))


def destinations(state: typing.Iterable[Value], servers: typing.Iterable[str], own: Text) -> typing.List[str]:
    """Those of `servers` that an event goes to, in their order: they have a user who is joined in the state before it, and are not the own one.

    `state` has the events of that state, of which the member events are enough. Refused: NOT_UTF8 where `own` is not; of the servers NOT_JSON,
    BAD_SERVERS; of the state NOT_JSON, NOT_CANONICAL, BAD_EVENTS, BAD_STATE.
    """
    return json.loads(_answer(_destinations, *_slices(_array(state), _items(servers), _text(own))))


def resolve(
    events: typing.Iterable[Value], states: typing.Iterable[typing.Iterable[str]], rejected: typing.Iterable[str] = (), *, version: int = 10
) -> typing.List[str]:
    """The ids of the events of the state that several states of a room resolve to, in the order of their types and state keys.

    `events` are events of the room, each behind its auth events, of which those of the states and of their auth chains are enough; `rejected` has the
    ids of those that were rejected, and each state the ids of its events. Refused: BAD_VERSION; of the rejected ones NOT_JSON, BAD_IDS; of the events
    NOT_JSON, NOT_CANONICAL, BAD_EVENTS; of the states NOT_JSON, BAD_STATE.
    """
    slices = _slices(_array(events), _items(rejected), [_items(state) for state in _items(states)])
    return json.loads(_answer(_resolve, _room(version), *slices))


def _rule(numbers):
    return Rule(*numbers) if numbers else None


def _slices(*texts):
    """Each text, or that of each value, and its length."""
    slices = []
    for text in texts:
        text = _bytes(text)
        slices += (text, _number(len(text)))
    return slices


def _array(values):
    """The text of an array of values; no JSON where one is none. Each is read first, so that no text stands for two values or for a half."""
    texts = []
    for value in _items(values):
        try:
            texts.append(canonical(value))
        except Refused as refused:
            if refused.status == Status.NOT_JSON:
                return b"["
            texts.append(_bytes(value))
    return b"[%s]" % b",".join(texts)
