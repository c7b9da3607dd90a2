/*
 * Wikzord's federation core for programs in C: Matrix's canonical JSON, events, requests and transactions.
 *
 * One form. What a function reads comes as a pointer and a length in bytes; a text needs no null byte at its end, and may hold some. What it
 * makes goes into a buffer of the caller's: `out`, which has room for `out_len` bytes. How many bytes the whole answer takes is written to
 * `*needed`. What is returned is a `wikzord_status`:
 *
 *     WIKZORD_DONE               the answer stands in the first `*needed` bytes of `out`, and what was behind them is as it was.
 *     WIKZORD_BUFFER_TOO_SMALL   the answer has `*needed` bytes, which is more than `out_len`. Nothing else is written. To ask for the length
 *                                alone, call with `out_len` 0.
 *     any other                  nothing is written, neither to `out` nor to `*needed`.
 *
 * Where several faults are there, the one that is told is the first in the order in which a function's comment names them: a call looks at its
 * arguments in that order, and at the next one only where those before have no fault.
 *
 * No answer ends with a null byte. Two calls with the same bytes give the same answer, but WIKZORD_MEMORY may come in its place each time.
 *
 * Pointers. Every pointer is given, and never null: for no bytes give the address of any byte, and the length 0. `out` and what `needed`,
 * `field` and `part` point to are the call's alone while it runs: they lie apart from each other and from what the call reads. A length is
 * below 2^63. The caller owns every buffer, before and after.
 *
 * Lists. A list comes as the JSON text of an array, and is given as one; wikzord_event_ids and wikzord_content_hashes have a form of their own.
 * A value that is no such list is refused, never taken for an empty one.
 *
 * Versions. What redaction leaves of an event, and with it what is signed of it, its id and what its room allows, depends on the version of the room
 * (Matrix, "Room versions"). A function whose answer does takes its number first, as `version`: 10 or 11, which the create event of the room names as
 * a text at `content.room_version`; nothing is read there. Any other number is refused as WIKZORD_BAD_VERSION, before anything else is looked at.
 * What a function answers that takes no version is the same in both.
 *
 * Memory. A function takes memory by malloc, and gives all of it back by free before it returns. Nothing is kept between calls, and there is
 * no state: calls may run in any number of threads at once. None may be made from a signal handler, or in the child of a fork of a process
 * with several threads.
 */
#ifndef WIKZORD_H
#define WIKZORD_H

#include <stdbool.h>
#include <stddef.h>
#include <stdint.h>

#ifdef __cplusplus
extern "C" {
#endif

/*
 * The number of this interface: of the functions, what each is given and answers, and the numbers below. It is raised where one of these changes
 * so that a program for the number before would not expect it. wikzord_version, which returns no status, tells the number of the library that a
 * program has loaded: where it is another one than the program was compiled with, make no other call.
 */
#define WIKZORD_VERSION 3

uint32_t wikzord_version(void);

/* How a call ends. */
enum wikzord_status {
    WIKZORD_DONE = 0,
    WIKZORD_BUFFER_TOO_SMALL = 1, /* the answer takes more bytes than `out` has: `*needed` says how many */
    WIKZORD_MEMORY = 2,           /* memory ran out; the call can be made again */
    WIKZORD_NOT_JSON = 3,         /* not UTF-8, or no JSON text, or one that nests deeper than 127 levels */
    WIKZORD_NOT_CANONICAL = 4,    /* a number is not a whole one from -(2^53)+1 to 2^53-1, or is not written as one */
    WIKZORD_TOO_DEEP = 5,         /* the value nests deeper than it may: an event 100 levels */
    WIKZORD_HASH_DIFFERS = 6,     /* the hash that an event gives is not its content hash, or it gives none */
    WIKZORD_NOT_UTF8 = 7,         /* a text is not UTF-8 */
    WIKZORD_MISSING_FIELD = 8,    /* a field that an event may not lack is not there */
    WIKZORD_WRONG_KIND = 9,       /* a field has a value of another kind than it may have, or the event is no object */
    WIKZORD_EVENT_TOO_LARGE = 10, /* the canonical text of an event, signatures and all, has more than 65,536 bytes */
    WIKZORD_FIELD_TOO_LONG = 11,  /* the text of a field has more than 255 bytes */
    WIKZORD_TOO_MANY_IDS = 12,    /* a field names more than 10 auth events or 20 prev events */
    WIKZORD_BODY_TOO_LARGE = 13,  /* the body of a transaction has more than 16,777,216 bytes */
    WIKZORD_BAD_BODY = 14,        /* a part of the body of a transaction is missing or of another kind */
    WIKZORD_TOO_MANY_PDUS = 15,   /* a transaction has more than 50 events */
    WIKZORD_TOO_MANY_EDUS = 16,   /* a transaction has more than 100 ephemeral data units */
    WIKZORD_BAD_VERDICTS = 17,    /* the value is no object of verdicts */
    WIKZORD_BAD_HEADER = 18,      /* the text of an Authorization field is none of the scheme X-Matrix */
    WIKZORD_BAD_SIGNATURE = 19,   /* a signature has not 64 bytes */
    WIKZORD_NOT_SIGNED = 20,      /* an event has no signature of its sender's server */
    WIKZORD_BAD_EVENTS = 21,      /* the value is no array of the events of a room, each behind those that it names */
    WIKZORD_BAD_STATE = 22,       /* no array of the ids of state events of the room, or of such arrays; or two events at one type and state key */
    WIKZORD_BAD_SERVERS = 23,     /* the value is no array of the names of servers */
    WIKZORD_BAD_IDS = 24,         /* the value is no array of texts, which are the ids of events */
    WIKZORD_MISSING_EVENTS = 25,  /* an event names an auth event that is not among those that are given */
    WIKZORD_BAD_VERSION = 26      /* the version of the room is neither 10 nor 11 */
};

/* A field of an event; WIKZORD_FIELD_EVENT stands for the event itself. */
enum wikzord_field {
    WIKZORD_FIELD_EVENT = 0,
    WIKZORD_FIELD_AUTH_EVENTS = 1,
    WIKZORD_FIELD_CONTENT = 2,
    WIKZORD_FIELD_DEPTH = 3,
    WIKZORD_FIELD_HASHES = 4,
    WIKZORD_FIELD_ORIGIN_SERVER_TS = 5,
    WIKZORD_FIELD_PREV_EVENTS = 6,
    WIKZORD_FIELD_ROOM_ID = 7,
    WIKZORD_FIELD_SENDER = 8,
    WIKZORD_FIELD_SIGNATURES = 9,
    WIKZORD_FIELD_STATE_KEY = 10,
    WIKZORD_FIELD_TYPE = 11
};

/* A part of the body of a transaction; WIKZORD_PART_BODY stands for the body itself. */
enum wikzord_part {
    WIKZORD_PART_BODY = 0,
    WIKZORD_PART_ORIGIN = 1,
    WIKZORD_PART_ORIGIN_SERVER_TS = 2,
    WIKZORD_PART_PDUS = 3,
    WIKZORD_PART_EDUS = 4
};

/* ---- values and events. A value need not be an event to have these texts. ---- */

/*
 * The canonical text of the value of a JSON text that nests at most `levels` deep (appendix "Canonical JSON"); more than 127 levels are
 * never read. Of a key that an object names twice the last value counts.
 *
 * The first of WIKZORD_NOT_JSON, WIKZORD_NOT_CANONICAL and WIKZORD_TOO_DEEP that is so.
 */
uint32_t wikzord_canonical(const uint8_t *text, size_t text_len, size_t levels, uint8_t *out, size_t out_len, size_t *needed);

/*
 * The canonical text of what redaction leaves of an event in a room of this version (room versions 10 and 11, "Redactions").
 *
 * WIKZORD_BAD_VERSION; then WIKZORD_NOT_JSON, or WIKZORD_NOT_CANONICAL.
 */
uint32_t wikzord_redaction(uint32_t version, const uint8_t *text, size_t text_len, uint8_t *out, size_t out_len, size_t *needed);

/*
 * The bytes of an event that its servers sign in a room of this version (Server-Server API, "Signing Events"). Sign and check them with Ed25519 of
 * your own.
 *
 * WIKZORD_BAD_VERSION; then WIKZORD_NOT_JSON, or WIKZORD_NOT_CANONICAL.
 */
uint32_t wikzord_signed_text(uint32_t version, const uint8_t *text, size_t text_len, uint8_t *out, size_t out_len, size_t *needed);

/*
 * The id of an event in a room of this version (room version 4, "Event IDs"): always 44 bytes.
 *
 * WIKZORD_BAD_VERSION; then WIKZORD_NOT_JSON, or WIKZORD_NOT_CANONICAL.
 */
uint32_t wikzord_event_id(uint32_t version, const uint8_t *text, size_t text_len, uint8_t *out, size_t out_len, size_t *needed);

/*
 * The content hash of an event (Server-Server API, "Calculating the content hash for an event"): always 43 bytes of unpadded base64.
 *
 * WIKZORD_NOT_JSON, or WIKZORD_NOT_CANONICAL.
 */
uint32_t wikzord_content_hash(const uint8_t *text, size_t text_len, uint8_t *out, size_t out_len, size_t *needed);

/*
 * The ids, in a room of this version, and the content hashes of several events, one behind another: 44 and 43 bytes each. The events stand one behind
 * another in `texts`, and `lens` has the length of each, of which there are `count`. A length past the end of `texts` stands for what is left there.
 *
 * WIKZORD_BAD_VERSION where a version is asked for; then WIKZORD_NOT_JSON, or WIKZORD_NOT_CANONICAL, of the first event that has no answer; the calls
 * for one event tell which it is.
 */
uint32_t wikzord_event_ids(uint32_t version, const uint8_t *texts, size_t texts_len, const size_t *lens, size_t count, uint8_t *out, size_t out_len,
                           size_t *needed);

uint32_t wikzord_content_hashes(const uint8_t *texts, size_t texts_len, const size_t *lens, size_t count, uint8_t *out, size_t out_len,
                                size_t *needed);

/*
 * Whether the hash that an event gives at `hashes.sha256` is its content hash.
 *
 * WIKZORD_NOT_JSON, or WIKZORD_NOT_CANONICAL; else WIKZORD_DONE where it is, and WIKZORD_HASH_DIFFERS where it is another or there is none.
 */
uint32_t wikzord_hash_fits(const uint8_t *text, size_t text_len);

/*
 * The first of the tests that an event fails (Server-Server API, "Checks performed on receipt of a PDU", check 1): WIKZORD_DONE where it
 * passes all. The tests in their order: WIKZORD_NOT_JSON, WIKZORD_NOT_CANONICAL, WIKZORD_TOO_DEEP, WIKZORD_WRONG_KIND of
 * WIKZORD_FIELD_EVENT, WIKZORD_EVENT_TOO_LARGE, WIKZORD_MISSING_FIELD, WIKZORD_WRONG_KIND, WIKZORD_FIELD_TOO_LONG, WIKZORD_TOO_MANY_IDS.
 *
 * The number of the field, a `wikzord_field`, is written to `*field` where the status is one of a field; else `*field` stays as it is.
 */
uint32_t wikzord_event_test(const uint8_t *text, size_t text_len, uint32_t *field);

/*
 * The text of the first test that an event fails, as a transaction's reply gives it, such as `missing field: sender`; no bytes where the
 * event passes all.
 */
uint32_t wikzord_event_error(const uint8_t *text, size_t text_len, uint8_t *out, size_t out_len, size_t *needed);

/*
 * At which types and state keys of a state the auth events of an event stand (Server-Server API, "Auth events selection"): the canonical text
 * of an array of arrays, each of a type and a state key, such as `[["m.room.create",""],["m.room.member","@u:a.example"]]`. Where a state has
 * nothing at one of them, there is no auth event for it; a key may stand there twice. They are the same in every version of rooms.
 *
 * The status of the first test that the event fails, as wikzord_event_test tells it.
 */
uint32_t wikzord_auth_selection(const uint8_t *text, size_t text_len, uint8_t *out, size_t out_len, size_t *needed);

/* ---- requests and transactions ---- */

/*
 * The bytes that are signed for a request (Server-Server API, "Request Authentication"): the canonical JSON of that section, by the request's
 * method, its target as it is written, the names of the server that sends and of the one that receives, and the value of its body, `content`,
 * which may stand there in any spacing and order of keys. Without a body give no bytes: then there is no content.
 *
 * WIKZORD_NOT_UTF8 where one of the four texts is not UTF-8; then WIKZORD_NOT_JSON, or WIKZORD_NOT_CANONICAL, where the body is no JSON text of whole
 * numbers.
 */
uint32_t wikzord_request_text(const uint8_t *method, size_t method_len, const uint8_t *target, size_t target_len,
                              const uint8_t *origin, size_t origin_len, const uint8_t *destination, size_t destination_len,
                              const uint8_t *content, size_t content_len, uint8_t *out, size_t out_len, size_t *needed);

/*
 * What the text of a request's Authorization field says by the scheme X-Matrix (Server-Server API, "Request Authentication"): the name of the
 * server that sends; the name of the one that it is sent to, or no bytes where the field names none; the name of the sender's key; and the
 * signature by this key, always 64 bytes.
 *
 * WIKZORD_NOT_UTF8, or WIKZORD_BAD_HEADER.
 */
uint32_t wikzord_x_matrix_origin(const uint8_t *header, size_t header_len, uint8_t *out, size_t out_len, size_t *needed);
uint32_t wikzord_x_matrix_destination(const uint8_t *header, size_t header_len, uint8_t *out, size_t out_len, size_t *needed);
uint32_t wikzord_x_matrix_key(const uint8_t *header, size_t header_len, uint8_t *out, size_t out_len, size_t *needed);
uint32_t wikzord_x_matrix_signature(const uint8_t *header, size_t header_len, uint8_t *out, size_t out_len, size_t *needed);

/*
 * The text of a request's Authorization field by the scheme X-Matrix, by the names of the server that sends, of the one that it is sent to and
 * of the sender's key, and by the signature, 64 bytes. Without a destination, no bytes, the field names none. The functions above read the
 * same parts in it.
 *
 * WIKZORD_NOT_UTF8 where a name is not UTF-8, else WIKZORD_BAD_SIGNATURE.
 */
uint32_t wikzord_x_matrix_header(const uint8_t *origin, size_t origin_len, const uint8_t *destination, size_t destination_len,
                                 const uint8_t *key, size_t key_len, const uint8_t *signature, size_t signature_len,
                                 uint8_t *out, size_t out_len, size_t *needed);

/*
 * The first fault of the body of a transaction (Server-Server API, "Transactions"), whose events are not tested: WIKZORD_DONE where it has
 * none; else the first of WIKZORD_BODY_TOO_LARGE, WIKZORD_NOT_JSON, WIKZORD_NOT_CANONICAL, WIKZORD_BAD_BODY, WIKZORD_TOO_MANY_PDUS and
 * WIKZORD_TOO_MANY_EDUS that is so.
 *
 * The number of the part, a `wikzord_part`, is written to `*part` where the status is WIKZORD_BAD_BODY; else `*part` stays as it is.
 */
uint32_t wikzord_transaction_test(const uint8_t *body, size_t body_len, uint32_t *part);

/*
 * The text of the first fault of the body of a transaction, as the `error` member of a standard error reply gives it, such as
 * `bad field: pdus`; no bytes where the body has none.
 */
uint32_t wikzord_transaction_error(const uint8_t *body, size_t body_len, uint8_t *out, size_t out_len, size_t *needed);

/*
 * The body of the reply to a transaction (Server-Server API, "Transactions"). The verdicts are a JSON object that has under the id of each
 * event a text: that of the error with which the event was refused, as wikzord_event_error gives it, or an empty one where it was taken.
 *
 * WIKZORD_NOT_JSON, or WIKZORD_NOT_CANONICAL; WIKZORD_BAD_VERDICTS where the value is no such object.
 */
uint32_t wikzord_reply(const uint8_t *verdicts, size_t verdicts_len, uint8_t *out, size_t out_len, size_t *needed);

/*
 * ---- rooms ----
 *
 * Each event that one of these is given passes the tests of wikzord_event_test and has a signature of its sender's server; whether signatures check
 * is the caller's to see before. Of an event whose content hash does not fit the redaction is looked at.
 *
 * `state` is an array of the events of a state of the room, in any order, of which no two stand at one type and state key. Of it they return
 * WIKZORD_NOT_JSON or WIKZORD_NOT_CANONICAL where it is no JSON text of whole numbers, WIKZORD_BAD_EVENTS where it is no array of such events, and
 * WIKZORD_BAD_STATE where one of them is no state event or two stand at one type and state key.
 *
 * A function that is given several arrays looks at one after another, in the order in which it tells what it returns.
 */

/*
 * Whether a room of this version allows an event (room versions 10 and 11, "Authorization rules"), by the state before it, or any other: no bytes
 * where it does, so that `*needed` is 0; else three bytes, the numbers of the rule that rejects it, of the rule's condition and of the condition's
 * branch, each 0 where there is none: 4, 3 and 7 for rule 4.3.7. Rule 2, on the auth events that the event names, is not looked at: that does
 * wikzord_allowed_by_auth_events. But by 2.4 a state without a create event rejects all but a create event. `authorised` tells whether the signatures
 * of other servers than the sender's have checked, which the rules ask of the server of `join_authorised_via_users_server`.
 *
 * Of the events of `state` those are enough that wikzord_auth_selection names, and the create event among them is taken for the first event of the
 * room.
 *
 * WIKZORD_BAD_VERSION; then what is so of `state`; then the status of the first test that the event fails, as wikzord_event_test tells it; then
 * WIKZORD_NOT_SIGNED.
 */
uint32_t wikzord_allowed(uint32_t version, const uint8_t *text, size_t text_len, const uint8_t *state, size_t state_len, bool authorised,
                         uint8_t *out, size_t out_len, size_t *needed);

/*
 * Whether an event is allowed by the auth events that it names in a room of this version (room versions 10 and 11, "Authorization rules";
 * Server-Server API, "Checks performed on receipt of a PDU", check 4): rule 2, and then the others by the state that these make. The answer, and
 * `authorised`, are as in wikzord_allowed.
 *
 * `auth_events` is an array of events, in any order, among which all are that the event names: others count for nothing. Each passes the tests of
 * wikzord_event_test and has a signature of its sender's server. `rejected` is an array of the ids of events that were rejected, by their auth
 * events or by the state before them (rule 2.3); an id of none of `auth_events` counts for nothing.
 *
 * WIKZORD_BAD_VERSION; then WIKZORD_NOT_JSON or WIKZORD_NOT_CANONICAL where `rejected` is no JSON text of whole numbers, WIKZORD_BAD_IDS where it is
 * no such array; then WIKZORD_NOT_JSON, WIKZORD_NOT_CANONICAL or WIKZORD_BAD_EVENTS where `auth_events` is none; then the status of the first test
 * that the event fails, as wikzord_event_test tells it; then WIKZORD_NOT_SIGNED; then WIKZORD_MISSING_EVENTS.
 */
uint32_t wikzord_allowed_by_auth_events(uint32_t version, const uint8_t *text, size_t text_len, const uint8_t *auth_events, size_t auth_events_len,
                                        const uint8_t *rejected, size_t rejected_len, bool authorised,
                                        uint8_t *out, size_t out_len, size_t *needed);

/*
 * The servers that an event goes to (Server-Server API, "PDUs"), by the state before it: the canonical text of an array of those of `servers`, in
 * their order, that have a user who is joined, without `own`, which is the name of the own server. `servers` is an array of names. Of the events of
 * `state` the member events are enough. It is the same in every version of rooms. It takes time for each event of the state and each server.
 *
 * WIKZORD_NOT_JSON or WIKZORD_NOT_CANONICAL where `servers` is no JSON text of whole numbers, WIKZORD_BAD_SERVERS where it is no such array; then
 * what is so of `state`.
 */
uint32_t wikzord_destinations(const uint8_t *state, size_t state_len, const uint8_t *servers, size_t servers_len,
                              const uint8_t *own, size_t own_len, uint8_t *out, size_t out_len, size_t *needed);

/*
 * The state that several states of a room of this version resolve to (room version 2, "State resolution"): the canonical text of an array of the ids
 * of its events, in the order of their types and, within a type, of their state keys.
 *
 * `events` is an array of events of the room, each behind the ones that it names as auth events, and none of them twice: those of the states and of
 * their auth chains are enough. Prev events need not stand there. `rejected` is an array of the ids of the events that were rejected, by their auth
 * events or by the state before them; an id of none of `events` counts for nothing. `states` is an array of states, each an array of ids: each of a
 * state event of `events`, and no two of events at one type and state key.
 *
 * WIKZORD_BAD_VERSION; then WIKZORD_NOT_JSON or WIKZORD_NOT_CANONICAL where `rejected` is no JSON text of whole numbers, WIKZORD_BAD_IDS where it is
 * no such array; then WIKZORD_NOT_JSON, WIKZORD_NOT_CANONICAL or WIKZORD_BAD_EVENTS where `events` is none; then WIKZORD_NOT_JSON,
 * WIKZORD_NOT_CANONICAL or WIKZORD_BAD_STATE where `states` is no array of states.
 */
uint32_t wikzord_resolve(uint32_t version, const uint8_t *events, size_t events_len, const uint8_t *rejected, size_t rejected_len,
                         const uint8_t *states, size_t states_len, uint8_t *out, size_t out_len, size_t *needed);

#ifdef __cplusplus
}
#endif

#endif
