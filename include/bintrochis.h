/* Bintrochis for C: a UDS client (ISO 14229-1) in which every call is proved. docs/C.md is its page, with the loop of a live client.
 *
 * A call is judged from what was heard: the caller sends the request that a call writes, gathers what came back with its times, and
 * calls again with these events; or it replays a recording. A task that cannot wait for a list of events begins a call and hands over
 * one event, or the time, in each of its cycles; what was decided so far is a state of numbers that the task keeps.
 * Nothing here sends, waits, allocates or keeps anything, so the functions may be called from any thread. No argument leads to anything
 * undefined, as long as each pointer has as many bytes behind it as its length says and what is written to overlaps nothing else. A
 * pointer with length 0 may be null; null with another length is misuse.
 *
 * The functions named bintrochis_door_.. are proved, in `crates/host` and the crates `.._door`; their `specs` have the definitions that they
 * equal. The crates `host_c` and `.._door_c` export them under the same promises. What this header adds has no proof: structs
 * in place of their arguments, inline, some 150 lines to read from "What the structs become" on.
 * The names of negative codes, for display, are in bintrochis_codes.h. */
#ifndef BINTROCHIS_H
#define BINTROCHIS_H

#include <stdbool.h>
#include <stddef.h>
#include <stdint.h>

#include "bintrochis_codes.h"

#ifdef __cplusplus
extern "C" {
#endif

/* The version of this header, 0.2.0, and the same number of the library that is linked. */
#define BINTROCHIS_VERSION_MAJOR 0
#define BINTROCHIS_VERSION_MINOR 2
#define BINTROCHIS_VERSION_PATCH 0
#define BINTROCHIS_VERSION (BINTROCHIS_VERSION_MAJOR * 10000 + BINTROCHIS_VERSION_MINOR * 100 + BINTROCHIS_VERSION_PATCH)
uint32_t bintrochis_version(void);

/* The calls, with what `value` is, whether there is a `sub`, and what `arguments` hold; data? may be absent. */
enum bintrochis_call_number {
    BINTROCHIS_CALL_REQUEST = 0,                  /* value SID; sub with BINTROCHIS_FLAG_SUB; data? */
    BINTROCHIS_CALL_DIAGNOSTIC_SESSION_CONTROL = 1, /* sub */
    BINTROCHIS_CALL_ECU_RESET = 2,                /* sub */
    BINTROCHIS_CALL_SECURITY_ACCESS = 3,          /* sub; data? */
    BINTROCHIS_CALL_TESTER_PRESENT = 4,
    BINTROCHIS_CALL_READ_MEMORY_BY_ADDRESS = 5,   /* address, size */
    BINTROCHIS_CALL_WRITE_MEMORY_BY_ADDRESS = 6,  /* address, size, data */
    BINTROCHIS_CALL_READ_DATA_BY_IDENTIFIER = 7,  /* value identifier */
    BINTROCHIS_CALL_WRITE_DATA_BY_IDENTIFIER = 8, /* value identifier; data */
    BINTROCHIS_CALL_READ_DTC_INFORMATION = 9,     /* value mask: the number of faults by status mask */
    BINTROCHIS_CALL_ROUTINE_CONTROL = 10,         /* value identifier; sub; data? */
    BINTROCHIS_CALL_REQUEST_DOWNLOAD = 11,        /* value compression x 256 + encryption; address, size */
    BINTROCHIS_CALL_REQUEST_UPLOAD = 12,          /* the same */
    BINTROCHIS_CALL_TRANSFER_DATA = 13,           /* value block counter; data? */
    BINTROCHIS_CALL_REQUEST_TRANSFER_EXIT = 14,   /* data? */
    BINTROCHIS_CALL_READ_DTC_INFORMATION_DTC = 15 /* value mask: the faults by status mask, as availability mask and records of four bytes */
};

/* Flags. The first four suit every call. */
enum bintrochis_flag {
    BINTROCHIS_FLAG_STRICT = 1,
    BINTROCHIS_FLAG_SERVER_TIMING = 2, /* call 1 may set P2 and P2* */
    BINTROCHIS_FLAG_SUPPRESSED = 4,    /* the suppressed client calls: bit 7 of the sub-function is set */
    BINTROCHIS_FLAG_OVERALL = 8,       /* the overall timeout `overall` holds */
    BINTROCHIS_FLAG_SUB = 16,          /* call 0 only: it has a sub-function */
    BINTROCHIS_FLAG_DATA = 32          /* data is present, be it of no bytes; calls 6 and 8 need it, those with data? may have it, no other */
};

/* What is asked. All that a call does not use is 0; {0} is no address, no limit, lenient. */
struct bintrochis_ask {
    uint8_t call;  /* a bintrochis_call_number */
    uint8_t flags; /* of bintrochis_flag, added up */
    uint16_t value;
    uint8_t sub;
    uint8_t address_length, size_length; /* how many of the argument bytes are address and size; data is behind them */
    bool limited;                        /* there is a limit of notices: the one after `limit` of them ends the call, which with a */
    uint8_t limit;                       /* limit finishes by P2 + limit x P2* */
    bool addressed;                      /* events have a source address; without it they have BINTROCHIS_EVENT bytes and all come from 0 */
    uint16_t listens;                    /* the address listened to: a reply from another is counted, and passed over whatever it says */
    uint32_t overall;                    /* in milliseconds */
    const uint8_t *arguments;
    size_t arguments_length;
};

/* Address and size as numbers, each with a width in bytes: 1 to 8 or, if `wide`, 1 to 15, padded with zeros on the left. */
struct bintrochis_memory {
    uint64_t address, size;
    size_t address_width, size_width;
    bool wide;
};

/* The session's timing, in milliseconds. */
struct bintrochis_session {
    uint32_t p2, p2_star;
};

/* What a call is lent: the session, which it leaves as the next call finds it; room for the request; what was heard. */
struct bintrochis_lent {
    struct bintrochis_session session;
    uint8_t *request;
    size_t request_length;
    const uint8_t *events;
    size_t events_length;
    const uint8_t *replies;
    size_t replies_length;
};

/* No request is longer, and no reply. */
#define BINTROCHIS_LONGEST_REQUEST 4095
#define BINTROCHIS_LONGEST_REPLY 4095

/* What was heard. Times never fall; at most 512 events, of these kinds; a reply has at most 4,095 bytes and lies in the reply bytes, from
 * whatever address it comes. A list that breaks one of these is refused (10). */
enum bintrochis_kind {
    BINTROCHIS_KIND_REPLY = 0,
    BINTROCHIS_KIND_IDLE = 1,
    BINTROCHIS_KIND_END = 2,
    BINTROCHIS_KIND_ERROR = 3
};

struct bintrochis_event {
    uint32_t time; /* in milliseconds since sending */
    uint16_t kind; /* a bintrochis_kind */
    uint16_t offset, length; /* a reply's place in the reply bytes; a transport error's number in place of the length; else 0 */
    uint16_t source; /* the address that a reply comes from; else 0 */
};

/* An event in a list has so many bytes, big-endian: time, kind, offset, length, and in an addressed list the source. */
#define BINTROCHIS_EVENT 10
#define BINTROCHIS_ADDRESSED_EVENT 12

/* What a call answers. */
struct bintrochis_answer {
    uint64_t outcome;        /* a bintrochis_outcome */
    uint64_t detail;         /* a negative's code, a transport error's, a deviation's or a refusal's number; else 0 */
    uint64_t least;          /* deviation 8: the least length that the reply may have; else 0 */
    uint64_t most;           /* and the greatest; BINTROCHIS_NO_MAXIMUM: there is none. Call 15 also wants 3 plus a multiple of 4 */
    uint64_t time;           /* the finishing time, in milliseconds since sending; under a refusal 0 */
    uint64_t events;         /* how many events were read, the one that settled the call included, and replies from other addresses */
    uint64_t notices;        /* and how many of these were wait notices, negatives of code 78 */
    uint64_t data_at;        /* the data that a positive hands out: where in the reply bytes; else 0 */
    uint64_t data_length;
    uint64_t reply_at;       /* the reply that settled the call: where in the reply bytes; 0, of length 0, if none did */
    uint64_t reply_length;
    uint64_t block_length;   /* calls 11 and 12, answered positive: the block length that they return; else 0 */
    uint64_t p2, p2_star;    /* the session's timing afterwards, in milliseconds */
    uint64_t request_length; /* how many bytes are sent, those at the front of `request`; under a refusal 0 */
};

#define BINTROCHIS_NO_MAXIMUM UINT64_MAX

enum bintrochis_outcome {
    BINTROCHIS_OUTCOME_POSITIVE = 0,
    BINTROCHIS_OUTCOME_SUPPRESSED = 1, /* silence, which was asked for */
    BINTROCHIS_OUTCOME_NEGATIVE = 2,
    BINTROCHIS_OUTCOME_TIMEOUT = 3,
    BINTROCHIS_OUTCOME_DISCONNECTED = 4,
    BINTROCHIS_OUTCOME_TRANSPORT = 5,
    BINTROCHIS_OUTCOME_DEVIATION = 6, /* strict: the reply breaks a rule, a bintrochis_deviation */
    BINTROCHIS_OUTCOME_LENGTH = 7,    /* lenient: the reply is too short to read */
    BINTROCHIS_OUTCOME_OVERFLOW = 8,  /* calls 11 and 12: a block length above 2^64 - 1 */
    BINTROCHIS_OUTCOME_REFUSED = 9,   /* nothing to send, a bintrochis_refusal; request and timing are untouched */
    BINTROCHIS_OUTCOME_PENDING_LIMIT = 10, /* under a limit of K notices: the one after the K-th, which is counted and settled the call */
    BINTROCHIS_OUTCOME_WAITING = 11        /* a state's alone: its call has not settled */
};

/* What a strict reply must not be, in the order of the Rust's enum. */
enum bintrochis_deviation {
    BINTROCHIS_DEVIATION_SERVICE_ID = 1,
    BINTROCHIS_DEVIATION_REQUEST_SERVICE_ID = 2,
    BINTROCHIS_DEVIATION_SUB_FUNCTION = 3,
    BINTROCHIS_DEVIATION_UNEXPECTED_POSITIVE_RESPONSE = 4,
    BINTROCHIS_DEVIATION_DATA_IDENTIFIER = 5,
    BINTROCHIS_DEVIATION_ROUTINE_IDENTIFIER = 6,
    BINTROCHIS_DEVIATION_BLOCK_SEQUENCE_COUNTER = 7,
    BINTROCHIS_DEVIATION_RESPONSE_LENGTH = 8,
    BINTROCHIS_DEVIATION_LENGTH_FORMAT = 9,
    BINTROCHIS_DEVIATION_LENGTH_FORMAT_IDENTIFIER = 10,
    BINTROCHIS_DEVIATION_MAX_NUMBER_OF_BLOCK_LENGTH = 11,
    BINTROCHIS_DEVIATION_ADDRESS_AND_LENGTH_FORMAT_IDENTIFIER = 12,
    BINTROCHIS_DEVIATION_MEMORY_ADDRESS = 13,
    BINTROCHIS_DEVIATION_MEMORY_SIZE = 14,
    BINTROCHIS_DEVIATION_MEMORY_RECORD_LENGTH = 15
};

/* Why nothing was done. */
enum bintrochis_refusal {
    BINTROCHIS_REFUSAL_KEY_WITHOUT_DATA = 1, /* call 3, an even sub-function, data absent */
    BINTROCHIS_REFUSAL_ADDRESS_LENGTH = 2,   /* outside 1 to 15 */
    BINTROCHIS_REFUSAL_SIZE_LENGTH = 3,
    BINTROCHIS_REFUSAL_COMPRESSION = 4, /* above 15 */
    BINTROCHIS_REFUSAL_ENCRYPTION = 5,
    BINTROCHIS_REFUSAL_WIDTH = 6,           /* of bintrochis_memory: outside 1 to 8, or 1 to 15 if wide */
    BINTROCHIS_REFUSAL_VALUE_TOO_WIDE = 7,  /* of bintrochis_memory: it needs more bytes than its width */
    BINTROCHIS_REFUSAL_REQUEST_TOO_LONG = 8, /* more than 4,095 bytes */
    BINTROCHIS_REFUSAL_NO_ROOM = 9,         /* the request buffer is shorter than the request */
    BINTROCHIS_REFUSAL_EVENTS = 10,         /* the list breaks a limit; one event: a kind that there is not, a reply of more than 4,095 bytes
                                               or outside the reply bytes, a source on another kind, an event behind 512. Ticks go on */
    BINTROCHIS_REFUSAL_BLOCK_LENGTH = 11,   /* below 3 */
    BINTROCHIS_REFUSAL_BLOCK_NUMBER = 12,   /* there is no such block */
    BINTROCHIS_REFUSAL_REPLY_ROOM = 13,     /* the reply buffer is shorter than the reply */
    BINTROCHIS_REFUSAL_GOING_BACK = 20,     /* earlier than the last step that was taken */
    BINTROCHIS_REFUSAL_SETTLED = 21         /* it has settled, and the answer stands */
};

/* What the functions return, or a bintrochis_refusal where they say so. */
enum bintrochis_result {
    BINTROCHIS_RESULT_DONE = 0,
    BINTROCHIS_RESULT_MISUSE = 1 /* the numbers ask no call, and nothing was touched. This is so when and only when
                                    - call is above 15, or with a bintrochis_memory none of 5, 6, 11 and 12;
                                    - a flag does not suit the call, or one that it needs is missing;
                                    - a field that the call does not use is not 0 (value, sub, lengths, overall), or value is above 255 for
                                      calls 0, 9, 13, 15; with a bintrochis_memory also sub and both lengths;
                                    - listens is not 0 without addressed;
                                    - there are fewer argument bytes than the two lengths say, or more without BINTROCHIS_FLAG_DATA;
                                    - a pointer is null and its length is not 0. */
};

/* One event at a time. A state, 28 numbers in 224 bytes, holds all that is known of a call; the host keeps one for each controller that it
 * talks to. There is no pointer in it.
 * - Once the call has settled `answer` is its answer: the one that bintrochis_call gives for the same events. Places in the reply bytes are in
 *   those that were lent with the event that settled it. Whatever the outcome is but BINTROCHIS_OUTCOME_WAITING, no step is taken.
 * - While it waits, that is the outcome; `events` and `notices` count what was read so far, `p2`, `p2_star` and `request_length` hold what they
 *   did at the beginning, `time` is the deadline, in milliseconds since sending, and the others are 0. What comes at the deadline is in time. */
struct bintrochis_state {
    struct bintrochis_answer answer;
    uint64_t last;                 /* the time of the last step that was taken, an event or a tick */
    uint64_t hush;                 /* while it waits: 1 where silence up to the deadline is what was asked for; else 0 */
    uint64_t events_to_overall;    /* while it waits: of the events read, those at times up to the overall timeout; else 0 */
    uint64_t notices_to_overall;   /* and of the notices */
    uint64_t call, flags, value, sub, overall, limit, listens; /* what was asked; 65535 is no limit */
    uint64_t address_width, size_width; /* how many bytes address and size have in the request */
};

/* A block of a download: the counter that it is sent with, where in the data it begins, how long it is. */
struct bintrochis_block {
    uint64_t counter, at, length;
};

/* No line is longer. */
#define BINTROCHIS_LONGEST_LINE 8222

/* There is no such fault. */
#define BINTROCHIS_NO_FAULT SIZE_MAX

/* The proved functions. A slice is a pointer, never null, and a length, which has 64 bits on every processor: so it is in the proved module, also
 * where size_t has 32. `limit` is 0 to 255, or 65535 for none; 256 to 65534 are misuse. */
uint8_t bintrochis_door_call(uint8_t call, uint8_t flags, uint16_t value, uint8_t sub, uint8_t address_length, uint8_t size_length, uint32_t p2,
                             uint32_t p2_star, uint32_t overall, uint16_t limit, bool addressed, uint16_t listens, const uint8_t *arguments,
                             uint64_t arguments_length, uint8_t *request, uint64_t request_length, const uint8_t *events, uint64_t events_length,
                             const uint8_t *replies, uint64_t replies_length, uint64_t *answer);
uint8_t bintrochis_door_call_alfid(uint8_t call, uint8_t flags, uint16_t value, uint64_t address, uint64_t size, uint64_t address_width,
                                   uint64_t size_width, bool wide, uint32_t p2, uint32_t p2_star, uint32_t overall, uint16_t limit,
                                   bool addressed, uint16_t listens, const uint8_t *data, uint64_t data_length, uint8_t *request,
                                   uint64_t request_length, const uint8_t *events, uint64_t events_length, const uint8_t *replies,
                                   uint64_t replies_length, uint64_t *answer);
uint8_t bintrochis_door_begin(uint8_t call, uint8_t flags, uint16_t value, uint8_t sub, uint8_t address_length, uint8_t size_length, uint32_t p2,
                              uint32_t p2_star, uint32_t overall, uint16_t limit, uint16_t listens, const uint8_t *arguments,
                              uint64_t arguments_length, uint8_t *request, uint64_t request_length, uint64_t *state);
uint8_t bintrochis_door_begin_alfid(uint8_t call, uint8_t flags, uint16_t value, uint64_t address, uint64_t size, uint64_t address_width,
                                    uint64_t size_width, bool wide, uint32_t p2, uint32_t p2_star, uint32_t overall, uint16_t limit,
                                    uint16_t listens, const uint8_t *data, uint64_t data_length, uint8_t *request, uint64_t request_length,
                                    uint64_t *state);
uint8_t bintrochis_door_event(uint64_t *state, const uint8_t *request, uint64_t request_length, uint32_t time, uint16_t kind, uint16_t offset,
                              uint16_t length, uint16_t source, const uint8_t *replies, uint64_t replies_length);
uint8_t bintrochis_door_tick(uint64_t *state, uint64_t now);
uint64_t bintrochis_door_line(const uint8_t *log, uint64_t log_length, uint8_t *line, uint64_t line_length);
uint8_t bintrochis_door_block(const uint8_t *data, uint64_t data_length, uint64_t block_length, uint64_t k, uint64_t *block);
uint64_t bintrochis_door_faults(uint8_t mask, const uint8_t *records, uint64_t records_length);
uint64_t bintrochis_door_fault(uint8_t mask, const uint8_t *records, uint64_t records_length, uint64_t k);
uint8_t bintrochis_door_respond(uint8_t *store, uint64_t store_length, const uint8_t *request, uint64_t request_length, uint8_t *reply,
                                uint64_t reply_length, uint64_t *length);

/* What the structs become. A struct of numbers has an array's layout. */
typedef char bintrochis_answer_has_15_numbers[sizeof(struct bintrochis_answer) == 15 * sizeof(uint64_t) ? 1 : -1];
typedef char bintrochis_state_has_28_numbers[sizeof(struct bintrochis_state) == 28 * sizeof(uint64_t) ? 1 : -1];
typedef char bintrochis_block_has_3_numbers[sizeof(struct bintrochis_block) == 3 * sizeof(uint64_t) ? 1 : -1];

/* Null with length 0 becomes a place of no bytes. */
static inline bool bintrochis_lacks(const void *bytes, size_t length) { return bytes == NULL && length != 0; }

static inline const uint8_t *bintrochis_read(const uint8_t *bytes) {
    static const uint8_t none[1] = {0};
    return bytes == NULL ? none : bytes;
}

static inline uint8_t *bintrochis_written(uint8_t *bytes) {
    static uint8_t none[1];
    return bytes == NULL ? none : bytes;
}

static inline uint16_t bintrochis_limit(const struct bintrochis_ask *ask) { return ask->limited ? ask->limit : UINT16_MAX; }

static inline bool bintrochis_unlent(const struct bintrochis_ask *ask, const struct bintrochis_lent *lent) {
    return bintrochis_lacks(ask->arguments, ask->arguments_length) || bintrochis_lacks(lent->request, lent->request_length) ||
           bintrochis_lacks(lent->events, lent->events_length) || bintrochis_lacks(lent->replies, lent->replies_length);
}

/* In the alfid form there are no bytes of address and size. */
static inline bool bintrochis_has_bytes(const struct bintrochis_ask *ask) {
    return ask->sub != 0 || ask->address_length != 0 || ask->size_length != 0;
}

static inline uint8_t bintrochis_keep(struct bintrochis_lent *lent, const struct bintrochis_answer *answer, uint8_t result) {
    if (result == BINTROCHIS_RESULT_DONE) {
        lent->session.p2 = (uint32_t)answer->p2;
        lent->session.p2_star = (uint32_t)answer->p2_star;
    }
    return result;
}

/* Any call. With no events it says what to send, at the front of `lent->request`; with what was heard, the answer. BINTROCHIS_RESULT_DONE:
 * the answer stands, and the session is what the next call finds. BINTROCHIS_RESULT_MISUSE: nothing was touched. */
static inline uint8_t bintrochis_call(const struct bintrochis_ask *ask, struct bintrochis_lent *lent, struct bintrochis_answer *answer) {
    if (bintrochis_unlent(ask, lent)) {
        return BINTROCHIS_RESULT_MISUSE;
    }
    return bintrochis_keep(
        lent, answer,
        bintrochis_door_call(ask->call, ask->flags, ask->value, ask->sub, ask->address_length, ask->size_length, lent->session.p2,
                             lent->session.p2_star, ask->overall, bintrochis_limit(ask), ask->addressed, ask->listens,
                             bintrochis_read(ask->arguments), ask->arguments_length, bintrochis_written(lent->request),
                             lent->request_length, bintrochis_read(lent->events), lent->events_length, bintrochis_read(lent->replies),
                             lent->replies_length, (uint64_t *)(void *)answer));
}

/* Calls 5, 6, 11 and 12 with address and size as numbers; the argument bytes are data. Refusals 6 and 7 come from here alone. */
static inline uint8_t bintrochis_call_alfid(const struct bintrochis_ask *ask, const struct bintrochis_memory *memory,
                                            struct bintrochis_lent *lent, struct bintrochis_answer *answer) {
    if (bintrochis_unlent(ask, lent) || bintrochis_has_bytes(ask)) {
        return BINTROCHIS_RESULT_MISUSE;
    }
    return bintrochis_keep(
        lent, answer,
        bintrochis_door_call_alfid(ask->call, ask->flags, ask->value, memory->address, memory->size, memory->address_width,
                                   memory->size_width, memory->wide, lent->session.p2, lent->session.p2_star, ask->overall,
                                   bintrochis_limit(ask), ask->addressed, ask->listens, bintrochis_read(ask->arguments),
                                   ask->arguments_length, bintrochis_written(lent->request), lent->request_length,
                                   bintrochis_read(lent->events), lent->events_length, bintrochis_read(lent->replies),
                                   lent->replies_length, (uint64_t *)(void *)answer));
}

/* Begins any call: of what is lent, the session and the request. The events will always have a source, so `addressed` plays no part; for a
 * controller alone on its channel `listens` is 0, and so are the sources.
 * BINTROCHIS_RESULT_DONE: the request to send stands at the front of `lent->request`, and the state waits until P2 is over. Or the call is
 * refused, by 1 to 9: then the state has settled with BINTROCHIS_OUTCOME_REFUSED, and the request is untouched. */
static inline uint8_t bintrochis_begin(const struct bintrochis_ask *ask, const struct bintrochis_lent *lent, struct bintrochis_state *state) {
    if (bintrochis_unlent(ask, lent)) {
        return BINTROCHIS_RESULT_MISUSE;
    }
    return bintrochis_door_begin(ask->call, ask->flags, ask->value, ask->sub, ask->address_length, ask->size_length, lent->session.p2,
                                 lent->session.p2_star, ask->overall, bintrochis_limit(ask), ask->listens, bintrochis_read(ask->arguments),
                                 ask->arguments_length, bintrochis_written(lent->request), lent->request_length, (uint64_t *)(void *)state);
}

/* The same for calls 5, 6, 11 and 12 with address and size as numbers. */
static inline uint8_t bintrochis_begin_alfid(const struct bintrochis_ask *ask, const struct bintrochis_memory *memory,
                                             const struct bintrochis_lent *lent, struct bintrochis_state *state) {
    if (bintrochis_unlent(ask, lent) || bintrochis_has_bytes(ask)) {
        return BINTROCHIS_RESULT_MISUSE;
    }
    return bintrochis_door_begin_alfid(ask->call, ask->flags, ask->value, memory->address, memory->size, memory->address_width,
                                       memory->size_width, memory->wide, lent->session.p2, lent->session.p2_star, ask->overall,
                                       bintrochis_limit(ask), ask->listens, bintrochis_read(ask->arguments), ask->arguments_length,
                                       bintrochis_written(lent->request), lent->request_length, (uint64_t *)(void *)state);
}

/* Hands over one event. Of what is lent: the request that was sent, since calls 5 and 6 compare with the address and the size there; and the
 * reply bytes, for this event alone. BINTROCHIS_RESULT_DONE: it was taken. It is read, and may settle the call; past the deadline or the overall
 * timeout it settles the call as a tick would, and is not read. Refusal 21, 10 or 20, the first that holds: the state stays, and the engine goes
 * on from where it was. BINTROCHIS_RESULT_MISUSE: the state waits, but its numbers ask no call, so no begin wrote it; it stays too. */
static inline uint8_t bintrochis_event(struct bintrochis_state *state, const struct bintrochis_lent *lent, const struct bintrochis_event *event) {
    if (bintrochis_lacks(lent->request, lent->request_length) || bintrochis_lacks(lent->replies, lent->replies_length)) {
        return BINTROCHIS_RESULT_MISUSE;
    }
    return bintrochis_door_event((uint64_t *)(void *)state, bintrochis_read(lent->request), lent->request_length, event->time, event->kind,
                                 event->offset, event->length, event->source, bintrochis_read(lent->replies), lent->replies_length);
}

/* Says the time: `now` is in milliseconds since sending. Past the deadline or the overall timeout, not at it, this settles the call. What it
 * returns is as for an event, but for refusal 10. */
static inline uint8_t bintrochis_tick(struct bintrochis_state *state, uint64_t now) {
    return bintrochis_door_tick((uint64_t *)(void *)state, now);
}

static inline bool bintrochis_waits(const struct bintrochis_state *state) { return state->answer.outcome == BINTROCHIS_OUTCOME_WAITING; }

/* Writes an event of a list, and gives its length: BINTROCHIS_ADDRESSED_EVENT if `addressed`, else BINTROCHIS_EVENT, and then without its source. */
static inline size_t bintrochis_put_event(uint8_t *list, bool addressed, struct bintrochis_event event) {
    const uint16_t fields[] = {(uint16_t)(event.time >> 16), (uint16_t)(event.time & 0xffff), event.kind, event.offset, event.length, event.source};
    const size_t bytes = addressed ? BINTROCHIS_ADDRESSED_EVENT : BINTROCHIS_EVENT;
    for (size_t i = 0; i < bytes; i++) {
        list[i] = (uint8_t)(i % 2 == 0 ? fields[i / 2] >> 8 : fields[i / 2] & 0xff);
    }
    return bytes;
}

/* The data that a positive hands out, `answer->data_length` bytes of the reply bytes. */
static inline const uint8_t *bintrochis_data(const struct bintrochis_lent *lent, const struct bintrochis_answer *answer) {
    return bintrochis_read(lent->replies) + answer->data_at;
}

/* The word that a log's line begins with, for an outcome. */
static inline const char *bintrochis_outcome_word(uint64_t outcome) {
    static const char *const words[] = {"positive",  "suppressed", "negative", "timeout", "disconnected", "transport",
                                        "deviation", "length",     "overflow", "refused", "pendinglimit", "waiting"};
    return outcome < sizeof words / sizeof *words ? words[outcome] : "";
}

/* The line that `udslog` prints of a log, at the front of `line`: how long it is, with its newline and without an end of string. 0 where there
 * is no room, and nothing is touched; BINTROCHIS_LONGEST_LINE bytes always have room. */
static inline size_t bintrochis_line(const uint8_t *log, size_t log_length, char *line, size_t line_length) {
    if (bintrochis_lacks(log, log_length) || line == NULL) {
        return 0;
    }
    return (size_t)bintrochis_door_line(bintrochis_read(log), log_length, (uint8_t *)(void *)line, line_length);
}

/* Block k, from 0, of `data` under the block length that call 11 returned. BINTROCHIS_RESULT_DONE: it stands in `block`. Refusal 11 or 12: `block`
 * stays. */
static inline uint8_t bintrochis_block(const uint8_t *data, size_t data_length, uint64_t block_length, uint64_t k, struct bintrochis_block *block) {
    if (bintrochis_lacks(data, data_length)) {
        return BINTROCHIS_RESULT_MISUSE;
    }
    return bintrochis_door_block(bintrochis_read(data), data_length, block_length, k, (uint64_t *)(void *)block);
}

/* How many of the records that call 15 hands out, behind the availability mask, have a status that shares a bit with the mask. */
static inline size_t bintrochis_faults(uint8_t mask, const uint8_t *records, size_t records_length) {
    return bintrochis_lacks(records, records_length) ? 0 : (size_t)bintrochis_door_faults(mask, bintrochis_read(records), records_length);
}

/* Where the k-th of them, from 0, begins: three bytes of code, then the status. BINTROCHIS_NO_FAULT: there are not so many. The records are read
 * up to it; who wants them all asks for the 0-th of those behind the last one. */
static inline size_t bintrochis_fault(uint8_t mask, const uint8_t *records, size_t records_length, size_t k) {
    if (bintrochis_lacks(records, records_length)) {
        return BINTROCHIS_NO_FAULT;
    }
    /* a place lies within the records, so a size_t holds it; all ones, for none, become BINTROCHIS_NO_FAULT */
    return (size_t)bintrochis_door_fault(mask, bintrochis_read(records), records_length, k);
}

/* The reply of a controller on the bench, whose store is as for `udsbench`. BINTROCHIS_RESULT_DONE: it has `*length` bytes at the front of
 * `reply`; 0 is silence, which was asked for. Refusal 13: nothing was touched. A write changes the store. */
static inline uint8_t bintrochis_respond(uint8_t *store, size_t store_length, const uint8_t *request, size_t request_length, uint8_t *reply,
                                         size_t reply_length, size_t *length) {
    uint64_t told = 0;
    if (bintrochis_lacks(store, store_length) || bintrochis_lacks(request, request_length) || bintrochis_lacks(reply, reply_length)) {
        return BINTROCHIS_RESULT_MISUSE;
    }
    const uint8_t result = bintrochis_door_respond(bintrochis_written(store), store_length, bintrochis_read(request), request_length,
                                                   bintrochis_written(reply), reply_length, &told);
    if (result == BINTROCHIS_RESULT_DONE) {
        *length = (size_t)told;
    }
    return result;
}

#ifdef __cplusplus
}
#endif

#endif
