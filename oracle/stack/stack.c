/* stack LOGS: how much stack the proved library takes from each log of a file (each after its length as u32, big-endian) to its line; how much
 * one whole call takes, for each log whose numbers ask a call, and for the alfid forms of calls 5, 6, 11 and 12; and how much it takes to begin
 * each such call and to hand over its events and a tick, one at a time. Compiled with RUST, and linked with oracle/stack/rust, also how much a
 * function of a host in Rust takes that does each of these through the bindings: its own frame, with the answer or the engine that it is given, and
 * all that it stands on.
 *
 * A call runs on a stack of its own that was painted before; what it left unpainted is counted, once for each of two paints. What an
 * empty function takes in its place is subtracted. To be linked statically: a dynamic linker looks up the library's functions of C in the
 * first call that needs them, on that call's stack. */
#include <stdint.h>
#include <stdio.h>
#include <stdlib.h>
#include <string.h>
#include <ucontext.h>

#include "bintrochis.h"

enum { ROOM = 1 << 18, HEADER = 36 }; /* the header of version 1; that of version 2 has one byte more */

static _Alignas(64) unsigned char stack[ROOM];
static ucontext_t here, there;
static void (*body)(void);

/* What a call is given. */
static const uint8_t *header, *arguments, *events, *replies;
static size_t argument_count, event_bytes, reply_count;
static bool addressed;
static uint8_t request[BINTROCHIS_LONGEST_REQUEST], result;
enum { NUMBERS = sizeof(struct bintrochis_answer) / sizeof(uint64_t), STATE = sizeof(struct bintrochis_state) / sizeof(uint64_t) };
static uint64_t answer[NUMBERS];

/* The state that a step begins from, and what becomes of it. */
static uint64_t before[STATE], state[STATE];

static size_t u16_at(const uint8_t *p) { return (size_t)p[0] << 8 | p[1]; }
static uint32_t u32_at(const uint8_t *p) { return (uint32_t)u16_at(p) << 16 | (uint32_t)u16_at(p + 2); }

static void nothing(void) {}

static size_t log_length;
static uint8_t text[BINTROCHIS_LONGEST_LINE];

static void to_its_line(void) {
    bintrochis_door_line(header, log_length, text, sizeof text);
    result = BINTROCHIS_RESULT_DONE;
}

static void in_bytes(void) {
    const uint8_t *times = header + 24 + addressed;
    const uint16_t listens = addressed ? (uint16_t)u16_at(header + 9) : header[9];
    result = bintrochis_door_call(header[2], header[3], (uint16_t)u16_at(header + 4), header[6], header[7], header[8], u32_at(times),
                             u32_at(times + 4), u32_at(times + 8), UINT16_MAX, addressed, listens, arguments, argument_count,
                             request, sizeof request, events, event_bytes, replies, reply_count, answer);
}

static void begins(void) {
    const uint8_t *times = header + 24 + addressed;
    result = bintrochis_door_begin(header[2], header[3], (uint16_t)u16_at(header + 4), header[6], header[7], header[8], u32_at(times),
                              u32_at(times + 4), u32_at(times + 8), UINT16_MAX, addressed ? (uint16_t)u16_at(header + 9) : 0, arguments,
                              argument_count, request, sizeof request, state);
}

/* Of the events the first. */
static void hands_over(void) {
    result = bintrochis_door_event(state, request, sizeof request, u32_at(events), (uint16_t)u16_at(events + 4), (uint16_t)u16_at(events + 6),
                              (uint16_t)u16_at(events + 8), addressed ? (uint16_t)u16_at(events + 10) : 0, replies, reply_count);
}

static void ticks(void) { result = bintrochis_door_tick(state, UINT64_MAX); }

static void in_numbers(void) {
    result = bintrochis_door_call_alfid(header[2], header[3], header[2] > 10 ? 0x0102 : 0, 0x0102030405060708, 0x1112131415161718, 8, 8, false, 50,
                                   5000, 0, UINT16_MAX, false, 0, arguments, argument_count, request, sizeof request, events,
                                   event_bytes, replies, reply_count, answer);
}

static void begins_in_numbers(void) {
    result = bintrochis_door_begin_alfid(header[2], header[3], header[2] > 10 ? 0x0102 : 0, 0x0102030405060708, 0x1112131415161718, 8, 8, false, 50,
                                    5000, 0, UINT16_MAX, 0, arguments, argument_count, request, sizeof request, state);
}

#ifdef RUST
bool rust_takes(const uint8_t *log, size_t length);
void rust_answers(void);
void rust_begins(void);
void rust_hands_over(void);
void rust_ticks(void);
#endif

static void enter(void) { body(); }

static size_t taken_with(unsigned char paint) {
    memset(stack, paint, sizeof stack);
    getcontext(&there);
    there.uc_stack.ss_sp = stack;
    there.uc_stack.ss_size = sizeof stack;
    there.uc_link = &here;
    makecontext(&there, enter, 0);
    memcpy(state, before, sizeof state);
    swapcontext(&here, &there);
    size_t left = 0;
    while (left < sizeof stack && stack[left] == paint) {
        left++;
    }
    return sizeof stack - left;
}

static size_t taken(void (*of)(void)) {
    body = of;
    const size_t one = taken_with(0xa5), other = taken_with(0x5a);
    return one > other ? one : other;
}

/* What was measured of a kind of call. */
enum { MOST = 1 << 18 };
struct taken {
    const char *name;
    size_t count;
    size_t sizes[MOST];
};
static struct taken calls = {.name = "calls with bytes"}, alfid_calls = {.name = "alfid forms"}, begun = {.name = "begun with bytes"},
                    alfid_begun = {.name = "begun in alfid forms"}, lines = {.name = "from log to line"}, handed = {.name = "events handed over"}, ticked = {.name = "ticks"};
#ifdef RUST
static struct taken rust_calls = {.name = "Rust, calls without memory"}, rust_memory = {.name = "Rust, calls with address and size in bytes"},
                    rust_begun = {.name = "Rust, begun without memory"}, rust_handed = {.name = "Rust, events handed over"},
                    rust_ticked = {.name = "Rust, ticks"};
#endif

static size_t empty; /* what an empty function takes */

/* Runs it, and counts it unless it is misuse; a step goes on from the state that the one before left. */
static void measure(struct taken *kind, void (*of)(void)) {
    const size_t bytes = taken(of);
    memcpy(before, state, sizeof before);
    if (result != BINTROCHIS_RESULT_MISUSE && kind->count < MOST) {
        kind->sizes[kind->count++] = bytes - empty;
    }
}

/* Begins the call and hands over its events one at a time, and then a tick. */
static void measure_steps(struct taken *kind, void (*begin)(void)) {
    const size_t step = addressed ? BINTROCHIS_ADDRESSED_EVENT : BINTROCHIS_EVENT, all = event_bytes;
    measure(kind, begin);
    for (; event_bytes >= step && before[0] == BINTROCHIS_OUTCOME_WAITING; event_bytes -= step, events += step) {
        measure(&handed, hands_over);
    }
    events -= all - event_bytes;
    event_bytes = all;
    measure(&ticked, ticks);
}

static int by_size(const void *a, const void *b) {
    const size_t x = *(const size_t *)a, y = *(const size_t *)b;
    return (x > y) - (x < y);
}

static void say(struct taken *kind) {
    if (kind->count > 0) {
        qsort(kind->sizes, kind->count, sizeof *kind->sizes, by_size);
        printf("%s: %zu; largest %zu bytes, middle %zu, smallest %zu\n", kind->name, kind->count, kind->sizes[kind->count - 1],
               kind->sizes[kind->count / 2], kind->sizes[0]);
    }
}

int main(int count, char **words) {
    if (count != 2) {
        fprintf(stderr, "stack LOGS\n");
        return 2;
    }
    FILE *file = fopen(words[1], "rb");
    if (!file) {
        fprintf(stderr, "%s cannot be read.\n", words[1]);
        return 2;
    }
    enum { LONGEST = 1 << 17 };
    static uint8_t length[4], log[LONGEST];
    empty = taken(nothing);
    while (fread(length, 1, 4, file) == 4) {
        const size_t size = u32_at(length);
        if (size > LONGEST || fread(log, 1, size, file) != size) {
            fprintf(stderr, "%s ends within a log.\n", words[1]);
            return 2;
        }
        header = log;
        log_length = size;
        measure(&lines, to_its_line);
        addressed = size > 1 && u16_at(log) == 2;
        const size_t fixed = HEADER + addressed;
        if (size < fixed) {
            continue;
        }
        argument_count = u16_at(log + 10 + addressed);
        event_bytes = u16_at(log + 14 + addressed) * (addressed ? BINTROCHIS_ADDRESSED_EVENT : BINTROCHIS_EVENT);
        reply_count = u16_at(log + 18 + addressed);
        if (fixed + argument_count + event_bytes + reply_count != size) {
            continue;
        }
        arguments = log + fixed;
        events = arguments + argument_count;
        replies = events + event_bytes;
        measure(&calls, in_bytes);
        if (result == BINTROCHIS_RESULT_DONE) {
            measure_steps(&begun, begins);
#ifdef RUST
            const bool plain = rust_takes(log, size);
            measure(plain ? &rust_calls : &rust_memory, rust_answers);
            if (plain) {
                measure(&rust_begun, rust_begins);
                measure(&rust_handed, rust_hands_over);
                measure(&rust_ticked, rust_ticks);
            }
#endif
        }
    }
    fclose(file);
    if (calls.count == 0) {
        fprintf(stderr, "No log of %s asks a call.\n", words[1]);
        return 2;
    }

    static const uint8_t four[] = {5, 6, 11, 12};
    static uint8_t data[4000], heard[BINTROCHIS_EVENT] = {0, 0, 0, 10, 0, 0, 0, 0, 0, 4}, said[] = {0x7f, 0x22, 0x33, 0};
    static uint8_t fields[HEADER];
    addressed = false;
    for (size_t i = 0; i < sizeof four; i++) {
        for (uint8_t strict = 0; strict < 2; strict++) {
            fields[2] = four[i];
            fields[3] = (uint8_t)(strict | (four[i] == 6 ? BINTROCHIS_FLAG_DATA : 0));
            header = fields;
            arguments = data;
            argument_count = four[i] == 6 ? sizeof data : 0;
            events = heard;
            event_bytes = sizeof heard;
            replies = said;
            reply_count = sizeof said;
            measure(&alfid_calls, in_numbers);
            measure_steps(&alfid_begun, begins_in_numbers);
        }
    }
    say(&lines);
    say(&calls);
    say(&alfid_calls);
    say(&begun);
    say(&alfid_begun);
    say(&handed);
    say(&ticked);
#ifdef RUST
    say(&rust_calls);
    say(&rust_memory);
    say(&rust_begun);
    say(&rust_handed);
    say(&rust_ticked);
#endif
    return 0;
}
