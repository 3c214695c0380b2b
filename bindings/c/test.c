/* What the header adds, and each refusal and misuse, through its structs; valid as C11 and as C++17. Prints what failed and how much passed. */
#include <stdio.h>
#include <string.h>

#include "bintrochis.h"

static int passed, failed;

static void check(bool right, const char *what, int line) {
    if (right) {
        passed++;
    } else {
        failed++;
        printf("test.c:%d: %s\n", line, what);
    }
}
#define CHECK(right) check((right), #right, __LINE__)

static const uint8_t some[5000] = {0x20, 0x00, 0x04};
static uint8_t request[BINTROCHIS_LONGEST_REQUEST];
static uint8_t events[514 * BINTROCHIS_EVENT];
static struct bintrochis_answer answer;

static struct bintrochis_ask asks(uint8_t call, uint16_t value) {
    struct bintrochis_ask ask;
    memset(&ask, 0, sizeof ask);
    ask.call = call;
    ask.flags = BINTROCHIS_FLAG_STRICT | BINTROCHIS_FLAG_SERVER_TIMING;
    ask.value = value;
    return ask;
}

static struct bintrochis_lent lends(void) {
    struct bintrochis_lent lent;
    memset(&lent, 0, sizeof lent);
    lent.session.p2 = 50;
    lent.session.p2_star = 5000;
    lent.request = request;
    lent.request_length = sizeof request;
    return lent;
}

static struct bintrochis_event replied(uint32_t time, uint16_t offset, uint16_t length) {
    struct bintrochis_event event;
    memset(&event, 0, sizeof event);
    event.time = time;
    event.offset = offset;
    event.length = length;
    return event;
}

/* One reply at 20 ms. */
static struct bintrochis_lent heard(const uint8_t *reply, size_t length) {
    struct bintrochis_lent lent = lends();
    lent.events = events;
    lent.events_length = bintrochis_put_event(events, false, replied(20, 0, (uint16_t)length));
    lent.replies = reply;
    lent.replies_length = length;
    return lent;
}

static const uint8_t address_and_size[] = {0x20, 0x00, 0x04};

static struct bintrochis_ask memory_asks(uint8_t address_length, uint8_t size_length) {
    struct bintrochis_ask ask = asks(BINTROCHIS_CALL_READ_MEMORY_BY_ADDRESS, 0);
    ask.address_length = address_length;
    ask.size_length = size_length;
    ask.arguments = some;
    ask.arguments_length = (size_t)address_length + size_length;
    return ask;
}

static struct bintrochis_memory memory_of(uint64_t address, uint64_t size, size_t address_width, size_t size_width, bool wide) {
    struct bintrochis_memory memory;
    memset(&memory, 0, sizeof memory);
    memory.address = address;
    memory.size = size;
    memory.address_width = address_width;
    memory.size_width = size_width;
    memory.wide = wide;
    return memory;
}

static bool refused(uint64_t number) {
    return answer.outcome == BINTROCHIS_OUTCOME_REFUSED && answer.detail == number && answer.time == 0 && answer.request_length == 0;
}

static void versions(void) {
    CHECK(bintrochis_version() == BINTROCHIS_VERSION);
    CHECK(BINTROCHIS_VERSION == 200);
}

/* Null with length 0, wherever a pointer is lent. */
static void null_of_no_bytes(void) {
    struct bintrochis_ask ask = asks(BINTROCHIS_CALL_TESTER_PRESENT, 0);
    struct bintrochis_lent lent = lends();
    CHECK(bintrochis_call(&ask, &lent, &answer) == BINTROCHIS_RESULT_DONE && answer.outcome == BINTROCHIS_OUTCOME_TIMEOUT);
    CHECK(answer.request_length == 2 && request[0] == 0x3e && request[1] == 0);
    lent.request = NULL;
    lent.request_length = 0;
    CHECK(bintrochis_call(&ask, &lent, &answer) == BINTROCHIS_RESULT_DONE && refused(BINTROCHIS_REFUSAL_NO_ROOM));
    CHECK(bintrochis_data(&lent, &answer) != NULL);
    char line[BINTROCHIS_LONGEST_LINE];
    const size_t length = bintrochis_line(NULL, 0, line, sizeof line);
    CHECK(length == 15 && memcmp(line, "badlog 0 0 0 -\n", length) == 0);
    CHECK(bintrochis_line(NULL, 0, line, 14) == 0);
    CHECK(bintrochis_line(NULL, 0, NULL, 0) == 0);
    struct bintrochis_block block = {7, 7, 7};
    CHECK(bintrochis_block(NULL, 0, 6, 0, &block) == BINTROCHIS_REFUSAL_BLOCK_NUMBER && block.counter == 7);
    CHECK(bintrochis_faults(0xff, NULL, 0) == 0 && bintrochis_fault(0xff, NULL, 0, 0) == BINTROCHIS_NO_FAULT);
    size_t replied_length = 7;
    CHECK(bintrochis_respond(NULL, 0, NULL, 0, NULL, 0, &replied_length) == BINTROCHIS_RESULT_DONE && replied_length == 0);
}

/* The call and the begin of what asks no call: nothing is touched. */
static void misuse_is(const struct bintrochis_ask *ask, bool begins_too, int line) {
    struct bintrochis_state state;
    struct bintrochis_lent lent = lends();
    memset(request, 0xa5, sizeof request);
    memset(&answer, 0xa5, sizeof answer);
    memset(&state, 0xa5, sizeof state);
    const uint8_t called = bintrochis_call(ask, &lent, &answer);
    check(called == BINTROCHIS_RESULT_MISUSE, "the call is misuse", line);
    check(request[0] == 0xa5 && (answer.outcome & 0xff) == 0xa5 && lent.session.p2 == 50, "the call touches nothing", line);
    const uint8_t begun = bintrochis_begin(ask, &lent, &state);
    check(begun == (begins_too ? BINTROCHIS_RESULT_MISUSE : BINTROCHIS_RESULT_DONE), "beginning it", line);
    check(!begins_too || (request[0] == 0xa5 && (state.answer.outcome & 0xff) == 0xa5), "beginning it touches nothing", line);
}

static void misuse(void) {
    struct bintrochis_ask ask = asks(16, 0);
    misuse_is(&ask, true, __LINE__);
    ask = asks(BINTROCHIS_CALL_READ_DATA_BY_IDENTIFIER, 0x2101);
    ask.flags = 64;
    misuse_is(&ask, true, __LINE__);
    ask.flags = BINTROCHIS_FLAG_DATA;
    misuse_is(&ask, true, __LINE__);
    ask.flags = BINTROCHIS_FLAG_SUB;
    misuse_is(&ask, true, __LINE__);
    ask = asks(BINTROCHIS_CALL_WRITE_DATA_BY_IDENTIFIER, 0x2101); /* it needs data */
    misuse_is(&ask, true, __LINE__);
    ask = asks(BINTROCHIS_CALL_READ_DATA_BY_IDENTIFIER, 0x2101);
    ask.sub = 1;
    misuse_is(&ask, true, __LINE__);
    ask.sub = 0;
    ask.overall = 1;
    misuse_is(&ask, true, __LINE__);
    ask.overall = 0;
    ask.listens = 0x7e8; /* without addressed; an engine's events always have a source */
    misuse_is(&ask, false, __LINE__);
    ask = asks(BINTROCHIS_CALL_TRANSFER_DATA, 256);
    misuse_is(&ask, true, __LINE__);
    ask = memory_asks(2, 1);
    ask.arguments_length = 2;
    misuse_is(&ask, true, __LINE__);
    ask.arguments_length = 4;
    misuse_is(&ask, true, __LINE__);
    ask.arguments = NULL;
    ask.arguments_length = 3;
    misuse_is(&ask, true, __LINE__);
    ask = asks(BINTROCHIS_CALL_TESTER_PRESENT, 0);
    struct bintrochis_lent lent = lends();
    lent.request = NULL;
    CHECK(bintrochis_call(&ask, &lent, &answer) == BINTROCHIS_RESULT_MISUSE);
    lent = lends();
    lent.replies_length = 1;
    CHECK(bintrochis_call(&ask, &lent, &answer) == BINTROCHIS_RESULT_MISUSE);
    lent = lends();
    lent.events_length = 1;
    CHECK(bintrochis_call(&ask, &lent, &answer) == BINTROCHIS_RESULT_MISUSE);
    struct bintrochis_state state;
    memset(&state, 0, sizeof state);
    state.answer.outcome = BINTROCHIS_OUTCOME_WAITING;
    state.call = 16;
    CHECK(bintrochis_tick(&state, 1) == BINTROCHIS_RESULT_MISUSE);
}

/* Address and size as numbers are those of the bytes. */
static void alfid(void) {
    static const uint8_t record[] = {0x63, 1, 2, 3, 4};
    struct bintrochis_ask ask = asks(BINTROCHIS_CALL_READ_MEMORY_BY_ADDRESS, 0);
    struct bintrochis_memory memory = memory_of(0x2000, 4, 2, 1, false);
    struct bintrochis_lent lent = heard(record, sizeof record);
    CHECK(bintrochis_call_alfid(&ask, &memory, &lent, &answer) == BINTROCHIS_RESULT_DONE);
    CHECK(answer.outcome == BINTROCHIS_OUTCOME_POSITIVE && answer.data_length == 4 && bintrochis_data(&lent, &answer)[3] == 4);
    static const uint8_t sent[] = {0x23, 0x12, 0x20, 0x00, 0x04};
    CHECK(answer.request_length == sizeof sent && memcmp(request, sent, sizeof sent) == 0);
    struct bintrochis_ask in_bytes = memory_asks(2, 1);
    in_bytes.arguments = address_and_size;
    CHECK(bintrochis_call(&in_bytes, &lent, &answer) == BINTROCHIS_RESULT_DONE && memcmp(request, sent, sizeof sent) == 0);
    memory = memory_of(0x2000, 4, 9, 1, true);
    CHECK(bintrochis_call_alfid(&ask, &memory, &lent, &answer) == BINTROCHIS_RESULT_DONE && answer.request_length == 12);
    CHECK(request[1] == 0x19 && request[2] == 0 && request[9] == 0x20 && request[11] == 4);
    struct bintrochis_state state;
    CHECK(bintrochis_begin_alfid(&ask, &memory, &lent, &state) == BINTROCHIS_RESULT_DONE && bintrochis_waits(&state));
    CHECK(state.address_width == 9 && state.size_width == 1);
    /* no other call has this form, and neither lengths nor a sub-function stand beside it */
    struct bintrochis_ask other = asks(BINTROCHIS_CALL_READ_DATA_BY_IDENTIFIER, 0x2101);
    CHECK(bintrochis_call_alfid(&other, &memory, &lent, &answer) == BINTROCHIS_RESULT_MISUSE);
    CHECK(bintrochis_call_alfid(&in_bytes, &memory, &lent, &answer) == BINTROCHIS_RESULT_MISUSE);
    CHECK(bintrochis_begin_alfid(&in_bytes, &memory, &lent, &state) == BINTROCHIS_RESULT_MISUSE);
    ask.sub = 1;
    CHECK(bintrochis_call_alfid(&ask, &memory, &lent, &answer) == BINTROCHIS_RESULT_MISUSE);
}

/* The session that call 1 leaves is the next call's. */
static void session_kept(void) {
    static const uint8_t granted[] = {0x50, 0x03, 0x00, 0x19, 0x01, 0xf4};
    struct bintrochis_ask ask = asks(BINTROCHIS_CALL_DIAGNOSTIC_SESSION_CONTROL, 0);
    ask.sub = 3;
    struct bintrochis_lent lent = heard(granted, sizeof granted);
    CHECK(bintrochis_call(&ask, &lent, &answer) == BINTROCHIS_RESULT_DONE && answer.outcome == BINTROCHIS_OUTCOME_POSITIVE);
    CHECK(lent.session.p2 == 25 && lent.session.p2_star == 5000 && answer.p2 == 25);
    lent.events_length = 0;
    ask = asks(BINTROCHIS_CALL_TESTER_PRESENT, 0);
    CHECK(bintrochis_call(&ask, &lent, &answer) == BINTROCHIS_RESULT_DONE && answer.time == 25);
    ask.sub = 1; /* misuse, and the session stays */
    CHECK(bintrochis_call(&ask, &lent, &answer) == BINTROCHIS_RESULT_MISUSE && lent.session.p2 == 25);
}

/* Each refusal of a call; request and session are untouched. */
static void refuses(const struct bintrochis_ask *ask, const struct bintrochis_memory *memory, size_t room, uint8_t number, int line) {
    struct bintrochis_lent lent = lends();
    lent.request_length = room;
    if (number == BINTROCHIS_REFUSAL_EVENTS) {
        lent.events = events;
        lent.events_length = 513 * BINTROCHIS_EVENT;
    }
    memset(request, 0xa5, sizeof request);
    const uint8_t result = memory ? bintrochis_call_alfid(ask, memory, &lent, &answer) : bintrochis_call(ask, &lent, &answer);
    check(result == BINTROCHIS_RESULT_DONE && refused(number), "the refusal", line);
    check(request[0] == 0xa5 && lent.session.p2 == 50 && lent.session.p2_star == 5000, "nothing is touched", line);
    if (number != BINTROCHIS_REFUSAL_EVENTS) {
        struct bintrochis_state state;
        const uint8_t begun = memory ? bintrochis_begin_alfid(ask, memory, &lent, &state) : bintrochis_begin(ask, &lent, &state);
        check(begun == BINTROCHIS_RESULT_DONE && !bintrochis_waits(&state) && state.answer.detail == number, "begun, it has settled", line);
        check(bintrochis_tick(&state, 1) == BINTROCHIS_REFUSAL_SETTLED, "and takes no step", line);
    }
}

static void refusals(void) {
    struct bintrochis_ask ask = asks(BINTROCHIS_CALL_SECURITY_ACCESS, 0);
    ask.sub = 2;
    refuses(&ask, NULL, sizeof request, BINTROCHIS_REFUSAL_KEY_WITHOUT_DATA, __LINE__);
    ask = memory_asks(16, 1);
    refuses(&ask, NULL, sizeof request, BINTROCHIS_REFUSAL_ADDRESS_LENGTH, __LINE__);
    ask = memory_asks(1, 0);
    refuses(&ask, NULL, sizeof request, BINTROCHIS_REFUSAL_SIZE_LENGTH, __LINE__);
    const struct bintrochis_memory good = memory_of(0x2000, 4, 2, 1, false);
    ask = asks(BINTROCHIS_CALL_REQUEST_DOWNLOAD, 0x1000);
    refuses(&ask, &good, sizeof request, BINTROCHIS_REFUSAL_COMPRESSION, __LINE__);
    ask = asks(BINTROCHIS_CALL_REQUEST_UPLOAD, 0x0010);
    refuses(&ask, &good, sizeof request, BINTROCHIS_REFUSAL_ENCRYPTION, __LINE__);
    ask = asks(BINTROCHIS_CALL_READ_MEMORY_BY_ADDRESS, 0);
    struct bintrochis_memory memory = memory_of(1, 1, 9, 1, false);
    refuses(&ask, &memory, sizeof request, BINTROCHIS_REFUSAL_WIDTH, __LINE__);
    memory = memory_of(1, 1, 1, 16, true);
    refuses(&ask, &memory, sizeof request, BINTROCHIS_REFUSAL_WIDTH, __LINE__);
    memory = memory_of(256, 1, 1, 1, false);
    refuses(&ask, &memory, sizeof request, BINTROCHIS_REFUSAL_VALUE_TOO_WIDE, __LINE__);
    ask = asks(BINTROCHIS_CALL_TRANSFER_DATA, 1);
    ask.flags |= BINTROCHIS_FLAG_DATA;
    ask.arguments = some;
    ask.arguments_length = 4094;
    refuses(&ask, NULL, sizeof request, BINTROCHIS_REFUSAL_REQUEST_TOO_LONG, __LINE__);
    ask = asks(BINTROCHIS_CALL_READ_DATA_BY_IDENTIFIER, 0x2101);
    refuses(&ask, NULL, 2, BINTROCHIS_REFUSAL_NO_ROOM, __LINE__);
    memset(events, 0, sizeof events);
    refuses(&ask, NULL, 3, BINTROCHIS_REFUSAL_EVENTS, __LINE__);
}

/* One event at a time: what is refused leaves every number as it was. */
static void steps(void) {
    static const uint8_t notice_and_count[] = {0x7f, 0x22, 0x78, 0x62, 0x21, 0x01, 0x03, 0xe8};
    struct bintrochis_ask ask = asks(BINTROCHIS_CALL_READ_DATA_BY_IDENTIFIER, 0x2101);
    ask.listens = 0x7e8;
    ask.limited = true;
    ask.limit = 1;
    struct bintrochis_lent lent = lends();
    struct bintrochis_state state;
    CHECK(bintrochis_begin(&ask, &lent, &state) == BINTROCHIS_RESULT_DONE && bintrochis_waits(&state) && state.answer.time == 50);
    CHECK(state.limit == 1 && state.listens == 0x7e8 && state.answer.request_length == 3);
    lent.replies = notice_and_count;
    lent.replies_length = sizeof notice_and_count;
    struct bintrochis_event event = replied(20, 0, 3);
    event.source = 0x7e8;
    CHECK(bintrochis_event(&state, &lent, &event) == BINTROCHIS_RESULT_DONE && state.answer.time == 5020 && state.answer.notices == 1);
    const struct bintrochis_state before = state;
    event.time = 19;
    CHECK(bintrochis_event(&state, &lent, &event) == BINTROCHIS_REFUSAL_GOING_BACK);
    CHECK(bintrochis_tick(&state, 19) == BINTROCHIS_REFUSAL_GOING_BACK);
    event.length = 9;
    CHECK(bintrochis_event(&state, &lent, &event) == BINTROCHIS_REFUSAL_EVENTS);
    event.kind = 4;
    CHECK(bintrochis_event(&state, &lent, &event) == BINTROCHIS_REFUSAL_EVENTS);
    CHECK(memcmp(&before, &state, sizeof state) == 0);
    event = replied(900, 3, 5);
    event.source = 0x7e8;
    CHECK(bintrochis_event(&state, &lent, &event) == BINTROCHIS_RESULT_DONE && state.answer.outcome == BINTROCHIS_OUTCOME_POSITIVE);
    CHECK(state.answer.data_at == 6 && state.answer.data_length == 2 && state.answer.events == 2);
    CHECK(bintrochis_event(&state, &lent, &event) == BINTROCHIS_REFUSAL_SETTLED && bintrochis_tick(&state, 9999) == BINTROCHIS_REFUSAL_SETTLED);
    lent.replies = NULL;
    CHECK(bintrochis_event(&state, &lent, &event) == BINTROCHIS_RESULT_MISUSE);
}

static void blocks_and_faults(void) {
    static const uint8_t ten[10] = {0, 1, 2, 3, 4, 5, 6, 7, 8, 9};
    struct bintrochis_block block = {7, 7, 7};
    CHECK(bintrochis_block(ten, sizeof ten, 2, 0, &block) == BINTROCHIS_REFUSAL_BLOCK_LENGTH && block.length == 7);
    CHECK(bintrochis_block(ten, sizeof ten, 6, 3, &block) == BINTROCHIS_REFUSAL_BLOCK_NUMBER && block.length == 7);
    CHECK(bintrochis_block(ten, sizeof ten, 6, 2, &block) == BINTROCHIS_RESULT_DONE);
    CHECK(block.counter == 3 && block.at == 8 && block.length == 2);
    CHECK(bintrochis_block(some, sizeof some, 3, 255, &block) == BINTROCHIS_RESULT_DONE && block.counter == 0 && block.at == 255);
    static const uint8_t records[] = {1, 2, 3, 0x08, 4, 5, 6, 0x01, 7, 8, 9, 0x09, 0xff};
    CHECK(bintrochis_faults(0x08, records, sizeof records) == 2);
    CHECK(bintrochis_fault(0x08, records, sizeof records, 0) == 0 && bintrochis_fault(0x08, records, sizeof records, 1) == 8);
    CHECK(bintrochis_fault(0x08, records, sizeof records, 2) == BINTROCHIS_NO_FAULT);
    CHECK(strcmp(bintrochis_code_name(0x31), "RequestOutOfRange") == 0 && bintrochis_code_name(0)[0] == 0);
    CHECK(strcmp(bintrochis_outcome_word(BINTROCHIS_OUTCOME_PENDING_LIMIT), "pendinglimit") == 0);
    CHECK(strcmp(bintrochis_outcome_word(BINTROCHIS_OUTCOME_WAITING), "waiting") == 0 && bintrochis_outcome_word(12)[0] == 0);
}

/* Both ends: what the client sends, the controller on the bench answers. A store of no bytes answers tester present alone. */
static void both_ends(void) {
    uint8_t store[1] = {0};
    uint8_t reply[8] = {0};
    size_t length = 7;
    struct bintrochis_ask ask = asks(BINTROCHIS_CALL_TESTER_PRESENT, 0);
    struct bintrochis_lent lent = lends();
    CHECK(bintrochis_call(&ask, &lent, &answer) == BINTROCHIS_RESULT_DONE);
    CHECK(bintrochis_respond(store, 0, request, (size_t)answer.request_length, reply, sizeof reply, &length) == BINTROCHIS_RESULT_DONE);
    lent = heard(reply, length);
    CHECK(length == 2 && bintrochis_call(&ask, &lent, &answer) == BINTROCHIS_RESULT_DONE && answer.outcome == BINTROCHIS_OUTCOME_POSITIVE);
    ask.flags |= BINTROCHIS_FLAG_SUPPRESSED;
    lent.events_length = 0;
    CHECK(bintrochis_call(&ask, &lent, &answer) == BINTROCHIS_RESULT_DONE && request[1] == 0x80);
    CHECK(bintrochis_respond(store, 0, request, (size_t)answer.request_length, reply, sizeof reply, &length) == BINTROCHIS_RESULT_DONE && length == 0);
    CHECK(bintrochis_respond(store, 0, request, 1, reply, 2, &length) == BINTROCHIS_REFUSAL_REPLY_ROOM && length == 0);
}

int main(void) {
    versions();
    null_of_no_bytes();
    misuse();
    alfid();
    session_kept();
    refusals();
    steps();
    blocks_and_faults();
    both_ends();
    printf("%d passed, %d failed\n", passed, failed);
    return failed != 0;
}
