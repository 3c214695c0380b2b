/* A controller that says wait without end, under limits of notices: the one after the K-th ends the call, with address and size as bytes and as
 * numbers. */
#include <stdio.h>

#include "bintrochis.h"

/* 7F 23 78 at 20, 1000 and 2000 ms, then silence. */
static const uint8_t replies[] = {0x7f, 0x23, 0x78};
static const uint8_t events[] = {
    0, 0, 0x00, 0x14, 0, BINTROCHIS_KIND_REPLY, 0, 0, 0, 3,
    0, 0, 0x03, 0xe8, 0, BINTROCHIS_KIND_REPLY, 0, 0, 0, 3,
    0, 0, 0x07, 0xd0, 0, BINTROCHIS_KIND_REPLY, 0, 0, 0, 3,
};
/* Address 2000, size 4. */
static const uint8_t bytes[] = {0x20, 0x00, 0x04};
static const struct bintrochis_memory memory = {.address = 0x2000, .size = 4, .address_width = 2, .size_width = 1};

static bool asked(bool limited, uint8_t limit, bool alfid, struct bintrochis_answer *answer) {
    uint8_t request[16];
    struct bintrochis_ask ask = {
        .call = BINTROCHIS_CALL_READ_MEMORY_BY_ADDRESS, .flags = BINTROCHIS_FLAG_STRICT, .limited = limited, .limit = limit};
    struct bintrochis_lent lent = {{50, 5000}, request, sizeof request, events, sizeof events, replies, sizeof replies};
    if (alfid) {
        return bintrochis_call_alfid(&ask, &memory, &lent, answer) == BINTROCHIS_RESULT_DONE;
    }
    ask.address_length = 2;
    ask.size_length = 1;
    ask.arguments = bytes;
    ask.arguments_length = sizeof bytes;
    return bintrochis_call(&ask, &lent, answer) == BINTROCHIS_RESULT_DONE;
}

static bool say(const char *name, bool limited, uint8_t limit) {
    for (int alfid = 0; alfid < 2; alfid++) {
        struct bintrochis_answer answer;
        if (!asked(limited, limit, alfid, &answer)) {
            return false;
        }
        printf("%s %s: %s at %llu ms, events %u, notices %u\n", alfid ? "alfid" : "bytes", name, bintrochis_outcome_word(answer.outcome),
               (unsigned long long)answer.time, (unsigned)answer.events, (unsigned)answer.notices);
    }
    return true;
}

int main(void) { return !(say("0", true, 0) && say("1", true, 1) && say("2", true, 2) && say("3", true, 3) && say("255", true, 255) && say("none", false, 0)); }
