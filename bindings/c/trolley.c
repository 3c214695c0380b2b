/* Hoist and trolley answer on one channel, and a late count of the trolley's comes before the hoist's. Who listens to the hoist's address
 * hears the hoist alone, with bytes and with numbers: the trolley's reply is passed over, and counted among the events read. Without addresses it
 * stands as the hoist's. An address listened to, where events have none, asks no call. */
#include <stdio.h>

#include "bintrochis.h"

enum { HOIST = 0x7e8, TROLLEY = 0x7e9 };

/* At 8 ms 63 07 D0 from 7E9, the trolley: 2,000. At 15 ms 63 03 E8 from 7E8, the hoist: 1,000. */
static const uint8_t replies[] = {0x63, 0x07, 0xd0, 0x63, 0x03, 0xe8};
static const uint8_t addressed[] = {
    0, 0, 0, 8,  0, BINTROCHIS_KIND_REPLY, 0, 0, 0, 3, 0x07, 0xe9,
    0, 0, 0, 15, 0, BINTROCHIS_KIND_REPLY, 0, 3, 0, 3, 0x07, 0xe8,
};
static const uint8_t plain[] = {
    0, 0, 0, 8,  0, BINTROCHIS_KIND_REPLY, 0, 0, 0, 3,
    0, 0, 0, 15, 0, BINTROCHIS_KIND_REPLY, 0, 3, 0, 3,
};

/* The count: address 2000, size 2, as bytes and as numbers. */
static const uint8_t bytes[] = {0x20, 0x00, 0x02};
static const struct bintrochis_memory memory = {.address = 0x2000, .size = 2, .address_width = 2, .size_width = 1};

struct heard {
    const char *name;
    bool addressed;
    uint16_t listens;
    const uint8_t *events;
    size_t length;
};
static const struct heard cases[] = {
    {"hoist", true, HOIST, addressed, sizeof addressed},
    {"hoist, the trolley silent", true, HOIST, addressed + BINTROCHIS_ADDRESSED_EVENT, BINTROCHIS_ADDRESSED_EVENT},
    {"trolley", true, TROLLEY, addressed, sizeof addressed},
    {"address 0", true, 0, addressed, sizeof addressed},
    {"no addresses", false, 0, plain, sizeof plain},
    {"no addresses, but the hoist's listened to", false, HOIST, plain, sizeof plain},
};

static uint8_t asked(struct heard heard, bool alfid, struct bintrochis_answer *answer) {
    uint8_t request[16];
    struct bintrochis_ask ask = {
        .call = BINTROCHIS_CALL_READ_MEMORY_BY_ADDRESS,
        .flags = BINTROCHIS_FLAG_STRICT,
        .addressed = heard.addressed,
        .listens = heard.listens,
    };
    struct bintrochis_lent lent = {{50, 5000}, request, sizeof request, heard.events, heard.length, replies, sizeof replies};
    if (alfid) {
        return bintrochis_call_alfid(&ask, &memory, &lent, answer);
    }
    ask.address_length = 2;
    ask.size_length = 1;
    ask.arguments = bytes;
    ask.arguments_length = sizeof bytes;
    return bintrochis_call(&ask, &lent, answer);
}

static void say(struct heard heard, bool alfid) {
    struct bintrochis_answer answer;
    printf("%s %s: ", alfid ? "alfid" : "bytes", heard.name);
    if (asked(heard, alfid, &answer) != BINTROCHIS_RESULT_DONE) {
        printf("misuse\n");
        return;
    }
    if (answer.outcome == BINTROCHIS_OUTCOME_POSITIVE && answer.data_length == 2) {
        const uint8_t *data = replies + answer.data_at;
        printf("count %d", data[0] * 256 + data[1]);
    } else {
        printf("%s", bintrochis_outcome_word(answer.outcome));
    }
    printf(" at %llu ms, events %u\n", (unsigned long long)answer.time, (unsigned)answer.events);
}

int main(void) {
    for (size_t i = 0; i < sizeof cases / sizeof *cases; i++) {
        say(cases[i], false);
        say(cases[i], true);
    }
    return 0;
}
