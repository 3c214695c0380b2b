/* Reads the hoist's count, 16 bits, strict. The controller asks for patience first: 7F 22 78 is no result, and starts the longer clock. */
#include <stdio.h>

#include "bintrochis.h"

int main(void) {
    const struct bintrochis_ask ask = {
        .call = BINTROCHIS_CALL_READ_DATA_BY_IDENTIFIER,
        .flags = BINTROCHIS_FLAG_STRICT | BINTROCHIS_FLAG_SERVER_TIMING,
        .value = 0x2101,
    };
    uint8_t request[BINTROCHIS_LONGEST_REQUEST];
    struct bintrochis_lent lent = {.session = {.p2 = 50, .p2_star = 5000}, .request = request, .request_length = sizeof request};
    struct bintrochis_answer answer;

    /* With nothing heard yet, the call says what to send. */
    if (bintrochis_call(&ask, &lent, &answer) != BINTROCHIS_RESULT_DONE) {
        return 1;
    }
    printf("send");
    for (uint64_t i = 0; i < answer.request_length; i++) {
        printf(" %02x", request[i]);
    }
    printf("\n");

    /* What came back: at 20 ms the first three reply bytes, at 900 ms the other five. */
    const uint8_t replies[] = {0x7f, 0x22, 0x78, 0x62, 0x21, 0x01, 0x03, 0xe8};
    uint8_t events[2 * BINTROCHIS_EVENT];
    lent.events_length = bintrochis_put_event(events, false, (struct bintrochis_event){.time = 20, .length = 3});
    lent.events_length +=
        bintrochis_put_event(events + lent.events_length, false, (struct bintrochis_event){.time = 900, .offset = 3, .length = 5});
    lent.events = events;
    lent.replies = replies;
    lent.replies_length = sizeof replies;
    if (bintrochis_call(&ask, &lent, &answer) != BINTROCHIS_RESULT_DONE) {
        return 1;
    }
    if (answer.outcome != BINTROCHIS_OUTCOME_POSITIVE || answer.data_length != 2) {
        printf("no count: %s at %llu ms\n", bintrochis_outcome_word(answer.outcome), (unsigned long long)answer.time);
        return 0;
    }
    const uint8_t *data = bintrochis_data(&lent, &answer);
    printf("count %d at %llu ms, after %u notice of %u events\n", data[0] * 256 + data[1], (unsigned long long)answer.time,
           (unsigned)answer.notices, (unsigned)answer.events);
    return 0;
}
