/* A control task that runs every 10 ms and cannot wait for a list of events. It asks hoist and trolley for their counts and keeps a state for
 * each. In every cycle each state gets one call: an event if one is there, else a tick. The hoist says wait, and its count comes late, within
 * the longer time. The trolley says nothing, and a tick past its deadline settles that; the hoist's replies, which the channel brings to both,
 * are passed over. */
#include <stdio.h>
#include <string.h>

#include "bintrochis.h"

enum { CYCLE = 10, ROOM = 8, P2 = 50, P2_STAR = 5000 };

/* What the channel brings: at 23 ms 7F 22 78 from the hoist, and at 897 ms its count, 1,000. */
static const struct message {
    uint32_t time;
    uint16_t source;
    uint16_t length;
    uint8_t bytes[ROOM];
} channel[] = {
    {23, 0x7e8, 3, {0x7f, 0x22, 0x78}},
    {897, 0x7e8, 5, {0x62, 0x21, 0x01, 0x03, 0xe8}},
};
enum { MESSAGES = sizeof channel / sizeof *channel };

/* What the task keeps for a controller. */
static struct controller {
    const char *name;
    uint16_t address;
    size_t heard; /* messages handed over */
    uint8_t request[ROOM];
    struct bintrochis_state state;
} controllers[] = {{.name = "hoist", .address = 0x7e8}, {.name = "trolley", .address = 0x7e9}};
enum { CONTROLLERS = sizeof controllers / sizeof *controllers };

static bool waits(const struct controller *c) { return bintrochis_waits(&c->state); }

static bool begin(struct controller *c) {
    const struct bintrochis_ask ask = {
        .call = BINTROCHIS_CALL_READ_DATA_BY_IDENTIFIER,
        .flags = BINTROCHIS_FLAG_STRICT,
        .value = 0x2101,
        .listens = c->address,
    };
    const struct bintrochis_lent lent = {.session = {P2, P2_STAR}, .request = c->request, .request_length = sizeof c->request};
    if (bintrochis_begin(&ask, &lent, &c->state) != BINTROCHIS_RESULT_DONE) {
        return false;
    }
    printf("%s: send", c->name);
    for (uint64_t i = 0; i < c->state.answer.request_length; i++) {
        printf(" %02x", c->request[i]);
    }
    printf(", deadline %llu ms\n", (unsigned long long)c->state.answer.time);
    return waits(c);
}

/* What was decided. `replies` are the bytes lent with the step that settled it. */
static void decided(const struct controller *c, const uint8_t *replies) {
    const struct bintrochis_answer *answer = &c->state.answer;
    if (answer->outcome == BINTROCHIS_OUTCOME_POSITIVE && answer->data_length == 2) {
        const uint8_t *data = replies + answer->data_at;
        printf("count %d", data[0] * 256 + data[1]);
    } else {
        printf("%s", bintrochis_outcome_word(answer->outcome));
    }
    printf(" at %llu ms, events %u, notices %u\n", (unsigned long long)answer->time, (unsigned)answer->events, (unsigned)answer->notices);
}

/* Lends the request that was sent, and the message for this event alone. */
static uint8_t heard(struct controller *c, const struct message *m) {
    const struct bintrochis_lent lent = {
        .request = c->request, .request_length = sizeof c->request, .replies = m->bytes, .replies_length = sizeof m->bytes};
    const struct bintrochis_event event = {.time = m->time, .length = m->length, .source = m->source};
    return bintrochis_event(&c->state, &lent, &event);
}

/* One cycle for one controller: a single call. A message has the time at which it came, which may be before this cycle; until all
 * messages are handed over no tick says a later time. */
static bool cycle(struct controller *c, uint64_t now) {
    const uint64_t deadline = c->state.answer.time;
    const struct message *m = c->heard < MESSAGES && channel[c->heard].time <= now ? &channel[c->heard++] : NULL;
    const uint8_t result = m ? heard(c, m) : bintrochis_tick(&c->state, now);
    if (result != BINTROCHIS_RESULT_DONE) {
        printf("%s, cycle %llu: refused, %u\n", c->name, (unsigned long long)now, (unsigned)result);
        return false;
    }
    if (!waits(c)) {
        printf("%s, cycle %llu: settled by %s, ", c->name, (unsigned long long)now, m ? "an event" : "a tick");
        decided(c, m ? m->bytes : NULL);
    } else if (c->state.answer.time != deadline) {
        printf("%s, cycle %llu: told to wait, deadline %llu ms\n", c->name, (unsigned long long)now, (unsigned long long)c->state.answer.time);
    } else if (m) {
        printf("%s, cycle %llu: passed over\n", c->name, (unsigned long long)now);
    }
    return true;
}

/* A step that is refused leaves every number of the state as it was. */
static void refused(struct controller *c, const char *name, uint64_t now) {
    const struct bintrochis_state before = c->state;
    const uint8_t result = bintrochis_tick(&c->state, now);
    printf("%s: refused, %u, state %s\n", name, (unsigned)result, memcmp(&before, &c->state, sizeof before) ? "CHANGED" : "unchanged");
}

int main(void) {
    printf("a state has %u bytes\n", (unsigned)sizeof controllers[0].state);
    for (size_t i = 0; i < CONTROLLERS; i++) {
        if (!begin(&controllers[i])) {
            return 1;
        }
    }
    for (uint64_t now = CYCLE; waits(&controllers[0]) || waits(&controllers[1]); now += CYCLE) {
        for (size_t i = 0; i < CONTROLLERS; i++) {
            if (waits(&controllers[i]) && !cycle(&controllers[i], now)) {
                return 1;
            }
        }
    }
    refused(&controllers[0], "a tick behind the decision", UINT64_MAX);
    if (!begin(&controllers[1]) || bintrochis_tick(&controllers[1].state, 20) != BINTROCHIS_RESULT_DONE) {
        return 1;
    }
    refused(&controllers[1], "19 ms behind 20 ms", 19);
    return 0;
}
