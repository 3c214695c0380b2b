/* The client's end of the cable to ./udsbench (scripts/cable): a request goes out as a line of hex on standard output, and its answer comes in as a
 * line on standard input, the reply in hex or '-' for silence. Standard error says what each call learned: the hoist's count, its limit before and
 * after a write, how many faults are confirmed, a refusal, and silence that was asked for. */
#include <stdio.h>
#include <string.h>

#include "bintrochis.h"

enum { LONGEST_LINE = 2 * BINTROCHIS_LONGEST_REPLY + 2 };

struct asked {
    const char *name;
    struct bintrochis_ask ask;
};

static const uint8_t limit[] = {0x0f, 0xa0}; /* 4,000 kg */
#define READ(identifier) {.call = BINTROCHIS_CALL_READ_DATA_BY_IDENTIFIER, .flags = BINTROCHIS_FLAG_STRICT, .value = (identifier)}
static const struct asked calls[] = {
    {"count", READ(0x2101)},
    {"limit", READ(0x2102)},
    {"limit written",
     {.call = BINTROCHIS_CALL_WRITE_DATA_BY_IDENTIFIER,
      .flags = BINTROCHIS_FLAG_STRICT | BINTROCHIS_FLAG_DATA,
      .value = 0x2102,
      .arguments = limit,
      .arguments_length = sizeof limit}},
    {"limit", READ(0x2102)},
    {"faults confirmed", {.call = BINTROCHIS_CALL_READ_DTC_INFORMATION, .flags = BINTROCHIS_FLAG_STRICT, .value = 0x08}},
    {"identifier 2103", READ(0x2103)},
    {"still there", {.call = BINTROCHIS_CALL_TESTER_PRESENT, .flags = BINTROCHIS_FLAG_STRICT | BINTROCHIS_FLAG_SUPPRESSED}},
};

static uint8_t request[BINTROCHIS_LONGEST_REQUEST];
static uint8_t reply[BINTROCHIS_LONGEST_REPLY];
static struct bintrochis_answer answer;

/* Sends what stands at the front of `request`. */
static bool sent(void) {
    for (uint64_t i = 0; i < answer.request_length; i++) {
        printf("%02x", request[i]);
    }
    printf("\n");
    return fflush(stdout) == 0;
}

static int digit(char c) {
    static const char digits[] = "0123456789abcdef";
    const char *at = c == 0 ? NULL : strchr(digits, c);
    return at == NULL ? -1 : (int)(at - digits);
}

/* How many bytes the reply has; none is silence, and -1 no answer. */
static int received(void) {
    static char line[LONGEST_LINE + 1];
    int length = 0;
    if (!fgets(line, sizeof line, stdin)) {
        return -1;
    }
    if (strcmp(line, "-\n") == 0) {
        return 0;
    }
    for (const char *at = line; *at != '\n'; at += 2) {
        const int high = digit(at[0]), low = high < 0 ? -1 : digit(at[1]);
        if (low < 0 || length == BINTROCHIS_LONGEST_REPLY) {
            return -1;
        }
        reply[length++] = (uint8_t)(16 * high + low);
    }
    return length;
}

static void learned(const char *name) {
    switch (answer.outcome) {
    case BINTROCHIS_OUTCOME_POSITIVE:
        fprintf(stderr, "%s", name);
        for (uint64_t i = 0; i < answer.data_length; i++) {
            fprintf(stderr, " %02x", reply[answer.data_at + i]);
        }
        fprintf(stderr, "\n");
        break;
    case BINTROCHIS_OUTCOME_SUPPRESSED:
        fprintf(stderr, "%s: silence, as asked for\n", name);
        break;
    case BINTROCHIS_OUTCOME_NEGATIVE:
        fprintf(stderr, "%s: refused with code %02x\n", name, (unsigned)answer.detail);
        break;
    default:
        fprintf(stderr, "%s: %s\n", name, bintrochis_outcome_word(answer.outcome));
    }
}

int main(void) {
    struct bintrochis_lent lent = {.session = {50, 5000}, .request = request, .request_length = sizeof request, .replies = reply};
    for (size_t i = 0; i < sizeof calls / sizeof *calls; i++) {
        lent.events_length = lent.replies_length = 0;
        if (bintrochis_call(&calls[i].ask, &lent, &answer) != BINTROCHIS_RESULT_DONE || !sent()) {
            return 1;
        }
        const int length = received();
        if (length < 0) {
            fprintf(stderr, "%s: no answer\n", calls[i].name);
            return 1;
        }
        /* the reply at time 0; silence is no event */
        uint8_t event[BINTROCHIS_EVENT];
        if (length > 0) {
            lent.events_length = bintrochis_put_event(event, false, (struct bintrochis_event){.length = (uint16_t)length});
        }
        lent.events = event;
        lent.replies_length = (size_t)length;
        if (bintrochis_call(&calls[i].ask, &lent, &answer) != BINTROCHIS_RESULT_DONE) {
            return 1;
        }
        learned(calls[i].name);
    }
    return 0;
}
