/* replay LIST: the line of each log of a list, one made of what bintrochis_call answers to the log's fields and one by bintrochis_line. Prints the
 * first where both agree, and else both. In a list each log stands after its length as u32, big-endian. The tests compare with the lines that the
 * gate replays. */
#include <stdio.h>
#include <string.h>

#include "bintrochis.h"

enum { LONGEST_LOG = 1 << 20 };
static uint8_t log_bytes[LONGEST_LOG];
static char made[3 * BINTROCHIS_LONGEST_LINE], said[BINTROCHIS_LONGEST_LINE];
static uint8_t request[BINTROCHIS_LONGEST_REQUEST];

static uint16_t u16(const uint8_t *at) { return (uint16_t)(at[0] << 8 | at[1]); }
static uint32_t u32(const uint8_t *at) { return (uint32_t)u16(at) << 16 | u16(at + 2); }

static size_t put_hex(char *line, const uint8_t *bytes, uint64_t length) {
    size_t n = 0;
    for (uint64_t i = 0; i < length; i++) {
        n += (size_t)sprintf(line + n, "%02x", bytes[i]);
    }
    return n;
}

/* The line of an answer, by docs/RULES.md, "Lines". */
static size_t put_answer(char *line, const struct bintrochis_lent *lent, const struct bintrochis_answer *answer) {
    size_t n = (size_t)sprintf(line, "%s %llu %u %u ", bintrochis_outcome_word(answer->outcome), (unsigned long long)answer->time,
                               (unsigned)answer->events, (unsigned)answer->notices);
    const size_t start = n;
    const uint8_t *reply = lent->replies + answer->reply_at;
    switch (answer->outcome) {
    case BINTROCHIS_OUTCOME_POSITIVE:
        n += put_hex(line + n, bintrochis_data(lent, answer), answer->data_length);
        break;
    case BINTROCHIS_OUTCOME_NEGATIVE:
    case BINTROCHIS_OUTCOME_REFUSED:
    case BINTROCHIS_OUTCOME_DEVIATION:
        n += (size_t)sprintf(line + n, "%02x", (unsigned)answer->detail);
        if (answer->outcome == BINTROCHIS_OUTCOME_DEVIATION) {
            n += put_hex(line + n, reply, answer->reply_length);
        }
        break;
    case BINTROCHIS_OUTCOME_TRANSPORT:
        n += (size_t)sprintf(line + n, "%04x", (unsigned)answer->detail);
        break;
    case BINTROCHIS_OUTCOME_OVERFLOW:
        n += put_hex(line + n, reply, answer->reply_length);
        break;
    }
    return n + (size_t)sprintf(line + n, n == start ? "-\n" : "\n");
}

/* The call that the log's header asks; a header of version 2 has one byte more behind byte 9. */
static size_t put_call(char *line, const uint8_t *log) {
    const bool addressed = u16(log) == 2;
    const uint8_t *moved = log + addressed;
    const uint8_t form = addressed ? BINTROCHIS_ADDRESSED_EVENT : BINTROCHIS_EVENT;
    const struct bintrochis_ask ask = {
        .call = log[2],
        .flags = log[3],
        .value = u16(log + 4),
        .sub = log[6],
        .address_length = log[7],
        .size_length = log[8],
        .addressed = addressed,
        .listens = addressed ? u16(log + 9) : log[9],
        .overall = u32(moved + 32),
        .arguments = log + u16(moved + 12),
        .arguments_length = u16(moved + 10),
    };
    struct bintrochis_lent lent = {
        .session = {u32(moved + 24), u32(moved + 28)},
        .request = request,
        .request_length = sizeof request,
        .events = log + u16(moved + 16),
        .events_length = (size_t)form * u16(moved + 14),
        .replies = log + u16(moved + 20),
        .replies_length = u16(moved + 18),
    };
    struct bintrochis_answer answer;
    if (bintrochis_call(&ask, &lent, &answer) != BINTROCHIS_RESULT_DONE) {
        return (size_t)sprintf(line, "misuse\n");
    }
    return put_answer(line, &lent, &answer);
}

int main(int words, char **word) {
    FILE *list = words == 2 ? fopen(word[1], "rb") : NULL;
    if (list == NULL) {
        fprintf(stderr, "usage: replay LIST\n");
        return 2;
    }
    uint8_t head[4];
    while (fread(head, 1, sizeof head, list) == sizeof head) {
        const size_t length = u32(head);
        if (length > sizeof log_bytes || fread(log_bytes, 1, length, list) != length) {
            return 1;
        }
        const size_t n = bintrochis_line(log_bytes, length, said, sizeof said);
        const bool bad = n >= 6 && memcmp(said, "badlog", 6) == 0;
        const size_t m = bad ? n : put_call(made, log_bytes);
        if (!bad && (m != n || memcmp(made, said, n) != 0)) {
            fwrite(made, 1, m, stdout);
        }
        fwrite(said, 1, n, stdout);
    }
    return fclose(list) != 0;
}
