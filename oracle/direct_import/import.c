/* import REQUEST REPLY: what `log2uds REQUEST REPLY` does, as a careful engineer would write it in C: a line at a time by getline, a pointer through
 * it, a table for digits. It is what docs/PERFORMANCE.md measures the import by (`oracle/imports`); nothing else uses it. */
#define _GNU_SOURCE
#include <stdbool.h>
#include <stdint.h>
#include <stdio.h>
#include <stdlib.h>
#include <string.h>

enum { LONGEST = 4095, MOST_EVENTS = 512, MOST_BYTES = 65535, MOST_DROPS = 4096, ROOM = 272410 };
enum found { BLANK, UNREADABLE, OTHER, FRAME };

static int8_t digits[256]; /* what a hex digit is worth; -1 of every other character */
static char text[ROOM], *to = text;

/* Frames of one identifier, joined. */
struct joiner {
    unsigned due, next, have;
    uint8_t bytes[LONGEST];
};
struct frame {
    uint64_t time;
    uint32_t id;
    unsigned size;
    uint8_t data[8];
};

/* A line ends in a byte 0, which is in no class of characters, so that nothing asks at each byte whether there is another. */
static const char *past_spaces(const char *p) {
    while (*p == ' ') p++;
    return p;
}

static bool is_end(const char *p, const char *end) {
    const char *q = past_spaces(p);
    return q == end || (q > p && (*q == 'R' || *q == 'T') && past_spaces(q + 1) == end);
}

static int digit(const char *p) { return digits[(uint8_t)*p]; }

static const char *decimal(const char *p, uint64_t *value) {
    for (*value = 0; *p >= '0' && *p <= '9'; p++) *value = *value * 10 + (uint64_t)(*p - '0');
    return p;
}

/* (SECONDS.MICROSECONDS) INTERFACE IDENTIFIER#CONTENT[ DIRECTION] */
static enum found read_line(const char *p, const char *end, struct frame *f) {
    const char *q;
    uint64_t seconds, micros;
    uint32_t id = 0;
    if (past_spaces(p) == end) return BLANK;
    if (*p++ != '(') return UNREADABLE;
    q = decimal(p, &seconds);
    if (q == p || q - p > 10 || *q++ != '.') return UNREADABLE;
    p = decimal(q, &micros);
    if (p - q != 6 || *p++ != ')') return UNREADABLE;
    f->time = seconds * 1000000 + micros;
    if ((q = past_spaces(p)) == p) return UNREADABLE;
    for (p = q; *p > ' ' && *p < 127; p++) {}
    if (p == q) return UNREADABLE;
    if ((q = past_spaces(p)) == p) return UNREADABLE;
    for (p = q; digit(p) >= 0; p++) id = id * 16 + (uint32_t)digit(p);
    if (!((p - q == 3 && id <= 0x7ff) || (p - q == 8 && id <= 0x3fffffff)) || *p != '#') return UNREADABLE;
    f->id = p - q == 3 ? id : 0x80000000 + id;
    q = ++p;
    for (f->size = 0; f->size < 8 && digit(p) >= 0 && digit(p + 1) >= 0; p += 2) f->data[f->size++] = (uint8_t)(digit(p) * 16 + digit(p + 1));
    if (is_end(p, end)) return f->id <= 0x9fffffff ? FRAME : OTHER;
    p = q;
    if (*p == 'R') {
        p++;
        if (*p >= '0' && *p <= '8') p++;
        return is_end(p, end) ? OTHER : UNREADABLE;
    }
    if (*p++ != '#') return UNREADABLE;
    for (q = p; digit(p) >= 0; p++) {}
    return (p - q) % 2 == 1 && p - q <= 129 && is_end(p, end) ? OTHER : UNREADABLE;
}

/* One frame more: the length of the message that it ends, or 0; `drops` is set where a message under way is given up. */
static unsigned feed(struct joiner *j, const struct frame *f, bool *drops) {
    const unsigned kind = f->size ? f->data[0] >> 4 : 0, low = f->size ? f->data[0] & 15 : 0;
    if (kind == 0 && low >= 1 && low <= 7 && low < f->size) {
        *drops |= j->due > 0;
        j->due = 0;
        memcpy(j->bytes, f->data + 1, low);
        return low;
    }
    if (kind == 1 && f->size == 8 && low * 256 + f->data[1] >= 8) {
        *drops |= j->due > 0;
        *j = (struct joiner){.due = low * 256 + f->data[1] - 6, .next = 1, .have = 6};
        memcpy(j->bytes, f->data + 2, 6);
    } else if (kind == 2 && j->due > 0) {
        const unsigned more = j->due < 7 ? j->due : 7;
        if (low != j->next) {
            *drops = true;
            j->due = 0;
        } else if (f->size > more) {
            memcpy(j->bytes + j->have, f->data + 1, more);
            j->have += more;
            j->due -= more;
            j->next = (j->next + 1) % 16;
            if (j->due == 0) return j->have;
        }
    }
    return 0;
}

static void put(const char *word, uint64_t number, const uint8_t *bytes, unsigned size) {
    to += sprintf(to, "%s %llu", word, (unsigned long long)number);
    if (size) *to++ = ' ';
    for (unsigned i = 0; i < size; i++) {
        *to++ = "0123456789abcdef"[bytes[i] >> 4];
        *to++ = "0123456789abcdef"[bytes[i] & 15];
    }
    *to++ = '\n';
}

/* An identifier as a word: three digits up to 7FF, or eight up to 1FFFFFFF. */
static bool identifier(const char *word, uint32_t *id) {
    const size_t n = strlen(word);
    *id = 0;
    for (size_t i = 0; i < n && i < 8; i++) {
        if (digits[(uint8_t)word[i]] < 0) return false;
        *id = *id * 16 + (uint8_t)digits[(uint8_t)word[i]];
    }
    if (n == 3) return *id <= 0x7ff;
    if (n != 8 || *id > 0x1fffffff) return false;
    *id += 0x80000000;
    return true;
}

int main(int count, char **words) {
    static struct joiner asking, answering;
    uint64_t line = 0, last = 0, start = 0, left = 0;
    unsigned events = 0, bytes = 0, dropped = 0;
    bool begun = false, over = false;
    uint32_t ask, answer;
    char *row = NULL;
    size_t room = 0;
    ssize_t n;
    memset(digits, -1, sizeof digits);
    for (int i = 0; i < 10; i++) digits['0' + i] = (int8_t)i;
    for (int i = 0; i < 6; i++) digits['a' + i] = digits['A' + i] = (int8_t)(10 + i);
    if (count != 3 || !identifier(words[1], &ask) || !identifier(words[2], &answer)) {
        fputs("usage: import REQUEST REPLY < TEXT\n", stderr);
        return 2;
    }
    while ((n = getline(&row, &room, stdin)) > 0) {
        struct frame f;
        char *end = row + n - (row[n - 1] == '\n');
        if (end > row && end[-1] == '\r') end--;
        *end = 0;
        const enum found found = read_line(row, end, &f);
        line++;
        if (found == BLANK) continue;
        if (found == UNREADABLE || f.time < last) {
            printf("refused %d %llu\n", found == UNREADABLE ? 14 : 16, (unsigned long long)line);
            return 0;
        }
        last = f.time;
        if (found == OTHER || (f.id != ask && f.id != answer)) continue;
        bool drops = false;
        const unsigned asked = f.id == ask ? feed(&asking, &f, &drops) : 0, answered = f.id == answer ? feed(&answering, &f, &drops) : 0;
        if (drops && dropped++ < MOST_DROPS) put("dropped", line, NULL, 0);
        left += drops && dropped > MOST_DROPS;
        if (!begun && asked) {
            begun = true;
            start = f.time;
            put("request", line, asking.bytes, asked);
        } else if (begun && answered && !over) {
            const uint64_t time = (f.time - start) / 1000;
            events++;
            bytes += answered;
            over = events > MOST_EVENTS || bytes > MOST_BYTES || time > 0xffffffff;
            if (!over) put("reply", time, answering.bytes, answered);
        }
    }
    free(row);
    if (!begun || over) {
        printf("refused %d\n", begun ? 17 : 15);
        return 0;
    }
    if (left) fprintf(stderr, "log2uds: 'dropped' lines left out: %llu\n", (unsigned long long)left);
    fwrite(text, 1, (size_t)(to - text), stdout);
    return 0;
}
