/* A hand-written C program of towerwatch's job (SPEC 11.1): a card from standard input, its verdicts to standard
   output, with one read buffer, one write buffer and a table for hexadecimal digits, over compiler.c and interpreter.c.
   Its steps have all refusals, or with `unchecked` are the bare ticks. `make EDITION RULE` prints a card of 999,999
   ticks. */
#include <stdio.h>
#include <stdlib.h>
#include <string.h>
#include <unistd.h>

#include "interpreter.h"

static uint8_t in[32768], out[32768];
static size_t at, end, filled;
static uint32_t table[16384], state[4096], values[4096], parameters[8];
static uint8_t digit[256];

static void flush(void) {
    for (size_t done = 0; done < filled;) {
        ssize_t n = write(1, out + done, filled - done);
        if (n <= 0) exit(1);
        done += n;
    }
    filled = 0;
}

static void say(const char *word, uint32_t number) {
    if (filled + 16 > sizeof out) flush();
    size_t length = strlen(word);
    memcpy(out + filled, word, length);
    filled += length;
    if (number >= 10) out[filled++] = '0' + number / 10;
    out[filled++] = '0' + number % 10;
    out[filled++] = '\n';
}

static void refuse(uint32_t number) {
    say("refused=", number);
    flush();
    exit(0);
}

/* The next line without its byte 10; its length is at *length. */
static uint8_t *line(size_t *length, uint32_t number) {
    size_t seen = 0;
    for (;;) {
        uint8_t *stop = memchr(in + at + seen, '\n', end - at - seen);
        if (stop) {
            uint8_t *begin = in + at;
            *length = stop - begin;
            if (*length > 4095) refuse(number);
            at += *length + 1;
            return begin;
        }
        seen = end - at;
        if (seen > 4095) refuse(number);
        memmove(in, in + at, seen);
        at = 0, end = seen;
        ssize_t n = read(0, in + end, sizeof in - end);
        if (n <= 0) refuse(number);
        end += n;
    }
}

/* The decimal number at *p, at most the largest, its digits by SPEC 2.8; else the line is refused by this number. */
static inline uint32_t number_at(uint8_t **p, uint8_t *stop, uint32_t largest, uint32_t refusal) {
    uint8_t *q = *p;
    if (q == stop || *q < '0' || *q > '9') refuse(refusal);
    uint32_t v = *q++ - '0';
    if (v)
        while (q < stop && *q >= '0' && *q <= '9') {
            v = 10 * v + *q++ - '0';
            if (v > largest) refuse(refusal);
        }
    *p = q;
    return v;
}

/* The velocity of a tick line of edition 2, behind its digits. */
static inline uint32_t velocity_of(uint8_t *l, size_t length) {
    if (l[20] != ',') refuse(18);
    uint8_t *p = l + 21, *stop = l + length;
    uint32_t velocity = number_at(&p, stop, 127, 18);
    if (p != stop) refuse(18);
    return velocity;
}

/* The numbers are the same in both editions, and a third of the ticks of edition 2 have no stroke. */
static void make(int edition, const char *rule) {
    uint64_t x = 88172645463325252;
    printf("edition=%d\nk=0,0,0,0,0,0,0,0\nwatch=%s\nticks=999999\n", edition, rule);
    for (int i = 0; i < 999999; i++) {
        x ^= x << 13, x ^= x >> 7, x ^= x << 17;
        printf("t=%d,%016llx", i == 0 || x % 1000 == 0, (unsigned long long)x);
        if (edition == 2) printf(",%d", x % 3 == 0 ? 0 : (int)(x >> 20 & 127));
        printf("\n");
    }
}

int main(int argc, char **argv) {
    if (argc == 4 && !strcmp(argv[1], "make")) return make(atoi(argv[2]), argv[3]), 0;
    int unchecked = argc == 2 && !strcmp(argv[1], "unchecked");
    memset(digit, 16, sizeof digit);
    for (int i = 0; i < 16; i++) digit[(uint8_t) "0123456789abcdef"[i]] = i;
    size_t length;
    uint8_t *l = line(&length, 17);
    if (length != 9 || memcmp(l, "edition=", 8) || (l[8] != '1' && l[8] != '2')) refuse(17);
    int edition = l[8] - '0';
    l = line(&length, 17);
    if (length < 2 || memcmp(l, "k=", 2)) refuse(17);
    uint8_t *p = l + 2, *stop = l + length;
    for (int i = 0; i < 8; i++) {
        if (i && (p == stop || *p++ != ',')) refuse(17);
        parameters[i] = number_at(&p, stop, 999999, 17);
    }
    if (p != stop) refuse(17);
    l = line(&length, 17);
    if (length < 6 || memcmp(l, "watch=", 6)) refuse(17);
    struct towerwatch_answer a = compiler_compile(l + 6, length - 6, table, 16384);
    if (a.refusal) refuse(a.refusal);
    size_t n = a.result;
    for (size_t i = 0; i < n; i++)
        if (table[4 * i] == 6) state[i] = table[4 * i + 3];
    l = line(&length, 17);
    if (length < 6 || memcmp(l, "ticks=", 6)) refuse(17);
    p = l + 6, stop = l + length;
    uint32_t ticks = number_at(&p, stop, 999999, 17);
    if (p != stop) refuse(17);
    for (uint32_t tick = 0; tick < ticks; tick++) {
        l = line(&length, 18);
        if (edition == 1 ? length != 20 : length < 22) refuse(18);
        if (l[0] != 't' || l[1] != '=' || (l[2] | 1) != '1' || l[3] != ',') refuse(18);
        uint64_t signals = 0;
        uint8_t bad = 0;
        for (int i = 4; i < 20; i++) bad |= digit[l[i]], signals = signals << 4 | digit[l[i]];
        if (bad & 16) refuse(18);
        uint32_t start = l[2] - '0', velocity = edition == 1 ? 0 : velocity_of(l, length), verdict;
        if (unchecked) {
            verdict = interpreter_tick(table, n, state, values, start, signals, velocity, parameters);
        } else {
            a = interpreter_step(table, 16384, n, state, 4096, values, 4096, start, signals, velocity, parameters);
            if (a.refusal) refuse(a.refusal);
            verdict = a.result;
        }
        say("verdict=", verdict);
    }
    if (at < end || read(0, in, 1) > 0) refuse(18);
    flush();
    return 0;
}
