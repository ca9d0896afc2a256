#define _POSIX_C_SOURCE 199309L
#include "contest.h"
#include <stdio.h>
#include <stdlib.h>
#include <string.h>
#include <time.h>

static char process[64] = "bench";

double now(void)
{
    struct timespec t;
    clock_gettime(CLOCK_PROCESS_CPUTIME_ID, &t);
    return (double)t.tv_sec * 1e9 + (double)t.tv_nsec;
}

void begin(const char *program, const char *manner) { snprintf(process, sizeof process, "%s %s", program, manner); }

void record(const char *call, size_t bits, size_t bytes, const char *contestant, double figure, const char *unit)
{
    printf("%s\t%s\t%zu\t%zu\t%s\t%.1f\t%s\n", process, call, bits, bytes, contestant, figure, unit);
    fflush(stdout);
}

void note(const char *what, const char *is)
{
    printf("#\t%s\t%s\n", what, is);
    fflush(stdout);
}

void must(int same, const char *what)
{
    if (same) return;
    fprintf(stderr, "%s: %s: not the same result\n", process, what);
    exit(1);
}

unsigned char *reserve(size_t n)
{
    unsigned char *bytes = malloc(n + 1); /* never null for 0 bytes */
    if (bytes != NULL) return bytes;
    fprintf(stderr, "%s: no memory for %zu bytes\n", process, n);
    exit(2);
}

/* Eight bytes after eight bytes: a multiplicative congruence, its high half folded onto the low one, whose bits have short periods. */
static uint64_t following(uint64_t *state)
{
    *state = *state * 6364136223846793005u + 1442695040888963407u;
    return *state ^ *state >> 32;
}

void fill(unsigned char *bytes, size_t n)
{
    uint64_t state = 1;
    for (size_t i = 0; i < n; i += 8) {
        uint64_t word = following(&state);
        memcpy(bytes + i, &word, n - i < 8 ? n - i : 8);
    }
}

int filled(const unsigned char *bytes, size_t n)
{
    uint64_t state = 1;
    for (size_t i = 0; i < n; i += 8) {
        uint64_t word = following(&state);
        if (memcmp(bytes + i, &word, n - i < 8 ? n - i : 8)) return 0;
    }
    return 1;
}

static void agree(const struct contest *c)
{
    unsigned char *first = reserve(c->room);
    uint64_t expected = 0;
    for (int k = 0; k < c->count; k++) {
        fill(c->out, c->room);
        uint64_t number = c->each[k].work(c->in, c->n, c->out);
        if (k == 0) expected = number, memcpy(first, c->out, c->room);
        must(number == expected && memcmp(first, c->out, c->room) == 0, c->call);
    }
    free(first);
}

/* From another place of the stack in each round: where it happens to lie can cost a contestant a fifth. */
static double timed(const struct contest *c, int k, int round)
{
    volatile char shift[48 * round + 1];
    shift[0] = 0;
    (void)shift[0];
    double from = now();
    for (int i = 0; i < c->turns; i++) c->each[k].work(c->in, c->n, c->out);
    return (now() - from) / c->turns;
}

void hold(const struct contest *c)
{
    double best[4] = {1e18, 1e18, 1e18, 1e18};
    agree(c);
    for (int round = 0; round < c->rounds; round++)
        for (int k = 0; k < c->count; k++) {
            double t = timed(c, k, round);
            if (t < best[k]) best[k] = t;
        }
    for (int k = 0; k < c->count; k++) record(c->call, c->bits, c->bytes, c->each[k].name, best[k] / c->per, "ns");
}
