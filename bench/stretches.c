/* Stretches of a package, in ECB and chained: 100 bytes of the largest one, beside a verdict, which derives the key as they do, and beside
   opening all of it; and a stretch over all of a package, beside opening it. In a call's name _ stands for the package's size. */
#include "contest.h"
#include "openssl.h"
#include <ropeshadow.h>
#include <stdio.h>
#include <string.h>

enum { LARGEST = 268435456, OVER = 16 << 20, SHORT = 100 };

static unsigned char info[INFO_SIZE];
static uint64_t scheme, from, to; /* of the calls that come */
static unsigned char *package, *stream;

static uint64_t stretch_ours(const unsigned char *in, size_t n, unsigned char *out)
{
    return ropeshadow_stretch(info, INFO_SIZE, password, UNITS, scheme, in, n, from, to, out, to - from);
}

/* Those beside a short stretch must leave the same bytes, so they copy them out of the package, which takes no time. */
static uint64_t copied(uint64_t word, unsigned char *out)
{
    memcpy(out, package + from, to - from);
    return ROPESHADOW_ANSWER(word) + 65536 * (to - from);
}

static uint64_t verdict_first(const unsigned char *in, size_t n, unsigned char *out)
{
    return (void)in, (void)n, copied(ropeshadow_verdict(info, INFO_SIZE, password, UNITS, scheme), out);
}

static uint64_t open_first(const unsigned char *in, size_t n, unsigned char *out)
{
    return copied(ropeshadow_open(info, INFO_SIZE, password, UNITS, scheme, in, n, package, n - 8), out);
}

static uint64_t open_all(const unsigned char *in, size_t n, unsigned char *out)
{
    return ropeshadow_open(info, INFO_SIZE, password, UNITS, scheme, in, n, out, n - 8);
}

/* A stretch of a package of n bytes, and what stands beside it. */
static void beside(const char *what, size_t bits, size_t n, int rounds, const char *other, work *by_other, unsigned char *out)
{
    char call[64];
    struct contestant each[2] = {{"ours", stretch_ours}, {other, by_other}};
    snprintf(call, sizeof call, "%s of _%s", what, scheme == ROPESHADOW_CHAINED ? " chained" : "");
    hold(&(struct contest){.call = call, .bits = bits, .bytes = n, .each = each, .count = 2, .in = stream, .n = n + 8, .out = out,
                           .room = to - from, .rounds = rounds, .turns = 1, .per = 1});
}

/* The first n bytes, sealed into stream. */
static void seal(size_t n)
{
    fill(package, n);
    uint64_t word = ropeshadow_seal(info, INFO_SIZE, password, UNITS, scheme, package, n, 0, 0, 0, stream, n + 8);
    must(word == 65536 * (uint64_t)(n + 8), "the size sealed");
}

/* The one in the middle lies in two segments. */
static void short_ones(size_t bits)
{
    static const char *const names[3] = {"100 bytes at the start", "100 bytes in the middle", "100 bytes at the end"};
    static const uint64_t places[3] = {0, LARGEST / 2 - SHORT / 2, LARGEST - SHORT};
    unsigned char out[SHORT];
    seal(LARGEST);
    for (int i = 0; i < 3; i++) {
        from = places[i], to = from + SHORT;
        beside(names[i], bits, LARGEST, 51, "a verdict", verdict_first, out);
        beside(names[i], bits, LARGEST, 2, "opening it", open_first, out);
        must(filled(package, LARGEST), "the package opened");
    }
}

static void over_all(size_t bits, unsigned char *out)
{
    seal(OVER);
    from = 0, to = OVER;
    beside("a stretch over all", bits, OVER, 9, "opening it", open_all, out);
    must(filled(out, OVER), "the stretch over all");
}

int main(void)
{
    begin("stretches", "ours");
    package = reserve(LARGEST), stream = reserve(LARGEST + 8);
    unsigned char *out = reserve(OVER);
    for (size_t bits = 128; bits <= 256; bits += 64) {
        lay_info(info, bits);
        for (scheme = ROPESHADOW_ECB; scheme <= ROPESHADOW_CHAINED; scheme++) {
            short_ones(bits);
            over_all(bits, out);
        }
    }
    return 0;
}
