/* Rescues of a package of 16 MiB, in ECB and chained, beside opening it: of its whole stream, and of one that ends after 15 MiB. In a call's
   name _ stands for the package's size. */
#include "contest.h"
#include "openssl.h"
#include <ropeshadow.h>
#include <stdio.h>
#include <string.h>

enum { WHOLE = 16 << 20, PART = 15 << 20 };

static unsigned char info[INFO_SIZE];
static uint64_t scheme;      /* of the calls that come */
static size_t left;          /* how much of the ciphertext a rescue is given */
static unsigned char *other; /* where opening leaves what a rescue of a part has not */

static uint64_t rescue_ours(const unsigned char *in, size_t n, unsigned char *out)
{
    uint64_t counts[3], word = ropeshadow_rescue(info, INFO_SIZE, password, UNITS, scheme, in, 8 + left, out, n - 8, counts);
    must(counts[0] == left && counts[1] == n - 8 - left && counts[2] == 0, "the counts");
    return word;
}

static uint64_t open_ours(const unsigned char *in, size_t n, unsigned char *out)
{
    return ropeshadow_open(info, INFO_SIZE, password, UNITS, scheme, in, n, left == WHOLE ? out : other, n - 8);
}

/* What is left of the stream rescued, and the whole of it opened: they leave the same where nothing was cut. */
static void beside(const char *what, size_t bits, const unsigned char *stream, unsigned char *out)
{
    char call[64];
    struct contestant each[2] = {{"ours", rescue_ours}, {"opening it", open_ours}};
    snprintf(call, sizeof call, "%s of _%s", what, scheme == ROPESHADOW_CHAINED ? " chained" : "");
    hold(&(struct contest){.call = call, .bits = bits, .bytes = WHOLE, .each = each, .count = 2, .in = stream, .n = WHOLE + 8, .out = out,
                           .room = left == WHOLE ? WHOLE : 0, .rounds = 21, .turns = 1, .per = 1});
}

/* The bytes from there to the end of the package are zeros. */
static int zeros(const unsigned char *out, size_t from)
{
    while (from < WHOLE && out[from] == 0) from++;
    return from == WHOLE;
}

/* The package has other bytes than out before a call. */
static void both(size_t bits, unsigned char *package, unsigned char *stream, unsigned char *out)
{
    fill(package, WHOLE);
    for (size_t i = 0; i < WHOLE; i++) package[i] ^= 0xff;
    uint64_t word = ropeshadow_seal(info, INFO_SIZE, password, UNITS, scheme, package, WHOLE, 0, 0, 0, stream, WHOLE + 8);
    must(word == 65536 * (uint64_t)(WHOLE + 8), "the size sealed");
    left = WHOLE;
    beside("a rescue of all", bits, stream, out);
    must(memcmp(out, package, WHOLE) == 0, "the package rescued");
    left = PART;
    beside("a rescue of 15 MiB", bits, stream, out);
    must(memcmp(out, package, PART) == 0 && zeros(out, PART), "the part rescued");
    must(memcmp(other, package, WHOLE) == 0, "the package opened");
}

int main(void)
{
    begin("rescues", "ours");
    unsigned char *package = reserve(WHOLE), *stream = reserve(WHOLE + 8), *out = reserve(WHOLE);
    other = reserve(WHOLE);
    for (size_t bits = 128; bits <= 256; bits += 64) {
        lay_info(info, bits);
        for (scheme = ROPESHADOW_ECB; scheme <= ROPESHADOW_CHAINED; scheme++) both(bits, package, stream, out);
    }
    return 0;
}
