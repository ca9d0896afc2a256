/* The bar on opening and sealing: less a verdict, each costs no more than a constant number of copies of the blocks. Both are timed
   beside the bare block loop over as many bytes, in place, and what they leave must be the same; then comes the largest package, one
   byte more, and the memory that the calls take beside the lent buffers. */
#define _GNU_SOURCE
#include "contest.h"
#include "openssl.h"
#include <ropeshadow.h>
#include <string.h>
#include <sys/resource.h>

uint64_t bench_encrypt(const unsigned char *key, size_t k, unsigned char *buf, size_t n);
uint64_t bench_decrypt(const unsigned char *key, size_t k, unsigned char *buf, size_t n);

enum { LARGEST = 268435456, BUFFER = LARGEST + 32 };
enum { VERDICT, SEAL, ENCRYPT, OPEN, DECRYPT, CALLS };

static unsigned char info[INFO_SIZE], key[40];
static unsigned char *package, *stream;

static double peak(void)
{
    struct rusage used;
    getrusage(RUSAGE_SELF, &used);
    return (double)used.ru_maxrss;
}

static size_t sealed_size(size_t n) { return 8 + (n + 15) / 16 * 16; }

/* One of the calls, its time kept if it is the best so far; the number that it returns. */
static uint64_t timed(int call, size_t bits, size_t n, double best[CALLS])
{
    uint64_t number = 0;
    double from = now();
    switch (call) {
    case VERDICT: number = ropeshadow_verdict(info, INFO_SIZE, password, UNITS, ROPESHADOW_ECB); break;
    case SEAL: number = ropeshadow_seal(info, INFO_SIZE, password, UNITS, ROPESHADOW_ECB, package, n, 0, 0, 0, stream, sealed_size(n)); break;
    case ENCRYPT: number = bench_encrypt(key, bits / 8, package, n); break;
    case OPEN: number = ropeshadow_open(info, INFO_SIZE, password, UNITS, ROPESHADOW_ECB, stream, sealed_size(n), package, n); break;
    case DECRYPT: number = bench_decrypt(key, bits / 8, stream + 8, n); break;
    }
    double t = now() - from;
    if (t < best[call]) best[call] = t;
    return number;
}

/* Each of the loops works on what its call has read, so that each buffer always holds the other direction's result before. */
static void turn(size_t bits, size_t n, double best[CALLS])
{
    must(timed(VERDICT, bits, n, best) == 0, "the password");
    must(timed(SEAL, bits, n, best) == 65536 * sealed_size(n), "the size sealed");
    timed(ENCRYPT, bits, n, best);
    must(memcmp(stream + 8, package, n) == 0, "sealing and the bare loop");
    must(timed(OPEN, bits, n, best) == 65536 * n, "the size opened");
    timed(DECRYPT, bits, n, best);
    must(memcmp(stream + 8, package, n) == 0, "opening and the bare loop");
    must(filled(package, n), "there and back");
}

static void beside_bare(size_t bits, size_t n, int rounds)
{
    double best[CALLS] = {1e18, 1e18, 1e18, 1e18, 1e18};
    double before = peak();
    for (int round = 0; round < rounds; round++) turn(bits, n, best);
    record("verdict", bits, 0, "ours", best[VERDICT], "ns");
    record("seal", bits, n, "ours", best[SEAL], "ns");
    record("seal", bits, n, "bare block loop", best[ENCRYPT], "ns");
    record("open", bits, n, "ours", best[OPEN], "ns");
    record("open", bits, n, "bare block loop", best[DECRYPT], "ns");
    record("seal and open", bits, n, "ours", peak() - before, "KiB");
}

/* One byte more than the largest package: the answer, and every byte of both buffers as it was. */
static void one_more(size_t bits)
{
    double best[CALLS] = {1e18, 1e18, 1e18, 1e18, 1e18};
    uint64_t size = LARGEST + 1, sealing = 0, opening = 0;
    fill(package, BUFFER);
    fill(stream, BUFFER);
    for (int round = 0; round < 3; round++) sealing = timed(SEAL, bits, size, best);
    must(filled(stream, BUFFER), "the room of a refused seal");
    memcpy(stream, &size, 8);
    for (int round = 0; round < 3; round++) opening = timed(OPEN, bits, size, best);
    must(filled(package, BUFFER), "the room of a refused opening");
    record("seal", bits, size, "ours", best[SEAL], "ns");
    record("seal", bits, size, "ours", (double)sealing, "answer");
    record("open", bits, size, "ours", best[OPEN], "ns");
    record("open", bits, size, "ours", (double)opening, "answer");
}

int main(void)
{
    begin("limit", "bare");
    package = reserve(BUFFER);
    stream = reserve(BUFFER);
    fill(package, BUFFER);
    fill(stream, BUFFER);
    for (size_t bits = 128; bits <= 256; bits += 64) {
        lay_info(info, bits);
        openssl_key(info, key);
        beside_bare(bits, 16 << 20, 7);
        fill(package, BUFFER);
        beside_bare(bits, LARGEST, 2);
        if (bits == 128) one_more(bits);
    }
    record("buffers", 0, 2 * (size_t)BUFFER, "ours", peak(), "KiB");
    return 0;
}
