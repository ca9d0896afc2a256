/* Whole calls of the library, each of which derives its key, beside OpenSSL: a verdict, and opening and sealing by size, in ECB and
   chained. What other programs then measure is left in a folder: package, and for each key size info-BITS and the blocks that package is
   sealed to in ECB. The library of another commit, as LIBRARY.so, does the same beside them; where its functions take a scheme too, this
   is compiled with BASE_SCHEMES.
       sheets portable|instructions [FOLDER [LIBRARY.so]] */
#include "contest.h"
#include "openssl.h"
#include <dlfcn.h>
#include <ropeshadow.h>
#include <stdio.h>
#include <stdlib.h>

enum { LARGEST = 16 << 20, ROOM = LARGEST + 24 };

static struct manner openssl;
static unsigned char info[INFO_SIZE];
static uint64_t scheme = ROPESHADOW_ECB; /* of the calls that come */
static const unsigned char filling[16]; /* no size here leaves room for one */

static uint64_t verdict_ours(const unsigned char *unused, size_t n, unsigned char *none)
{
    return (void)unused, (void)n, (void)none, ropeshadow_verdict(info, INFO_SIZE, password, UNITS, scheme);
}

static uint64_t verdict_openssl(const unsigned char *unused, size_t n, unsigned char *none)
{
    return (void)unused, (void)n, (void)none, openssl_verdict(openssl.aes, info);
}

/* opening has a room of the stream's size, sealing one that is always enough: a few bytes are zeroed */
static uint64_t open_ours(const unsigned char *stream, size_t n, unsigned char *out)
{
    return ropeshadow_open(info, INFO_SIZE, password, UNITS, scheme, stream, n, out, n);
}

static uint64_t open_openssl(const unsigned char *stream, size_t n, unsigned char *out)
{
    return openssl_open(openssl, scheme, info, stream, out, n);
}

static uint64_t seal_ours(const unsigned char *package, size_t n, unsigned char *out)
{
    return ropeshadow_seal(info, INFO_SIZE, password, UNITS, scheme, package, n, 0, 0, 0, out, n + 24);
}

static uint64_t seal_openssl(const unsigned char *package, size_t n, unsigned char *out)
{
    return openssl_seal(openssl, scheme, info, package, n, filling, out, n + 24);
}

#ifdef BASE_SCHEMES
#define BASE_SCHEME , uint64_t
#define GIVEN_SCHEME , scheme
enum { BASE_CHAINS = 1 };
#else
#define BASE_SCHEME
#define GIVEN_SCHEME
enum { BASE_CHAINS = 0 };
#endif

static uint64_t (*base_verdict)(const uint8_t *, size_t, const uint16_t *, size_t BASE_SCHEME);
static uint64_t (*base_open)(const uint8_t *, size_t, const uint16_t *, size_t BASE_SCHEME, const uint8_t *, size_t, uint8_t *, size_t);
static uint64_t (*base_seal)(const uint8_t *, size_t, const uint16_t *, size_t BASE_SCHEME, const uint8_t *, size_t, uint64_t, uint64_t,
                             uint64_t, uint8_t *, size_t);

static uint64_t verdict_base(const unsigned char *unused, size_t n, unsigned char *none)
{
    return (void)unused, (void)n, (void)none, base_verdict(info, INFO_SIZE, password, UNITS GIVEN_SCHEME);
}

static uint64_t open_base(const unsigned char *stream, size_t n, unsigned char *out)
{
    return base_open(info, INFO_SIZE, password, UNITS GIVEN_SCHEME, stream, n, out, n);
}

static uint64_t seal_base(const unsigned char *package, size_t n, unsigned char *out)
{
    return base_seal(info, INFO_SIZE, password, UNITS GIVEN_SCHEME, package, n, 0, 0, 0, out, n + 24);
}

static void load(const char *library)
{
    void *base = dlopen(library, RTLD_NOW | RTLD_LOCAL);
    if (base) base_verdict = dlsym(base, "ropeshadow_verdict"), base_open = dlsym(base, "ropeshadow_open"), base_seal = dlsym(base, "ropeshadow_seal");
    if (base_verdict && base_open && base_seal) return;
    fprintf(stderr, "%s\n", dlerror());
    exit(2);
}

/* the last one where there is another library that has the scheme */
static void call(struct contest c, work *ours, work *by_openssl, work *by_base)
{
    struct contestant each[3] = {{"ours", ours}, {openssl.name, by_openssl}, {"before", by_base}};
    c.each = each;
    c.count = base_open && (BASE_CHAINS || scheme == ROPESHADOW_ECB) ? 3 : 2;
    c.rounds = c.bytes < LARGEST ? 15 : 7;
    c.turns = 1;
    c.per = 1;
    hold(&c);
}

static void save(const char *folder, const char *name, size_t bits, const unsigned char *bytes, size_t n)
{
    char path[256];
    snprintf(path, sizeof path, bits ? "%s/%s-%zu" : "%s/%s", folder, name, bits);
    FILE *file = fopen(path, "wb");
    if (file && fwrite(bytes, 1, n, file) == n && fclose(file) == 0) return;
    perror(path);
    exit(2);
}

/* One size, there and back under the scheme. */
static void there_and_back(const char *sealing, const char *opening, size_t bits, size_t n, unsigned char *package, unsigned char *stream,
                           unsigned char *out)
{
    struct contest c = {.call = sealing, .bits = bits, .bytes = n, .in = package, .n = n, .out = stream, .room = n + 24};
    call(c, seal_ours, seal_openssl, seal_base);
    c = (struct contest){.call = opening, .bits = bits, .bytes = n, .in = stream, .n = n + 8, .out = out, .room = n + 8};
    call(c, open_ours, open_openssl, open_base);
    must(filled(out, n), "there and back");
}

/* Every size of one key size; stream is left as the largest package's in ECB. */
static void key_size(size_t bits, unsigned char *package, unsigned char *stream, unsigned char *out)
{
    lay_info(info, bits);
    must(verdict_ours(package, 0, out) == 0, "the password");
    call((struct contest){.call = "verdict", .bits = bits}, verdict_ours, verdict_openssl, verdict_base);
    static const size_t sizes[] = {1 << 10, 64 << 10, 1 << 20, LARGEST};
    scheme = ROPESHADOW_CHAINED;
    for (int i = 2; i < 4; i++) there_and_back("seal chained", "open chained", bits, sizes[i], package, stream, out);
    scheme = ROPESHADOW_ECB;
    for (int i = 0; i < 4; i++) there_and_back("seal", "open", bits, sizes[i], package, stream, out);
}

int main(int argc, char **argv)
{
    openssl = manner_of(argc, argv);
    begin("sheets", argv[1]);
    if (argc > 3) load(argv[3]);
    unsigned char *package = reserve(LARGEST), *stream = reserve(ROOM), *out = reserve(ROOM);
    fill(package, LARGEST);
    if (argc > 2) save(argv[2], "package", 0, package, LARGEST);
    for (size_t bits = 128; bits <= 256; bits += 64) {
        key_size(bits, package, stream, out);
        if (argc > 2) save(argv[2], "info", bits, info, INFO_SIZE);
        if (argc > 2) save(argv[2], "blocks", bits, stream + 8, LARGEST);
    }
    return 0;
}
