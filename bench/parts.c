/* The parts: a hash, a block and a verdict, beside C of the same shape and OpenSSL. */
#define OPENSSL_SUPPRESS_DEPRECATED
#include "contest.h"
#include "openssl.h"
#include <openssl/aes.h>
#include <string.h>

uint64_t bench_hash(const unsigned char *m, size_t n);
uint64_t bench_sha1(const unsigned char *m, size_t n);
uint64_t bench_encrypt(const unsigned char *key, size_t k, unsigned char *buf, size_t n);
uint64_t bench_decrypt(const unsigned char *key, size_t k, unsigned char *buf, size_t n);
uint64_t bench_verdict(const unsigned char *info, size_t n, const uint16_t *password, size_t units);
void baseline_sha1(const unsigned char *m, size_t n, unsigned char *out);
void baseline_encrypt(const unsigned char *w, size_t rounds, const unsigned char *table, const uint32_t *words, unsigned char *buf, size_t n);
void baseline_decrypt(const unsigned char *w, const unsigned char *mixed, size_t rounds, const unsigned char *table, const uint32_t *words,
                      unsigned char *buf, size_t n);

enum { LONG = 65536, ROUNDS = 15 };

static struct manner openssl;
static unsigned char in[LONG], out[LONG];

/* Ours, OpenSSL's, and C's where there is one. */
static void part(struct contest c, work *ours, work *by_openssl, work *same_shape)
{
    struct contestant each[3] = {{"ours", ours}, {openssl.name, by_openssl}, {"C of the same shape", same_shape}};
    c.each = each;
    c.count = same_shape ? 3 : 2;
    c.in = in;
    c.out = out;
    c.rounds = ROUNDS;
    hold(&c);
}

/* ---- SHA-1: the first eight bytes, as a number */

static uint64_t sha1_alone(const unsigned char *m, size_t n, unsigned char *unused)
{
    (void)unused;
    return bench_hash(m, n);
}

/* in a library that derives keys too: a turn makes its rounds itself, so that the compression has one caller; a second would show here */
static uint64_t sha1_shared(const unsigned char *m, size_t n, unsigned char *unused)
{
    (void)unused;
    return bench_sha1(m, n);
}

static uint64_t sha1_c(const unsigned char *m, size_t n, unsigned char *unused)
{
    unsigned char digest[20];
    uint64_t first;
    (void)unused;
    baseline_sha1(m, n, digest);
    memcpy(&first, digest, 8);
    return first;
}

static uint64_t sha1_openssl(const unsigned char *m, size_t n, unsigned char *unused)
{
    unsigned char digest[20];
    (void)unused;
    return openssl_sha1(m, n, digest);
}

static void hashing(const char *call, size_t n, int turns, double per, work *ours)
{
    part((struct contest){.call = call, .n = n, .turns = turns, .per = per}, ours, sha1_openssl, sha1_c);
}

/* ---- AES over out, in place; the key is expanded once a buffer, C's beforehand */

static unsigned char key[32], expanded[240], mixed[240], there[256], back[256];
static uint32_t words_there[1024], words_back[1024];
static size_t key_size, rounds;

/* a product in the field */
static unsigned char times(unsigned char a, unsigned char b)
{
    unsigned char sum = 0;
    for (; b; b >>= 1, a = (unsigned char)((a << 1) ^ ((a >> 7) * 0x1b)))
        if (b & 1) sum ^= a;
    return sum;
}

static void set_key(size_t bits)
{
    AES_KEY words;
    key_size = bits / 8;
    rounds = key_size / 4 + 6;
    for (size_t i = 0; i < key_size; i++) key[i] = (unsigned char)i;
    AES_set_encrypt_key(key, (int)bits, &words);
    memcpy(expanded, words.rd_key, 16 * (rounds + 1));
    int turned = memcmp(expanded, key, 4) != 0; /* OpenSSL's C keeps a word as the processor does, its assembly high byte first */
    for (size_t i = 0; turned && i < 16 * (rounds + 1); i += 4) {
        unsigned char *w = expanded + i, first = w[0], second = w[1];
        w[0] = w[3], w[1] = w[2], w[2] = second, w[3] = first;
    }
    for (size_t i = 0; i < 240; i++) /* InvMixColumns */
        for (size_t j = 0; j < 4; j++) {
            unsigned char by = times(expanded[i / 4 * 4 + j], (unsigned char[]){14, 11, 13, 9}[(j + 4 - i % 4) % 4]);
            mixed[i] = j == 0 ? by : mixed[i] ^ by;
        }
}

/* the share of the byte y in its column, by a matrix whose first column is p */
static uint32_t share(const unsigned char *p, unsigned char y)
{
    return times(y, p[0]) | (uint32_t)times(y, p[1]) << 8 | (uint32_t)times(y, p[2]) << 16 | (uint32_t)times(y, p[3]) << 24;
}

/* four tables one behind the other: in table k the words moved up by k bytes */
static void set_rows(uint32_t *words)
{
    for (int i = 256; i < 1024; i++) words[i] = words[i - 256] << 8 | words[i - 256] >> 24;
}

/* the substitution, by the field: powers of 3 beside powers of its inverse */
static void set_tables(void)
{
    unsigned char p = 1, q = 1;
    there[0] = 0x63;
    for (int i = 0; i < 255; i++, p = times(p, 3), q = times(q, 0xf6)) {
        unsigned v = q * 0x0101u;
        there[p] = (unsigned char)(q ^ (v >> 7) ^ (v >> 6) ^ (v >> 5) ^ (v >> 4) ^ 0x63);
    }
    for (int x = 0; x < 256; x++) back[there[x]] = (unsigned char)x;
    for (int x = 0; x < 256; x++) {
        words_there[x] = share((unsigned char[]){2, 1, 1, 3}, there[x]);
        words_back[x] = share((unsigned char[]){14, 9, 13, 11}, back[x]);
    }
    set_rows(words_there);
    set_rows(words_back);
}

static uint64_t encrypt_ours(const unsigned char *unused, size_t n, unsigned char *s)
{
    (void)unused;
    return bench_encrypt(key, key_size, s, n);
}

static uint64_t decrypt_ours(const unsigned char *unused, size_t n, unsigned char *s)
{
    (void)unused;
    return bench_decrypt(key, key_size, s, n);
}

static uint64_t encrypt_c(const unsigned char *unused, size_t n, unsigned char *s)
{
    (void)unused;
    baseline_encrypt(expanded, rounds, there, words_there, s, n);
    return 0;
}

static uint64_t decrypt_c(const unsigned char *unused, size_t n, unsigned char *s)
{
    (void)unused;
    baseline_decrypt(expanded, mixed, rounds, back, words_back, s, n);
    return 0;
}

static uint64_t encrypt_openssl(const unsigned char *unused, size_t n, unsigned char *s)
{
    (void)unused;
    openssl.aes(1, key, key_size, s, n, s);
    return 0;
}

static uint64_t decrypt_openssl(const unsigned char *unused, size_t n, unsigned char *s)
{
    (void)unused;
    openssl.aes(0, key, key_size, s, n, s);
    return 0;
}

static void ciphering(const char *call, work *ours, work *by_openssl, work *same_shape)
{
    struct contest c = {.call = call, .bits = 8 * key_size, .n = LONG, .room = LONG, .turns = 4, .per = LONG / 16};
    part(c, ours, by_openssl, same_shape);
}

/* ---- a verdict: 50,000 turns and three blocks */

static unsigned char info[INFO_SIZE];

static uint64_t verdict_ours(const unsigned char *unused, size_t n, unsigned char *none)
{
    return (void)unused, (void)n, (void)none, bench_verdict(info, INFO_SIZE, password, UNITS);
}

static uint64_t verdict_openssl(const unsigned char *unused, size_t n, unsigned char *none)
{
    return (void)unused, (void)n, (void)none, openssl_verdict(openssl.aes, info);
}

int main(int argc, char **argv)
{
    openssl = manner_of(argc, argv);
    begin("parts", argv[1]);
    set_tables();
    fill(in, LONG);
    hashing("SHA-1 of 24 bytes", 24, 20000, 1, sha1_alone);
    hashing("SHA-1 of 24 bytes, beside the key derivation", 24, 20000, 1, sha1_shared);
    hashing("SHA-1, a block of 65,536 bytes", LONG, 40, LONG / 64, sha1_alone);
    for (size_t bits = 128; bits <= 256; bits += 64) {
        set_key(bits);
        ciphering("AES, encrypting a block", encrypt_ours, encrypt_openssl, encrypt_c);
        ciphering("AES, decrypting a block", decrypt_ours, decrypt_openssl, decrypt_c);
    }
    lay_info(info, 256);
    must(verdict_ours(in, 0, out) == 0, "the password");
    part((struct contest){.call = "verdict by the crate itself, AES-256", .turns = 1, .per = 1}, verdict_ours, verdict_openssl, NULL);
    return 0;
}
