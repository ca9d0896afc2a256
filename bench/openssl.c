#define OPENSSL_SUPPRESS_DEPRECATED
#include "openssl.h"
#include "contest.h"
#include <openssl/aes.h>
#include <openssl/crypto.h>
#include <openssl/evp.h>
#include <openssl/sha.h>
#include <ropeshadow.h>
#include <stdio.h>
#include <stdlib.h>
#include <string.h>

const uint16_t password[UNITS] = {'p', 'a', 's', 's', 'w', 'o', 'r', 'd'};

/* What AES_cbc_encrypt looks up in. On x86-64 it has large tables where the processor tells of one thread a core (bit 28 is off), and
   otherwise the small ones of AES_encrypt, at half the speed. */
static const char *tables(void)
{
    const char *words = OPENSSL_info(OPENSSL_INFO_CPU_SETTINGS);
    unsigned long long first;
    if (words == NULL || sscanf(words, "OPENSSL_ia32cap=0x%llx", &first) != 1) return "the tables of its C";
    return first >> 28 & 1 ? "small tables" : "large tables";
}

struct manner manner_of(int argc, char **argv)
{
    note("OpenSSL", OpenSSL_version(OPENSSL_VERSION_STRING));
    note("portable CBC", tables());
    int off = getenv("OPENSSL_ia32cap") || getenv("OPENSSL_armcap"); /* only a new process can leave the SHA instructions out */
    if (argc > 1 && strcmp(argv[1], "portable") == 0 && off) return (struct manner){by_block, chained_by_block, "OpenSSL, portable"};
    if (argc > 1 && strcmp(argv[1], "instructions") == 0 && !off) return (struct manner){by_evp, chained_by_evp, "OpenSSL, instructions"};
    fprintf(stderr, "use: %s portable (with OPENSSL_ia32cap or OPENSSL_armcap set), or %s instructions\n", argv[0], argv[0]);
    exit(2);
}

/* ---- SHA-1 */

static void hash(unsigned char *digest, const void *a, size_t n, const void *b, size_t m)
{
    SHA_CTX c;
    SHA1_Init(&c);
    SHA1_Update(&c, a, n);
    SHA1_Update(&c, b, m);
    SHA1_Final(digest, &c);
}

uint64_t openssl_sha1(const unsigned char *message, size_t n, unsigned char digest[20])
{
    uint64_t first;
    SHA_CTX c;
    SHA1_Init(&c);
    SHA1_Update(&c, message, n);
    SHA1_Final(digest, &c);
    memcpy(&first, digest, 8);
    return first;
}

/* ---- AES */

void by_block(int encrypting, const unsigned char *key, size_t key_size, const unsigned char *in, size_t n, unsigned char *out)
{
    AES_KEY expanded;
    if (encrypting) {
        AES_set_encrypt_key(key, (int)(8 * key_size), &expanded);
        for (size_t i = 0; i < n; i += 16) AES_encrypt(in + i, out + i, &expanded);
    } else {
        AES_set_decrypt_key(key, (int)(8 * key_size), &expanded);
        for (size_t i = 0; i < n; i += 16) AES_decrypt(in + i, out + i, &expanded);
    }
}

void by_evp(int encrypting, const unsigned char *key, size_t key_size, const unsigned char *in, size_t n, unsigned char *out)
{
    const EVP_CIPHER *aes = key_size == 16 ? EVP_aes_128_ecb() : key_size == 24 ? EVP_aes_192_ecb() : EVP_aes_256_ecb();
    EVP_CIPHER_CTX *context = EVP_CIPHER_CTX_new();
    int done = 0;
    EVP_CipherInit_ex(context, aes, NULL, key, NULL, encrypting);
    EVP_CIPHER_CTX_set_padding(context, 0);
    EVP_CipherUpdate(context, out, &done, in, (int)n);
    EVP_CIPHER_CTX_free(context);
    must((size_t)done == n, "EVP");
}

/* ---- AES-CBC in segments (003) */

enum { SEGMENT = 4096 };

static size_t segment_size(size_t at, size_t n) { return n - at < SEGMENT ? n - at : SEGMENT; }

/* its first 16 bytes are what the segment at that place starts from */
static void start(unsigned char vector[20], const unsigned char salt[16], size_t at)
{
    uint32_t number = (uint32_t)(at / SEGMENT);
    hash(vector, salt, 16, &number, 4);
}

void chained_by_block(int encrypting, const unsigned char *key, size_t key_size, const unsigned char salt[16], const unsigned char *in, size_t n,
                      unsigned char *out)
{
    AES_KEY expanded;
    unsigned char vector[20];
    if (encrypting) AES_set_encrypt_key(key, (int)(8 * key_size), &expanded);
    else AES_set_decrypt_key(key, (int)(8 * key_size), &expanded);
    for (size_t at = 0; at < n; at += SEGMENT) {
        start(vector, salt, at);
        AES_cbc_encrypt(in + at, out + at, segment_size(at, n), &expanded, vector, encrypting);
    }
}

void chained_by_evp(int encrypting, const unsigned char *key, size_t key_size, const unsigned char salt[16], const unsigned char *in, size_t n,
                    unsigned char *out)
{
    const EVP_CIPHER *aes = key_size == 16 ? EVP_aes_128_cbc() : key_size == 24 ? EVP_aes_192_cbc() : EVP_aes_256_cbc();
    EVP_CIPHER_CTX *context = EVP_CIPHER_CTX_new();
    unsigned char vector[20];
    int done = 0, good = EVP_CipherInit_ex(context, aes, NULL, key, NULL, encrypting);
    EVP_CIPHER_CTX_set_padding(context, 0);
    for (size_t at = 0; at < n; at += SEGMENT) {
        start(vector, salt, at);
        good = good && EVP_CipherInit_ex(context, NULL, NULL, NULL, vector, encrypting);
        good = good && EVP_CipherUpdate(context, out + at, &done, in + at, (int)segment_size(at, n)) && (size_t)done == segment_size(at, n);
    }
    EVP_CIPHER_CTX_free(context);
    must(good, "EVP, chained");
}

/* ---- the descriptor (01): SaltSize, salt, EncryptedVerifier, VerifierHashSize and EncryptedVerifierHash end it */

enum { KEY_SIZE = 28, SALT = 48, VERIFIER = 64, VERIFIER_HASH = 84 };

/* ---- from password to key: 000 4 to 6 */

/* X then Y, whose front is the key */
void openssl_key(const unsigned char *info, unsigned char key[40])
{
    unsigned char turn[24], b[20], mask[64];
    hash(turn + 4, info + SALT, 16, password, sizeof password);
    for (uint32_t i = 0; i < 50000; i++) {
        memcpy(turn, &i, 4);
        openssl_sha1(turn, 24, turn + 4);
    }
    hash(b, turn + 4, 20, "\0\0\0", 4);
    for (int half = 0; half < 2; half++) {
        for (int i = 0; i < 64; i++) mask[i] = (unsigned char)((half ? 0x5c : 0x36) ^ (i < 20 ? b[i] : 0));
        openssl_sha1(mask, 64, key + 20 * half);
    }
}

static size_t key_size(const unsigned char *info) { return (size_t)(info[KEY_SIZE] | info[KEY_SIZE + 1] << 8) / 8; }

void lay_info(unsigned char info[INFO_SIZE], size_t bits)
{
    unsigned char key[40], v[16], digest[32] = {0};
    memset(info, 0, INFO_SIZE);
    info[0] = 3, info[2] = 2, info[8] = 32, info[24] = 0x04, info[25] = 0x80, info[44] = 16, info[80] = 20;
    info[4] = info[12] = 0x24, info[32] = 24; /* flags and provider, which POI wants */
    info[20] = (unsigned char)(0x0e + (bits - 128) / 64), info[21] = 0x66;
    info[KEY_SIZE] = (unsigned char)bits, info[KEY_SIZE + 1] = (unsigned char)(bits >> 8);
    for (int i = 0; i < 16; i++) info[SALT + i] = (unsigned char)i, v[i] = (unsigned char)(16 * i);
    openssl_key(info, key);
    openssl_sha1(v, 16, digest);
    by_block(1, key, bits / 8, v, 16, info + VERIFIER);
    by_block(1, key, bits / 8, digest, 32, info + VERIFIER_HASH);
}

/* ---- whole calls: as the library's, the number is answer + 65,536 x size */

static uint64_t unlock(cipher *aes, const unsigned char *info, unsigned char key[40])
{
    unsigned char v[16], stored[32], digest[20];
    openssl_key(info, key);
    aes(0, key, key_size(info), info + VERIFIER, 16, v);
    aes(0, key, key_size(info), info + VERIFIER_HASH, 32, stored);
    openssl_sha1(v, 16, digest);
    return memcmp(digest, stored, 20) ? 12 : 0;
}

uint64_t openssl_verdict(cipher *aes, const unsigned char *info)
{
    unsigned char key[40];
    return unlock(aes, info, key);
}

/* whole blocks */
static void blocks(struct manner by, uint64_t scheme, int encrypting, const unsigned char *key, const unsigned char *info,
                   const unsigned char *in, size_t n, unsigned char *out)
{
    if (scheme == ROPESHADOW_CHAINED) by.chained(encrypting, key, key_size(info), info + SALT, in, n, out);
    else by.aes(encrypting, key, key_size(info), in, n, out);
}

uint64_t openssl_open(struct manner by, uint64_t scheme, const unsigned char *info, const unsigned char *stream, unsigned char *out, size_t room)
{
    unsigned char key[40], last[16];
    uint64_t size, answer = unlock(by.aes, info, key);
    if (answer) return answer;
    memcpy(&size, stream, 8);
    size_t rest = size % 16, whole = size - rest;
    must(rest == 0 || scheme == ROPESHADOW_ECB, "a chained package of whole blocks");
    blocks(by, scheme, 0, key, info, stream + 8, whole, out);
    if (rest) by.aes(0, key, key_size(info), stream + 8 + whole, 16, last);
    if (rest) memcpy(out + whole, last, rest);
    memset(out + size, 0, room - size);
    return 65536 * size;
}

uint64_t openssl_seal(struct manner by, uint64_t scheme, const unsigned char *info, const unsigned char *package, size_t n,
                      const unsigned char filling[16], unsigned char *out, size_t room)
{
    unsigned char key[40], last[16];
    uint64_t size = n, answer = unlock(by.aes, info, key);
    if (answer) return answer;
    size_t rest = n % 16, whole = n - rest, total = 8 + whole + (rest ? 16 : 0);
    must(rest == 0 || scheme == ROPESHADOW_ECB, "a chained package of whole blocks");
    memcpy(out, &size, 8);
    blocks(by, scheme, 1, key, info, package, whole, out + 8);
    if (rest) {
        memcpy(last, package + whole, rest);
        memcpy(last + rest, filling, 16 - rest);
        by.aes(1, key, key_size(info), last, 16, out + 8 + whole);
    }
    memset(out + total, 0, room - total);
    return 65536 * total;
}
