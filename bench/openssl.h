/* The library's work by OpenSSL, and the descriptors that both are given. SHA-1 is OpenSSL's low-level hash, AES whichever cipher is
   named: by the low-level functions, or EVP. Only what `make bench` times is done: a descriptor and a stream are taken to be well-formed,
   and a chained package has whole blocks and no extra one. */
#ifndef BENCH_OPENSSL_H
#define BENCH_OPENSSL_H

#include <stddef.h>
#include <stdint.h>

/* n bytes, whole blocks, under AES-ECB to out, which may be in. */
typedef void cipher(int encrypting, const unsigned char *key, size_t key_size, const unsigned char *in, size_t n, unsigned char *out);

cipher by_block; /* AES_encrypt and AES_decrypt: table look-ups, on any processor */
cipher by_evp;   /* with the processor's AES instructions, where it has them */

/* The same under AES-CBC in segments of 4,096 bytes, each from the front of SHA-1(salt, its number). */
typedef void chain(int encrypting, const unsigned char *key, size_t key_size, const unsigned char salt[16], const unsigned char *in, size_t n,
                   unsigned char *out);

chain chained_by_block; /* AES_cbc_encrypt: table look-ups, no AES instructions on any processor */
chain chained_by_evp;

/* From the program's first argument, "portable" or "instructions": the ciphers, and the contestant's name. */
struct manner {
    cipher *aes;
    chain *chained;
    const char *name;
};
struct manner manner_of(int argc, char **argv);

enum { INFO_SIZE = 116, UNITS = 8 };
extern const uint16_t password[UNITS];

/* A descriptor for that password and a key of as many bits. */
void lay_info(unsigned char info[INFO_SIZE], size_t bits);

/* The derived key, in the front of 40 bytes. */
void openssl_key(const unsigned char *info, unsigned char key[40]);

uint64_t openssl_sha1(const unsigned char *message, size_t n, unsigned char digest[20]);
uint64_t openssl_verdict(cipher *aes, const unsigned char *info);

/* Under ROPESHADOW_ECB or ROPESHADOW_CHAINED. */
uint64_t openssl_open(struct manner by, uint64_t scheme, const unsigned char *info, const unsigned char *stream, unsigned char *out, size_t room);
uint64_t openssl_seal(struct manner by, uint64_t scheme, const unsigned char *info, const unsigned char *package, size_t n,
                      const unsigned char filling[16], unsigned char *out, size_t room);

#endif
