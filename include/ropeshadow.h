/* Ropeshadow: the package of a password-locked Office document (Standard encryption of MS-OFFCRYPTO) opened, whole, one stretch of it, or
 * what is left of it, and sealed, and the EncryptionInfo of a new one written.
 *
 * Link target/lib/libropeshadow.a or target/lib/libropeshadow.so (`make lib`). It keeps no state, takes no memory from the heap, calls
 * nothing but memcpy and memset, and may be called from several threads at once.
 *
 * Each function returns one number, answer + 65,536 x size; ROPESHADOW_ANSWER and ROPESHADOW_SIZE take it apart. Answer 0 is done;
 * any other is the first broken rule, and then the size is 0 and every byte of `out` is as it was.
 *
 * The caller owns all memory, lends it for the call and gets it back: nothing is kept. Only `out` is written, and by ropeshadow_rescue
 * `counts`. A count is of elements: bytes, or the 16-bit units of a password. Sixteen bytes by value are two numbers, the first eight
 * bytes and the last eight, each low byte first.
 *
 * Nothing checks what is passed. The caller sees to it that
 *   - each pointer leads to as many elements as its count says, an `out` of fixed length to that many bytes, and `counts` to three numbers;
 *   - no pointer is null, even where its count is 0;
 *   - neither `out` nor `counts` shares a byte with anything else lent (inputs may overlap each other);
 *   - the units of a password are aligned as a uint16_t is, and `counts` as a uint64_t is;
 *   - until the call returns nobody else, no thread, signal handler or mapped file, writes to what is lent, or reads `out` or `counts`;
 *   - there is stack enough. On x86-64 a call takes at most so many bytes, measured in the compiled code (tools/stack) and rounded up:
 *     ropeshadow_parse 512, ropeshadow_sha1 1,024, ropeshadow_aes_encrypt 2,048, ropeshadow_aes_decrypt 5,120,
 *     ropeshadow_write_info 8,192, ropeshadow_verdict 10,240, ropeshadow_open 10,240, ropeshadow_seal 10,240,
 *     ropeshadow_stretch 10,240, ropeshadow_rescue 10,240. On Arm nothing was measured.
 * docs/TRUST.md has all that is taken for granted.
 */
#ifndef ROPESHADOW_H
#define ROPESHADOW_H

#include <stddef.h>
#include <stdint.h>

#ifdef __cplusplus
extern "C" {
#endif

#define ROPESHADOW_ANSWER(word) ((unsigned)((word) % 65536))
#define ROPESHADOW_SIZE(word) ((size_t)((word) / 65536))

/* The answers. */
enum {
    ROPESHADOW_DONE = 0,
    ROPESHADOW_INFO_SHORT = 1,          /* EncryptionInfo has fewer than 12 bytes */
    ROPESHADOW_VERSION = 2,             /* the minor version is not 2, or the major is not 2, 3 or 4: no Standard encryption */
    ROPESHADOW_HEADER_SIZE = 3,         /* HeaderSize is below 32 or above 4,096; a name to write has more than 4,064 bytes */
    ROPESHADOW_INFO_LENGTH = 4,         /* EncryptionInfo is not HeaderSize + 84 bytes long */
    ROPESHADOW_NAME_LENGTH = 5,         /* SizeExtra exceeds HeaderSize - 32, or the name's byte count, read or to write, is odd */
    ROPESHADOW_ALG_ID = 6,              /* AlgID is not AES with 128, 192 or 256 bits */
    ROPESHADOW_ALG_ID_HASH = 7,         /* AlgIDHash is not SHA-1 */
    ROPESHADOW_KEY_SIZE = 8,            /* KeySize is not the one for AlgID; a key size to write is not 128, 192 or 256 bits;
                                         * an AES key not of 16, 24 or 32 bytes */
    ROPESHADOW_SALT_SIZE = 9,           /* SaltSize is not 16 */
    ROPESHADOW_VERIFIER_HASH_SIZE = 10, /* VerifierHashSize is not 20 */
    ROPESHADOW_PASSWORD_LONG = 11,      /* the password has more than 255 units */
    ROPESHADOW_PASSWORD_WRONG = 12,     /* the password does not match the verifier */
    ROPESHADOW_STREAM_SHORT = 13,       /* the package stream has fewer than 8 bytes */
    ROPESHADOW_STREAM_SIZE = 14,        /* the package has more than 268,435,456 bytes */
    ROPESHADOW_STREAM_LENGTH = 15,      /* what follows StreamSize is not StreamSize rounded up to a multiple of 16, nor, where
                                         * StreamSize is above 0 and a multiple of 4,096, that and an extra block of 16 bytes */
    ROPESHADOW_ROOM = 16,               /* `out` is too short */
    ROPESHADOW_MESSAGE_LONG = 18,       /* a message to hash has more than 65,536 bytes */
    ROPESHADOW_SCHEME = 19,             /* the scheme is neither 1 nor 2; tested after 10 and before 11 */
    ROPESHADOW_RANGE = 20               /* a stretch ends before it begins, or past the package; tested after 15 and before 16 */
};

/* The schemes: how the blocks of a package are encrypted. Nothing in the file tells which one it was, so the caller does. A package that
 * was sealed under one scheme and is opened under the other answers 0, with wrong bytes. The password is judged the same way under
 * both. Any other number is answer 19, of all 64 bits: 2^32 + 1 is not 1. */
enum {
    ROPESHADOW_ECB = 1,    /* each block by itself: what Microsoft Office, LibreOffice and Apache POI write */
    ROPESHADOW_CHAINED = 2 /* AES-CBC in segments of 4,096 bytes, each from a start of its own; an extra block belongs to the last */
};

/* SHA-1 of a message (FIPS 180-4) to out. Answers 0, 18. */
uint64_t ropeshadow_sha1(const uint8_t *message, size_t size, uint8_t out[20]);

/* One block under AES (FIPS 197) to out. Answers 0, 8. */
uint64_t ropeshadow_aes_encrypt(const uint8_t *key, size_t key_size, uint64_t block_low, uint64_t block_high, uint8_t out[16]);
uint64_t ropeshadow_aes_decrypt(const uint8_t *key, size_t key_size, uint64_t block_low, uint64_t block_high, uint8_t out[16]);

/* The descriptor of an EncryptionInfo stream to out, numbers low byte first: major (at 0, 2 bytes), minor (2, 2), AlgID (4, 4), key
 * size in bytes (8, 4), place of the provider's name in EncryptionInfo (12, 4), its length in bytes (16, 4), salt (20, 16),
 * EncryptedVerifier (36, 16), EncryptedVerifierHash (52, 32), and the scheme as it was given (84, 4). Answers 0 to 10, 19. */
uint64_t ropeshadow_parse(const uint8_t *info, size_t info_size, uint64_t scheme, uint8_t out[88]);

/* Whether the password is the one that the document was locked with. Answers 0 to 12, 19. */
uint64_t ropeshadow_verdict(const uint8_t *info, size_t info_size, const uint16_t *password, size_t units, uint64_t scheme);

/* The package of an EncryptedPackage stream to the front of out, zeros after it to the end of out. The size is the number of
 * package bytes; a room of stream_size bytes is always enough. Under the scheme that the package was not sealed with, the bytes are
 * wrong and the answer is 0 all the same. Answers 0 to 16, 19. */
uint64_t ropeshadow_open(const uint8_t *info, size_t info_size, const uint16_t *password, size_t units, uint64_t scheme,
                         const uint8_t *stream, size_t stream_size, uint8_t *out, size_t room);

/* One stretch of the package of an EncryptedPackage stream, its bytes `from` up to, not including, `to`, to the front of out, zeros after
 * them to the end of out: what the same bytes of ropeshadow_open's out are. Places are counted from 0. The size is to - from, which is room
 * enough; an empty stretch is one too. The stream is lent whole; of its ciphertext only the blocks of 16 bytes that the stretch meets are
 * decrypted, and under scheme 2 the one before them is read: what the others hold counts for nothing. Each call derives the key anew.
 * Answers 0 to 16, 19, 20. */
uint64_t ropeshadow_stretch(const uint8_t *info, size_t info_size, const uint16_t *password, size_t units, uint64_t scheme,
                            const uint8_t *stream, size_t stream_size, uint64_t from, uint64_t to, uint8_t *out, size_t room);

/* What is there of the package of an EncryptedPackage stream that was cut, or has bytes too many, to the front of out: the whole blocks of
 * 16 bytes of its ciphertext, decrypted, at most StreamSize bytes of them, and zeros after them to the end of out. The size is StreamSize,
 * whatever the stream's length, and that is room enough. The three numbers of counts become
 *   - counts[0], recovered: how many bytes at the front of out are the package's own;
 *   - counts[1], zeroed: how many bytes of the package after them are missing; recovered + zeroed is the size;
 *   - counts[2], surplus: how many bytes of ciphertext stand past the longest length that no. 15 allows.
 * A last block that is cut counts in none of them. Where zeroed is 0 the package is there whole; where ropeshadow_open answers 0, out is
 * the same, and counts are the size, 0 and 0. On any answer but 0 counts is as it was, too. Answers 0 to 14, 16, 19. */
uint64_t ropeshadow_rescue(const uint8_t *info, size_t info_size, const uint16_t *password, size_t units, uint64_t scheme,
                           const uint8_t *stream, size_t stream_size, uint8_t *out, size_t room, uint64_t counts[3]);

/* A package as an EncryptedPackage stream under an existing EncryptionInfo to the front of out, zeros after it to the end of out.
 * The last block is filled with the first of the sixteen filling bytes, which should be random. Where package_size is above 0 and a
 * multiple of 4,096 nothing is left to fill, and some producers write an extra block there: `extra` 0 leaves it out, and any other number
 * adds it, made of all sixteen filling bytes. At other sizes `extra` counts for nothing. The size is that of the whole stream; a room of
 * package_size + 24 bytes is always enough. Answers 0 to 12, 14, 16, 19. */
uint64_t ropeshadow_seal(const uint8_t *info, size_t info_size, const uint16_t *password, size_t units, uint64_t scheme,
                         const uint8_t *package, size_t package_size, uint64_t filling_low, uint64_t filling_high,
                         uint64_t extra, uint8_t *out, size_t room);

/* A new EncryptionInfo stream, version 3.2, for a key of 128, 192 or 256 bits and a password to the front of out, zeros after it to
 * the end of out. The name is that of the provider, as bytes of UTF-16LE, and is written as given: it usually ends with a zero unit,
 * which the caller gives. The filling that follows the verifier's hash is the first twelve of its sixteen bytes. Salt, verifier and
 * filling should be random, new ones for each stream. Packages of either scheme can be sealed under it. The size is that of the whole
 * stream; a room of name_size + 116 bytes is enough. Answers 0, 3, 5, 8, 11, 16. */
uint64_t ropeshadow_write_info(uint64_t bits, const uint16_t *password, size_t units, const uint8_t *name, size_t name_size,
                               uint64_t salt_low, uint64_t salt_high, uint64_t verifier_low, uint64_t verifier_high,
                               uint64_t filling_low, uint64_t filling_high, uint8_t *out, size_t room);

#ifdef __cplusplus
}
#endif

#endif
