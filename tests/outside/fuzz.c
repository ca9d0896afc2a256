/* libFuzzer on the outside interface. Each buffer is an allocation of exactly its size, so that the sanitizer sees any byte read or
 * written beside it, and `out` is held to what the header says: untouched on a refusal, zeros after the written part.
 *
 * An input's first byte chooses the function, its next ones the lengths, and one the scheme. Four of the functions take a published
 * descriptor with its password (000, section 8), so that what lies behind the right password is reached by every stream. Sealing so takes
 * the filling and the choice of an extra block from the lengths that it has no other use for; the ends of a stretch stand before its
 * stream. The writer's name stands where others have EncryptionInfo, and its seven numbers at the end.
 *
 * With -DONLY=0 every input goes to the parser, which is a thousand times faster than what derives a key. With -DREPLAY it is a
 * program that runs the inputs named on its command line.
 */
#include <ropeshadow.h>
#include <stdint.h>
#include <stdio.h>
#include <stdlib.h>
#include <string.h>

enum { PARSE, OPEN, OPEN_UNLOCKED, SEAL_UNLOCKED, WRITE, STRETCH_UNLOCKED, RESCUE_UNLOCKED, FUNCTIONS };
static const char *const NAMES[FUNCTIONS] = {"parse", "open", "open, right password", "seal, right password", "write",
                                             "stretch, right password", "rescue, right password"};
enum { ANSWERS = 21, FRONT = 7 };
static unsigned long seen[FUNCTIONS][ANSWERS];

static const uint16_t PASSWORD[] = {'p', 'a', 's', 's', 'w', 'o', 'r', 'd'};
static const uint8_t INFO[116] = {
    3, 0, 2, 0, 0x24, 0, 0, 0, 32, 0, 0, 0,                                                   /* 3.2, flags, HeaderSize */
    0x24, 0, 0, 0, 0, 0, 0, 0, 0x10, 0x66, 0, 0, 4, 0x80, 0, 0, 0, 1, 0, 0, 24, 0, 0, 0, 0, 0, 0, 0, 0, 0, 0, 0, /* AES-256, SHA-1 */
    16, 0, 0, 0, 0, 1, 2, 3, 4, 5, 6, 7, 8, 9, 10, 11, 12, 13, 14, 15,                        /* the salt */
    0x25, 0x89, 0xae, 0xbb, 0x86, 0x0b, 0x8a, 0x41, 0xfa, 0x69, 0x0e, 0x76, 0xed, 0x56, 0xb0, 0xbe, 20, 0, 0, 0,
    0xde, 0xdd, 0xb6, 0xb2, 0x9f, 0x9c, 0xd3, 0x82, 0xa0, 0xa2, 0x04, 0xa5, 0x1b, 0x7f, 0xdf, 0x7e,
    0xb1, 0x23, 0x3f, 0x14, 0xfe, 0x5c, 0x99, 0xd9, 0x6f, 0x5d, 0xe4, 0xdb, 0x08, 0x3d, 0x92, 0x5e};

static void report(void) {
    for (int f = 0; f < FUNCTIONS; f++) {
        fprintf(stderr, "answers of %s:", NAMES[f]);
        for (int a = 0; a < ANSWERS; a++)
            if (seen[f][a] != 0) fprintf(stderr, " %d: %lu", a, seen[f][a]);
        fputc('\n', stderr);
    }
}

static void *copy(const void *from, size_t size) {
    void *to = malloc(size == 0 ? 1 : size);
    if (to == NULL) abort();
    return size == 0 ? to : memcpy(to, from, size);
}

/* Memory to write, full of a5. */
static void *lent(size_t size) {
    void *to = malloc(size == 0 ? 1 : size);
    if (to == NULL) abort();
    return memset(to, 0xa5, size == 0 ? 1 : size);
}

/* The first `most` bytes of what is left of the input, or fewer. */
static const uint8_t *taken(const uint8_t **data, size_t *left, size_t most, size_t *size) {
    const uint8_t *at = *data;
    *size = most < *left ? most : *left;
    *data += *size;
    *left -= *size;
    return at;
}

/* The scheme of a byte: one of the two, or for the last few bytes a number that is none. */
static uint64_t scheme_of(uint8_t byte) {
    static const uint64_t others[8] = {0, 3, 4, 256, (1ull << 32) + 1, (1ull << 32) + 2, (1ull << 63) + 1, UINT64_MAX};
    return byte >= 0xf8 ? others[byte - 0xf8] : byte % 2 == 0 ? ROPESHADOW_ECB : ROPESHADOW_CHAINED;
}

static int named(uint64_t scheme) { return scheme == ROPESHADOW_ECB || scheme == ROPESHADOW_CHAINED; }

static void judge(int f, uint64_t word, uint64_t scheme, const uint8_t *out, size_t room, size_t written) {
    unsigned answer = ROPESHADOW_ANSWER(word);
    if (answer >= ANSWERS) abort();
    seen[f][answer]++;
    /* a scheme that is none ends what the descriptor has not ended */
    if (named(scheme) || f == WRITE ? answer == ROPESHADOW_SCHEME : answer != ROPESHADOW_SCHEME && (answer < 1 || answer > 10)) abort();
    if (answer != ROPESHADOW_DONE && ROPESHADOW_SIZE(word) != 0) abort();
    if (written > room) abort();
    for (size_t i = answer == ROPESHADOW_DONE ? written : 0; i < room; i++)
        if (out[i] != (answer == ROPESHADOW_DONE ? 0 : 0xa5)) abort();
}

/* Writes EncryptionInfo with the numbers of what is left of the input, zeros where it ends early. */
static uint64_t written(const uint16_t *password, size_t units, const uint8_t *name, size_t name_size, const uint8_t *data, size_t left,
                        uint8_t *out, size_t room) {
    uint64_t n[7] = {0};
    uint8_t fields[88];
    memcpy(n, data, left < sizeof n ? left : sizeof n);
    uint64_t word = ropeshadow_write_info(n[0], password, units, name, name_size, n[1], n[2], n[3], n[4], n[5], n[6], out, room);
    switch (ROPESHADOW_ANSWER(word)) {
    case ROPESHADOW_DONE:
        if (ROPESHADOW_SIZE(word) != name_size + 116 || ropeshadow_parse(out, name_size + 116, ROPESHADOW_ECB, fields) != ROPESHADOW_DONE) abort();
        return word;
    case ROPESHADOW_ROOM:
        if (room >= name_size + 116) abort();
        return word;
    case ROPESHADOW_HEADER_SIZE:
    case ROPESHADOW_NAME_LENGTH:
    case ROPESHADOW_KEY_SIZE:
    case ROPESHADOW_PASSWORD_LONG:
        return word;
    default:
        abort();
    }
}

/* How long the ciphertext of a package of so many bytes is, with an extra block if that is chosen and the package may have one. */
static uint64_t blocks_of(uint64_t size, int extra) { return (size + 15) / 16 * 16 + (extra && size != 0 && size % 4096 == 0 ? 16 : 0); }

/* Seals a package; the size, and the room that is asked for, are those of the blocks and of StreamSize. */
static uint64_t sealed(const uint8_t *info, size_t info_size, const uint16_t *password, size_t units, uint64_t scheme,
                       const uint8_t *package, size_t size, uint64_t low, uint64_t high, uint64_t extra, uint8_t *out, size_t room) {
    uint64_t whole = 8 + blocks_of(size, extra != 0);
    uint64_t word = ropeshadow_seal(info, info_size, password, units, scheme, package, size, low, high, extra, out, room);
    if (named(scheme) && word != (room < whole ? (uint64_t)ROPESHADOW_ROOM : 65536 * whole)) abort();
    return word;
}

/* A place in a package by three bytes: two are the place, and the last few values of the third put it far away. */
static uint64_t place_of(const uint8_t bytes[3]) {
    static const uint64_t far[8] = {1ull << 16, 1ull << 28, 1ull << 31, 1ull << 32, 1ull << 44, 1ull << 48, 1ull << 63, UINT64_MAX};
    return bytes[0] + 256u * bytes[1] + (bytes[2] >= 0xf8 ? far[bytes[2] - 0xf8] : 0);
}

/* StreamSize, and what no. 13 and 14 say of it. */
static uint64_t size_of(const uint8_t *stream, size_t n, uint64_t *size) {
    *size = 0;
    if (n < 8) return ROPESHADOW_STREAM_SHORT;
    for (int i = 7; i >= 0; i--) *size = 256 * *size + stream[i];
    return *size > 268435456 ? ROPESHADOW_STREAM_SIZE : ROPESHADOW_DONE;
}

/* The number that a stretch returns where the password is right: what no. 13, 14, 15, 20 and 16 say, in this order, or its size. */
static uint64_t number_of(const uint8_t *stream, size_t n, uint64_t from, uint64_t to, size_t room) {
    uint64_t size, answer = size_of(stream, n, &size);
    if (answer != ROPESHADOW_DONE) return answer;
    if (n - 8 != blocks_of(size, 0) && n - 8 != blocks_of(size, 1)) return ROPESHADOW_STREAM_LENGTH;
    if (from > to || to > size) return ROPESHADOW_RANGE;
    return room < to - from ? (uint64_t)ROPESHADOW_ROOM : 65536 * (to - from);
}

/* Opens a stretch: the number is the one that the stream and the ends give, and the bytes are those of the whole package. */
static uint64_t stretched(const uint8_t *info, size_t info_size, const uint16_t *password, size_t units, uint64_t scheme,
                          const uint8_t *data, size_t left, uint8_t *out, size_t room) {
    size_t size;
    uint8_t ends[6] = {0};
    const uint8_t *at = taken(&data, &left, sizeof ends, &size);
    memcpy(ends, at, size);
    uint64_t from = place_of(ends), to = place_of(ends + 3);
    uint8_t *stream = copy(data, left), *whole = copy(data, left); /* room for any package of the stream */
    uint64_t word = ropeshadow_stretch(info, info_size, password, units, scheme, stream, left, from, to, out, room);
    if (named(scheme) && word != number_of(stream, left, from, to, room)) abort();
    if (ROPESHADOW_ANSWER(word) == ROPESHADOW_DONE) {
        uint64_t all = ropeshadow_open(info, info_size, password, units, scheme, stream, left, whole, left);
        if (ROPESHADOW_ANSWER(all) != ROPESHADOW_DONE || memcmp(out, whole + from, to - from) != 0) abort();
    }
    free(stream), free(whole);
    return word;
}

/* That a rescue beside opening the same is right: the same where that is done, with all recovered and no surplus, done or cramped where no.
 * 15 forbids opening, and else the same answer. */
static void beside_opening(uint64_t word, const uint64_t counts[3], const uint8_t *out, uint64_t opening, const uint8_t *opened,
                           size_t room) {
    switch (ROPESHADOW_ANSWER(opening)) {
    case ROPESHADOW_DONE:
        if (word != opening || memcmp(out, opened, room) != 0) abort();
        if (counts[0] != ROPESHADOW_SIZE(word) || counts[1] != 0 || counts[2] != 0) abort();
        return;
    case ROPESHADOW_STREAM_LENGTH:
        if (ROPESHADOW_ANSWER(word) != ROPESHADOW_DONE && ROPESHADOW_ANSWER(word) != ROPESHADOW_ROOM) abort();
        return;
    default:
        if (word != opening) abort();
    }
}

/* What a rescue counts of n bytes of ciphertext of a package of that size, after the recovered bytes zeros to the end of out. */
static void counted(const uint64_t counts[3], uint64_t n, uint64_t size, const uint8_t *out, size_t room) {
    uint64_t whole = n / 16 * 16, longest = blocks_of(size, 1);
    if (counts[0] != (whole < size ? whole : size) || counts[0] + counts[1] != size) abort();
    if (counts[2] != (n > longest ? n - longest : 0)) abort();
    for (size_t i = counts[0]; i < room; i++)
        if (out[i] != 0) abort();
}

/* Rescues what is there of a package: the number and the counts are those that the stream and the room give. */
static uint64_t rescued(const uint8_t *info, size_t info_size, const uint16_t *password, size_t units, uint64_t scheme,
                        const uint8_t *stream, size_t left, uint8_t *out, size_t room) {
    uint64_t size, rule = size_of(stream, left, &size), *counts = lent(3 * sizeof *counts), old[3];
    memset(old, 0xa5, sizeof old);
    uint8_t *opened = lent(room);
    uint64_t word = ropeshadow_rescue(info, info_size, password, units, scheme, stream, left, out, room, counts);
    uint64_t opening = ropeshadow_open(info, info_size, password, units, scheme, stream, left, opened, room);
    if (rule == ROPESHADOW_DONE) rule = room < size ? (uint64_t)ROPESHADOW_ROOM : 65536 * size;
    if (named(scheme) && word != rule) abort();
    if (ROPESHADOW_ANSWER(word) == ROPESHADOW_DONE) counted(counts, left - 8, size, out, room);
    else if (memcmp(counts, old, sizeof old) != 0) abort();
    beside_opening(word, counts, out, opening, opened, room);
    free(counts), free(opened);
    return word;
}

int LLVMFuzzerTestOneInput(const uint8_t *data, size_t left) {
    static int first = 1;
    if (first) atexit(report);
    first = 0;
    if (left < FRONT) return 0;
#ifdef ONLY
    int f = ONLY;
#else
    int f = (data[0] & 0x7f) % FUNCTIONS;
#endif
    size_t units = data[1] + (data[0] & 0x80 ? 128u : 0u), info_size = data[2] + 256u * data[3];
    size_t room = f == PARSE ? 88 : data[4] + 256u * data[5];
    uint64_t scheme = scheme_of(data[6]);
    data += FRONT, left -= FRONT;

    size_t password_size = sizeof PASSWORD, size;
    const uint8_t *from = (const uint8_t *)PASSWORD;
    if (f == OPEN || f == WRITE) from = taken(&data, &left, 2 * units, &password_size);
    uint16_t *password = copy(from, password_size / 2 * 2);
    from = INFO, size = sizeof INFO;
    if (f == PARSE || f == OPEN || f == WRITE) from = taken(&data, &left, info_size, &size);
    uint8_t *info = copy(from, size), *stream = copy(data, left), *out = lent(room);

    uint64_t word;
    if (f == PARSE) word = ropeshadow_parse(info, size, scheme, out);
    else if (f == SEAL_UNLOCKED)
        word = sealed(info, size, password, password_size / 2, scheme, stream, left, units, info_size % 256, info_size / 256, out, room);
    else if (f == STRETCH_UNLOCKED) word = stretched(info, size, password, password_size / 2, scheme, stream, left, out, room);
    else if (f == RESCUE_UNLOCKED) word = rescued(info, size, password, password_size / 2, scheme, stream, left, out, room);
    else if (f == WRITE) word = written(password, password_size / 2, info, size, stream, left, out, room);
    else word = ropeshadow_open(info, size, password, password_size / 2, scheme, stream, left, out, room);
    judge(f, word, scheme, out, room, f == PARSE ? 88 : ROPESHADOW_SIZE(word));
    free(password), free(info), free(stream), free(out);
    return 0;
}

#ifdef REPLAY
int main(int count, char **names) {
    static uint8_t input[1 << 20];
    for (int i = 1; i < count; i++) {
        FILE *file = fopen(names[i], "rb");
        if (file == NULL) return perror(names[i]), 2;
        size_t size = fread(input, 1, sizeof input, file);
        fclose(file);
        LLVMFuzzerTestOneInput(input, size);
    }
    printf("%d inputs\n", count - 1);
    return 0;
}
#endif
