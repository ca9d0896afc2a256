/* C of the same shape as the crates, compiled by the toolchain's own clang: what the language costs. That clang has no headers. */
typedef __UINT32_TYPE__ u32;
typedef __UINT64_TYPE__ u64;
typedef __SIZE_TYPE__ size;
typedef unsigned char u8;

struct state { u32 a, b, c, d, e; };

static u32 rotl(u32 n, u32 x) { return x << n | x >> (32 - n); }

static u32 mix(size t, u32 x, u32 y, u32 z)
{
    if (t < 20) return (x & y) ^ (~x & z);
    if (t < 40) return x ^ y ^ z;
    if (t < 60) return (x & y) ^ (x & z) ^ (y & z);
    return x ^ y ^ z;
}

static u32 constant(size t)
{
    return t < 20 ? 0x5a827999u : t < 40 ? 0x6ed9eba1u : t < 60 ? 0x8f1bbcdcu : 0xca62c1d6u;
}

static inline struct state span(const u32 *w, size from, size to, struct state s)
{
    for (size t = from; t < to; t++) {
        u32 a = rotl(5, s.a) + mix(t, s.b, s.c, s.d) + s.e + constant(t) + w[t];
        s = (struct state){a, s.a, rotl(30, s.b), s.c, s.d};
    }
    return s;
}

static inline void extend(u32 *w, size from, size to)
{
    for (size t = from; t < to; t++) w[t] = rotl(1, w[t - 3] ^ w[t - 8] ^ w[t - 14] ^ w[t - 16]);
}

static struct state compress(struct state s, const u8 *p)
{
    u32 w[80];
    for (size t = 0; t < 16; t++)
        w[t] = (u32)p[4 * t] << 24 | (u32)p[4 * t + 1] << 16 | (u32)p[4 * t + 2] << 8 | p[4 * t + 3];
    extend(w, 16, 32);
    extend(w, 32, 48);
    extend(w, 48, 64);
    extend(w, 64, 80);
    struct state r = span(w, 60, 80, span(w, 40, 60, span(w, 20, 40, span(w, 0, 20, s))));
    return (struct state){s.a + r.a, s.b + r.b, s.c + r.c, s.d + r.d, s.e + r.e};
}

static void put(u8 *p, u32 v)
{
    p[0] = v >> 24;
    p[1] = v >> 16;
    p[2] = v >> 8;
    p[3] = v;
}

void baseline_sha1(const u8 *m, size n, u8 *out)
{
    u8 tail[128] = {0};
    size rest = n % 64, ending = (n + 72) / 64 - n / 64;
    struct state s = {0x67452301, 0xefcdab89, 0x98badcfe, 0x10325476, 0xc3d2e1f0};
    for (size i = 0; i < rest; i++) tail[i] = m[n - rest + i];
    tail[rest] = 0x80;
    put(tail + 64 * ending - 4, 8 * (u32)n);
    for (size i = 0; i < n / 64; i++) s = compress(s, m + 64 * i);
    for (size i = 0; i < ending; i++) s = compress(s, tail + 64 * i);
    put(out, s.a);
    put(out + 4, s.b);
    put(out + 8, s.c);
    put(out + 12, s.d);
    put(out + 16, s.e);
}

/* ---- AES by columns, tables and expanded keys lent: the words of a column's four bytes, each out of its row's table, and the key's */

struct block { u8 b[16]; };

static u32 word(const u8 *s) { return s[0] | (u32)s[1] << 8 | (u32)s[2] << 16 | (u32)s[3] << 24; }

static struct block shifted(struct block s)
{
    const u8 *b = s.b;
    return (struct block){{b[0], b[5], b[10], b[15], b[4], b[9], b[14], b[3], b[8], b[13], b[2], b[7], b[12], b[1], b[6], b[11]}};
}

static struct block unshifted(struct block s)
{
    const u8 *b = s.b;
    return (struct block){{b[0], b[13], b[10], b[7], b[4], b[1], b[14], b[11], b[8], b[5], b[2], b[15], b[12], b[9], b[6], b[3]}};
}

static u64 half(const u8 *s) { return word(s) | (u64)word(s + 4) << 32; }

static struct block add_key(const u8 *key, struct block s)
{
    for (size i = 0; i < 16; i += 8) {
        u64 sum = half(s.b + i) ^ half(key + i);
        for (size j = 0; j < 8; j++) s.b[i + j] = (u8)(sum >> 8 * j);
    }
    return s;
}

static struct block substituted(const u8 *table, struct block s)
{
    for (size i = 0; i < 16; i++) s.b[i] = table[s.b[i]];
    return s;
}

static struct block inner_round(const u32 *words, const u8 *key, struct block s)
{
    struct block t;
    for (size c = 0; c < 16; c += 4) {
        const u8 *b = s.b + c;
        u32 sum = word(key + c) ^ words[b[0]] ^ words[256 + b[1]] ^ words[512 + b[2]] ^ words[768 + b[3]];
        for (size j = 0; j < 4; j++) t.b[c + j] = (u8)(sum >> 8 * j);
    }
    return t;
}

/* the rounds between the first key and the last round, two a turn */
static struct block rounds_there(const u32 *words, const u8 *w, size rounds, struct block s)
{
    size r = 1;
    for (; r + 1 < rounds; r += 2) {
        s = inner_round(words, w + 16 * r, shifted(s));
        s = inner_round(words, w + 16 * (r + 1), shifted(s));
    }
    return r < rounds ? inner_round(words, w + 16 * r, shifted(s)) : s;
}

static struct block rounds_back(const u32 *words, const u8 *mixed, size rounds, struct block s)
{
    size r = rounds - 1;
    for (; r > 1; r -= 2) {
        s = inner_round(words, mixed + 16 * r, unshifted(s));
        s = inner_round(words, mixed + 16 * (r - 1), unshifted(s));
    }
    return r > 0 ? inner_round(words, mixed + 16 * r, unshifted(s)) : s;
}

void baseline_encrypt(const u8 *restrict w, size rounds, const u8 *restrict table, const u32 *restrict words, struct block *restrict buf, size n)
{
    for (struct block *at = buf; at < buf + n / 16; at++) {
        struct block s = rounds_there(words, w, rounds, add_key(w, *at));
        *at = add_key(w + 16 * rounds, shifted(substituted(table, s)));
    }
}

/* mixed: the round keys through InvMixColumns */
void baseline_decrypt(const u8 *restrict w, const u8 *restrict mixed, size rounds, const u8 *restrict table, const u32 *restrict words,
                      struct block *restrict buf, size n)
{
    for (struct block *at = buf; at < buf + n / 16; at++) {
        struct block s = rounds_back(words, mixed, rounds, add_key(w + 16 * rounds, *at));
        *at = add_key(w, substituted(table, unshifted(s)));
    }
}
