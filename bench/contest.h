/* What the programs of `make bench` share: contestants that do the same work, the clock, and the lines of target/bench.tsv. */
#ifndef BENCH_CONTEST_H
#define BENCH_CONTEST_H

#include <stddef.h>
#include <stdint.h>

/* A contestant reads n bytes and returns a number; what it writes stands in out, where it also may work in place. */
typedef uint64_t work(const unsigned char *in, size_t n, unsigned char *out);

struct contestant {
    const char *name;
    work *work;
};

struct contest {
    const char *call;
    size_t bits, bytes; /* the key's and the package's size; 0 where there is none */
    const struct contestant *each;
    int count;
    const unsigned char *in;
    size_t n;
    unsigned char *out;
    size_t room; /* bytes of out that must agree */
    int rounds, turns;
    double per; /* a turn's time is divided by it */
};

/* All agree on the number and on every byte of out, or the program ends; then each one's best time of several rounds, in which they
   take turns, is printed. */
void hold(const struct contest *c);

/* Nanoseconds of the processor that this program has had: other programs on the machine do not count. */
double now(void);

/* A line of figures: process, call, key bits, package bytes, contestant, figure, unit. The process is named once. */
void begin(const char *program, const char *manner);
void record(const char *call, size_t bits, size_t bytes, const char *contestant, double figure, const char *unit);

/* A line about the figures. */
void note(const char *what, const char *is);

/* The program ends where contestants differ. */
void must(int same, const char *what);

unsigned char *reserve(size_t n);

/* Bytes that look random and are always the same ones; whether a buffer still holds them. */
void fill(unsigned char *bytes, size_t n);
int filled(const unsigned char *bytes, size_t n);

#endif
