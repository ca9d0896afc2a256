/* How deep each function writes below its caller, on x86-64: it is called on a stack of its own that is painted before. Prints a line
   for each, the name and the bytes from the return address down, the most of several calls. tools/stack runs it. */
#include "ropeshadow.h"
#include <stdio.h>
#include <stdlib.h>
#include <string.h>

enum { DEEP = 1 << 16, PAINT = 0xa5, ARGUMENTS = 16 };
enum { UNITS = 255, NAME = 108, INFO_SIZE = 116 + NAME, PACKAGE = 4096, ROOM = PACKAGE + 24 };

static unsigned char deep[DEEP] __attribute__((aligned(64)));
static unsigned char *called_at; /* the stack pointer at the call, before the return address */

/* Calls f with sixteen arguments, six in registers and ten on the stack that ends at top; more than it takes do no harm. */
uint64_t call_on(unsigned char *top, void *f, const uint64_t *arguments, unsigned char **at);
__asm__(".text\n"
        "call_on:\n"
        "    push %rbp\n"
        "    mov %rsp, %rbp\n"
        "    push %rbx\n"
        "    push %r12\n"
        "    mov %rdx, %rbx\n"
        "    mov %rsi, %r12\n"
        "    mov %rdi, %rsp\n"
        "    mov $15, %eax\n"
        "1:  pushq (%rbx,%rax,8)\n"
        "    dec %eax\n"
        "    cmp $6, %eax\n"
        "    jae 1b\n"
        "    mov %rsp, (%rcx)\n"
        "    mov (%rbx), %rdi\n"
        "    mov 8(%rbx), %rsi\n"
        "    mov 16(%rbx), %rdx\n"
        "    mov 24(%rbx), %rcx\n"
        "    mov 32(%rbx), %r8\n"
        "    mov 40(%rbx), %r9\n"
        "    call *%r12\n"
        "    lea -16(%rbp), %rsp\n"
        "    pop %r12\n"
        "    pop %rbx\n"
        "    pop %rbp\n"
        "    ret\n");

static const char *name_of;
static size_t most;

#define AS(x) ((uint64_t)(uintptr_t)(x))
#define INFO(i) AS(info[i]), INFO_SIZE
#define PASSWORD AS(password), UNITS
#define SCHEME(i) ((i) < 3 ? ROPESHADOW_ECB : ROPESHADOW_CHAINED)
/* a package with an extra block, or without, into stream */
#define SEALED(i) \
    ropeshadow_seal(info[(i) % 3], INFO_SIZE, password, UNITS, SCHEME(i), package, PACKAGE - (i) % 3, any, any, 1, stream, ROOM)
#define CALL(f, answer, ...) (name_of = #f, call((void *)(uintptr_t)(f), answer, (uint64_t[ARGUMENTS]){__VA_ARGS__}))

/* One call, which must be answered so; the most that any took is kept. */
static uint64_t call(void *f, unsigned answer, const uint64_t *arguments)
{
    memset(deep, PAINT, DEEP);
    uint64_t word = call_on(deep + DEEP, f, arguments, &called_at);
    if (ROPESHADOW_ANSWER(word) != answer) {
        fprintf(stderr, "%s answers %u and not %u\n", name_of, ROPESHADOW_ANSWER(word), answer);
        exit(1);
    }
    unsigned char *lowest = deep;
    while (*lowest == PAINT) lowest++;
    if (lowest == deep) {
        fprintf(stderr, "%s: the stack is too short\n", name_of);
        exit(1);
    }
    size_t depth = (size_t)(called_at - lowest);
    if (depth > most) most = depth;
    return word;
}

static void tell(void)
{
    printf("%s %zu\n", name_of, most);
    most = 0;
}

int main(void)
{
    static unsigned char message[65536], name[NAME], info[3][INFO_SIZE], package[PACKAGE], stream[ROOM], opened[ROOM], fixed[88];
    static const unsigned char key[32];
    static uint16_t password[UNITS];
    static uint64_t counts[3];
    const uint64_t any = 0x0123456789abcdef;
    for (size_t i = 0; i < UNITS; i++) password[i] = (uint16_t)(i * 257 + 1);

    CALL(ropeshadow_sha1, 0, AS(message), 24, AS(fixed));
    CALL(ropeshadow_sha1, 0, AS(message), 65536, AS(fixed));
    tell();
    for (uint64_t n = 16; n <= 32; n += 8) CALL(ropeshadow_aes_encrypt, 0, AS(key), n, any, any, AS(fixed));
    tell();
    for (uint64_t n = 16; n <= 32; n += 8) CALL(ropeshadow_aes_decrypt, 0, AS(key), n, any, any, AS(fixed));
    tell();
    for (uint64_t i = 0; i < 3; i++)
        CALL(ropeshadow_write_info, 0, 128 + 64 * i, PASSWORD, AS(name), NAME, any, any, any, any, any, any, INFO(i));
    tell();
    CALL(ropeshadow_parse, 0, INFO(0), ROPESHADOW_ECB, AS(fixed));
    tell();
    for (int i = 0; i < 3; i++) CALL(ropeshadow_verdict, 0, INFO(i), PASSWORD, ROPESHADOW_ECB);
    CALL(ropeshadow_verdict, 12, INFO(0), AS(password), UNITS - 1, ROPESHADOW_ECB);
    tell();
    /* under each scheme a package with an extra block, and two whose last block is filled */
    for (uint64_t i = 0; i < 6; i++)
        CALL(ropeshadow_seal, 0, INFO(i % 3), PASSWORD, SCHEME(i), AS(package), PACKAGE - i % 3, any, any, 1, AS(stream), ROOM);
    tell();
    for (uint64_t i = 0; i < 6; i++) {
        uint64_t sealed = SEALED(i);
        CALL(ropeshadow_open, 0, INFO(i % 3), PASSWORD, SCHEME(i), AS(stream), ROPESHADOW_SIZE(sealed), AS(opened), ROOM);
    }
    tell();
    /* a stretch over blocks, and one within a block */
    for (uint64_t i = 0; i < 6; i++) {
        uint64_t size = ROPESHADOW_SIZE(SEALED(i));
        CALL(ropeshadow_stretch, 0, INFO(i % 3), PASSWORD, SCHEME(i), AS(stream), size, 5, PACKAGE - 3, AS(opened), ROOM);
        CALL(ropeshadow_stretch, 0, INFO(i % 3), PASSWORD, SCHEME(i), AS(stream), size, 5, 9, AS(opened), ROOM);
    }
    tell();
    /* whole, cut in a block, and with too many bytes */
    for (uint64_t i = 0; i < 6; i++) {
        uint64_t size = ROPESHADOW_SIZE(SEALED(i)), lengths[3] = {size, 8 + 5, ROOM};
        for (int j = 0; j < 3; j++)
            CALL(ropeshadow_rescue, 0, INFO(i % 3), PASSWORD, SCHEME(i), AS(stream), lengths[j], AS(opened), ROOM, AS(counts));
    }
    tell();
    return 0;
}
