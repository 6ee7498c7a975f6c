/* How deep the stack of a command is: stack BLOCKS, for x86-64. Each block, and a chain that has to move all of 200 signals, is handled on a
   painted stack; the deepest byte that lost its paint tells. */
#include <stdio.h>
#include <string.h>

#include "graupenzelt.h"

#define PAINT 0x5A
#define MOST 8192
#define CHAIN 200

typedef struct graupenzelt_handled handler(const uint8_t *, size_t, uint8_t *, size_t, uint16_t *, size_t);

static uint8_t stack[1 << 16] __attribute__((aligned(16)));
static uint8_t block[MOST], area[GRAUPENZELT_ANSWER];
static uint16_t work[GRAUPENZELT_WORK];
static size_t length;
static handler *volatile chosen;
static struct graupenzelt_handled result;

static void command(void)
{
    result = chosen(block, length, area, sizeof area, work, GRAUPENZELT_WORK);
}

/* Leaves nothing on the stack but its return address. */
static struct graupenzelt_handled nothing(const uint8_t *in, size_t n, uint8_t *a, size_t m, uint16_t *w, size_t k)
{
    (void)in, (void)n, (void)a, (void)m, (void)w, (void)k;
    return (struct graupenzelt_handled){0, 0, 0};
}

static size_t painted_depth(handler *handle)
{
    chosen = handle;
    memset(stack, PAINT, sizeof stack);
    __asm__ volatile("movq %%rsp, %%rbx\n\tmovq %0, %%rsp\n\tcallq *%1\n\tmovq %%rbx, %%rsp"
                     :
                     : "r"(stack + sizeof stack), "r"(command)
                     : "rax", "rbx", "rcx", "rdx", "rsi", "rdi", "r8", "r9", "r10", "r11", "xmm0", "xmm1", "xmm2", "xmm3", "xmm4",
                       "xmm5", "xmm6", "xmm7", "xmm8", "xmm9", "xmm10", "xmm11", "xmm12", "xmm13", "xmm14", "xmm15", "cc", "memory");
    size_t clean = 0;
    while (clean < sizeof stack && stack[clean] == PAINT)
        clean++;
    return sizeof stack - clean;
}

/* The first command is not counted: it may bind the functions of the C library. */
static int print_depth(const char *name)
{
    painted_depth(graupenzelt_handle);
    size_t depth = painted_depth(graupenzelt_handle);
    if (result.number) {
        printf("%-24s refused %u at %zu\n", name, (unsigned)result.number, result.place);
        return 1;
    }
    printf("%-24s %6zu\n", name, depth - painted_depth(nothing) + sizeof(void *));
    return 0;
}

/* Every field of a table is one or more times four bits. */
static void put(uint8_t *payload, size_t *at, unsigned field, int digits)
{
    while (digits-- > 0) {
        payload[*at / 2] |= (uint8_t)((field >> 4 * digits & 15) << (*at % 2 ? 0 : 4));
        ++*at;
    }
}

static void put_pair(uint8_t *payload, size_t *at, unsigned signal, unsigned channel)
{
    put(payload, at, signal, 2);
    put(payload, at, channel, 2);
    put(payload, at, 1, 1);
}

/* The last signal is placed only if all the others move on by one. */
static void make_chain(void)
{
    static uint8_t payload[MOST];
    size_t at = 0;
    put(payload, &at, CHAIN, 2);
    put(payload, &at, CHAIN, 2);
    put(payload, &at, 1, 1);
    put(payload, &at, 2 * CHAIN - 1, 3);
    for (unsigned signal = 0; signal < CHAIN - 1; signal++) {
        put_pair(payload, &at, signal, signal);
        put_pair(payload, &at, signal, signal + 1);
    }
    put_pair(payload, &at, CHAIN - 1, 0);
    length = graupenzelt_frame(payload, (at + 1) / 2, block, sizeof block).length;
}

int main(int count, char **words)
{
    int failed = 0;
    puts("bytes of stack that a command takes, with its return address, on x86-64");
    for (int i = 1; i < count; i++) {
        FILE *file = fopen(words[i], "rb");
        if (!file) {
            fprintf(stderr, "stack: cannot read %s\n", words[i]);
            return 2;
        }
        length = fread(block, 1, sizeof block, file);
        fclose(file);
        failed |= print_depth(words[i]);
    }
    make_chain();
    failed |= print_depth("a chain of 200");
    return failed;
}
