/* The library behind two pipes: reads a request from standard input, calls the C function that it names, and writes what came
   back, with the lent areas as they are then. It stands alone, without a C library, so that an x86-64 linker is all it needs. */
#include "../include/graupenzelt.h"

#define MARGIN 64
#define MOST 131072
#define GUARD 0xA5

/* A request: five numbers, then the first input, the second input (comparing), the area and the work area. */
struct request {
    uint64_t step; /* 'o', 'f', 'c', 'l' or 'h' */
    uint64_t in;   /* bytes */
    uint64_t other;
    uint64_t area;
    uint64_t work; /* 16-bit numbers */
};

/* An answer: the result's fields, the first guard that was touched, then the area and the work area. */
struct answer {
    uint64_t number;
    uint64_t place;
    uint64_t fields[4];
    uint64_t touched; /* src/served.rs has words for each */
};

/* All that is lent stands between two margins. Of an input each byte is a guard too, for nothing may be written there. */
static uint8_t in[MOST + 2 * MARGIN], in_before[MOST];
static uint8_t other[MOST + 2 * MARGIN], other_before[MOST];
static uint8_t area[MOST + 2 * MARGIN];
static uint16_t work[MOST + 2 * MARGIN];

void *memset(void *to, int byte, size_t n)
{
    for (size_t i = 0; i < n; i++)
        ((volatile uint8_t *)to)[i] = (uint8_t)byte;
    return to;
}

void *memcpy(void *restrict to, const void *restrict from, size_t n)
{
    for (size_t i = 0; i < n; i++)
        ((volatile uint8_t *)to)[i] = ((const uint8_t *)from)[i];
    return to;
}

void *memmove(void *to, const void *from, size_t n)
{
    volatile uint8_t *target = to;
    const uint8_t *source = from;
    if ((uintptr_t)to <= (uintptr_t)from)
        for (size_t i = 0; i < n; i++)
            target[i] = source[i];
    else
        for (size_t i = n; i > 0; i--)
            target[i - 1] = source[i - 1];
    return to;
}

static long kernel(long call, long a, long b, long c)
{
    long result;
    __asm__ volatile("syscall" : "=a"(result) : "a"(call), "D"(a), "S"(b), "d"(c) : "rcx", "r11", "memory");
    return result;
}

static void leave(int status)
{
    for (;;)
        kernel(60, status, 0, 0);
}

/* Status 0 where the requests end between two of them, 2 where one is cut. */
static void get(void *to, size_t n, int first)
{
    for (size_t have = 0; have < n;) {
        long more = kernel(0, 0, (long)((uint8_t *)to + have), (long)(n - have));
        if (more <= 0)
            leave(first && have == 0 ? 0 : 2);
        have += (size_t)more;
    }
}

static void put(const void *from, size_t n)
{
    for (size_t done = 0; done < n;) {
        long more = kernel(1, 1, (long)((const uint8_t *)from + done), (long)(n - done));
        if (more <= 0)
            leave(2);
        done += (size_t)more;
    }
}

/* Bytes that must stay: a margin, all GUARD, or an input, as it was before. */
struct guard {
    uint8_t *at;
    size_t n;
    uint8_t *before; /* NULL for a margin */
};

struct guards {
    struct guard all[10];
};

static struct guards guards(const struct request *q)
{
    const size_t wide = sizeof work[0] * MARGIN;
    return (struct guards){{
        {in, MARGIN, NULL},
        {in + MARGIN, q->in, in_before},
        {in + MARGIN + q->in, MARGIN, NULL},
        {other, MARGIN, NULL},
        {other + MARGIN, q->other, other_before},
        {other + MARGIN + q->other, MARGIN, NULL},
        {area, MARGIN, NULL},
        {area + MARGIN + q->area, MARGIN, NULL},
        {(uint8_t *)work, wide, NULL},
        {(uint8_t *)(work + MARGIN + q->work), wide, NULL},
    }};
}

static void set(const struct guards *g)
{
    for (size_t k = 0; k < sizeof g->all / sizeof g->all[0]; k++) {
        const struct guard *one = &g->all[k];
        if (one->before)
            memcpy(one->before, one->at, one->n);
        else
            memset(one->at, GUARD, one->n);
    }
}

/* The first guard that was touched, counted from 1; 0 where none was. */
static uint64_t touched(const struct guards *g)
{
    for (size_t k = 0; k < sizeof g->all / sizeof g->all[0]; k++) {
        const struct guard *one = &g->all[k];
        for (size_t i = 0; i < one->n; i++)
            if (one->at[i] != (one->before ? one->before[i] : GUARD))
                return k + 1;
    }
    return 0;
}

static struct answer call(const struct request *q)
{
    struct answer a = {0, 0, {0, 0, 0, 0}, 0};
    if (q->step == 'o') {
        struct graupenzelt_opened r = graupenzelt_open(in + MARGIN, q->in);
        a = (struct answer){r.number, r.place, {r.start, r.length, 0, 0}, 0};
    } else if (q->step == 'f') {
        struct graupenzelt_framed r = graupenzelt_frame(in + MARGIN, q->in, area + MARGIN, q->area);
        a = (struct answer){r.number, r.place, {r.length, 0, 0, 0}, 0};
    } else if (q->step == 'c') {
        struct graupenzelt_checked r = graupenzelt_check(in + MARGIN, q->in);
        a = (struct answer){r.number, r.place, {r.signals, r.channels, r.ranks, r.pairs}, 0};
    } else if (q->step == 'l') {
        struct graupenzelt_compared r = graupenzelt_compare(in + MARGIN, q->in, other + MARGIN, q->other);
        a = (struct answer){r.number, r.place, {(uint64_t)(int64_t)r.order, 0, 0, 0}, 0};
    } else if (q->step == 'h') {
        struct graupenzelt_handled r = graupenzelt_handle(in + MARGIN, q->in, area + MARGIN, q->area, work + MARGIN, q->work);
        a = (struct answer){r.number, r.place, {r.length, 0, 0, 0}, 0};
    } else {
        leave(2);
    }
    return a;
}

void _start(void);
__attribute__((force_align_arg_pointer)) void _start(void)
{
    for (;;) {
        struct request q;
        get(&q, sizeof q, 1);
        if (q.in > MOST || q.other > MOST || q.area > MOST || q.work > MOST)
            leave(2);
        get(in + MARGIN, q.in, 0);
        get(other + MARGIN, q.other, 0);
        get(area + MARGIN, q.area, 0);
        get(work + MARGIN, sizeof work[0] * q.work, 0);
        const struct guards g = guards(&q);
        set(&g);
        struct answer a = call(&q);
        a.touched = touched(&g);
        put(&a, sizeof a);
        put(area + MARGIN, q.area);
        put(work + MARGIN, sizeof work[0] * q.work);
    }
}
