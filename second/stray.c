/* A library that strays, linked with box.c in the library's stead to see that every guard reports what it is there for. It knows two
   cases alone, as document 01 has them: table A, and nothing at all, which is refused. Beside the right answer it makes the one fault
   that STRAY names. */
#include "../include/graupenzelt.h"

enum fault {
    NOTHING,
    BEFORE_INPUT,
    IN_INPUT,
    BEHIND_INPUT,
    BEFORE_SECOND_INPUT,
    IN_SECOND_INPUT,
    BEHIND_SECOND_INPUT,
    BEFORE_AREA,
    BEHIND_AREA,
    BEHIND_BLOCK, /* in the area, after the block written */
    REFUSED_AREA, /* in the area, on a refusal */
    BEFORE_WORK,
    BEHIND_WORK,
    BEHIND_USED_WORK, /* in the work area, after the numbers that a command uses */
    REFUSED_WORK,     /* in the work area, on a refusal */
    HANGING
};

static const uint8_t answer[10] = {0x23, 0x31, 0x37, 0x02, 0x20, 0x01, 0x01, 0x01, 0x20, 0x01};

/* Spoils one byte if this is the fault. */
static void stray(enum fault fault, const void *from, long byte)
{
    if (fault == STRAY)
        ((volatile uint8_t *)from)[byte] ^= 0xFF;
}

static void stray_by_input(const uint8_t *in, size_t n)
{
    while (STRAY == HANGING)
        __asm__ volatile("");
    stray(BEFORE_INPUT, in, -1);
    if (n > 0)
        stray(IN_INPUT, in, (long)n - 1);
    stray(BEHIND_INPUT, in, (long)n);
}

static void stray_by_second_input(const uint8_t *in, size_t n)
{
    stray(BEFORE_SECOND_INPUT, in, -1);
    if (n > 0)
        stray(IN_SECOND_INPUT, in, (long)n - 1);
    stray(BEHIND_SECOND_INPUT, in, (long)n);
}

/* On a refusal nothing is written, and the first byte or number is one too many. */
static void stray_by_area(const uint8_t *area, size_t m, size_t written)
{
    stray(BEFORE_AREA, area, -1);
    stray(BEHIND_AREA, area, (long)m);
    if (written < m)
        stray(written > 0 ? BEHIND_BLOCK : REFUSED_AREA, area, (long)written);
}

static void stray_by_work(const uint16_t *work, size_t k, size_t used)
{
    stray(BEFORE_WORK, work, -1);
    stray(BEHIND_WORK, work + k, 0);
    if (used < k)
        stray(used > 0 ? BEHIND_USED_WORK : REFUSED_WORK, work + used, 0);
}

struct graupenzelt_opened graupenzelt_open(const uint8_t *in, size_t n)
{
    stray_by_input(in, n);
    return n == 0 ? (struct graupenzelt_opened){.number = 1} : (struct graupenzelt_opened){.start = 4, .length = 12};
}

/* Table A's answer, or an area that is too short. */
struct graupenzelt_framed graupenzelt_frame(const uint8_t *payload, size_t n, uint8_t *area, size_t m)
{
    const size_t written = m < sizeof answer ? 0 : sizeof answer;
    for (size_t i = 0; i < written; i++)
        area[i] = answer[i];
    stray_by_input(payload, n);
    stray_by_area(area, m, written);
    return (struct graupenzelt_framed){.number = written == 0 ? 10 : 0, .length = written};
}

struct graupenzelt_checked graupenzelt_check(const uint8_t *payload, size_t n)
{
    stray_by_input(payload, n);
    return n == 0 ? (struct graupenzelt_checked){.number = 4}
                  : (struct graupenzelt_checked){.signals = 2, .channels = 2, .ranks = 2, .pairs = 3};
}

/* Table A's counts where the first come are served first, (1, 0), and its best ones, (1, 1). */
struct graupenzelt_compared graupenzelt_compare(const uint8_t *a, size_t n, const uint8_t *b, size_t m)
{
    stray_by_input(a, n);
    stray_by_second_input(b, m);
    return (struct graupenzelt_compared){.order = -1};
}

struct graupenzelt_handled graupenzelt_handle(const uint8_t *in, size_t n, uint8_t *area, size_t m, uint16_t *work, size_t k)
{
    const size_t written = n == 0 ? 0 : sizeof answer, used = n == 0 ? 0 : GRAUPENZELT_WORK;
    for (size_t i = 0; i < written; i++)
        area[i] = answer[i];
    for (size_t i = 0; i < used; i++)
        work[i] = 0;
    stray_by_input(in, n);
    stray_by_area(area, m, written);
    stray_by_work(work, k, used);
    return (struct graupenzelt_handled){.number = n == 0 ? 1 : 0, .length = written};
}
