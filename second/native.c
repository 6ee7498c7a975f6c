/* The library's C functions over its module as compiled for another machine than x86-64 (tools/native-archive), where the
   module's own functions give their results through a pointer. For measuring alone. */
#include "graupenzelt.h"

void raw_open(struct graupenzelt_opened *, const uint8_t *, size_t);
void raw_frame(struct graupenzelt_framed *, const uint8_t *, size_t, uint8_t *, size_t);
void raw_check(struct graupenzelt_checked *, const uint8_t *, size_t);
void raw_compare(struct graupenzelt_compared *, const uint8_t *, size_t, const uint8_t *, size_t);
void raw_handle(struct graupenzelt_handled *, const uint8_t *, size_t, uint8_t *, size_t, uint16_t *, size_t);

struct graupenzelt_opened graupenzelt_open(const uint8_t *in, size_t n) {
    struct graupenzelt_opened r;
    raw_open(&r, in, n);
    return r;
}

struct graupenzelt_framed graupenzelt_frame(const uint8_t *payload, size_t n, uint8_t *area, size_t m) {
    struct graupenzelt_framed r;
    raw_frame(&r, payload, n, area, m);
    return r;
}

struct graupenzelt_checked graupenzelt_check(const uint8_t *payload, size_t n) {
    struct graupenzelt_checked r;
    raw_check(&r, payload, n);
    return r;
}

struct graupenzelt_compared graupenzelt_compare(const uint8_t *a, size_t n, const uint8_t *b, size_t m) {
    struct graupenzelt_compared r;
    raw_compare(&r, a, n, b, m);
    return r;
}

struct graupenzelt_handled graupenzelt_handle(const uint8_t *in, size_t n, uint8_t *area, size_t m, uint16_t *work, size_t k) {
    struct graupenzelt_handled r;
    raw_handle(&r, in, n, area, m, work, k);
    return r;
}
