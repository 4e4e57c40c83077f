/* Sets of up to 128 items as two words, and lists of bytes cleared and copied. */
#ifndef ANCHOR_ROWS_H
#define ANCHOR_ROWS_H
#include <string.h>
#include "kavizhuran.h"

#define INLINE static inline __attribute__((always_inline))
#define LIKELY(x) __builtin_expect(!!(x), 1)
#define UNLIKELY(x) __builtin_expect(!!(x), 0)
#define MAXV 128
#define MAXP (MAXV * MAXV)
#define ctz(x) ((unsigned)__builtin_ctzll(x))
#define pop(x) ((unsigned)__builtin_popcountll(x))

typedef struct { uint64_t w[2]; } row;

INLINE int none(row r) { return (r.w[0] | r.w[1]) == 0; }
INLINE row both(row a, row b) { return (row){{a.w[0] & b.w[0], a.w[1] & b.w[1]}}; }
INLINE row either(row a, row b) { return (row){{a.w[0] | b.w[0], a.w[1] | b.w[1]}}; }
INLINE int meets(row a, row b) { return ((a.w[0] & b.w[0]) | (a.w[1] & b.w[1])) != 0; }
INLINE unsigned size_of(row r) { return pop(r.w[0]) + pop(r.w[1]); }
/* two or more */
INLINE int several(row r) { return ((r.w[0] & (r.w[0] - 1)) | (r.w[1] & (r.w[1] - 1))) != 0 || (r.w[0] && r.w[1]); }
INLINE void put(row *r, unsigned i) { r->w[i >> 6] |= (uint64_t)1 << (i & 63); }
INLINE int has(row r, unsigned i) { return r.w[i >> 6] >> (i & 63) & 1; }
/* each i of a set, ascending; break leaves one word only */
#define EACH(r, i) \
    for (unsigned h_ = 0, i; h_ < 2; h_++) \
        for (uint64_t m_ = (r).w[h_]; m_ && (i = h_ * 64 + ctz(m_), 1); m_ &= m_ - 1)

INLINE kv_result result(uint32_t number, uint32_t a, uint32_t b, uint32_t c) { return (kv_result){number, a, b, c}; }

/* Clearing and copying. glibc takes rep stosb and rep movsb above 2 KB on x86-64, which an emulator may do byte by byte
   (500 us for the area); 16 bytes at a time is about as fast on a real processor and good under an emulator too. */
#ifdef __x86_64__
typedef uint64_t pack __attribute__((vector_size(16), aligned(1), may_alias));
static void clear(void *to, size_t n) {
    char *p = to;
    for (; n >= 64; p += 64, n -= 64) {
        pack *q = (pack *)p;
        q[0] = q[1] = q[2] = q[3] = (pack){0, 0};
        __asm__ volatile("" ::: "memory"); /* else it becomes memset again */
    }
    if (n) memset(p, 0, n);
}
static void copy(void *to, const void *from, size_t n) {
    char *p = to;
    const char *f = from;
    for (; n >= 64; p += 64, f += 64, n -= 64) {
        const pack *x = (const pack *)f;
        pack *q = (pack *)p, a = x[0], b = x[1], c = x[2], d = x[3];
        q[0] = a, q[1] = b, q[2] = c, q[3] = d;
        __asm__ volatile("" ::: "memory");
    }
    if (n) memcpy(p, f, n);
}
#else
#define clear(p, n) memset(p, 0, n)
#define copy memcpy
#endif

static void identity(unsigned n, row *r) {
    clear(r, n * sizeof(row));
    for (unsigned v = 0; v < n; v++) put(&r[v], v);
}

#endif
