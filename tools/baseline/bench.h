// The bench device of the baseline: sectors in memory, and a plan of power failures, which is empty here.
#ifndef BENCH_H
#define BENCH_H
#include <stddef.h>
#include <stdint.h>
#include <string.h>

enum { SECTOR = 128 };

// A call answers its row of the table of refusals, 0 where it passed. The row's number stands in `refused`.
typedef unsigned Fault;

static struct { uint64_t value; unsigned origin; } refused;

#define LIKELY(x) __builtin_expect(!!(x), 1)
#define UNLIKELY(x) __builtin_expect(!!(x), 0)
#define OK 0u
#define TRY(e) do { Fault f_ = (e); if (UNLIKELY(f_)) return f_; } while (0)

static inline Fault REFUSE(Fault row, uint64_t value) {
    refused.value = value;
    refused.origin = 0;
    return row;
}

static inline Fault refuse_from(Fault row, uint64_t value, unsigned origin) {
    refused.value = value;
    refused.origin = origin;
    return row;
}

// Most stretches are of one field, of two beside each other, or a cell.
static inline void copy_few(uint8_t *to, const uint8_t *from, unsigned n) {
    if (LIKELY(n == 8)) memcpy(to, from, 8);
    else if (n == 2) memcpy(to, from, 2);
    else if (n == 10) memcpy(to, from, 10);
    else if (n == 24) memcpy(to, from, 24);
    else memcpy(to, from, n);
}

static inline void zero_few(uint8_t *to, unsigned n) {
    if (LIKELY(n <= 24)) memset(to, 0, 24);
    else memset(to, 0, 96);
}

typedef struct {
    uint8_t (*cells)[SECTOR];
    uint8_t *flags;
    size_t sectors;
    const uint8_t *plan;
    size_t left;
    uint8_t origin;
    uint8_t on;
    uint64_t reads, writes, barriers;
} Bench;

static inline Fault bench_admit(const Bench *b, size_t sector) {
    if (UNLIKELY(!b->on)) return refuse_from(1, 0, 0);
    if (UNLIKELY(sector >= b->sectors)) return refuse_from(2, sector, b->origin);
    return OK;
}

static inline Fault bench_read(Bench *b, size_t sector, uint8_t *into) {
    TRY(bench_admit(b, sector));
    if (UNLIKELY(b->flags[sector])) return refuse_from(4, sector, b->origin);
    memcpy(into, b->cells[sector], SECTOR);
    b->reads++;
    return OK;
}

static inline Fault bench_write(Bench *b, size_t sector, const uint8_t *bytes) {
    TRY(bench_admit(b, sector));
    unsigned code = 0;
    if (UNLIKELY(b->left)) { code = *b->plan++; b->left--; }
    if (code == 0 || code == 2) {
        memcpy(b->cells[sector], bytes, SECTOR);
        b->flags[sector] = 0;
    } else if (code == 3) {
        b->flags[sector] = 1;
    }
    if (code) { b->on = 0; return refuse_from(1, 0, b->origin); }
    b->writes++;
    return OK;
}

static inline Fault bench_barrier(Bench *b) {
    if (UNLIKELY(!b->on)) return refuse_from(1, 0, 0);
    b->barriers++;
    return OK;
}

static inline Fault bench_restart(Bench *b) {
    b->on = 1;
    return OK;
}
#endif
