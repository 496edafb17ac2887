#include "store.h"

#define MAX_SERIAL ((uint64_t)INT64_MAX)

static inline Fault put_at_next(Store *s, Record *r) {
    r->serial = s->last + 1;
    TRY(bench_write(s->device, s->place, (const uint8_t *)r));
    s->last++;
    if (++s->place == s->places) s->place = 0;
    return OK;
}

static inline void note(Store *s, unsigned page, unsigned length) {
    s->dirty |= 1ull << page;
    s->covered |= (uint64_t)(length == PAGE) << page;
}

// Lays a record's fields, and its bytes from the memory. Past those its data are zeros already.
static inline void lay(Record *r, const Store *s, uint64_t ordinal, unsigned at, unsigned page, unsigned length, unsigned kind) {
    r->ordinal = ordinal;
    r->page = page;
    r->offset = at - page * PAGE;
    r->length = length;
    r->kind = kind;
    copy_few(r->data, s->memory + at, length);
}

// How many records the declared bytes become.
static unsigned count_pieces(const Store *s) {
    unsigned k = 0;
    for (unsigned i = 0; i < s->runs_held; i++)
        k += (s->runs[i].end - 1) / PAGE - s->runs[i].start / PAGE + 1;
    return k;
}

static Fault write_spool(Store *s) {
    for (unsigned i = 0; i < s->spooled; i++) {
        s->spool[i].low = s->low;
        TRY(put_at_next(s, &s->spool[i]));
        zero_few(s->spool[i].data, s->spool[i].length);
    }
    s->spooled = 0;
    return OK;
}

static Fault store_format(Store *s, Bench *d) {
    memset(s, 0, sizeof *s);
    s->device = d;
    if (d->sectors < 224 || d->sectors > 1088) return REFUSE(5, d->sectors);
    s->places = d->sectors - PAGES;
    TRY(bench_restart(d));
    static const uint8_t zeros[SECTOR];
    for (size_t i = 0; i < d->sectors; i++) TRY(bench_write(d, i, zeros));
    TRY(bench_barrier(d));
    Record mark = {.low = 1, .kind = MARK};
    s->place = 1;
    TRY(put_at_next(s, &mark));
    TRY(bench_barrier(d));
    s->low = 1;
    s->on = 1;
    return OK;
}

static inline int is_good(const Record *r, size_t place, uint32_t places) {
    uint64_t serial = r->serial;
    if (serial - 1 >= MAX_SERIAL || r->zero) return 0;
    if (r->low - 1 >= serial || serial - r->low >= places || r->ordinal >= serial) return 0;
    if ((serial >> 32 ? serial % places : (uint32_t)serial % places) != place) return 0;
    switch (r->kind) {
    case PART: case LAST:
        return r->page < PAGES && r->length >= 1 && r->offset + r->length <= PAGE;
    case PAGE_RECORD:
        return r->page < PAGES && r->length == PAGE && r->offset == 0;
    case MARK:
        return (r->page | r->offset | r->length) == 0;
    }
    return 0;
}

static Fault store_open(Store *s, Bench *d, uint64_t *found, size_t *strays) {
    s->device = d;
    s->on = s->busy = s->runs_held = s->spooled = 0;
    memset(&s->own, 0, sizeof s->own);
    memset(s->spool, 0, sizeof s->spool);
    if (d->sectors < 224 || d->sectors > 1088) return REFUSE(5, d->sectors);
    uint32_t n = s->places = d->sectors - PAGES;
    TRY(bench_restart(d));
    uint64_t serials[PLACES];
    uint8_t kinds[PLACES];
    uint64_t greatest = 0, low = 0;
    Record r;
    for (size_t i = 0; i < n; i++) {
        Fault f = bench_read(d, i, (uint8_t *)&r);
        if (f == 1) return f;
        if (f || !is_good(&r, i, n)) { serials[i] = 0; continue; }
        serials[i] = r.serial;
        kinds[i] = r.kind;
        if (r.serial > greatest) { greatest = r.serial; low = r.low; }
    }
    if (!greatest) return REFUSE(6, 0);
    uint32_t first = low % n;
    if (serials[first] != low || kinds[first] != MARK) return REFUSE(7, low);
    uint64_t c = low, next = low;
    for (uint32_t at = first; serials[at] == next; next++) {
        if (kinds[at] >= LAST) c = next;
        if (++at == n) at = 0;
    }
    uint64_t spoiled = 0;
    for (unsigned p = 0; p < PAGES; p++) {
        Fault f = bench_read(d, n + p, (uint8_t *)&r);
        if (f == 1) return f;
        if (f) { memset(s->memory + p * PAGE, 0, PAGE); spoiled |= 1ull << p; }
        else memcpy(s->memory + p * PAGE, &r, PAGE);
    }
    s->dirty = s->covered = 0;
    uint32_t at = first;
    uint64_t ordinal = 0;
    for (uint64_t serial = low; serial <= c; serial++) {
        TRY(bench_read(d, at, (uint8_t *)&r));
        if (++at == n) at = 0;
        ordinal = r.ordinal;
        if (r.kind == MARK) continue;
        note(s, r.page, r.length);
        copy_few(s->memory + r.page * PAGE + r.offset, r.data, r.length);
    }
    spoiled &= ~s->covered;
    if (spoiled) return REFUSE(8, __builtin_ctzll(spoiled));
    size_t cleared = 0;
    static const uint8_t zeros[SECTOR];
    if (greatest > c)
        for (size_t i = 0; i < n; i++)
            if (serials[i] > c) { TRY(bench_write(d, i, zeros)); cleared++; }
    TRY(bench_barrier(d));
    s->low = low;
    s->last = c;
    s->place = at;
    s->ordinal = ordinal;
    s->on = 1;
    *found = ordinal;
    *strays = cleared;
    return OK;
}

static Fault store_begin(Store *s, uint64_t *token) {
    if (!s->on) return REFUSE(1, 0);
    if (s->busy) return REFUSE(9, s->ordinal + 1);
    s->busy = 1;
    *token = s->ordinal + 1;
    return OK;
}

static inline Fault shown(const Store *s, uint64_t token) {
    if (LIKELY(s->on & s->busy && token == s->ordinal + 1)) return OK;
    return s->on ? REFUSE(10, token) : REFUSE(1, 0);
}

static inline Fault in_memory(size_t start, size_t size) {
    if (UNLIKELY(size - 1 >= MEMORY || start > MEMORY - size)) return REFUSE(11, start);
    return OK;
}

static inline void keep_before(Store *s, unsigned start, unsigned end) {
    copy_few(s->before + start, s->memory + start, end - start);
}

static Fault store_set_range(Store *s, uint64_t token, size_t start, size_t size) {
    TRY(shown(s, token));
    TRY(in_memory(start, size));
    unsigned end = start + size, held = s->runs_held, i = 0;
    while (i < held && s->runs[i].end < start) i++;
    s->run = i;
    unsigned j = i;
    while (j < held && s->runs[j].start <= end) j++;
    if (i == j) {
        if (held == RUNS) return REFUSE(12, start);
        for (unsigned m = held; m > i; m--) s->runs[m] = s->runs[m - 1];
        s->runs[i] = (Run){start, end};
        s->runs_held = held + 1;
        keep_before(s, start, end);
        return OK;
    }
    unsigned from = start;
    for (unsigned m = i; m < j; m++) {
        if (from < s->runs[m].start) keep_before(s, from, s->runs[m].start);
        from = s->runs[m].end;
    }
    if (from < end) keep_before(s, from, end);
    if (s->runs[i].start > start) s->runs[i].start = start;
    s->runs[i].end = s->runs[j - 1].end > end ? s->runs[j - 1].end : end;
    unsigned gone = j - i - 1;
    if (gone) {
        for (unsigned m = j; m < held; m++) s->runs[m - gone] = s->runs[m];
        s->runs_held = held - gone;
    }
    return OK;
}

static Fault store_write(Store *s, uint64_t token, size_t start, const void *bytes, size_t size) {
    TRY(shown(s, token));
    TRY(in_memory(start, size));
    // Most bytes are written just after they were declared.
    unsigned held = s->runs_held, i = s->run;
    if (UNLIKELY(i >= held || start < s->runs[i].start || start >= s->runs[i].end))
        for (i = 0; i < held && s->runs[i].end <= start; i++) {}
    if (UNLIKELY(i == held || start < s->runs[i].start)) return REFUSE(13, start);
    if (UNLIKELY(start + size > s->runs[i].end)) return REFUSE(13, s->runs[i].end);
    copy_few(s->memory + start, bytes, size);
    return OK;
}

static Fault store_read(const Store *s, size_t start, void *into, size_t size) {
    if (!s->on) return REFUSE(1, 0);
    TRY(in_memory(start, size));
    memcpy(into, s->memory + start, size);
    return OK;
}

static void undo(Store *s) {
    for (unsigned i = 0; i < s->runs_held; i++)
        memcpy(s->memory + s->runs[i].start, s->before + s->runs[i].start, s->runs[i].end - s->runs[i].start);
    s->runs_held = 0;
    s->busy = 0;
}

static Fault may_commit(const Store *s, unsigned k, int flush) {
    unsigned spooled = s->spooled;
    uint64_t live = s->last - s->low + 1;
    if (s->last + spooled + k + 65 > MAX_SERIAL) return REFUSE(14, s->last);
    if (live + spooled + k > s->places - 65) return REFUSE(15, live + spooled + k - (s->places - 65));
    if (!flush && spooled + k > SPOOL) return REFUSE(16, spooled + k - SPOOL);
    return OK;
}

// Each piece of the declared bytes, lowest first: to the log, or to the spool.
static Fault send_pieces(Store *s, unsigned k, int flush) {
    s->own.low = s->low;
    for (unsigned i = 0; i < s->runs_held; i++) {
        unsigned at = s->runs[i].start, end = s->runs[i].end, page = at / PAGE;
        while (at < end) {
            unsigned bound = (page + 1) * PAGE, stop = end < bound ? end : bound;
            Record *r = flush ? &s->own : &s->spool[s->spooled];
            lay(r, s, s->ordinal + 1, at, page, stop - at, --k ? PART : LAST);
            note(s, page, stop - at);
            if (flush) {
                TRY(put_at_next(s, r));
                zero_few(r->data, stop - at);
            } else {
                s->spooled++;
            }
            at = stop;
            page++;
        }
    }
    return OK;
}

static Fault store_commit(Store *s, uint64_t token, int flush, uint64_t *ordinal, size_t *records) {
    TRY(shown(s, token));
    *records = 0;
    *ordinal = s->ordinal;
    if (!s->runs_held) { s->busy = 0; return OK; }
    unsigned k = count_pieces(s);
    Fault f = may_commit(s, k, flush);
    if (f) { undo(s); return f; }
    if (flush) {
        s->on = 0;
        TRY(write_spool(s));
    }
    TRY(send_pieces(s, k, flush));
    if (flush) {
        TRY(bench_barrier(s->device));
        s->on = 1;
    }
    s->ordinal++;
    s->runs_held = 0;
    s->busy = 0;
    *ordinal = s->ordinal;
    *records = k;
    return OK;
}

static Fault store_abort(Store *s, uint64_t token) {
    TRY(shown(s, token));
    undo(s);
    return OK;
}

static Fault store_flush(Store *s, size_t *records) {
    if (!s->on) return REFUSE(1, 0);
    *records = s->spooled;
    if (!s->spooled) return OK;
    s->on = 0;
    TRY(write_spool(s));
    TRY(bench_barrier(s->device));
    s->on = 1;
    return OK;
}

// The memory of a page as the last transactions left it: declared bytes of an open one as at begin. No truncation has
// an open transaction, so that is the memory itself.
static Fault write_pages(Store *s, uint64_t due, uint64_t dirty) {
    Record r;
    memset(&r, 0, sizeof r);
    r.low = s->low;
    for (uint64_t m = due; m; m &= m - 1) {
        unsigned p = __builtin_ctzll(m);
        r.ordinal = s->ordinal;
        r.page = p;
        r.length = PAGE;
        r.kind = PAGE_RECORD;
        memcpy(r.data, s->memory + p * PAGE, PAGE);
        TRY(put_at_next(s, &r));
    }
    TRY(bench_barrier(s->device));
    uint8_t home[SECTOR];
    memset(home + PAGE, 0, SECTOR - PAGE);
    for (uint64_t m = dirty; m; m &= m - 1) {
        unsigned p = __builtin_ctzll(m);
        memcpy(home, s->memory + p * PAGE, PAGE);
        TRY(bench_write(s->device, s->places + p, home));
    }
    return bench_barrier(s->device);
}

static Fault store_truncate(Store *s, size_t *pages) {
    if (!s->on) return REFUSE(1, 0);
    if (s->busy) return REFUSE(9, s->ordinal + 1);
    uint64_t dirty = s->dirty, due = dirty & ~s->covered;
    uint64_t live = s->last - s->low + 1;
    unsigned spooled = s->spooled, dues = __builtin_popcountll(due);
    if (s->last + spooled + 65 > MAX_SERIAL) return REFUSE(14, s->last);
    if (live + spooled + dues + 1 > s->places) return REFUSE(15, live + spooled + dues + 1 - s->places);
    s->on = 0;
    if (spooled) {
        TRY(write_spool(s));
        TRY(bench_barrier(s->device));
    }
    if (dirty) {
        TRY(write_pages(s, due, dirty));
        Record mark = {.low = s->last + 1, .ordinal = s->ordinal, .kind = MARK};
        TRY(put_at_next(s, &mark));
        TRY(bench_barrier(s->device));
        s->low = s->last;
        s->dirty = s->covered = 0;
    }
    s->on = 1;
    *pages = __builtin_popcountll(dirty);
    return OK;
}
