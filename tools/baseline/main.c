// The workloads of the benchmark over the baseline: the same names, counts and lines as crate `speed`.
#include "store.c"
#include "ledger.c"
#include <stdio.h>
#include <stdlib.h>

static uint64_t state = 88172645463325252u;

static uint64_t next_random(void) {
    state ^= state << 13;
    state ^= state >> 7;
    state ^= state << 17;
    return state;
}

static Bench bench;
static Store store;
static Ledger ledger;
static uint16_t places[65536];

static char label[64];

static void blank(size_t sectors) {
    state = 88172645463325252u;
    bench = (Bench){.cells = calloc(sectors, SECTOR), .flags = calloc(sectors, 1), .sectors = sectors, .on = 1, .origin = 1};
}

static uint64_t fnv(void) {
    uint64_t h = 14695981039346656037u;
    const uint8_t *p = (const uint8_t *)bench.cells;
    for (size_t i = 0; i < bench.sectors * SECTOR; i++) h = (h ^ p[i]) * 1099511628211u;
    return h;
}

static void must(Fault f) {
    if (f) {
        fprintf(stderr, "refused: row %u, %llu\n", f, (unsigned long long)refused.value);
        exit(1);
    }
}

static void tell(const char *name, uint64_t operations) {
    printf("%s: %llu operations, %llu sector writes, %llu barriers, %llu sector reads, card %016llx\n", name,
        (unsigned long long)operations, (unsigned long long)bench.writes, (unsigned long long)bench.barriers,
        (unsigned long long)bench.reads, (unsigned long long)fnv());
    free(bench.cells);
    free(bench.flags);
}

// One transaction of one 8-byte write.
static Fault put(size_t at, const uint8_t *bytes, int flush) {
    uint64_t token, ordinal;
    size_t records;
    TRY(store_begin(&store, &token));
    must(store_set_range(&store, token, at, 8));
    must(store_write(&store, token, at, bytes, 8));
    return store_commit(&store, token, flush, &ordinal, &records);
}

static void commits(const char *name, unsigned words, int flush, uint64_t count) {
    blank(224);
    snprintf(label, sizeof label, "%s %u", name, words);
    must(store_format(&store, &bench));
    for (unsigned i = 0; i < 65536; i++) places[i] = next_random() % words * 8;
    for (uint64_t i = 0; i < count; i++) {
        size_t pages, records;
        uint8_t bytes[8];
        memcpy(bytes, &i, 8);
        Fault f = put(places[i % 65536], bytes, flush);
        if (f == 15) {
            must(store_truncate(&store, &pages));
            f = put(places[i % 65536], bytes, flush);
        }
        must(f);
        if (!flush && i % 8 == 7) must(store_flush(&store, &records));
    }
    tell(label, count);
}

static uint8_t tags[16][8];

// A call of the ledger, after a truncation where the log is full.
#define ROOM(call) do { size_t pages_; Fault f_ = (call); \
    if (f_ == 15) { must(store_truncate(&ledger.store, &pages_)); f_ = (call); } must(f_); } while (0)

static void collect_all(void) {
    uint64_t ordinal, amount;
    unsigned payee;
    size_t pages;
    for (unsigned a = 1; a <= 64; a++) {
        for (;;) {
            Fault f = ledger_collect(&ledger, a, 1, &ordinal, &amount, &payee);
            if (f == 26) break;
            if (f == 15) must(store_truncate(&ledger.store, &pages)); else must(f);
        }
    }
    must(store_truncate(&ledger.store, &pages));
}

// One visit, with the truncation that it may need. Answers whether a cell was free. Measured alone.
__attribute__((noinline)) int visit_once(uint64_t r) {
    uint64_t ordinal;
    size_t pages;
    Fault f = ledger_visit(&ledger, tags[r % 16], 17 + r / 16 % 32, 1, &ordinal);
    if (f == 15) {
        must(store_truncate(&ledger.store, &pages));
        f = ledger_visit(&ledger, tags[r % 16], 17 + r / 16 % 32, 1, &ordinal);
    }
    if (f == 25) return 0;
    must(f);
    return 1;
}

static void visits(const char *name, uint64_t count) {
    blank(224);
    uint64_t ordinal;
    size_t pages;
    must(ledger_make(&ledger, &bench));
    must(store_truncate(&ledger.store, &pages));
    for (unsigned a = 1; a <= 16; a++) {
        uint64_t id = next_random();
        memcpy(tags[a - 1], &id, 8);
        must(ledger_enrol(&ledger, tags[a - 1], a, 1, &ordinal));
        must(ledger_issue(&ledger, a, 1ull << 30, 1, &ordinal));
        must(store_truncate(&ledger.store, &pages));
    }
    for (uint64_t i = 0; i < count; i++) {
        uint64_t r = next_random();
        if (!visit_once(r)) {
            collect_all();
            if (!visit_once(r)) exit(1);
        }
    }
    tell(name, count);
}

__attribute__((noinline)) void open_once(size_t at) {
    uint64_t found, token, seen;
    size_t strays;
    must(store_open(&store, &bench, &found, &strays));
    must(store_begin(&store, &token));
    must(store_set_range(&store, token, at, 8));
    must(store_abort(&store, token));
    must(store_read(&store, at, &seen, 8));
}

static void opening(const char *name, size_t log, uint64_t most, uint64_t count) {
    blank(log + PAGES);
    snprintf(label, sizeof label, "%s %zu %llu", name, log, (unsigned long long)most);
    must(store_format(&store, &bench));
    for (uint64_t i = 0; i < most; i++) {
        size_t at = next_random() % 768 * 8;
        uint64_t x = next_random();
        Fault f = put(at, (const uint8_t *)&x, 1);
        if (f == 15) break;
        must(f);
    }
    for (uint64_t i = 0; i < count; i++) open_once(i % 768 * 8);
    tell(label, count);
}

// So many records in turn in so many pages, at most 16 a transaction.
static void dirty(unsigned pages, unsigned live, uint64_t round) {
    unsigned most = pages < 16 ? pages : 16;
    for (unsigned done = 0; done < live;) {
        uint64_t token, ordinal;
        size_t records;
        must(store_begin(&store, &token));
        for (unsigned i = 0; i < most && done < live; i++, done++) {
            size_t at = done % pages * 96 + 8;
            must(store_set_range(&store, token, at, 8));
            must(store_write(&store, token, at, &round, 8));
        }
        must(store_commit(&store, token, 1, &ordinal, &records));
    }
}

__attribute__((noinline)) void truncate_once(void) {
    size_t pages;
    must(store_truncate(&store, &pages));
}

static void truncations(const char *name, unsigned pages, unsigned live, uint64_t count) {
    blank(224);
    snprintf(label, sizeof label, "%s %u %u", name, pages, live);
    must(store_format(&store, &bench));
    for (uint64_t i = 0; i < count; i++) {
        dirty(pages, live, i);
        truncate_once();
    }
    tell(label, count);
}

static int run(const char *name, const uint64_t *n) {
    if (!strcmp(name, "commits")) commits(name, n[1], 1, n[0]);
    else if (!strcmp(name, "spooled")) commits(name, n[1], 0, n[0]);
    else if (!strcmp(name, "visits")) visits(name, n[0]);
    else if (!strcmp(name, "openings")) opening(name, n[1], n[2], n[0]);
    else if (!strcmp(name, "truncations")) truncations(name, n[1], n[2], n[0]);
    else return 2;
    return 0;
}

// Each workload on a small count, as crate `speed` does it.
static int run_all(void) {
    static const struct { const char *name; uint64_t n[3]; } small[] = {
        {"commits", {300, 768}}, {"commits", {300, 12}}, {"spooled", {300, 768}}, {"spooled", {300, 12}},
        {"visits", {300}}, {"openings", {3, 1024, 1024}}, {"truncations", {3, 64, 64}},
    };
    for (size_t i = 0; i < sizeof small / sizeof *small; i++)
        if (run(small[i].name, small[i].n)) return 2;
    return 0;
}

int main(int argc, char **argv) {
    uint64_t n[3] = {0};
    if (argc == 1) return run_all();
    for (int i = 2; i < argc && i < 5; i++) n[i - 2] = strtoull(argv[i], 0, 10);
    return run(argv[1], n);
}
