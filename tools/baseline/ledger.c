#include "ledger.h"

enum { ACCOUNTS = 64, CELLS = 200, CELL = 24, TOTAL_AT = 0, FREE_AT = 8, BUCKETS_AT = 1040, CELLS_AT = 1072 };
enum { TAG = 1, ENTRY = 2 };

#define MAX_TOTAL ((uint64_t)INT64_MAX)

static inline uint64_t get8(const uint8_t *m, unsigned at) { uint64_t x; memcpy(&x, m + at, 8); return x; }
static inline unsigned get2(const uint8_t *m, unsigned at) { uint16_t x; memcpy(&x, m + at, 2); return x; }
static inline unsigned balance_at(unsigned account) { return 16 * account; }
static inline unsigned head_at(unsigned account) { return 16 * account + 8; }
static inline unsigned cell_at(unsigned cell) { return CELLS_AT + CELL * (cell - 1); }

// What a change puts in: a few stretches with their bytes.
typedef struct { uint16_t start, size; uint8_t bytes[CELL]; } Edit;

static inline void edit8(Edit *e, unsigned at, uint64_t x) { e->start = at; e->size = 8; memcpy(e->bytes, &x, 8); }
static inline void edit2(Edit *e, unsigned at, unsigned n) { uint16_t x = n; e->start = at; e->size = 2; memcpy(e->bytes, &x, 2); }

static inline void edit_cell(Edit *e, unsigned cell, unsigned next, unsigned kind, uint64_t front, unsigned account) {
    uint16_t n = next, a = account;
    e->start = cell_at(cell);
    e->size = CELL;
    memset(e->bytes, 0, CELL);
    memcpy(e->bytes, &n, 2);
    e->bytes[2] = kind;
    memcpy(e->bytes + 4, &front, 8);
    memcpy(e->bytes + 12, &a, 2);
}

static Fault change(Ledger *l, const Edit *edits, unsigned count, int flush, uint64_t *ordinal) {
    Store *s = &l->store;
    uint64_t token;
    size_t records;
    TRY(store_begin(s, &token));
    for (unsigned i = 0; i < count; i++) {
        Fault f = store_set_range(s, token, edits[i].start, edits[i].size);
        if (!f) f = store_write(s, token, edits[i].start, edits[i].bytes, edits[i].size);
        if (f) { TRY(store_abort(s, token)); return f; }
    }
    return store_commit(s, token, flush, ordinal, &records);
}

static inline int is_off(const Ledger *l) { return !l->on || !l->store.on; }
static inline int is_account(unsigned a) { return a - 1 < ACCOUNTS; }

static Fault ledger_make(Ledger *l, Bench *d) {
    Store *s = &l->store;
    l->on = 0;
    TRY(store_format(s, d));
    uint64_t token, ordinal;
    size_t records;
    TRY(store_begin(s, &token));
    uint8_t cells[CELLS * CELL] = {0};
    for (unsigned i = 0; i + 1 < CELLS; i++) cells[i * CELL] = i + 2;
    TRY(store_set_range(s, token, FREE_AT, 2));
    TRY(store_write(s, token, FREE_AT, "\1\0", 2));
    TRY(store_set_range(s, token, CELLS_AT, sizeof cells));
    TRY(store_write(s, token, CELLS_AT, cells, sizeof cells));
    TRY(store_commit(s, token, 1, &ordinal, &records));
    l->on = 1;
    return OK;
}

static Fault ledger_issue(Ledger *l, unsigned account, uint64_t amount, int flush, uint64_t *ordinal) {
    if (is_off(l)) return REFUSE(1, 0);
    const uint8_t *m = l->store.memory;
    if (!is_account(account)) return REFUSE(18, account);
    if (!amount) return REFUSE(22, account);
    uint64_t total = get8(m, TOTAL_AT);
    if (amount > MAX_TOTAL - total) return REFUSE(24, total);
    Edit e[2];
    edit8(&e[0], TOTAL_AT, total + amount);
    edit8(&e[1], balance_at(account), get8(m, balance_at(account)) + amount);
    return change(l, e, 2, flush, ordinal);
}

static inline unsigned bucket_of(uint64_t id) {
    id = (id & 0x00ff00ff00ff00ff) + ((id >> 8) & 0x00ff00ff00ff00ff);
    return (id * 0x0001000100010001 >> 48) & 15;
}

// The cell of a tag, or 0.
static inline unsigned seek_tag(const uint8_t *m, uint64_t id) {
    unsigned cell = get2(m, BUCKETS_AT + 2 * bucket_of(id));
    for (unsigned i = 0; cell && i < CELLS; i++) {
        if (get8(m, cell_at(cell) + 4) == id) return cell;
        cell = get2(m, cell_at(cell));
    }
    return 0;
}

static Fault ledger_enrol(Ledger *l, const uint8_t id[8], unsigned account, int flush, uint64_t *ordinal) {
    if (is_off(l)) return REFUSE(1, 0);
    const uint8_t *m = l->store.memory;
    if (!is_account(account)) return REFUSE(18, account);
    uint64_t key = get8(id, 0);
    unsigned there = seek_tag(m, key);
    if (there) return REFUSE(20, get2(m, cell_at(there) + 12));
    unsigned cell = get2(m, FREE_AT);
    if (!cell) return REFUSE(25, account);
    unsigned head = BUCKETS_AT + 2 * bucket_of(key);
    Edit e[3];
    edit2(&e[0], head, cell);
    edit_cell(&e[1], cell, get2(m, head), TAG, key, account);
    edit2(&e[2], FREE_AT, get2(m, cell_at(cell)));
    return change(l, e, 3, flush, ordinal);
}

static Fault ledger_visit(Ledger *l, const uint8_t id[8], unsigned guard, int flush, uint64_t *ordinal) {
    if (is_off(l)) return REFUSE(1, 0);
    const uint8_t *m = l->store.memory;
    if (!is_account(guard)) return REFUSE(18, guard);
    uint64_t key = get8(id, 0);
    unsigned there = seek_tag(m, key);
    if (!there) return REFUSE(19, bucket_of(key));
    unsigned payer = get2(m, cell_at(there) + 12);
    if (payer == guard) return REFUSE(21, payer);
    uint64_t had = get8(m, balance_at(payer));
    if (!had) return REFUSE(23, had);
    unsigned cell = get2(m, FREE_AT);
    if (!cell) return REFUSE(25, payer);
    Edit e[5];
    edit8(&e[0], balance_at(payer), had - 1);
    edit8(&e[1], balance_at(guard), get8(m, balance_at(guard)) + 1);
    edit2(&e[2], head_at(payer), cell);
    edit_cell(&e[3], cell, get2(m, head_at(payer)), ENTRY, 1, guard);
    edit2(&e[4], FREE_AT, get2(m, cell_at(cell)));
    return change(l, e, 5, flush, ordinal);
}

static Fault ledger_collect(Ledger *l, unsigned account, int flush, uint64_t *ordinal, uint64_t *amount, unsigned *payee) {
    if (is_off(l)) return REFUSE(1, 0);
    const uint8_t *m = l->store.memory;
    if (!is_account(account)) return REFUSE(18, account);
    unsigned cell = get2(m, head_at(account));
    if (!cell) return REFUSE(26, account);
    *amount = get8(m, cell_at(cell) + 4);
    *payee = get2(m, cell_at(cell) + 12);
    Edit e[3];
    edit2(&e[0], head_at(account), get2(m, cell_at(cell)));
    edit_cell(&e[1], cell, get2(m, FREE_AT), 0, 0, 0);
    edit2(&e[2], FREE_AT, cell);
    return change(l, e, 3, flush, ordinal);
}
