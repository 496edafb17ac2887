// The store of the baseline: the same log, homes and calls as crate `transactions`, written by hand for speed.
#ifndef STORE_H
#define STORE_H
#include "bench.h"

enum { PAGE = 96, PAGES = 64, MEMORY = PAGE * PAGES, RUNS = 16, SPOOL = 32, PLACES = 1024 };
enum { PART = 1, LAST = 2, PAGE_RECORD = 3, MARK = 4 };

typedef struct { uint16_t start, end; } Run;

// A record as it lies in its sector; serial and low of a spooled one are filled in as it is written.
typedef struct {
    uint64_t serial, low, ordinal;
    uint16_t page, offset, length;
    uint8_t kind, zero;
    uint8_t data[PAGE];
} Record;
_Static_assert(sizeof(Record) == SECTOR, "a record fills its sector");

typedef struct {
    Bench *device;
    uint8_t on, busy;
    uint8_t runs_held, spooled;
    uint8_t run;            // where the last stretch was declared
    uint32_t places;
    uint32_t place;         // the place of the next serial
    uint64_t low, last, ordinal;
    uint64_t dirty, covered; // pages named by live or spooled records; those that one of them covers whole
    Run runs[RUNS];
    uint8_t memory[MEMORY];
    uint8_t before[MEMORY];  // declared bytes as at begin
    Record own;              // the record that is written next: zeros past its data
    Record spool[SPOOL];
} Store;

#endif
