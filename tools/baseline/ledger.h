// The ledger of the baseline: the calls that the workloads make.
#ifndef LEDGER_H
#define LEDGER_H
#include "store.h"

typedef struct {
    Store store;
    uint8_t on;
} Ledger;

#endif
