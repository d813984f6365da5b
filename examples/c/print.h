/* What the examples print of a scan's view. */
#ifndef PRINT_H
#define PRINT_H

#include "snapshot.h"
#include <stdio.h>

/* For each of n nodes a space and its report in hexadecimal, or - where it has none: beside tag 0. */
static inline void print_view(FILE *to, size_t n, const uint8_t view[SNAPSHOT_VIEW])
{
    const size_t tag = SNAPSHOT_ENTRY - SNAPSHOT_REPORT; /* its bytes, which stand before the report */
    for (size_t node = 0; node < n; node++) {
        const uint8_t *entry = view + SNAPSHOT_ENTRY * node;
        bool reported = false;
        for (size_t i = 0; i < tag; i++)
            reported = reported || entry[i] != 0;
        fputs(reported ? " " : " -", to);
        for (size_t i = tag; reported && i < SNAPSHOT_ENTRY; i++)
            fprintf(to, "%02x", (unsigned)entry[i]);
    }
}

#endif
