/* The three calls of include/yolstrady.h in plain C: see office_twin.c. */
#ifndef OFFICE_TWIN_H
#define OFFICE_TWIN_H
#include <stddef.h>
#include <stdint.h>

int32_t twin_open(uint8_t *ledger, size_t length, int32_t start, int32_t until, int32_t teams, int32_t cap, int32_t nodes);
int32_t twin_request(uint8_t *ledger, size_t length, uint8_t *answer, size_t answer_length, int32_t kind, int32_t team, int32_t node,
                     int32_t position, int32_t amount, int32_t count, int32_t first, int32_t last);
int32_t twin_unclaimed(const uint8_t *ledger, size_t length);
#endif
