/* What the harness and the mutator share. */
#ifndef FUZZ_H
#define FUZZ_H

#include "etcs_help.h"

/* The calls; those from EXPLAIN on write if input is no item. */
enum { CHECK, SHOW, TO_JSON, FROM_JSON, FIELDS, PLACES, FROM_FIELDS, MEANING, LINE_BYTES, VERSION, EXPLAIN, FIELDS_BEFORE, EXPLAIN_JSON, CALLS };

/* What follows the first byte of an input, by the two bits above its kind. */
enum { ITEMS, LINE, SENT };

/* The first bytes from this one on: many allocations of each call are refused, one after another. */
enum { STARVED = 0x80 };

enum { MOST_INPUT = 1 << 16 };

/* A number below this one, as the input decides. */
uint64_t chance(uint64_t below);
void begin_chance(const uint8_t *data, size_t size, uint64_t seed);

int LLVMFuzzerTestOneInput(const uint8_t *data, size_t size);
size_t LLVMFuzzerMutate(uint8_t *data, size_t size, size_t most);

#endif
