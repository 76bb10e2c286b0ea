/* Changes inputs by what they mean. */
#ifndef MUTATE_H
#define MUTATE_H

#include "etcs_help.h"

/* Changes one or some of the fields; there is room for ETCS_MOST_FIELDS. */
void change_fields(etcs_field *fields, size_t *count);

/* The fields that are given by ten bytes each: variable, width, number. */
size_t fields_in(const uint8_t *data, size_t size, etcs_field *fields);

size_t LLVMFuzzerCustomMutator(uint8_t *data, size_t size, size_t most, unsigned seed);

#endif
