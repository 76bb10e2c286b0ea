/* Looks for the most expensive refusals of the library for C: bench/find_worst_cases builds and runs it.
 *
 *     find_worst_cases SECONDS SEED CALLS MOST   reads lines KIND HEX, and writes the MOST most expensive refused inputs that
 *                                              it found for each kind and each of the first CALLS calls
 *     find_worst_cases price CALLS               reads the same lines and makes each of the first CALLS calls once, for callgrind
 *
 * A price is how many compares and switches of the library's code a call runs. The inputs of each kind are kept in lists: one
 * for each call with the most expensive refused inputs, and one with items and fronts of items that are expensive to check.
 * Each input is changed, and joined with another one, over and over.
 */
#include "fuzz.h"
#include "mutate.h"

#include <inttypes.h>
#include <stdio.h>
#include <stdlib.h>
#include <string.h>
#include <time.h>

enum { CALLED = 3, LISTS = CALLED + 1, KEPT = 48, MOST = ETCS_MOST_BYTES, KINDS = 4 };

static const char *const call_names[] = {"check", "explain", "fields_before"};
static const char *const kind_names[] = {"long", "short", "radio", "train"};

typedef struct input {
    uint64_t price;
    size_t len;
    uint8_t bytes[MOST];
} input;

static input kept[KINDS][LISTS][KEPT];
static uint64_t compares, tried;
static size_t called = CALLED;

/* ---- What the library's code calls, at each compare and switch, and once for its counters. */

#define COUNTS(name, type) \
    void __sanitizer_cov_trace_##name(type a, type b) { (void)a, (void)b, compares++; }
COUNTS(cmp1, uint8_t)
COUNTS(cmp2, uint16_t)
COUNTS(cmp4, uint32_t)
COUNTS(cmp8, uint64_t)
COUNTS(const_cmp1, uint8_t)
COUNTS(const_cmp2, uint16_t)
COUNTS(const_cmp4, uint32_t)
COUNTS(const_cmp8, uint64_t)

void __sanitizer_cov_trace_switch(uint64_t number, uint64_t *cases) { (void)number, (void)cases, compares++; }
void __sanitizer_cov_8bit_counters_init(uint8_t *from, uint8_t *to) { (void)from, (void)to; }
void __sanitizer_cov_pcs_init(const uintptr_t *from, const uintptr_t *to) { (void)from, (void)to; }

/* ---- What the mutator calls. */

static uint64_t chance_state = 1;

uint64_t chance(uint64_t below)
{
    chance_state ^= chance_state << 13, chance_state ^= chance_state >> 7, chance_state ^= chance_state << 17;
    return below ? (chance_state >> 8) % below : 0;
}

void begin_chance(const uint8_t *data, size_t size, uint64_t seed) { (void)data, (void)size, (void)seed; }

size_t LLVMFuzzerMutate(uint8_t *data, size_t size, size_t most)
{
    if (size == 0)
        return 0;
    size_t at = chance(size), count = 1 + chance(8), to = chance(size);
    switch (chance(6)) {
    case 0: data[at] = (uint8_t)chance(256); return size;
    case 1: data[at] ^= (uint8_t)(0x80 >> chance(8)); return size;
    case 2: return 1 + chance(size);
    case 3:
        count = count > most - size ? most - size : count;
        memmove(data + at + count, data + at, size - at);
        return size + count;
    case 4:
        count = count > size - at ? size - at : count;
        memmove(data + at, data + at + count, size - at - count);
        return size - count;
    default:
        count = 1 + chance(64);
        count = count > size - (at > to ? at : to) ? size - (at > to ? at : to) : count;
        memmove(data + to, data + at, count);
        return size;
    }
}

/* ---- Prices. */

static etcs_status call(size_t which, etcs_kind kind, const input *in)
{
    static uint8_t text[1 << 16];
    static etcs_field fields[ETCS_MOST_FIELDS];
    etcs_answer a = {0};
    switch (which) {
    case 0: return etcs_check(kind, in->bytes, in->len, &a);
    case 1: return etcs_explain(kind, in->bytes, in->len, text, sizeof text, &a);
    default: return etcs_fields_before(kind, in->bytes, in->len, fields, ETCS_MOST_FIELDS, &a);
    }
}

static etcs_status priced(size_t which, etcs_kind kind, input *in)
{
    compares = 0;
    etcs_status status = call(which, kind, in);
    in->price = compares;
    tried++;
    return status;
}

/* Puts an input in the place of the cheapest of a list, if it is more expensive and no other has its price. */
static void keep(input *list, const input *in)
{
    input *least = list;
    for (size_t i = 0; i < KEPT; i++) {
        if (list[i].price == in->price)
            return;
        if (list[i].price < least->price)
            least = &list[i];
    }
    if (in->price > least->price)
        *least = *in;
}

static void try_input(etcs_kind kind, input *in)
{
    input (*lists)[KEPT] = kept[kind - 1];
    if (priced(0, kind, in) != ETCS_REFUSED) {
        keep(lists[CALLED], in);
        return;
    }
    keep(lists[0], in);
    for (size_t which = 1; which < called; which++) {
        priced(which, kind, in);
        keep(lists[which], in);
    }
}

/* ---- The search. */

static const input *any_kept(etcs_kind kind)
{
    size_t which = chance(called + 1);
    const input *list = kept[kind - 1][which < called ? which : CALLED], *one = &list[chance(KEPT)], *other = &list[chance(KEPT)];
    return one->price > other->price ? one : other;
}

static void change(etcs_kind kind, input *in)
{
    static uint8_t data[1 + MOST + 64];
    for (size_t times = 1 + chance(3); times-- && in->len;) {
        data[0] = (uint8_t)(kind - 1);
        memcpy(data + 1, in->bytes, in->len);
        size_t size = LLVMFuzzerCustomMutator(data, 1 + in->len, 1 + MOST, 0);
        if (size < 2 || data[0] / 4 % 4 != ITEMS)
            continue;
        in->len = size - 1 > MOST ? MOST : size - 1;
        memcpy(in->bytes, data + 1, in->len);
    }
    const input *other = any_kept(kind);
    if (chance(4) == 0 && other->len && in->len) {
        size_t at = chance(in->len), from = chance(4) ? at : chance(other->len);
        if (from < other->len) {
            size_t count = other->len - from > MOST - at ? MOST - at : other->len - from;
            memcpy(in->bytes + at, other->bytes + from, count);
            in->len = at + count;
        }
    }
}

static void search(double seconds)
{
    static input in;
    for (clock_t end = clock() + (clock_t)(seconds * CLOCKS_PER_SEC); clock() < end;)
        for (int i = 0; i < 64; i++) {
            etcs_kind kind = 1 + (etcs_kind)chance(KINDS);
            in = *any_kept(kind);
            if (in.len == 0)
                continue;
            change(kind, &in);
            try_input(kind, &in);
        }
}

static int read_input(etcs_kind *kind, input *in)
{
    static char name[16], digits[2 * MOST + 2];
    if (scanf("%15s %2047s", name, digits) != 2)
        return 0;
    for (*kind = 1; *kind <= KINDS && strcmp(name, kind_names[*kind - 1]);)
        ++*kind;
    in->len = strlen(digits) / 2;
    for (size_t i = 0; i < in->len; i++)
        sscanf(digits + 2 * i, "%2hhx", &in->bytes[i]);
    return *kind <= KINDS;
}

static int is_cheaper(const void *one, const void *other)
{
    uint64_t a = ((const input *)one)->price, b = ((const input *)other)->price;
    return (a < b) - (a > b);
}

static void write_worst_cases(etcs_kind kind, size_t which, size_t most)
{
    input *list = kept[kind - 1][which];
    qsort(list, KEPT, sizeof *list, is_cheaper);
    for (size_t i = 0; i < most && i < KEPT && list[i].len; i++) {
        printf("%s %s %" PRIu64 " ", kind_names[kind - 1], call_names[which], list[i].price);
        for (size_t at = 0; at < list[i].len; at++)
            printf("%02X", list[i].bytes[at]);
        printf("\n");
    }
}

static void price(void)
{
    static input in;
    for (etcs_kind kind; read_input(&kind, &in);)
        for (size_t which = 0; which < called; which++)
            call(which, kind, &in);
}

int main(int count, char **words)
{
    static input in;
    etcs_kind kind;
    int is_price = count == 3 && !strcmp(words[1], "price");
    if (count != 5 && !is_price)
        return 2;
    called = strtoul(words[is_price ? 2 : 3], NULL, 10);
    if (called < 1 || called > CALLED)
        return 2;
    if (is_price)
        return price(), 0;
    chance_state = strtoull(words[2], NULL, 10) * 2 + 1;
    while (read_input(&kind, &in))
        try_input(kind, &in);
    search(atof(words[1]));
    for (kind = 1; kind <= KINDS; kind++)
        for (size_t which = 0; which < called; which++)
            write_worst_cases(kind, which, strtoul(words[4], NULL, 10));
    fprintf(stderr, "%" PRIu64 " calls\n", tried);
    return 0;
}
