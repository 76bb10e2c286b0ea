/* Faults that the target has to find: fuzz/run --check links it with one after another, chosen by its number FAULT. */
#include "fuzz.h"

#include <stdlib.h>

etcs_status __real_etcs_check(etcs_kind kind, const uint8_t *bytes, size_t len, etcs_answer *a);
etcs_status __real_etcs_show(etcs_kind kind, uint64_t item, const uint8_t *bytes, size_t len, uint8_t *out, size_t room, etcs_answer *a);
etcs_status __real_etcs_to_json(etcs_kind kind, const uint8_t *bytes, size_t len, uint8_t *out, size_t room, etcs_answer *a);
etcs_status __real_etcs_from_json(etcs_kind kind, const uint8_t *line, size_t len, uint8_t *out, size_t room, etcs_answer *a);
etcs_status __real_etcs_from_fields(etcs_kind kind, const etcs_field *fields, size_t len, uint8_t *out, size_t room, etcs_answer *a);
etcs_status __real_etcs_places(etcs_kind kind, const uint8_t *bytes, size_t len, etcs_place *out, size_t room, etcs_answer *a);
etcs_status __real_etcs_explain(etcs_kind kind, const uint8_t *bytes, size_t len, uint8_t *out, size_t room, etcs_answer *a);
etcs_status __real_etcs_refusal(etcs_kind kind, const uint8_t *bytes, size_t len, etcs_reason *reason, etcs_answer *a);
etcs_status __real_etcs_fields_before(etcs_kind kind, const uint8_t *bytes, size_t len, etcs_field *out, size_t room, etcs_answer *a);

etcs_status __wrap_etcs_check(etcs_kind kind, const uint8_t *bytes, size_t len, etcs_answer *a)
{
    etcs_status status = __real_etcs_check(kind, bytes, len, a);
    if (FAULT == 1 && status == ETCS_REFUSED)
        a->bit++; /* another bit than the other calls */
    if (FAULT == 2 && status == ETCS_MORE && len > 2)
        return ETCS_REFUSED;
    if (FAULT == 3)
        (void)*(const volatile uint8_t *)(bytes + len); /* reads one byte too many */
    return status;
}

static void *volatile lost;

etcs_status __wrap_etcs_show(etcs_kind kind, uint64_t item, const uint8_t *bytes, size_t len, uint8_t *out, size_t room, etcs_answer *a)
{
    etcs_status status = __real_etcs_show(kind, item, bytes, len, out, room, a);
    if (FAULT == 4 && status == ETCS_OK)
        out[a->written - 2] ^= 1; /* another number */
    if (FAULT == 5 && len > 20)
        lost = malloc(1); /* nothing gives it back */
    return status;
}

etcs_status __wrap_etcs_to_json(etcs_kind kind, const uint8_t *bytes, size_t len, uint8_t *out, size_t room, etcs_answer *a)
{
    etcs_status status = __real_etcs_to_json(kind, bytes, len, out, room, a);
    if (FAULT == 6 && status == ETCS_OK)
        out[a->written] = 0; /* writes a zero after it */
    if (FAULT == 7 && status == ETCS_NO_ROOM && room)
        out[0] = '{';
    return status;
}

etcs_status __wrap_etcs_from_json(etcs_kind kind, const uint8_t *line, size_t len, uint8_t *out, size_t room, etcs_answer *a)
{
    etcs_status status = __real_etcs_from_json(kind, line, len, out, room, a);
    if (FAULT == 8 && status == ETCS_OK && kind >= ETCS_RADIO)
        out[a->written - 1] &= 0xFE;
    return status;
}

etcs_status __wrap_etcs_from_fields(etcs_kind kind, const etcs_field *fields, size_t len, uint8_t *out, size_t room, etcs_answer *a)
{
    /* takes fields after those of the item */
    while (FAULT == 9 && len > 1 && __real_etcs_from_fields(kind, fields, len, out, room, a) == ETCS_BAD_FIELDS)
        len--;
    return __real_etcs_from_fields(kind, fields, len, out, room, a);
}

etcs_status __wrap_etcs_explain(etcs_kind kind, const uint8_t *bytes, size_t len, uint8_t *out, size_t room, etcs_answer *a)
{
    etcs_status status = __real_etcs_explain(kind, bytes, len, out, room, a);
    if (FAULT == 10 && status == ETCS_REFUSED)
        out[a->written - 1] = 27;
    return status;
}

etcs_status __wrap_etcs_fields_before(etcs_kind kind, const uint8_t *bytes, size_t len, etcs_field *out, size_t room, etcs_answer *a)
{
    etcs_status status = __real_etcs_fields_before(kind, bytes, len, out, room, a);
    if (FAULT == 11 && status == ETCS_REFUSED && a->written)
        out[a->written - 1].number ^= 1;
    if (FAULT == 12 && status == ETCS_NO_MEMORY)
        return ETCS_REFUSED;
    return status;
}

etcs_status __wrap_etcs_refusal(etcs_kind kind, const uint8_t *bytes, size_t len, etcs_reason *reason, etcs_answer *a)
{
    /* has the number after the nearest one */
    etcs_status status = __real_etcs_refusal(kind, bytes, len, reason, a);
    if (FAULT == 13 && status == ETCS_REFUSED && reason->has & ETCS_HAS_ABOVE)
        reason->above++;
    return status;
}

etcs_status __wrap_etcs_places(etcs_kind kind, const uint8_t *bytes, size_t len, etcs_place *out, size_t room, etcs_answer *a)
{
    /* what closes an item is in its last packet */
    etcs_status status = __real_etcs_places(kind, bytes, len, out, room, a);
    if (FAULT == 14 && status == ETCS_OK && a->written > 1)
        out[a->written - 1].packet = out[a->written - 2].packet;
    return status;
}
