/* Helpers for callers of etcs.h, in C: texts of statuses, look-up of variables, a reader of pieces.
 *
 * They are compiled into the caller, and aren't proved themselves; their results come from the proved calls.
 */
#ifndef ETCS_HELP_H
#define ETCS_HELP_H

#include "etcs.h"
#include "etcs_vars.h"

#include <string.h>

/* The text of a status. */
static inline const char *etcs_status_text(etcs_status status)
{
    switch (status) {
    case ETCS_OK: return "done";
    case ETCS_MORE: return "the bytes end inside an item";
    case ETCS_REFUSED: return "a bit is refused";
    case ETCS_NO_ROOM: return "the buffer is too short";
    case ETCS_NO_MEMORY: return "out of memory";
    case ETCS_UNKNOWN_KIND: return "no such kind";
    case ETCS_BAD_JSON: return "no item has this JSON";
    case ETCS_BAD_FIELDS: return "no item has these fields";
    case ETCS_EMPTY_LINE: return "the line is blank, or a comment";
    case ETCS_NO_DIGITS: return "no digits are found in the line";
    case ETCS_ODD_DIGITS: return "the number of digits is odd";
    case ETCS_CLASH_POSITION: return "the position is after the group's last";
    case ETCS_CLASH_DUPLICATE: return "the position has no such neighbour to be a duplicate of";
    case ETCS_CLASH_GROUP: return "the telegram is of another group";
    case ETCS_CLASH_TOTAL: return "the telegram counts other balises in the group";
    case ETCS_CLASH_COUNTER: return "the message counters don't agree";
    case ETCS_CLASH_DIFFERS: return "another telegram is held at this position";
    default: return "no such status";
    }
}

/* The place of the first field from place `from` on whose variable is var; count if there is none. */
static inline size_t etcs_find(const etcs_field *fields, size_t count, uint32_t var, size_t from)
{
    while (from < count && fields[from].var != var)
        from++;
    return from < count ? from : count;
}

/* The bit where the field at a place begins, from 0; for place = count, how many bits there are. */
static inline size_t etcs_bit_of(const etcs_field *fields, size_t place)
{
    size_t bits = 0;
    for (size_t i = 0; i < place; i++)
        bits += fields[i].width;
    return bits;
}

/* A reader of items from pieces of any length, single bytes too. An item comes with the piece that completes it.
 *
 * The reader keeps the bytes of an item that isn't whole, and checks them anew when all are there (27, 104, or as many as
 * L_MESSAGE gives), and before that when 1, 2, 3, 6, 12, 24 and so on up to 768 of them are. So the time for an item is
 * proportional to its bytes, and a refused bit may be reported late: if it is in byte n of the item, counted from 1, then
 * with the piece that brings byte n or one of the n - 1 bytes after it, at the latest with the item's last byte, or by
 * etcs_reader_end. Its bit and var are those of etcs_check. Only one thread at a time may use a reader.
 *
 *     etcs_reader reader;
 *     etcs_reader_start(&reader, ETCS_RADIO);
 *     while ((n = read(from, piece, sizeof piece)) > 0)
 *         for (size_t at = 0, used; at < n; at += used) {
 *             status = etcs_reader_feed(&reader, piece + at, n - at, &used, &answer);
 *             if (status == ETCS_OK)        the item is reader.bytes, answer.taken bytes of it, until the next call
 *             else if (status != ETCS_MORE) stop: it returns this status from now on, and etcs_explain with reader.bytes
 *                                           and reader.len writes the reason
 *         }
 *     status = etcs_reader_end(&reader, &answer);
 *     if (status == ETCS_MORE)              the input ended inside an item
 *     else if (status != ETCS_OK)           stop, as above
 */
typedef struct etcs_reader {
    etcs_kind kind;
    etcs_status status;    /* ETCS_MORE, or the status with which it failed */
    size_t len;            /* how many bytes it keeps of an item that isn't whole, or that is refused */
    etcs_answer failed;    /* the answer with which it failed */
    uint8_t bytes[ETCS_MOST_BYTES];
} etcs_reader;

static inline void etcs_reader_start(etcs_reader *reader, etcs_kind kind)
{
    memset(reader, 0, sizeof *reader);
    reader->kind = kind;
    reader->status = ETCS_MORE;
}

/* For etcs_reader_feed: how many bytes an item of the kind has; the most that it has if it is a message. */
static inline size_t etcs_reader_most(etcs_kind kind)
{
    return kind == ETCS_SHORT ? 27 : kind == ETCS_LONG ? 104 : ETCS_MOST_BYTES;
}

/* For etcs_reader_feed: at how many bytes of the item, more than it keeps, it is checked next. */
static inline size_t etcs_reader_due(const etcs_reader *reader)
{
    size_t all = etcs_reader_most(reader->kind), due = 6;
    if (reader->len < 3)
        return reader->len + 1;
    if (all == ETCS_MOST_BYTES) {
        all = reader->bytes[1]; /* L_MESSAGE: bits 8 to 17 */
        all = all << 2 | reader->bytes[2] >> 6;
    }
    while (due <= reader->len)
        due *= 2;
    return due < all ? due : all;
}

/* For etcs_reader_feed and etcs_reader_end: checks the first len bytes, and notes a failure. */
static inline etcs_status etcs_reader_check(etcs_reader *reader, size_t len, etcs_answer *answer)
{
    etcs_status status = etcs_check(reader->kind, reader->bytes, len, answer);
    if (status != ETCS_OK && status != ETCS_MORE && status != ETCS_NO_MEMORY) {
        reader->len = len;
        reader->status = status;
        reader->failed = *answer;
    }
    return status;
}

/* Takes *used bytes, up to the end of an item or of the piece; none with ETCS_NO_MEMORY, which leaves the reader as it was.
 * A refused bit is counted from the item's first. */
static inline etcs_status etcs_reader_feed(etcs_reader *reader, const uint8_t *piece, size_t len, size_t *used,
                                           etcs_answer *answer)
{
    size_t held = reader->len, room = etcs_reader_most(reader->kind) - held, take = room < len ? room : len;
    etcs_status status = ETCS_MORE;
    *used = 0;
    if (reader->status != ETCS_MORE) {
        *answer = reader->failed;
        return reader->status;
    }
    if (take)
        memcpy(reader->bytes + held, piece, take);
    if (held + take >= etcs_reader_due(reader))
        status = etcs_reader_check(reader, held + take, answer);
    if (status == ETCS_OK) {
        *used = answer->taken - held;
        reader->len = 0;
    } else if (status == ETCS_MORE) {
        *used = take;
        reader->len = held + take;
    }
    return status;
}

/* Ends the input: ETCS_OK if all of its items are whole, ETCS_MORE inside an item, else as etcs_reader_feed. */
static inline etcs_status etcs_reader_end(etcs_reader *reader, etcs_answer *answer)
{
    if (reader->status != ETCS_MORE) {
        *answer = reader->failed;
        return reader->status;
    }
    if (reader->len == 0)
        return ETCS_OK;
    return etcs_reader_check(reader, reader->len, answer);
}

#endif
