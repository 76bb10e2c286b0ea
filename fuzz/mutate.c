/* The mutator: it changes bits, fields of items, whose lengths it works out again, words of JSON, and one form to another. */
#include "mutate.h"
#include "fuzz.h"

#include <stdio.h>
#include <string.h>

static size_t smaller(size_t a, size_t b)
{
    return a < b ? a : b;
}

/* ---- Fields. */

static uint64_t most_of(uint32_t width)
{
    return width >= 64 ? UINT64_MAX : ((uint64_t)1 << width) - 1;
}

static void change_number(etcs_field *field)
{
    uint64_t most = most_of(field->width);
    switch (chance(5)) {
    case 0: field->number = (field->number + 1) & most; break;
    case 1: field->number = (field->number - 1) & most; break;
    case 2: field->number = chance(2) ? most : 0; break;
    case 3: field->number ^= ((uint64_t)1 << chance(64)) & most; break;
    default: field->number = chance(0x7fffffff) & most;
    }
}

/* Repeats fields[from] to fields[to - 1], or removes them. */
static void repeat(etcs_field *fields, size_t *count, size_t from, size_t to)
{
    if (*count + (to - from) > ETCS_MOST_FIELDS)
        return;
    memmove(fields + to + (to - from), fields + to, (*count - to) * sizeof *fields);
    memcpy(fields + to, fields + from, (to - from) * sizeof *fields);
    *count += to - from;
}

static void take_out(etcs_field *fields, size_t *count, size_t from, size_t to)
{
    memmove(fields + from, fields + to, (*count - to) * sizeof *fields);
    *count -= to - from;
}

/* The place of the first NID_PACKET from this place on. */
static size_t packet_at(const etcs_field *fields, size_t count, size_t from)
{
    return etcs_find(fields, count, ETCS_VAR_NID_PACKET, from);
}

void change_fields(etcs_field *fields, size_t *count)
{
    if (*count == 0)
        return;
    size_t at = chance(*count), to = at + 1 + chance(smaller(*count - at, 4));
    to = smaller(to, *count);
    size_t packet = packet_at(fields, *count, at), next = smaller(packet_at(fields, *count, packet + 1), *count);
    switch (chance(9)) {
    case 0: repeat(fields, count, at, to); break;
    case 1: take_out(fields, count, at, to); break;
    case 2: fields[at].width = chance(2) ? fields[at].width + 1 - 2 * (uint32_t)chance(2) : (uint32_t)chance(70); break;
    case 3: fields[at].var = (uint32_t)chance(ETCS_VAR_COUNT + 2); break;
    case 4: fields[at].number = ~fields[at].number; break;
    case 5:
        if (packet < *count)
            repeat(fields, count, packet, next);
        break;
    case 6:
        if (packet < *count)
            take_out(fields, count, packet, next);
        break;
    default: change_number(&fields[at]);
    }
}

size_t fields_in(const uint8_t *data, size_t size, etcs_field *fields)
{
    size_t count = smaller(size / 10, ETCS_MOST_FIELDS);
    for (size_t i = 0; i < count; i++, data += 10) {
        fields[i] = (etcs_field){.var = data[0], .width = data[1]};
        memcpy(&fields[i].number, data + 2, 8);
    }
    return count;
}

static size_t fields_out(const etcs_field *fields, size_t count, uint8_t *data, size_t most)
{
    count = smaller(count, most / 10);
    for (size_t i = 0; i < count; i++, data += 10) {
        data[0] = (uint8_t)fields[i].var, data[1] = (uint8_t)fields[i].width;
        memcpy(data + 2, &fields[i].number, 8);
    }
    return 10 * count;
}

/* ---- Bits. */

static void put(uint8_t *out, size_t at, uint64_t number, uint32_t width)
{
    for (uint32_t b = width; b-- > 0; at++) {
        uint8_t mask = (uint8_t)(0x80 >> at % 8);
        out[at / 8] = (uint8_t)((out[at / 8] & ~mask) | (number >> (b & 63) & 1 ? mask : 0));
    }
}

static int get(const uint8_t *data, size_t at)
{
    return data[at / 8] >> (7 - at % 8) & 1;
}

/* Writes fields with L_PACKET, L_MESSAGE, FILL and padding as they have to be; returns how many bytes. */
static size_t write_fields(etcs_kind kind, const etcs_field *fields, size_t count, uint8_t *out, size_t most)
{
    size_t at = 0, packet = 0, length = 0, message = 0, user = kind == ETCS_LONG ? 830 : kind == ETCS_SHORT ? 210 : 0;
    memset(out, 0, most);
    for (size_t i = 0; i <= count; i++) {
        uint32_t var = i < count ? fields[i].var : (uint32_t)ETCS_VAR_NID_PACKET, width = i < count ? fields[i].width : 0;
        if (var == ETCS_VAR_FILL || var == ETCS_VAR_PAD || var == ETCS_VAR_PADDING || at + width > 8 * most)
            continue;
        if (var == ETCS_VAR_NID_PACKET) {
            if (length)
                put(out, length, at - packet, 13);
            packet = at, length = 0;
        } else if (var == ETCS_VAR_L_PACKET)
            length = at;
        else if (var == ETCS_VAR_L_MESSAGE)
            message = at;
        if (i < count)
            put(out, at, fields[i].number, width);
        at += width;
    }
    while (at < user && at < 8 * most)
        put(out, at++, 1, 1);
    if (message)
        put(out, message, (at + 7) / 8, 10);
    return (at + 7) / 8;
}

/* Turns bits, or shifts all bits after one. */
static size_t change_bits(uint8_t *data, size_t size, size_t most)
{
    size_t bits = 8 * size, at = chance(bits), by = 1 + chance(chance(2) ? 8 : 32);
    if (chance(3)) {
        for (size_t times = 1 + chance(3); times--; at = chance(bits))
            data[at / 8] ^= (uint8_t)(0x80 >> at % 8);
        return size;
    }
    if (chance(2)) {
        for (size_t i = at; i + by < bits; i++)
            put(data, i, (uint64_t)get(data, i + by), 1);
        return size - by / 8;
    }
    size_t grown = smaller(size + (by + 7) / 8, most);
    memset(data + size, 0, grown - size);
    for (size_t i = 8 * grown; i-- > at + by;)
        put(data, i, (uint64_t)get(data, i - by), 1);
    return grown;
}

/* ---- JSON. */

/* Where the word that begins here ends: a string, a number or name, or one character. */
static size_t word_end(const uint8_t *line, size_t size, size_t at)
{
    static const char marks[] = "{}[],: ";
    size_t to = at + 1;
    if (line[at] == '"') {
        while (to < size && line[to] != '"')
            to += line[to] == '\\' ? 2 : 1;
        return smaller(to + 1, size);
    }
    if (!strchr(marks, line[at]))
        while (to < size && line[to] != '"' && !(line[to] && strchr(marks, line[to])))
            to++;
    return to;
}

/* The place of a random word, and its end. */
static size_t any_word(const uint8_t *line, size_t size, size_t *to)
{
    size_t count = 0, place;
    for (size_t at = 0; at < size; at = word_end(line, size, at))
        count++;
    place = chance(count);
    for (size_t at = 0;; at = *to) {
        *to = word_end(line, size, at);
        if (place-- == 0 || *to >= size)
            return at;
    }
}

static size_t new_word(char *word, size_t most)
{
    static const char *const words[] = {
        "{", "}", "[", "]", ",", ":", "null", "true", "0", "-0", "1e0", "1.0", "01", "18446744073709551615", "18446744073709551616", "\"\"",
        "\"kind\"", "\"nid\"", "\"dir\"", "\"data\"", "\"fields\"", "\"header\"", "\"packets\"", "\"padding\"", "\"fill\"", "\"short\"",
        "\"long\"", "\"radio\"", "\"train\"", "\"0101\"", "\"\\u0030\"", "\"\\ud800\"", "\"\\u001b[0m\"", "\"\x7f\"", "\"\xe2\x80\xae\"", "\"\xc2\x9b\"", "\"\xff\"",
        "[[[[[[[[", "{\"a\":", " ", "\"00000000000000fF\"", ",[\"N_ITER\",1]",
    };
    size_t count = sizeof words / sizeof *words, which = chance(count + 20);
    if (which < count)
        return (size_t)snprintf(word, most, "%s", words[which]);
    if (which < count + 8)
        return (size_t)snprintf(word, most, "\"%s\"", etcs_var_name((uint32_t)chance(ETCS_VAR_COUNT)));
    return (size_t)snprintf(word, most, "%llu", (unsigned long long)chance(chance(2) ? 300 : 1 << 20));
}

static size_t change_line(uint8_t *line, size_t size, size_t most)
{
    char word[64];
    size_t to = 0, at = size ? any_word(line, size, &to) : 0, old = to - at, len = old;
    const uint8_t *from = line + at;
    static uint8_t kept[MOST_INPUT];
    switch (chance(5)) {
    case 0: len = 0; break;
    case 1:
        memcpy(kept, line + at, old), memcpy(kept + old, line + at, old < sizeof kept / 2 ? old : 0);
        len = old < sizeof kept / 2 ? 2 * old : old, from = kept;
        break;
    case 2:
        if (size) {
            at = any_word(line, size, &to), memcpy(kept, from, len), from = kept;
            old = to - at;
        }
        break;
    default: len = new_word(word, sizeof word), from = (const uint8_t *)word;
    }
    if (size - old + len > most)
        return size;
    if (from != (const uint8_t *)word && from != kept)
        memcpy(kept, from, len), from = kept;
    memmove(line + at + len, line + at + old, size - at - old);
    memcpy(line + at, from, len);
    return size - old + len;
}

/* ---- All of it. */

/* The item at the front, with changed fields; as fields or as JSON if the form is another. */
static size_t change_item(uint8_t *data, size_t size, size_t most)
{
    static etcs_field fields[ETCS_MOST_FIELDS];
    static uint8_t made[MOST_INPUT];
    etcs_answer a = {0};
    etcs_kind kind = 1 + data[0] % 4;
    size_t len = 0, form = chance(6);
    if (etcs_fields(kind, data + 1, size - 1, fields, ETCS_MOST_FIELDS, &a) != ETCS_OK)
        return 1 + change_bits(data + 1, size - 1, most - 1);
    size_t count = a.written;
    if (form == 0 && etcs_to_json(kind, data + 1, size - 1, made, sizeof made, &a) == ETCS_OK) {
        len = a.written, data[0] = (uint8_t)(kind - 1 + 4 * LINE);
    } else if (form == 1) {
        len = fields_out(fields, count, made, sizeof made), data[0] = (uint8_t)(kind - 1 + 4 * SENT);
    } else {
        for (size_t times = 1 + chance(3); times--;)
            change_fields(fields, &count);
        len = write_fields(kind, fields, count, made, 1200);
    }
    len = smaller(len, most - 1);
    memcpy(data + 1, made, len);
    return 1 + len;
}

/* The item of a line of JSON or of fields, if there is one. */
static size_t to_item(uint8_t *data, size_t size)
{
    static etcs_field fields[ETCS_MOST_FIELDS];
    uint8_t made[ETCS_MOST_BYTES];
    etcs_answer a = {0};
    etcs_kind kind = 1 + data[0] % 4;
    etcs_status status = data[0] / 4 % 4 == LINE ? etcs_from_json(kind, data + 1, size - 1, made, sizeof made, &a)
        : etcs_from_fields(kind, fields, fields_in(data + 1, size - 1, fields), made, sizeof made, &a);
    if (status != ETCS_OK || a.written >= size)
        return size;
    memcpy(data + 1, made, a.written);
    data[0] = (uint8_t)(kind - 1);
    return 1 + a.written;
}

size_t LLVMFuzzerCustomMutator(uint8_t *data, size_t size, size_t most, unsigned seed)
{
    static etcs_field fields[ETCS_MOST_FIELDS];
    begin_chance(data, size, seed);
    if (size < 2 || most < 2 || chance(12) == 0)
        return LLVMFuzzerMutate(data, size, most);
    if (chance(4) == 0)
        return 1 + LLVMFuzzerMutate(data + 1, size - 1, most - 1);
    switch (data[0] / 4 % 4) {
    case LINE: return chance(12) ? 1 + change_line(data + 1, size - 1, most - 1) : to_item(data, size);
    case SENT:
        if (chance(12) == 0)
            return to_item(data, size);
        size_t count = fields_in(data + 1, size - 1, fields);
        change_fields(fields, &count);
        return 1 + fields_out(fields, count, data + 1, most - 1);
    default: return chance(3) ? change_item(data, size, most) : 1 + change_bits(data + 1, size - 1, most - 1);
    }
}
