/* A fuzz target over the library for C: fuzz/run builds and runs it.
 *
 * An input is a byte that says the kind and what follows: the bytes of items one after another, a line of JSON, or fields
 * of ten bytes each. The top bit of that byte says that memory is refused often. What is asked of each call, and of the
 * calls together, is in try_bytes, try_line and try_fields. Whatever doesn't hold is written, and ends the process by abort.
 */
#define _GNU_SOURCE
#include "fuzz.h"
#include "mutate.h"

#include <stdio.h>
#include <stdlib.h>
#include <string.h>
#include <sys/mman.h>
#include <unistd.h>

#define HOLDS(condition) ((condition) ? (void)0 : failed(#condition, __LINE__))
#define IS(answer_of, text) (answer_of.answer.written == sizeof text && !memcmp(answer_of.out, text, sizeof text))

static void failed(const char *condition, int line)
{
    fprintf(stderr, "fuzz/fuzz.c:%d: it doesn't hold that %s\n", line, condition);
    abort();
}

/* ---- Random numbers, which an input decides. */

static uint64_t chance_state;

uint64_t chance(uint64_t below)
{
    chance_state ^= chance_state << 13, chance_state ^= chance_state >> 7, chance_state ^= chance_state << 17;
    return below ? (chance_state >> 8) % below : 0;
}

void begin_chance(const uint8_t *data, size_t size, uint64_t seed)
{
    chance_state = 1469598103934665603u ^ seed;
    for (size_t i = 0; i < size; i++)
        chance_state = (chance_state ^ data[i]) * 1099511628211u;
    chance_state |= 1;
}

/* ---- Memory: what the library takes is counted, and refused when that is tried. */

void *__real_malloc(size_t size);
void *__real_realloc(void *old, size_t size);
void __real_free(void *old);

static int is_inside;
static size_t live, taken_times, refused_from, refused_to;

/* Which allocations are of 512 bytes or more, as are those of growing texts; none is noted while some are refused. */
static size_t large[64], larges;

static int refuses(size_t size)
{
    taken_times++;
    if (size >= 512 && !refused_from && larges < sizeof large / sizeof *large)
        large[larges++] = taken_times;
    return taken_times >= refused_from && taken_times < refused_to;
}

void *__wrap_malloc(size_t size)
{
    if (is_inside && refuses(size))
        return NULL;
    void *made = __real_malloc(size);
    live += is_inside && made;
    return made;
}

void *__wrap_realloc(void *old, size_t size)
{
    if (is_inside && refuses(size))
        return NULL;
    void *made = __real_realloc(old, size);
    live += is_inside && made && !old;
    return made;
}

void __wrap_free(void *old)
{
    live -= is_inside && old;
    __real_free(old);
}

/* ---- Buffers: each ends where a page begins that can't be touched. */

enum { INPUT = CALLS, ANSWER, REASON, AREAS };
enum { AREA = 1 << 20 };

static uint8_t *area_end[AREAS];

static void make_areas(void)
{
    size_t page = (size_t)sysconf(_SC_PAGESIZE);
    for (int i = 0; i < AREAS; i++) {
        uint8_t *at = mmap(NULL, AREA + page, PROT_READ | PROT_WRITE, MAP_PRIVATE | MAP_ANONYMOUS, -1, 0);
        HOLDS(at != MAP_FAILED && mprotect(at + AREA, page, PROT_NONE) == 0);
        area_end[i] = at + AREA;
    }
}

/* The last bytes of a buffer, this many; if none, it is a null pointer every other time. */
static uint8_t *area(int which, size_t size)
{
    HOLDS(size <= AREA);
    return size || chance(2) ? area_end[which] - size : NULL;
}

/* ---- One call. */

static size_t unit_of(int which)
{
    return which == FIELDS || which == FIELDS_BEFORE ? sizeof(etcs_field) : which == PLACES ? sizeof(etcs_place) : 1;
}

/* The number of the item for `show`. */
static uint64_t item_number;

/* The variable, its number and Q_SCALE for the call of meanings. */
static etcs_field asked;
static uint32_t asked_scale;

static uint64_t any_number(void)
{
    static const uint64_t numbers[] = {0, 9, 10, UINT32_MAX, UINT64_MAX};
    return chance(2) ? numbers[chance(sizeof numbers / sizeof *numbers)] : chance(UINT64_MAX);
}

static etcs_status call(int which, etcs_kind kind, const uint8_t *in, size_t len, uint8_t *out, size_t room, etcs_answer *a)
{
    etcs_status status = 99;
    is_inside = 1;
    switch (which) {
    case CHECK: status = etcs_check(kind, in, len, a); break;
    case SHOW: status = etcs_show(kind, item_number, in, len, out, room, a); break;
    case TO_JSON: status = etcs_to_json(kind, in, len, out, room, a); break;
    case FROM_JSON: status = etcs_from_json(kind, in, len, out, room, a); break;
    case FIELDS: status = etcs_fields(kind, in, len, (etcs_field *)(void *)out, room, a); break;
    case PLACES: status = etcs_places(kind, in, len, (etcs_place *)(void *)out, room, a); break;
    case FROM_FIELDS: status = etcs_from_fields(kind, (const etcs_field *)(const void *)in, len, out, room, a); break;
    case MEANING: status = etcs_meaning(kind, asked.var, asked.number, asked_scale, out, room, a); break;
    case LINE_BYTES: status = etcs_line_bytes(in, len, out, room, a); break;
    case VERSION: status = etcs_version(out, room, a); break;
    case EXPLAIN: status = etcs_explain(kind, in, len, out, room, a); break;
    case FIELDS_BEFORE: status = etcs_fields_before(kind, in, len, (etcs_field *)(void *)out, room, a); break;
    case EXPLAIN_JSON: status = etcs_explain_json(kind, in, len, out, room, a); break;
    }
    is_inside = 0;
    HOLDS(live == 0);
    return status;
}

/* What a call answered, and what it wrote, which is there until the next call of the same name. */
typedef struct result {
    etcs_status status;
    etcs_answer answer;
    const uint8_t *out;
} result;

static int is_still(const uint8_t *from, const uint8_t *to)
{
    while (from < to && *from == 0xA5)
        from++;
    return from >= to;
}

/* Calls with room for this many parts, in a buffer that is longer by the other number. What isn't written has to be unchanged. */
static result call_with(int which, etcs_kind kind, const uint8_t *in, size_t len, size_t room, size_t further)
{
    result r = {0};
    size_t unit = unit_of(which);
    uint8_t *out = area(which, (room + further) * unit);
    etcs_answer *a = (etcs_answer *)(void *)area(ANSWER, sizeof *a);
    memset(a, 0, sizeof *a);
    memset(out, 0xA5, (room + further) * unit);
    r.status = call(which, kind, in, len, out, room, a);
    r.answer = *a, r.out = out;
    int writes = r.status == ETCS_OK
        || (which >= EXPLAIN && (r.status == ETCS_REFUSED || r.status == ETCS_BAD_JSON));
    HOLDS(is_still(out + (writes ? a->written * unit : 0), out + (room + further) * unit));
    if (r.status == ETCS_REFUSED)
        HOLDS(memchr(a->var, 0, sizeof a->var) && a->var[0]);
    return r;
}

/* Whether up to 200 allocations of each call are refused, and not 12 of some calls. */
static int is_starved;

/* Which allocation is refused as number i, of this many: each, or else every other one of the large ones, or a random one. */
static size_t refused_at(size_t i, size_t most, size_t all)
{
    if (all <= most)
        return i;
    return larges && i % 2 ? large[chance(larges)] : 1 + chance(all);
}

/* Allocations refused, alone or with all later ones: the answer is the same, or NO_MEMORY. */
static void refuse_memory(int which, etcs_kind kind, const uint8_t *in, size_t len, size_t room, const result *wanted)
{
    int with_later = chance(2) == 0;
    size_t most = !is_starved ? 12 : len < 400 ? 200 : 40;
    taken_times = larges = 0;
    call_with(which, kind, in, len, room, 0);
    for (size_t i = 1, all = taken_times; i <= most && i <= all; i++) {
        size_t at = refused_at(i, most, all);
        taken_times = 0, refused_from = at, refused_to = with_later ? (size_t)-1 : at + 1;
        result r = call_with(which, kind, in, len, room, 0);
        refused_from = refused_to = 0;
        HOLDS(taken_times >= at);
        HOLDS(r.status == ETCS_NO_MEMORY
              || (r.status == wanted->status && r.answer.taken == wanted->answer.taken && r.answer.written == wanted->answer.written));
    }
}

/* Calls with no room, with too little, and with exactly as much as is needed; `len` counts bytes or fields. */
static result ask(int which, etcs_kind kind, const void *data, size_t len)
{
    size_t size = len * (which == FROM_FIELDS ? sizeof(etcs_field) : 1);
    uint8_t *in = area(INPUT, size);
    memcpy(in, data, size);
    result r = call_with(which, kind, in, len, 0, chance(3));
    size_t wanted = 0;
    if (r.status == ETCS_NO_ROOM) {
        wanted = r.answer.written;
        HOLDS(wanted > 0);
        result less = call_with(which, kind, in, len, wanted - 1 - chance(wanted), chance(40));
        HOLDS(less.status == ETCS_NO_ROOM && less.answer.written == wanted && less.answer.taken == r.answer.taken);
        HOLDS(less.answer.bit == r.answer.bit && !strcmp(less.answer.var, r.answer.var));
        if (is_starved || chance(16) == 0) {
            result full = call_with(which, kind, in, len, wanted, 0);
            refuse_memory(which, kind, in, len, wanted, &full);
        }
        result more = call_with(which, kind, in, len, wanted + 1 + chance(9), chance(9));
        result same = call_with(which, kind, in, len, wanted, 0);
        HOLDS(more.status == same.status && more.answer.written == wanted);
        HOLDS(same.status != ETCS_NO_ROOM && same.answer.written == wanted && same.answer.taken == r.answer.taken);
        r = same;
    } else {
        HOLDS(which == CHECK || r.answer.written == 0);
        if (is_starved || chance(16) == 0)
            refuse_memory(which, kind, in, len, 0, &r);
    }
    HOLDS(memcmp(in, data, size) == 0);
    return r;
}

/* ---- Texts. */

/* Takes a UTF-8 character; UINT32_MAX if there is none. */
static uint32_t take_char(const uint8_t **at, const uint8_t *end)
{
    uint32_t first = *(*at)++;
    int more = first < 0x80 ? 0 : first >> 5 == 6 ? 1 : first >> 4 == 14 ? 2 : first >> 3 == 30 ? 3 : -1;
    uint32_t found = more > 0 ? first & (0x3Fu >> more) : first;
    if (more < 0 || more > end - *at)
        return UINT32_MAX;
    for (; more > 0; more--, (*at)++) {
        if (**at >> 6 != 2)
            return UINT32_MAX;
        found = found << 6 | (**at & 0x3F);
    }
    return found;
}

/* Whether a terminal would obey a character: controls, and what changes the direction of writing. */
static int is_control(uint32_t c)
{
    return c < 0x20 || (c >= 0x7F && c < 0xA0) || c == 0x61C || c == 0x200E || c == 0x200F || (c >= 0x2028 && c <= 0x202E) || (c >= 0x2066 && c <= 0x2069);
}

static int is_sentence(const uint8_t *text, size_t len)
{
    const uint8_t *at = text, *end = text + len;
    while (at < end) {
        uint32_t c = take_char(&at, end);
        if (c == UINT32_MAX || is_control(c))
            return 0;
    }
    return len > 0;
}

typedef struct lines {
    const uint8_t *at, *end;
} lines;

/* Takes a line that is this one, or this one and a meaning in parentheses. */
static int takes(lines *text, const char *line)
{
    size_t len = strlen(line), left = (size_t)(text->end - text->at);
    const uint8_t *lf = left ? memchr(text->at, '\n', left) : NULL;
    if (!lf || (size_t)(lf - text->at) < len || memcmp(text->at, line, len))
        return 0;
    if (lf != text->at + len && memcmp(text->at + len, " (", 2))
        return 0;
    text->at = lf + 1;
    return 1;
}

/* Takes the line of a run of bits, which is fields[from] to fields[to - 1]. */
static int takes_run(lines *text, const char *name, const etcs_field *fields, size_t from, size_t to)
{
    static char line[9000];
    size_t bits = 0;
    for (size_t i = from; i < to; i++)
        bits += fields[i].width;
    int at = snprintf(line, sizeof line, "  %s %zu%s", name, bits, bits ? " " : "");
    for (size_t i = from; i < to; i++)
        for (uint32_t b = fields[i].width; b-- > 0;)
            line[at++] = (char)('0' + (fields[i].number >> b & 1));
    line[at] = 0;
    return takes(text, line);
}

static int takes_field(lines *text, const etcs_field *field)
{
    char line[80];
    unsigned long long number = field->number;
    if (field->var == ETCS_VAR_NID_PACKET)
        snprintf(line, sizeof line, "packet %llu", number);
    else if (field->var == ETCS_VAR_NID_RADIO)
        snprintf(line, sizeof line, "  NID_RADIO %016llx", number);
    else if (field->var == ETCS_VAR_D_REF)
        snprintf(line, sizeof line, "  D_REF %d", (int)(int16_t)number);
    else
        snprintf(line, sizeof line, "  %s %llu", etcs_var_name(field->var), number);
    return takes(text, line);
}

/* Whether the text of `show` has exactly these fields. */
static int shows(etcs_kind kind, const uint8_t *out, size_t len, const etcs_field *fields, size_t count, size_t taken)
{
    static const char *const names[] = {"", "long", "short", "radio", "train"};
    lines text = {out, out + len};
    char line[80];
    size_t at = 0, bits = kind == ETCS_LONG ? 830 : kind == ETCS_SHORT ? 210 : 8 * taken;
    snprintf(line, sizeof line, "item %llu %s %zu bits", (unsigned long long)item_number, names[kind], bits);
    int holds = takes(&text, line);
    while (holds && at < count) {
        uint32_t var = fields[at].var;
        size_t to = at;
        while (to < count && fields[to].var == var)
            to++;
        if (var == ETCS_VAR_PAD)
            break;
        if (var == ETCS_VAR_PADDING) {
            takes(&text, "  OTHER_DATA 0");
            takes(&text, "end");
        }
        if (var == ETCS_VAR_FILL || var == ETCS_VAR_OTHER_DATA || var == ETCS_VAR_PADDING) {
            holds = takes_run(&text, etcs_var_name(var), fields, at, to);
            at = to;
        } else
            holds = takes_field(&text, &fields[at++]) || (takes(&text, "  OTHER_DATA 0") && takes_field(&text, &fields[at - 1]));
    }
    takes(&text, "  OTHER_DATA 0");
    if (takes(&text, "end"))
        takes(&text, "  PADDING 0");
    takes(&text, "  FILL 0");
    return holds && text.at == text.end;
}

/* ---- What is checked for an item, for JSON, for fields. */

static int is_same(const result *a, const result *b)
{
    if (a->status != b->status)
        return 0;
    return a->status == ETCS_OK ? a->answer.taken == b->answer.taken
        : a->status != ETCS_REFUSED || (a->answer.bit == b->answer.bit && !strcmp(a->answer.var, b->answer.var));
}

/* The fields of an item give it, and no others do. */
void try_fields(etcs_kind kind, const etcs_field *fields, size_t count)
{
    static uint8_t made[ETCS_MOST_BYTES];
    result r = ask(FROM_FIELDS, kind, fields, count);
    HOLDS(r.status == ETCS_OK || r.status == ETCS_MORE || r.status == ETCS_REFUSED || r.status == ETCS_BAD_FIELDS);
    if (r.status != ETCS_OK)
        return;
    size_t len = r.answer.written;
    HOLDS(len <= sizeof made);
    memcpy(made, r.out, len);
    result back = ask(FIELDS, kind, made, len);
    HOLDS(back.status == ETCS_OK && back.answer.taken == len && back.answer.written == count);
    HOLDS(memcmp(back.out, fields, count * sizeof *fields) == 0);
}

/* Writes the same JSON with blanks after some marks, and some letters and digits of texts as escapes; returns how many bytes. */
static size_t respell(const uint8_t *line, size_t len, uint8_t *out)
{
    size_t at = 0, from = 0;
    int is_text = 0;
    while (from < len) {
        uint8_t c = line[from++];
        if (is_text && (c >= '0' && c <= 'z') && c != '\\' && chance(8) == 0) {
            at += (size_t)sprintf((char *)out + at, "\\u%04x", c);
            continue;
        }
        out[at++] = c;
        if (is_text && c == '\\')
            for (size_t more = from < len && line[from] == 'u' ? 5 : 1; more-- && from < len;)
                out[at++] = line[from++];
        is_text ^= c == '"';
        if (!is_text && c && strchr("{}[],:", c) && chance(4) == 0)
            out[at++] = " \t\r"[chance(3)];
    }
    return at;
}

/* JSON in another spelling says the same, and is wrong for the same reason unless a column is part of that. */
static void try_respelled(etcs_kind kind, const uint8_t *line, size_t len, const result *wanted, const result *why)
{
    static uint8_t other[6 * MOST_INPUT], made[ETCS_MOST_BYTES], sentence[1 << 13];
    size_t count = wanted->answer.written, size = respell(line, len, other), said = why->answer.written;
    memcpy(made, wanted->out, count);
    memcpy(sentence, why->out, said < sizeof sentence ? said : 0);
    result r = ask(FROM_JSON, kind, other, size);
    HOLDS(r.status == wanted->status && r.answer.written == count && !memcmp(r.out, made, count));
    result reason = ask(EXPLAIN_JSON, kind, other, size);
    HOLDS(is_same(&reason, why));
    if (size < 1 << 16 && said < sizeof sentence && !memmem(sentence, said, " column ", 8))
        HOLDS(reason.answer.written == said && !memcmp(reason.out, sentence, said));
}

/* Bytes after an item are ignored: what is written for it stays the same. */
static void try_followed(etcs_kind kind, const uint8_t *bytes, size_t taken)
{
    static const int calls[] = {SHOW, TO_JSON, FIELDS, PLACES};
    static uint8_t longer[ETCS_MOST_BYTES + 64];
    static uint8_t kept[AREA];
    int which = calls[chance(4)];
    result alone = ask(which, kind, bytes, taken);
    size_t size = alone.answer.written * unit_of(which), further = 1 + chance(64);
    HOLDS(size <= sizeof kept);
    memcpy(kept, alone.out, size);
    memcpy(longer, bytes, taken);
    for (size_t i = 0; i < further; i++)
        longer[taken + i] = (uint8_t)chance(256);
    result followed = ask(which, kind, longer, taken + further);
    HOLDS(is_same(&followed, &alone) && followed.answer.written == alone.answer.written && !memcmp(followed.out, kept, size));
}

/* The digits of a line: their bytes written again say the same, and what is in front of them is in the line. */
static void try_digits(const uint8_t *line, size_t len)
{
    static uint8_t digits[2 * MOST_INPUT], bytes[MOST_INPUT];
    const uint8_t *lf = len ? memchr(line, '\n', len) : NULL;
    len = lf ? (size_t)(lf - line) : len;
    result r = ask(LINE_BYTES, ETCS_LONG, line, len);
    size_t front = etcs_line_front(line, len);
    HOLDS(front <= len);
    HOLDS(r.status == ETCS_OK || r.status == ETCS_EMPTY_LINE || r.status == ETCS_NO_DIGITS || r.status == ETCS_ODD_DIGITS);
    HOLDS(r.status != ETCS_ODD_DIGITS || r.answer.taken % 2 == 1);
    if (r.status != ETCS_OK)
        return;
    size_t count = r.answer.written;
    HOLDS(count > 0 && 2 * count <= len - front);
    memcpy(bytes, r.out, count);
    for (size_t i = 0; i < count; i++)
        sprintf((char *)digits + 2 * i, "%02X", bytes[i]);
    result again = ask(LINE_BYTES, ETCS_LONG, digits, 2 * count);
    HOLDS(again.status == ETCS_OK && again.answer.written == count && !memcmp(again.out, bytes, count));
    HOLDS(etcs_line_front(digits, 2 * count) == 0);
}

/* A line of an item's digits says its bytes, whatever is in front of it; the time in front is what comes before them. */
static void try_logged(const uint8_t *bytes, size_t taken)
{
    static const char *const fronts[] = {"", "12:00:00.5 rx ", "2026-01-01T00:00:00Z;"};
    static char line[2 * ETCS_MOST_BYTES + 80];
    const char *front = fronts[chance(3)];
    size_t at = (size_t)sprintf(line, "%s", front), before = at && front[at - 1] == ' ' ? at - 1 : at;
    for (size_t i = 0; i < taken; i++)
        at += (size_t)sprintf(line + at, chance(2) ? "%02X" : "%02x", bytes[i]);
    result r = ask(LINE_BYTES, ETCS_LONG, line, at);
    HOLDS(r.status == ETCS_OK && r.answer.written == taken && !memcmp(r.out, bytes, taken));
    HOLDS(etcs_line_front((const uint8_t *)line, at) == before);
}

/* A number of each variable has a text as its meaning, or none, for every kind. */
static void try_meanings(etcs_kind kind, const etcs_field *fields, size_t count)
{
    for (int i = 0; i < 4 && count; i++) {
        asked = fields[chance(count)], asked_scale = (uint32_t)chance(4);
        if (chance(4) == 0)
            asked.number = any_number();
        result r = ask(MEANING, kind, NULL, 0);
        HOLDS(r.status == ETCS_OK && !strcmp(r.answer.var, etcs_var_name(asked.var)));
        HOLDS(!r.answer.written || is_sentence(r.out, r.answer.written));
    }
    asked.var = ETCS_VAR_COUNT + (uint32_t)chance(UINT32_MAX - ETCS_VAR_COUNT);
    HOLDS(ask(MEANING, kind, NULL, 0).status == ETCS_BAD_FIELDS);
    result version = ask(VERSION, kind, NULL, 0);
    HOLDS(version.status == ETCS_OK && (IS(version, ETCS_VERSION) || IS(version, ETCS_VERSION " unproved")));
}

static etcs_status assemble(const etcs_telegram *telegrams, size_t count, etcs_group *group, etcs_answer *a)
{
    static const etcs_group as_before = {{7, 7, 7, 7, 7, 7, 7, 7}, 7};
    *group = as_before, *a = (etcs_answer){0};
    is_inside = 1;
    etcs_status status = etcs_assemble(telegrams, count, group, a);
    is_inside = 0;
    HOLDS(live == 0);
    HOLDS(status == ETCS_OK || !memcmp(group, &as_before, sizeof as_before));
    return status;
}

/* The telegrams of a group: the first that isn't held doesn't depend on those after it, and what they make together doesn't
 * depend on their order. */
static void try_group(etcs_telegram *telegrams, size_t count)
{
    etcs_group group, other;
    etcs_answer a, b;
    etcs_status status = assemble(telegrams, count, &group, &a);
    if (status != ETCS_OK) {
        HOLDS(a.taken < count && assemble(telegrams, a.taken, &other, &b) == ETCS_OK);
        HOLDS(assemble(telegrams, a.taken + 1, &other, &b) == status && b.taken == a.taken);
        count = a.taken;
        HOLDS(assemble(telegrams, count, &group, &a) == ETCS_OK);
    }
    int missing = 0;
    for (int i = 0; i < 8; i++)
        missing += group.missing[i];
    HOLDS(group.is_complete == (count > 0 && !missing));
    if (count < 2)
        return;
    size_t i = chance(count), k = chance(count);
    etcs_telegram moved = telegrams[i];
    telegrams[i] = telegrams[k], telegrams[k] = moved;
    HOLDS(assemble(telegrams, count, &other, &b) == ETCS_OK && !memcmp(&group, &other, sizeof group));
    taken_times = 0;
    assemble(telegrams, count, &other, &b);
    for (size_t at = 1, all = taken_times; at <= all && at <= 40; at++) {
        taken_times = 0, refused_from = at, refused_to = at + 1;
        status = assemble(telegrams, count, &other, &b);
        refused_from = refused_to = 0;
        HOLDS(status == ETCS_NO_MEMORY || (status == ETCS_OK && !memcmp(&group, &other, sizeof group)));
    }
}

/* Telegrams made from an item: one for each N_PIG of its N_TOTAL, and one with a bit turned. */
static void try_telegrams(etcs_kind kind, const uint8_t *bytes, size_t taken)
{
    static etcs_telegram telegrams[10];
    size_t count = 1 + chance(10);
    for (size_t i = 0; i < count; i++) {
        etcs_telegram *t = &telegrams[i];
        *t = (etcs_telegram){kind, {0}};
        memcpy(t->bytes, bytes, taken);
        /* N_PIG is in bits 9 to 11. */
        uint8_t place = (uint8_t)chance(8);
        t->bytes[1] = (uint8_t)((t->bytes[1] & 0x8F) | place << 4);
        if (chance(6) == 0)
            t->bytes[chance(taken)] ^= (uint8_t)(1 << chance(8));
        if (chance(40) == 0)
            t->kind = (uint32_t)chance(6);
    }
    try_group(telegrams, count);
}

/* Whether each NID_PACKET begins the next packet, what is before the first and after the last is in none, and an entry of a list is
 * the same as that of the field before it, or the next one, or the first. */
static int are_in_order(const etcs_field *fields, const etcs_place *places, size_t count)
{
    etcs_place last = {0};
    size_t packets = 0;
    for (size_t i = 0; i < count; last = places[i++]) {
        etcs_place now = places[i];
        uint32_t var = fields[i].var;
        packets += var == ETCS_VAR_NID_PACKET;
        int is_after = var == ETCS_VAR_FILL || var == ETCS_VAR_PADDING || var == ETCS_VAR_PAD;
        if (now.packet != (is_after ? 0 : packets) || (now.entry && !now.packet) || (now.inner && !now.entry))
            return 0;
        if ((now.entry > 1 && now.entry - last.entry > 1) || (now.inner > 1 && now.inner - last.inner > 1))
            return 0;
    }
    return 1;
}

/* An item is what its JSON and its fields say, `show` prints it, and no shorter bytes hold it. */
static void try_item(etcs_kind kind, const uint8_t *bytes, size_t taken)
{
    static etcs_field fields[ETCS_MOST_FIELDS];
    result json = ask(TO_JSON, kind, bytes, taken);
    HOLDS(json.status == ETCS_OK && json.answer.taken == taken);
    result back = ask(FROM_JSON, kind, json.out, json.answer.written);
    HOLDS(back.status == ETCS_OK && back.answer.written == taken && !memcmp(back.out, bytes, taken));
    result why = ask(EXPLAIN_JSON, kind, json.out, json.answer.written);
    HOLDS(why.status == ETCS_OK);
    if (chance(4) == 0)
        try_respelled(kind, json.out, json.answer.written, &back, &why);
    result sent = ask(FIELDS, kind, bytes, taken);
    HOLDS(sent.status == ETCS_OK && sent.answer.written <= ETCS_MOST_FIELDS);
    size_t count = sent.answer.written;
    memcpy(fields, sent.out, count * sizeof *fields);
    result places = ask(PLACES, kind, bytes, taken);
    HOLDS(places.status == ETCS_OK && places.answer.taken == taken && places.answer.written == count);
    HOLDS(are_in_order(fields, (const etcs_place *)(const void *)places.out, count));
    result packed = ask(FROM_FIELDS, kind, fields, count);
    HOLDS(packed.status == ETCS_OK && packed.answer.written == taken && !memcmp(packed.out, bytes, taken));
    result text = ask(SHOW, kind, bytes, taken);
    HOLDS(text.status == ETCS_OK && shows(kind, text.out, text.answer.written, fields, count, taken));
    HOLDS(ask(CHECK, kind, bytes, taken - 1).status == ETCS_MORE);
    if (chance(4) == 0)
        try_followed(kind, bytes, taken);
    if (chance(4) == 0) {
        try_meanings(kind, fields, count);
        try_logged(bytes, taken);
    }
    if (chance(4) == 0 && (kind == ETCS_LONG || kind == ETCS_SHORT))
        try_telegrams(kind, bytes, taken);
    change_fields(fields, &count);
    try_fields(kind, fields, count);
}

/* The number that these bits are. */
static uint64_t number_at(const uint8_t *bytes, size_t at, size_t count)
{
    uint64_t number = 0;
    for (size_t i = at; i < at + count; i++)
        number = number << 1 | (bytes[i / 8] >> (7 - i % 8) & 1);
    return number;
}

/* Whether a bit of this number is refused, where these bits have it in place of theirs. */
static int is_blocked(etcs_kind kind, const uint8_t *bytes, size_t len, size_t at, size_t width, uint64_t number)
{
    static uint8_t changed[MOST_INPUT];
    memcpy(changed, bytes, len);
    for (size_t i = 0; i < width; i++) {
        uint8_t bit = (uint8_t)(0x80 >> (at + i) % 8);
        changed[(at + i) / 8] = (uint8_t)((changed[(at + i) / 8] & ~bit) | (number >> (width - 1 - i) & 1 ? bit : 0));
    }
    result r = call_with(CHECK, kind, changed, len, 0, 0);
    return r.status == ETCS_REFUSED && r.answer.bit < at + width;
}

/* The reason of a refused bit takes no memory; its nearest numbers may come in place of the refused one, and none between them. */
static void try_reason(etcs_kind kind, const uint8_t *bytes, size_t len, const result *refused)
{
    etcs_reason *r = (etcs_reason *)(void *)area(REASON, sizeof *r);
    etcs_answer *a = (etcs_answer *)(void *)area(ANSWER, sizeof *a);
    size_t bit = refused->answer.bit, rest = 0;
    taken_times = 0, refused_from = 1, refused_to = (size_t)-1, is_inside = 1;
    etcs_status status = etcs_refusal(kind, bytes, len, r, a);
    refused_from = refused_to = 0, is_inside = 0;
    HOLDS(status == ETCS_REFUSED && taken_times == 0 && a->bit == bit && !strcmp(a->var, refused->answer.var));
    HOLDS(r->count > 0 && r->count <= bit + 1 && number_at(bytes, bit + 1 - r->count, r->count) == r->bits);
    if (!(r->has & ETCS_HAS_NUMBER) || r->bits == 0)
        return;
    for (; r->number >> rest != r->bits; rest++)
        HOLDS(rest < 63);
    size_t at = bit + 1 - r->count, width = r->count + rest;
    HOLDS(at + width <= 8 * len && number_at(bytes, at, width) == r->number);
    if (width == 64)
        return;
    uint64_t from = r->has & ETCS_HAS_BELOW ? r->below + 1 : 0, to = r->has & ETCS_HAS_ABOVE ? r->above : (uint64_t)1 << width;
    HOLDS(from <= r->bits << rest && to > r->bits << rest && (to - 1) >> rest >= r->bits);
    HOLDS(from == 0 || !is_blocked(kind, bytes, len, at, width, r->below));
    HOLDS(!(r->has & ETCS_HAS_ABOVE) || (to < (uint64_t)1 << width && !is_blocked(kind, bytes, len, at, width, to)));
    HOLDS(is_blocked(kind, bytes, len, at, width, from + chance(to - from)));
}

/* A refused bit has its reason and the fields before it; the bits after it are ignored, and if it is turned it isn't refused. */
static void try_refused(etcs_kind kind, const uint8_t *bytes, size_t len, const result *refused)
{
    static uint8_t turned[MOST_INPUT];
    size_t bit = refused->answer.bit, sum = 0;
    HOLDS(bit < 8 * len);
    result why = ask(EXPLAIN, kind, bytes, len);
    HOLDS(is_same(&why, refused) && is_sentence(why.out, why.answer.written));
    result before = ask(FIELDS_BEFORE, kind, bytes, len);
    HOLDS(is_same(&before, refused));
    try_reason(kind, bytes, len, refused);
    const etcs_field *fields = (const etcs_field *)(const void *)before.out;
    for (size_t i = 0; i < before.answer.written; i++)
        for (uint32_t b = fields[i].width; b-- > 0; sum++)
            HOLDS(sum < bit && (fields[i].number >> b & 1) == (bytes[sum / 8] >> (7 - sum % 8) & 1));
    HOLDS(bit - sum < 64);
    HOLDS(ask(CHECK, kind, bytes, bit / 8).status == ETCS_MORE);
    result cut = ask(CHECK, kind, bytes, bit / 8 + 1);
    HOLDS(is_same(&cut, refused));
    memcpy(turned, bytes, len);
    for (size_t at = bit + 1; at < 8 * len; at++)
        turned[at / 8] ^= (uint8_t)((chance(2) << 7) >> at % 8);
    result same = ask(CHECK, kind, turned, len);
    HOLDS(is_same(&same, refused));
    turned[bit / 8] ^= (uint8_t)(0x80 >> bit % 8);
    result other = ask(CHECK, kind, turned, len);
    HOLDS(other.status != ETCS_REFUSED || other.answer.bit > bit);
}

/* The reader of pieces finds the items that the calls find in the whole, and a bit that is refused in the n-th byte of an item
 * before it has 2n bytes of it, or at the end. */
static void try_pieces(etcs_kind kind, const uint8_t *bytes, size_t len)
{
    etcs_reader reader;
    etcs_answer a = {0};
    size_t begin = 0, at = 0, most = 1 + chance(chance(4) ? 40 : 2);
    etcs_reader_start(&reader, kind);
    while (at < len) {
        size_t piece = 1 + chance(most), used;
        piece = piece < len - at ? piece : len - at;
        is_inside = 1;
        etcs_status status = etcs_reader_feed(&reader, bytes + at, piece, &used, &a);
        is_inside = 0;
        result whole = call_with(CHECK, kind, bytes + begin, len - begin, 0, 0);
        at += used;
        if (status == ETCS_OK) {
            HOLDS(whole.status == ETCS_OK && begin + whole.answer.taken == at && !memcmp(reader.bytes, bytes + begin, at - begin));
            begin = at;
        } else if (status == ETCS_REFUSED) {
            HOLDS(whole.status == ETCS_REFUSED && whole.answer.bit == a.bit && !strcmp(whole.answer.var, a.var));
            return;
        } else {
            HOLDS(status == ETCS_MORE && used == piece && (whole.status != ETCS_OK || begin + whole.answer.taken > at));
            HOLDS(whole.status != ETCS_REFUSED || at - begin < 2 * (whole.answer.bit / 8) + 1);
        }
    }
    is_inside = 1;
    etcs_status status = etcs_reader_end(&reader, &a);
    is_inside = 0;
    result rest = call_with(CHECK, kind, bytes + begin, len - begin, 0, 0);
    HOLDS(status == (begin < len ? rest.status : ETCS_OK));
    HOLDS(status != ETCS_REFUSED || (rest.answer.bit == a.bit && !strcmp(rest.answer.var, a.var)));
}

static void try_bytes(etcs_kind kind, const uint8_t *bytes, size_t len)
{
    static const int calls[] = {SHOW, TO_JSON, FIELDS, PLACES, EXPLAIN, FIELDS_BEFORE};
    result r = ask(CHECK, kind, bytes, len);
    HOLDS(r.status == ETCS_OK || r.status == ETCS_MORE || r.status == ETCS_REFUSED);
    int which = calls[chance(6)];
    result other = ask(which, kind, bytes, len);
    HOLDS(is_same(&other, &r));
    if (r.status == ETCS_OK) {
        HOLDS(r.answer.taken > 0 && r.answer.taken <= len && r.answer.taken <= ETCS_MOST_BYTES);
        try_item(kind, bytes, r.answer.taken);
    } else if (r.status == ETCS_REFUSED)
        try_refused(kind, bytes, len, &r);
    else
        HOLDS(len < (kind == ETCS_LONG ? 104 : kind == ETCS_SHORT ? 27 : ETCS_MOST_BYTES));
    if (chance(4) == 0)
        try_pieces(kind, bytes, len);
}

/* Blanks after a line change nothing, except that no reason is looked for in a line of more than 65,536 bytes. */
static void try_blanks(etcs_kind kind, const uint8_t *line, size_t len, etcs_status wanted)
{
    static uint8_t longer[80000];
    size_t size = 65530 + chance(12) + (chance(2) ? chance(14000) : 0);
    if (len > size)
        return;
    memcpy(longer, line, len);
    memset(longer + len, ' ', size - len);
    HOLDS(ask(FROM_JSON, kind, longer, size).status == wanted);
    result why = ask(EXPLAIN_JSON, kind, longer, size);
    HOLDS(why.status == wanted && (wanted == ETCS_OK || is_sentence(why.out, why.answer.written)));
}

/* A line is the JSON of an item, or has a reason why it isn't. */
static void try_line(etcs_kind kind, const uint8_t *line, size_t len)
{
    static uint8_t made[ETCS_MOST_BYTES];
    result r = ask(FROM_JSON, kind, line, len);
    result why = ask(EXPLAIN_JSON, kind, line, len);
    HOLDS(r.status == ETCS_OK || r.status == ETCS_BAD_JSON || r.status == ETCS_REFUSED);
    HOLDS(is_same(&why, &(result){r.status, {.taken = why.answer.taken, .bit = r.answer.bit}, NULL}) || r.status == ETCS_REFUSED);
    HOLDS(r.status == ETCS_OK || is_sentence(why.out, why.answer.written));
    size_t count = r.answer.written;
    HOLDS(count <= sizeof made);
    memcpy(made, r.out, count);
    if (chance(2) == 0)
        try_respelled(kind, line, len, &r, &why);
    if (chance(64) == 0)
        try_blanks(kind, line, len, r.status);
    if (r.status != ETCS_OK)
        return;
    result item = ask(CHECK, kind, made, count);
    HOLDS(item.status == ETCS_OK && item.answer.taken == count);
    try_item(kind, made, count);
}

/* No call accepts another kind. */
static void try_unknown(const uint8_t *data, size_t size)
{
    int which = (int)chance(CALLS);
    if (which == LINE_BYTES || which == VERSION)
        return;
    etcs_kind kind = chance(8) ? 5 + (etcs_kind)chance(1u << 31) : 0;
    HOLDS(ask(which, kind, data, size / (which == FROM_FIELDS ? sizeof(etcs_field) : 1)).status == ETCS_UNKNOWN_KIND);
}

int LLVMFuzzerTestOneInput(const uint8_t *data, size_t size)
{
    static etcs_field fields[ETCS_MOST_FIELDS];
    if (!area_end[0])
        make_areas();
    if (size < 1 || size > MOST_INPUT)
        return 0;
    begin_chance(data, size, 0);
    item_number = any_number();
    is_starved = data[0] >= STARVED;
    etcs_kind kind = 1 + data[0] % 4;
    switch (data[0] / 4 % 4) {
    case LINE:
        try_line(kind, data + 1, size - 1);
        try_digits(data + 1, size - 1);
        break;
    case SENT: try_fields(kind, fields, fields_in(data + 1, size - 1, fields)); break;
    default: try_bytes(kind, data + 1, size - 1);
    }
    if (chance(4) == 0)
        try_unknown(data, size);
    return 0;
}
