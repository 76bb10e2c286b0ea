/* Tests what no contract says, from C. It says "all is well", or what isn't.
 *
 *     test                each refused allocation, buffers that are too short, variables, the reader, deep JSON, threads
 *     test KIND FILE      over the items of a file: a small stack, each call against the others, pieces, turned bits
 *
 * With a word `quick` after them it leaves out threads, and stacks, which can't be measured under valgrind.
 * Linked with -Wl,--wrap=malloc,--wrap=realloc -pthread. */
#define _GNU_SOURCE
#include "etcs.h"

/* How many bytes the reader of etcs_help.h has given to etcs_check, and whether memory runs out there. */
static size_t checked;
static int is_starved;
static etcs_status check_of_reader(etcs_kind kind, const uint8_t *bytes, size_t len, etcs_answer *answer)
{
    checked += len;
    return is_starved ? ETCS_NO_MEMORY : etcs_check(kind, bytes, len, answer);
}
#define etcs_check check_of_reader
#include "etcs_help.h"
#undef etcs_check

#include <limits.h>
#include <pthread.h>
#include <stdio.h>
#include <stdlib.h>
#include <string.h>

_Static_assert(sizeof(etcs_answer) == 56 && offsetof(etcs_answer, var) == 24, "etcs_answer");
_Static_assert(sizeof(etcs_telegram) == 108 && offsetof(etcs_telegram, bytes) == 4, "etcs_telegram");
_Static_assert(sizeof(etcs_group) == 12 && offsetof(etcs_group, is_complete) == 8, "etcs_group");
_Static_assert(sizeof(etcs_reason) == 72 && offsetof(etcs_reason, count) == 8 && offsetof(etcs_reason, cause) == 56 && offsetof(etcs_reason, has) == 68, "etcs_reason");
_Static_assert(sizeof(etcs_place) == 24 && offsetof(etcs_place, entry) == 8 && offsetof(etcs_place, inner) == 16, "etcs_place");
_Static_assert(sizeof(etcs_field) == 16 && offsetof(etcs_field, var) == 8 && offsetof(etcs_field, width) == 12, "etcs_field");

static __thread long left = LONG_MAX;
static __thread long taken_now;
void *__real_malloc(size_t size);
void *__real_realloc(void *at, size_t size);
void *__wrap_malloc(size_t size) { if (left-- <= 0) return NULL; taken_now++; return __real_malloc(size); }
void *__wrap_realloc(void *at, size_t size) { if (left-- <= 0) return NULL; return __real_realloc(at, size); }

/* What etcs_version of the library under test writes, and how many bytes of stack it takes for each KiB that etcs.h asks for. */
#ifdef IS_UNPROVED
#define VERSION ETCS_VERSION " unproved"
#define STACK 2048
#else
#define VERSION ETCS_VERSION
#define STACK 1024
#endif

static int wrong;
#define EXPECT(x) do { if (!(x)) { fprintf(stderr, "line %d: %s\n", __LINE__, #x); wrong = 1; } } while (0)

static size_t item(uint8_t *bytes, const char *digits)
{
    size_t n = strlen(digits) / 2;
    for (size_t i = 0; i < n; i++) sscanf(digits + 2 * i, "%2hhx", &bytes[i]);
    return n;
}

/* message 24 with packet 137; a short telegram with packet 44; message 136 with packet 0 */
static const char *RADIO = "18034000000000080031280620", *SHORT = "A0007F802000CB200C7FFFFFFFFFFFFFFFFFFFFFFFFFFFFFFFFFC0";
static const char *TRAIN = "8806800078900001348001028C610000FA5000A0015028061060";
/* a short telegram with packet 44 of 57 kept bits, which lie in an allocation, and 72 bits of FILL */
static const char *KEPT = "A0007F802000CB20287FFFFFFFFFFFFFFFFFFFFFFFFFFFFFFFFFC0";

static void refused_memory(void)
{
    uint8_t bytes[64], before[8192];
    _Alignas(16) uint8_t out[8192];
    for (int kind = ETCS_SHORT; kind <= ETCS_TRAIN; kind++) {
        size_t len = item(bytes, kind == ETCS_TRAIN ? TRAIN : kind == ETCS_RADIO ? RADIO : KEPT);
        for (int call = 0; call < 7; call++) {
            etcs_answer a = {0};
            char line[8192];
            etcs_field sent[512];
            if (etcs_fields(kind, bytes, len, sent, 512, &a) != ETCS_OK) { EXPECT(0); return; }
            size_t count = a.written;
            if (etcs_to_json(kind, bytes, len, (uint8_t *)line, sizeof line, &a) != ETCS_OK) { EXPECT(0); return; }
            size_t line_len = a.written;
            for (long n = 0;; n++) {
                memset(out, 7, sizeof out), memcpy(before, out, sizeof out);
                left = n;
                etcs_status s = call == 0 ? etcs_check(kind, bytes, len, &a)
                    : call == 1 ? etcs_show(kind, 1, bytes, len, out, sizeof out, &a)
                    : call == 2 ? etcs_to_json(kind, bytes, len, out, sizeof out, &a)
                    : call == 3 ? etcs_from_json(kind, (uint8_t *)line, line_len, out, sizeof out, &a)
                    : call == 4 ? etcs_fields(kind, bytes, len, (etcs_field *)out, sizeof out / sizeof(etcs_field), &a)
                    : call == 5 ? etcs_places(kind, bytes, len, (etcs_place *)out, sizeof out / sizeof(etcs_place), &a)
                    : etcs_from_fields(kind, sent, count, out, sizeof out, &a);
                left = LONG_MAX;
                if (s == ETCS_OK) { printf("kind %d, call %d: %ld allocations\n", kind, call, n); break; }
                EXPECT(s == ETCS_NO_MEMORY);
                EXPECT(!memcmp(out, before, sizeof out));
                if (n > 1000) { EXPECT(0); break; }
            }
        }
    }
}

/* The same for the calls that say why, for refused bytes and for JSON that is wrong. */
static void refused_reasons(void)
{
    static const char wrong_json[] = "{\"kind\":\"radio\",\"nid\":24,\"header\":[[\"T_TRAIN\",0],[\"M_ACK\",2]]}";
    uint8_t bytes[64], before[8192];
    _Alignas(16) uint8_t out[8192];
    size_t len = item(bytes, RADIO);
    etcs_answer a = {0};
    bytes[1] = 0x02, bytes[2] = 0xC0;   /* L_MESSAGE 11 */
    for (int call = 0; call < 4; call++)
        for (long n = 0;; n++) {
            memset(out, 7, sizeof out), memcpy(before, out, sizeof out);
            left = n;
            etcs_status s = call == 0 ? etcs_explain(ETCS_RADIO, bytes, len, out, sizeof out, &a)
                : call == 1 ? etcs_fields_before(ETCS_RADIO, bytes, len, (etcs_field *)out, sizeof out / sizeof(etcs_field), &a)
                : (call == 2 ? etcs_explain_json : etcs_json_reason)(ETCS_RADIO, (const uint8_t *)wrong_json, sizeof wrong_json - 1, out, sizeof out, &a);
            left = LONG_MAX;
            if (s == (call >= 2 ? ETCS_BAD_JSON : ETCS_REFUSED)) { printf("reason, call %d: %ld allocations\n", call, n); break; }
            EXPECT(s == ETCS_NO_MEMORY);
            EXPECT(!memcmp(out, before, sizeof out));
            if (n > 1000) { EXPECT(0); break; }
        }
}

/* What is said about bytes and lines that are no item, and about those that are. */
static void reasons(void)
{
    static const char *const why = "message 24 has 10 or 13 to 1023 bytes, not 11";
    static const char *const data = "{\"column\":null,\"expected\":null,\"found\":null,\"path\":\".header[1]\",\"reason\":\".header[1]: M_ACK admits 0 and 1, not 2\"}";
    uint8_t bytes[64], out[4096];
    char line[4096];
    etcs_field before[8];
    size_t len = item(bytes, RADIO), size;
    etcs_answer a = {0};
    /* an item, and the front of one, have no refused bit */
    EXPECT(etcs_explain(ETCS_RADIO, bytes, len, out, sizeof out, &a) == ETCS_OK && a.taken == len && a.written == 0);
    EXPECT(etcs_fields_before(ETCS_RADIO, bytes, len, before, 8, &a) == ETCS_OK && a.taken == len && a.written == 0);
    EXPECT(etcs_explain(ETCS_RADIO, bytes, len - 1, out, sizeof out, &a) == ETCS_MORE && a.written == 0);
    EXPECT(etcs_fields_before(ETCS_RADIO, bytes, 0, before, 8, &a) == ETCS_MORE && a.written == 0);
    EXPECT(etcs_explain(9, bytes, len, out, sizeof out, &a) == ETCS_UNKNOWN_KIND);
    EXPECT(etcs_fields_before(9, bytes, len, before, 8, &a) == ETCS_UNKNOWN_KIND);
    EXPECT(etcs_explain_json(9, bytes, len, out, sizeof out, &a) == ETCS_UNKNOWN_KIND);
    EXPECT(etcs_json_reason(9, bytes, len, out, sizeof out, &a) == ETCS_UNKNOWN_KIND);
    /* L_MESSAGE 11 is no length of message 24: its last bit is bit 17 */
    bytes[1] = 0x02, bytes[2] = 0xC0;
    size = strlen(why);
    for (size_t room = 0; room <= size; room++) {
        memset(out, 7, sizeof out), memset(&a, 0, sizeof a);
        etcs_status s = etcs_explain(ETCS_RADIO, bytes, len, out, room, &a);
        EXPECT(s == (room < size ? ETCS_NO_ROOM : ETCS_REFUSED) && a.written == size && a.bit == 17 && !strcmp(a.var, "L_MESSAGE"));
        for (size_t i = 0; i < sizeof out; i++) EXPECT(out[i] == (room < size || i >= size ? 7 : (uint8_t)why[i]));
    }
    memset(before, 7, sizeof before), memset(&a, 0, sizeof a);
    EXPECT(etcs_fields_before(ETCS_RADIO, bytes, len, before, 0, &a) == ETCS_NO_ROOM && a.written == 1 && a.bit == 17 && before[0].width == 0x07070707);
    EXPECT(etcs_fields_before(ETCS_RADIO, bytes, len, before, 8, &a) == ETCS_REFUSED && a.written == 1 && a.bit == 17 && !strcmp(a.var, "L_MESSAGE"));
    EXPECT(before[0].var == ETCS_VAR_NID_MESSAGE && before[0].number == 24 && before[0].width == 8 && before[1].width == 0x07070707);
    /* JSON: nothing is said about an item; M_ACK, a variable of one bit, has no number 2 */
    len = item(bytes, RADIO);
    EXPECT(etcs_to_json(ETCS_RADIO, bytes, len, (uint8_t *)line, sizeof line, &a) == ETCS_OK);
    size_t line_len = a.written;
    EXPECT(etcs_explain_json(ETCS_RADIO, (uint8_t *)line, line_len, out, sizeof out, &a) == ETCS_OK && a.written == 0);
    EXPECT(etcs_json_reason(ETCS_RADIO, (uint8_t *)line, line_len, out, sizeof out, &a) == ETCS_OK && a.written == 0);
    line[line_len] = 0;
    char *number = strstr(line, "[\"M_ACK\",0]");
    EXPECT(number);
    if (!number) return;
    number[9] = '2';
    EXPECT(etcs_explain_json(ETCS_RADIO, (uint8_t *)line, line_len, out, 0, &a) == ETCS_NO_ROOM);
    EXPECT(etcs_explain_json(ETCS_RADIO, (uint8_t *)line, line_len, out, sizeof out, &a) == ETCS_BAD_JSON);
    out[a.written] = 0;
    printf("%s\n", out);
    EXPECT(strstr((char *)out, ".header[1]") && strstr((char *)out, "M_ACK"));
    size = strlen(data);
    for (size_t room = 0; room <= size; room++) {
        memset(out, 7, sizeof out), memset(&a, 0, sizeof a);
        etcs_status s = etcs_json_reason(ETCS_RADIO, (uint8_t *)line, line_len, out, room, &a);
        EXPECT(s == (room < size ? ETCS_NO_ROOM : ETCS_BAD_JSON) && a.written == size);
        for (size_t i = 0; i < sizeof out; i++) EXPECT(out[i] == (room < size || i >= size ? 7 : (uint8_t)data[i]));
    }
    EXPECT(etcs_explain_json(ETCS_SHORT, (uint8_t *)line, line_len, out, sizeof out, &a) == ETCS_BAD_JSON && a.written > 0);
    EXPECT(etcs_explain_json(ETCS_RADIO, (uint8_t *)line, 0, out, sizeof out, &a) == ETCS_BAD_JSON && a.written > 0);
}

/* Whether these fields' bits are the first ones of the bytes, and the bit comes after them, in one more variable. */
static int are_first(const etcs_field *fields, size_t count, const uint8_t *bytes, size_t bit)
{
    size_t at = 0;
    for (size_t i = 0; i < count; i++)
        for (uint32_t n = fields[i].width; n-- > 0; at++)
            if ((fields[i].number >> n & 1) != (bytes[at / 8] >> (7 - at % 8) & 1u)) return 0;
    return at <= bit && bit < at + 64;
}

/* Whether the reason is that of a bit of these bytes, by its members alone: its bits end with this bit, its number begins with
 * them, the nearest numbers lie on either side, and what isn't there is 0. */
static int is_reason(const etcs_reason *r, const uint8_t *bytes, size_t len, size_t bit)
{
    uint32_t has = r->has;
    uint64_t read = 0, number = 0;
    size_t first = bit + 1 - r->count, width;
    if (r->count < 1 || r->count > 64 || r->count > bit + 1) return 0;
    for (size_t at = first; at <= bit; at++) read = 2 * read + (bytes[at / 8] >> (7 - at % 8) & 1u);
    if (read != r->bits || r->cause > ETCS_UNFIT || r->here > ETCS_ROW || has > 31) return 0;
    if (has & ETCS_HAS_NUMBER) {
        for (number = read, width = r->count; number != r->number && first + width < 8 * len; width++)
            number = 2 * number + (bytes[(first + width) / 8] >> (7 - (first + width) % 8) & 1u);
        if (number != r->number || (has & ETCS_HAS_BELOW && r->below >= number) || (has & ETCS_HAS_ABOVE && r->above <= number)) return 0;
    }
    if (has & ETCS_HAS_BELOW && has & ETCS_HAS_ABOVE && r->below >= r->above) return 0;
    return (has & ETCS_HAS_NUMBER || !r->number) && (has & ETCS_HAS_BELOW || !r->below) && (has & ETCS_HAS_ABOVE || !r->above)
        && (r->cause == ETCS_UNFIT || !r->unfit) && !(has & ETCS_HAS_ROOM) == (r->here < ETCS_PACKET_NUMBER) && (has & ETCS_HAS_ROOM || !r->room)
        && !(has & ETCS_HAS_NID) == (r->here == ETCS_ANY || r->here == ETCS_PACKET_NUMBER) && (has & ETCS_HAS_NID || !r->nid);
}

static void short_buffers(void)
{
    uint8_t bytes[64], out[4096], wanted[4096];
    size_t len = item(bytes, RADIO);
    etcs_answer a = {0};
    EXPECT(etcs_show(ETCS_RADIO, 1, bytes, len, wanted, sizeof wanted, &a) == ETCS_OK);
    size_t size = a.written;
    for (size_t room = 0; room <= size; room++) {
        memset(out, 7, sizeof out);
        etcs_status s = etcs_show(ETCS_RADIO, 1, bytes, len, out, room, &a);
        EXPECT(s == (room < size ? ETCS_NO_ROOM : ETCS_OK) && a.written == size && a.taken == len);
        for (size_t i = 0; i < sizeof out; i++) EXPECT(out[i] == (room < size || i >= size ? 7 : wanted[i]));
    }
    for (size_t n = 0; n < len; n++) EXPECT(etcs_check(ETCS_RADIO, bytes, n, &a) == ETCS_MORE);
    EXPECT(etcs_check(0, bytes, len, &a) == ETCS_UNKNOWN_KIND && etcs_check(5, bytes, len, &a) == ETCS_UNKNOWN_KIND);
    bytes[1] = 0x02, bytes[2] = 0xC0;
    EXPECT(etcs_check(ETCS_RADIO, bytes, 3, &a) == ETCS_REFUSED);
    printf("refused at bit %zu, %s\n", a.bit, a.var);
}

/* Each status of each call, with what it answers and with memory that is refused. Message 24 of ten bytes has no packet, 11
 * isn't a length of it, and in packet 131 a Q_SCALE of 3 is spare, after 50 bits of header and 23 of frame. */
static void statuses(void)
{
    static const uint8_t ten[10] = {0x18, 0x02, 0x80}, eleven[3] = {0x18, 0x02, 0xC0};
    static const char line[] = "{\"fields\":[],\"header\":[[\"T_TRAIN\",0],[\"M_ACK\",0],[\"NID_LRBG\",0]],\"kind\":\"radio\","
        "\"nid\":24,\"packets\":[],\"padding\":\"00000\"}";
    static const char spare[] = "{\"fill\":\"11111111111111111111111\",\"header\":[[\"Q_UPDOWN\",1],[\"M_VERSION\",33],"
        "[\"Q_MEDIA\",0],[\"N_PIG\",1],[\"N_TOTAL\",1],[\"M_DUP\",2],[\"M_MCOUNT\",40],[\"NID_C\",98],[\"NID_BG\",511],"
        "[\"Q_LINK\",1]],\"kind\":\"short\",\"packets\":[{\"data\":\"1100000000000000000000000000000000000000000000000000"
        "000000000000000000000000000000000000000000000000000000\",\"dir\":0,\"nid\":131}]}";
    static const char text[] = "item 1 radio 80 bits\n  NID_MESSAGE 24\n  L_MESSAGE 10\n  T_TRAIN 0\n  M_ACK 0\n  NID_LRBG 0\n"
        "end\n  PADDING 5 00000\n";
    static const etcs_field own[6] = {
        {24, ETCS_VAR_NID_MESSAGE, 8}, {10, ETCS_VAR_L_MESSAGE, 10}, {0, ETCS_VAR_T_TRAIN, 32},
        {0, ETCS_VAR_M_ACK, 1}, {0, ETCS_VAR_NID_LRBG, 24}, {0, ETCS_VAR_PADDING, 5},
    };
    static etcs_field zeros[ETCS_MOST_FIELDS], fields[8];
    static etcs_place places[8];
    uint8_t out[256], packet[64], front[64];
    size_t packet_len = item(packet, RADIO);
    memcpy(front, packet, packet_len), front[1] = 0xFF, front[2] = 0xC0;   /* L_MESSAGE 1023 */
    etcs_answer a;
    int starved;
#define ANSWERS(status, call) (memset(&a, 0, sizeof a), memset(out, 7, sizeof out), (call) == (status))
#define STARVES(call) (left = 0, starved = ANSWERS(ETCS_NO_MEMORY, call), left = LONG_MAX, starved)
#define IS_REFUSED(i, name) (a.bit == (i) && !strcmp(a.var, name))
#define JSON(x) (const uint8_t *)x, sizeof x - 1
    EXPECT(ANSWERS(ETCS_OK, etcs_check(ETCS_RADIO, ten, 10, &a)) && a.taken == 10);
    EXPECT(ANSWERS(ETCS_MORE, etcs_check(ETCS_RADIO, ten, 9, &a)));
    EXPECT(ANSWERS(ETCS_REFUSED, etcs_check(ETCS_RADIO, eleven, 3, &a)) && IS_REFUSED(17, "L_MESSAGE"));
    EXPECT(ANSWERS(ETCS_MORE, etcs_check(ETCS_RADIO, front, packet_len, &a)));
    EXPECT(STARVES(etcs_check(ETCS_RADIO, front, packet_len, &a)));
    EXPECT(ANSWERS(ETCS_UNKNOWN_KIND, etcs_check(9, ten, 10, &a)));

    EXPECT(ANSWERS(ETCS_OK, etcs_show(ETCS_RADIO, 1, ten, 10, out, 256, &a)) && a.taken == 10);
    EXPECT(a.written == sizeof text - 1 && !memcmp(out, text, sizeof text - 1));
    EXPECT(ANSWERS(ETCS_NO_ROOM, etcs_show(ETCS_RADIO, 1, ten, 10, out, sizeof text - 2, &a)));
    EXPECT(a.taken == 10 && a.written == sizeof text - 1 && out[0] == 7);
    EXPECT(ANSWERS(ETCS_MORE, etcs_show(ETCS_RADIO, 1, ten, 9, out, 256, &a)) && out[0] == 7);
    EXPECT(ANSWERS(ETCS_REFUSED, etcs_show(ETCS_RADIO, 1, eleven, 3, out, 256, &a)) && IS_REFUSED(17, "L_MESSAGE") && out[0] == 7);
    EXPECT(STARVES(etcs_show(ETCS_RADIO, 1, ten, 10, out, 256, &a)) && out[0] == 7);
    EXPECT(ANSWERS(ETCS_UNKNOWN_KIND, etcs_show(9, 1, ten, 10, out, 256, &a)) && out[0] == 7);

    EXPECT(ANSWERS(ETCS_OK, etcs_to_json(ETCS_RADIO, ten, 10, out, 256, &a)) && a.taken == 10);
    EXPECT(a.written == sizeof line - 1 && !memcmp(out, line, sizeof line - 1));
    EXPECT(ANSWERS(ETCS_NO_ROOM, etcs_to_json(ETCS_RADIO, ten, 10, out, sizeof line - 2, &a)));
    EXPECT(a.taken == 10 && a.written == sizeof line - 1 && out[0] == 7);
    EXPECT(ANSWERS(ETCS_MORE, etcs_to_json(ETCS_RADIO, ten, 9, out, 256, &a)) && out[0] == 7);
    EXPECT(ANSWERS(ETCS_REFUSED, etcs_to_json(ETCS_RADIO, eleven, 3, out, 256, &a)) && IS_REFUSED(17, "L_MESSAGE") && out[0] == 7);
    EXPECT(STARVES(etcs_to_json(ETCS_RADIO, ten, 10, out, 256, &a)) && out[0] == 7);
    EXPECT(ANSWERS(ETCS_UNKNOWN_KIND, etcs_to_json(9, ten, 10, out, 256, &a)) && out[0] == 7);

    EXPECT(ANSWERS(ETCS_OK, etcs_fields(ETCS_RADIO, ten, 10, fields, 8, &a)) && a.taken == 10 && a.written == 6);
    for (int i = 0; i < 6; i++) EXPECT(fields[i].number == own[i].number && fields[i].var == own[i].var && fields[i].width == own[i].width);
    EXPECT(ANSWERS(ETCS_NO_ROOM, etcs_fields(ETCS_RADIO, ten, 10, fields, 5, &a)) && a.taken == 10 && a.written == 6);
    EXPECT(ANSWERS(ETCS_MORE, etcs_fields(ETCS_RADIO, ten, 9, fields, 8, &a)));
    EXPECT(ANSWERS(ETCS_REFUSED, etcs_fields(ETCS_RADIO, eleven, 3, fields, 8, &a)) && IS_REFUSED(17, "L_MESSAGE"));
    EXPECT(STARVES(etcs_fields(ETCS_RADIO, ten, 10, fields, 8, &a)));
    EXPECT(ANSWERS(ETCS_UNKNOWN_KIND, etcs_fields(9, ten, 10, fields, 8, &a)));

    memset(places, 7, sizeof places);
    EXPECT(ANSWERS(ETCS_NO_ROOM, etcs_places(ETCS_RADIO, ten, 10, places, 5, &a)) && a.taken == 10 && a.written == 6);
    EXPECT(ANSWERS(ETCS_MORE, etcs_places(ETCS_RADIO, ten, 9, places, 8, &a)));
    EXPECT(ANSWERS(ETCS_REFUSED, etcs_places(ETCS_RADIO, eleven, 3, places, 8, &a)) && IS_REFUSED(17, "L_MESSAGE"));
    EXPECT(STARVES(etcs_places(ETCS_RADIO, ten, 10, places, 8, &a)));
    EXPECT(ANSWERS(ETCS_UNKNOWN_KIND, etcs_places(9, ten, 10, places, 8, &a)) && !memcmp(places, places + 4, 4 * sizeof *places));
    EXPECT(ANSWERS(ETCS_OK, etcs_places(ETCS_RADIO, ten, 10, places, 8, &a)) && a.taken == 10 && a.written == 6);
    for (int i = 0; i < 8; i++) EXPECT(i < 6 ? !places[i].packet && !places[i].entry && !places[i].inner : ((uint8_t *)(places + i))[0] == 7);

    EXPECT(ANSWERS(ETCS_OK, etcs_from_json(ETCS_RADIO, JSON(line), out, 10, &a)) && a.written == 10 && !memcmp(out, ten, 10));
    EXPECT(ANSWERS(ETCS_NO_ROOM, etcs_from_json(ETCS_RADIO, JSON(line), out, 9, &a)) && a.written == 10 && out[0] == 7);
    EXPECT(ANSWERS(ETCS_BAD_JSON, etcs_from_json(ETCS_RADIO, JSON("{}"), out, 256, &a)) && out[0] == 7);
    EXPECT(ANSWERS(ETCS_REFUSED, etcs_from_json(ETCS_SHORT, JSON(spare), out, 256, &a)) && IS_REFUSED(74, "Q_SCALE") && out[0] == 7);
    EXPECT(STARVES(etcs_from_json(ETCS_RADIO, JSON(line), out, 256, &a)) && out[0] == 7);
    EXPECT(ANSWERS(ETCS_UNKNOWN_KIND, etcs_from_json(9, JSON(line), out, 256, &a)) && out[0] == 7);

    EXPECT(ANSWERS(ETCS_OK, etcs_from_fields(ETCS_RADIO, own, 6, out, 10, &a)) && a.written == 10 && !memcmp(out, ten, 10));
    EXPECT(ANSWERS(ETCS_NO_ROOM, etcs_from_fields(ETCS_RADIO, own, 6, out, 9, &a)) && a.written == 10 && out[0] == 7);
    EXPECT(ANSWERS(ETCS_MORE, etcs_from_fields(ETCS_RADIO, own, 5, out, 256, &a)) && out[0] == 7);
    EXPECT(ANSWERS(ETCS_MORE, etcs_from_fields(ETCS_RADIO, own, 0, out, 256, &a)) && out[0] == 7);
    memcpy(fields, own, sizeof own), fields[1].number = 11;
    EXPECT(ANSWERS(ETCS_REFUSED, etcs_from_fields(ETCS_RADIO, fields, 3, out, 256, &a)) && IS_REFUSED(17, "L_MESSAGE") && out[0] == 7);
    /* zeros: L_MESSAGE is 3 at least, so its last bit but one is refused, in more than 8,184 bits too */
    for (size_t i = 0; i < ETCS_MOST_FIELDS; i++) zeros[i].width = 64;
    EXPECT(ANSWERS(ETCS_REFUSED, etcs_from_fields(ETCS_RADIO, zeros, 1, out, 256, &a)) && IS_REFUSED(16, "L_MESSAGE") && out[0] == 7);
    EXPECT(ANSWERS(ETCS_REFUSED, etcs_from_fields(ETCS_RADIO, zeros, ETCS_MOST_FIELDS, out, 256, &a)) && IS_REFUSED(16, "L_MESSAGE"));
    memcpy(fields, own, sizeof own), fields[0].var = ETCS_VAR_L_MESSAGE;
    EXPECT(ANSWERS(ETCS_BAD_FIELDS, etcs_from_fields(ETCS_RADIO, fields, 6, out, 256, &a)) && out[0] == 7);
    memcpy(fields, own, sizeof own), fields[0].number = 256;
    EXPECT(ANSWERS(ETCS_BAD_FIELDS, etcs_from_fields(ETCS_RADIO, fields, 1, out, 256, &a)) && out[0] == 7);
    memcpy(fields, own, sizeof own), fields[0].width = 65;
    EXPECT(ANSWERS(ETCS_BAD_FIELDS, etcs_from_fields(ETCS_RADIO, fields, 1, out, 256, &a)) && out[0] == 7);
    EXPECT(STARVES(etcs_from_fields(ETCS_RADIO, own, 6, out, 256, &a)) && out[0] == 7);
    EXPECT(ANSWERS(ETCS_UNKNOWN_KIND, etcs_from_fields(9, own, 6, out, 256, &a)) && out[0] == 7);

    EXPECT(ANSWERS(ETCS_OK, etcs_explain(ETCS_RADIO, ten, 10, out, 256, &a)) && a.taken == 10 && a.written == 0 && out[0] == 7);
    EXPECT(ANSWERS(ETCS_MORE, etcs_explain(ETCS_RADIO, ten, 9, out, 256, &a)) && a.written == 0 && out[0] == 7);
    EXPECT(ANSWERS(ETCS_REFUSED, etcs_explain(ETCS_RADIO, eleven, 3, out, 256, &a)) && IS_REFUSED(17, "L_MESSAGE") && a.written > 0);
    EXPECT(ANSWERS(ETCS_NO_ROOM, etcs_explain(ETCS_RADIO, eleven, 3, out, 0, &a)) && IS_REFUSED(17, "L_MESSAGE") && a.written > 0);
    EXPECT(STARVES(etcs_explain(ETCS_RADIO, eleven, 3, out, 256, &a)) && out[0] == 7);
    EXPECT(ANSWERS(ETCS_UNKNOWN_KIND, etcs_explain(9, eleven, 3, out, 256, &a)) && out[0] == 7);

    etcs_reason reason;
#define REASON(kind, bytes, len) (memset(&reason, 7, sizeof reason), etcs_refusal(kind, bytes, len, &reason, &a))
#define IS_SAME (reason.bits == 0x0707070707070707 && reason.has == 0x07070707)
    EXPECT(ANSWERS(ETCS_OK, REASON(ETCS_RADIO, ten, 10)) && a.taken == 10 && IS_SAME);
    EXPECT(ANSWERS(ETCS_MORE, REASON(ETCS_RADIO, ten, 9)) && IS_SAME);
    EXPECT(ANSWERS(ETCS_REFUSED, REASON(ETCS_RADIO, eleven, 3)) && IS_REFUSED(17, "L_MESSAGE"));
    EXPECT(reason.bits == 11 && reason.count == 10 && reason.number == 11 && reason.below == 10 && reason.above == 13);
    EXPECT(reason.unfit == 0 && reason.room == 0 && reason.cause == ETCS_SPARE && reason.here == ETCS_MESSAGE_LENGTH && reason.nid == 24);
    EXPECT(reason.has == (ETCS_HAS_NUMBER | ETCS_HAS_BELOW | ETCS_HAS_ABOVE | ETCS_HAS_NID));
    /* a refused bit takes no memory */
    left = 0;
    EXPECT(ANSWERS(ETCS_REFUSED, REASON(ETCS_RADIO, eleven, 3)) && IS_REFUSED(17, "L_MESSAGE") && reason.bits == 11);
    left = LONG_MAX;
    EXPECT(STARVES(REASON(ETCS_RADIO, front, packet_len)) && IS_SAME);
    EXPECT(ANSWERS(ETCS_UNKNOWN_KIND, REASON(9, eleven, 3)) && IS_SAME);

    EXPECT(ANSWERS(ETCS_OK, etcs_fields_before(ETCS_RADIO, ten, 10, fields, 8, &a)) && a.taken == 10 && a.written == 0);
    EXPECT(ANSWERS(ETCS_MORE, etcs_fields_before(ETCS_RADIO, ten, 9, fields, 8, &a)) && a.written == 0);
    EXPECT(ANSWERS(ETCS_REFUSED, etcs_fields_before(ETCS_RADIO, eleven, 3, fields, 8, &a)) && IS_REFUSED(17, "L_MESSAGE") && a.written == 1);
    EXPECT(fields[0].number == 24 && fields[0].var == ETCS_VAR_NID_MESSAGE && fields[0].width == 8);
    EXPECT(ANSWERS(ETCS_NO_ROOM, etcs_fields_before(ETCS_RADIO, eleven, 3, fields, 0, &a)) && IS_REFUSED(17, "L_MESSAGE") && a.written == 1);
    EXPECT(STARVES(etcs_fields_before(ETCS_RADIO, eleven, 3, fields, 8, &a)));
    EXPECT(ANSWERS(ETCS_UNKNOWN_KIND, etcs_fields_before(9, eleven, 3, fields, 8, &a)));

    EXPECT(ANSWERS(ETCS_OK, etcs_explain_json(ETCS_RADIO, JSON(line), out, 256, &a)) && a.written == 0 && out[0] == 7);
    EXPECT(ANSWERS(ETCS_BAD_JSON, etcs_explain_json(ETCS_RADIO, JSON("{}"), out, 256, &a)) && a.written > 0);
    EXPECT(ANSWERS(ETCS_NO_ROOM, etcs_explain_json(ETCS_RADIO, JSON("{}"), out, 0, &a)) && a.written > 0);
    EXPECT(ANSWERS(ETCS_REFUSED, etcs_explain_json(ETCS_SHORT, JSON(spare), out, 256, &a)) && IS_REFUSED(74, "Q_SCALE") && a.written > 0);
    EXPECT(ANSWERS(ETCS_NO_ROOM, etcs_explain_json(ETCS_SHORT, JSON(spare), out, 0, &a)) && IS_REFUSED(74, "Q_SCALE") && a.written > 0);
    EXPECT(STARVES(etcs_explain_json(ETCS_RADIO, JSON("{}"), out, 256, &a)) && out[0] == 7);
    EXPECT(ANSWERS(ETCS_UNKNOWN_KIND, etcs_explain_json(9, JSON(line), out, 256, &a)) && out[0] == 7);

    EXPECT(ANSWERS(ETCS_OK, etcs_json_reason(ETCS_RADIO, JSON(line), out, 256, &a)) && a.written == 0 && out[0] == 7);
    EXPECT(ANSWERS(ETCS_BAD_JSON, etcs_json_reason(ETCS_RADIO, JSON("{}"), out, 256, &a)) && a.written > 0);
    EXPECT(ANSWERS(ETCS_NO_ROOM, etcs_json_reason(ETCS_RADIO, JSON("{}"), out, 0, &a)) && a.written > 0);
    EXPECT(ANSWERS(ETCS_REFUSED, etcs_json_reason(ETCS_SHORT, JSON(spare), out, 256, &a)) && IS_REFUSED(74, "Q_SCALE") && a.written > 0);
    EXPECT(ANSWERS(ETCS_NO_ROOM, etcs_json_reason(ETCS_SHORT, JSON(spare), out, 0, &a)) && IS_REFUSED(74, "Q_SCALE") && a.written > 0);
    EXPECT(STARVES(etcs_json_reason(ETCS_RADIO, JSON("{}"), out, 256, &a)) && out[0] == 7);
    EXPECT(ANSWERS(ETCS_UNKNOWN_KIND, etcs_json_reason(9, JSON(line), out, 256, &a)) && out[0] == 7);
}

/* The places of the fields of packet 27 by bits, after a header of ten: a first speed with N_ITER 0; N_ITER 2; a speed with N_ITER
 * 0; a speed with N_ITER 2, for categories of Q_DIFF 1 and 0. After packet 255 are FILL and PAD. Then messages with packets. */
static void places(void)
{
    static const struct { size_t count; etcs_place place; } wanted[] = {
        {10, {0, 0, 0}}, {9, {1, 0, 0}}, {4, {1, 1, 0}}, {4, {1, 2, 0}}, {3, {1, 2, 1}}, {3, {1, 2, 2}}, {1, {2, 0, 0}}, {2, {0, 0, 0}},
    };
    etcs_place found[64], again[64];
    uint8_t bytes[64];
    etcs_answer a = {0};
    size_t len = item(bytes, "A113140C40FFC6C04620028A002003C54000505A2445062FFFFFC0"), at = 0;
    EXPECT(etcs_places(ETCS_SHORT, bytes, len, found, 64, &a) == ETCS_OK && a.taken == 27 && a.written == 36);
    for (size_t i = 0; i < sizeof wanted / sizeof *wanted; i++)
        for (size_t n = 0; n < wanted[i].count; n++, at++) EXPECT(!memcmp(found + at, &wanted[i].place, sizeof *found));
    for (size_t room = 0; room < 36; room++) {
        memset(again, 7, sizeof again);
        EXPECT(etcs_places(ETCS_SHORT, bytes, len, again, room, &a) == ETCS_NO_ROOM && a.written == 36 && a.taken == 27);
        for (size_t i = 0; i < sizeof again; i++) EXPECT(((uint8_t *)again)[i] == 7);
    }
    /* five variables of the message, four of packet 137, PADDING */
    len = item(bytes, RADIO);
    EXPECT(etcs_places(ETCS_RADIO, bytes, len, found, 64, &a) == ETCS_OK && a.written == 10);
    for (size_t i = 0; i < 10; i++) EXPECT(found[i].packet == (i >= 5 && i < 9) && !found[i].entry && !found[i].inner);
    /* 57 bits of packet 44 are one field, which is in it; 72 bits of FILL are two, and PAD is one */
    len = item(bytes, KEPT);
    EXPECT(etcs_places(ETCS_SHORT, bytes, len, found, 64, &a) == ETCS_OK && a.written == 18);
    for (size_t i = 0; i < 18; i++) EXPECT(found[i].packet == (i < 10 || i > 14 ? 0 : i < 14 ? 1 : 2) && !found[i].entry && !found[i].inner);
}

/* The same for the calls over lines of hexadecimal and over numbers, with the words of `explain` and the rule of logs. */
static void lines_and_meanings(void)
{
    static const struct { etcs_kind kind; uint32_t var; uint64_t number; uint32_t scale; const char *name, *text; } means[] = {
        {ETCS_SHORT, ETCS_VAR_D_LINK, 1180, 2, "D_LINK", "11800 m"},
        {ETCS_SHORT, ETCS_VAR_D_LINK, 1180, 0, "D_LINK", "118.0 m"},
        {ETCS_SHORT, ETCS_VAR_D_LINK, 1180, 3, "D_LINK", ""},
        {ETCS_SHORT, ETCS_VAR_V_STATIC, 28, 3, "V_STATIC", "140 km/h"},
        {ETCS_SHORT, ETCS_VAR_V_STATIC, 127, 3, "V_STATIC", "end of profile"},
        {ETCS_SHORT, ETCS_VAR_T_LOA, 1023, 3, "T_LOA", "unlimited"},
        {ETCS_LONG, ETCS_VAR_Q_LINK, 1, 3, "Q_LINK", "linked"},
        {ETCS_LONG, ETCS_VAR_M_VERSION_HEADER, 33, 3, "M_VERSION", "version 2.1"},
        {ETCS_LONG, ETCS_VAR_NID_PACKET, 5, 3, "NID_PACKET", "Linking"},
        {ETCS_RADIO, ETCS_VAR_NID_PACKET, 0, 3, "NID_PACKET", "Virtual Balise Cover marker"},
        {ETCS_TRAIN, ETCS_VAR_NID_PACKET, 0, 3, "NID_PACKET", "Position Report"},
        {ETCS_RADIO, ETCS_VAR_NID_MESSAGE, 24, 3, "NID_MESSAGE", "General message"},
        {ETCS_RADIO, ETCS_VAR_NID_MESSAGE, 7, 3, "NID_MESSAGE", ""},
        {ETCS_SHORT, ETCS_VAR_FILL, UINT64_MAX, 3, "FILL", ""},
        {ETCS_SHORT, ETCS_VAR_D_SECTIONTIMERSTOPLOC, UINT64_MAX, 2, "D_SECTIONTIMERSTOPLOC", "18446744073709551615 m"},
    };
    static const struct { const char *line; etcs_status status; size_t count; const char *bytes; size_t front; } lines[] = {
        {"A113", ETCS_OK, 2, "\xA1\x13", 0},
        {"12:00:03 0xA1, 0x13", ETCS_OK, 2, "\xA1\x13", 8},
        {"\xEF\xBB\xBFnoon A113\r", ETCS_OK, 2, "\xA1\x13", 4},
        {"noon 18028000000000000000 of 3 bytes", ETCS_OK, 10, "\x18\x02\x80\0\0\0\0\0\0\0", 4},
        {"18028000000000000000 # A113", ETCS_OK, 10, "\x18\x02\x80\0\0\0\0\0\0\0", 0},
        {"", ETCS_EMPTY_LINE, 0, "", 0},
        {" \t\r", ETCS_EMPTY_LINE, 0, "", 0},
        {" # A113", ETCS_EMPTY_LINE, 0, "", 2},
        {"A113 noon ", ETCS_NO_DIGITS, 0, "", 9},
        {"noon A1B", ETCS_ODD_DIGITS, 3, "", 4},
    };
    uint8_t out[256];
    etcs_answer a;
    int starved;
    for (size_t i = 0; i < sizeof means / sizeof *means; i++) {
        size_t size = strlen(means[i].text);
#define MEANS(room) etcs_meaning(means[i].kind, means[i].var, means[i].number, means[i].scale, out, room, &a)
        EXPECT(ANSWERS(ETCS_OK, MEANS(size)) && a.written == size && !strcmp(a.var, means[i].name) && !memcmp(out, means[i].text, size));
        EXPECT(!strcmp(etcs_var_name(means[i].var), means[i].name) && out[size] == 7);
        if (size == 0) continue;
        EXPECT(ANSWERS(ETCS_NO_ROOM, MEANS(size - 1)) && a.written == size && !strcmp(a.var, means[i].name) && out[0] == 7);
        EXPECT(STARVES(MEANS(size)) && out[0] == 7);
        EXPECT(ANSWERS(ETCS_UNKNOWN_KIND, etcs_meaning(9, means[i].var, 0, 3, out, 256, &a)) && out[0] == 7);
    }
    for (uint32_t var = 0; var < ETCS_VAR_COUNT; var++)
        EXPECT(ANSWERS(ETCS_OK, etcs_meaning(ETCS_RADIO, var, 0, 3, out, 256, &a)) && !strcmp(a.var, etcs_var_name(var)));
    EXPECT(ANSWERS(ETCS_BAD_FIELDS, etcs_meaning(ETCS_RADIO, ETCS_VAR_COUNT, 0, 3, out, 256, &a)) && out[0] == 7);
    EXPECT(ANSWERS(ETCS_BAD_FIELDS, etcs_meaning(ETCS_RADIO, UINT32_MAX, 0, 3, out, 256, &a)) && out[0] == 7);
    for (size_t i = 0; i < sizeof lines / sizeof *lines; i++) {
        const uint8_t *line = (const uint8_t *)lines[i].line;
        size_t len = strlen(lines[i].line), count = lines[i].count;
        EXPECT(ANSWERS(lines[i].status, etcs_line_bytes(line, len, out, lines[i].status == ETCS_OK ? count : 256, &a)));
        EXPECT(etcs_line_front(line, len) == lines[i].front);
        EXPECT(lines[i].status != ETCS_ODD_DIGITS || a.taken == count);
        EXPECT(lines[i].status == ETCS_OK ? a.written == count && !memcmp(out, lines[i].bytes, count) && out[count] == 7 : out[0] == 7);
        EXPECT(STARVES(etcs_line_bytes(line, len, out, 256, &a)) && out[0] == 7);
        if (lines[i].status == ETCS_OK)
            EXPECT(ANSWERS(ETCS_NO_ROOM, etcs_line_bytes(line, len, out, count - 1, &a)) && a.written == count && out[0] == 7);
    }
    EXPECT(ANSWERS(ETCS_OK, etcs_version(out, sizeof VERSION, &a)) && a.written == sizeof VERSION && !strcmp((char *)out, VERSION));
    EXPECT(ANSWERS(ETCS_NO_ROOM, etcs_version(out, sizeof VERSION - 1, &a)) && a.written == sizeof VERSION && out[0] == 7);
}

/* A short telegram, or a long one of one packet, with these numbers of its header. */
static etcs_telegram balise(etcs_kind kind, uint64_t n_pig, uint64_t n_total, uint64_t m_dup, uint64_t m_mcount, uint64_t nid_bg)
{
    const struct { uint32_t var; uint64_t number; } header[] = {
        {ETCS_VAR_Q_UPDOWN, 1}, {ETCS_VAR_M_VERSION_HEADER, 33}, {ETCS_VAR_Q_MEDIA, 0}, {ETCS_VAR_N_PIG, n_pig},
        {ETCS_VAR_N_TOTAL, n_total}, {ETCS_VAR_M_DUP, m_dup}, {ETCS_VAR_M_MCOUNT, m_mcount}, {ETCS_VAR_NID_C, 98},
        {ETCS_VAR_NID_BG, nid_bg}, {ETCS_VAR_Q_LINK, 1}, {ETCS_VAR_NID_PACKET, 255},
    };
    static const uint32_t widths[] = {1, 7, 1, 3, 3, 2, 8, 10, 14, 1, 8};
    size_t left = (kind == ETCS_SHORT ? 210 : 830) - 58, count = 11;
    etcs_field sent[32];
    etcs_answer a = {0};
    etcs_telegram made = {kind, {0}};
    for (size_t i = 0; i < 11; i++) sent[i] = (etcs_field){header[i].number, header[i].var, widths[i]};
    for (uint32_t n; left > 0; left -= n) n = left < 64 ? (uint32_t)left : 64, sent[count++] = (etcs_field){UINT64_MAX >> (64 - n), ETCS_VAR_FILL, n};
    sent[count++] = kind == ETCS_SHORT ? (etcs_field){0, ETCS_VAR_PAD, 6} : (etcs_field){0, ETCS_VAR_PAD, 2};
    EXPECT(etcs_from_fields(kind, sent, count, made.bytes, sizeof made.bytes, &a) == ETCS_OK);
    return made;
}

/* Balise groups: which telegrams are held beside those before them, and what is missing. */
static void groups(void)
{
    etcs_telegram t[8];
    etcs_group group, seven;
    etcs_answer a;
    uint8_t out[256];
    int starved;
    memset(&seven, 7, sizeof seven);
#define GROUPS(count) (group = seven, etcs_assemble(t, count, &group, &a))
#define MISSES(...) (!memcmp(group.missing, (uint8_t[8]){__VA_ARGS__}, 8))
#define FAILS(status, place, count) (ANSWERS(status, GROUPS(count)) && a.taken == (place) && !memcmp(&group, &seven, sizeof group))
    EXPECT(ANSWERS(ETCS_OK, GROUPS(0)) && MISSES(0) && !group.is_complete);
    EXPECT(etcs_assemble(NULL, 0, &group, &a) == ETCS_OK);
    t[0] = balise(ETCS_SHORT, 1, 2, 0, 40, 511);
    EXPECT(ANSWERS(ETCS_OK, GROUPS(1)) && MISSES(1, 0, 1) && !group.is_complete);
    t[1] = balise(ETCS_LONG, 2, 2, 0, 40, 511);
    EXPECT(ANSWERS(ETCS_OK, GROUPS(2)) && MISSES(1) && !group.is_complete);
    t[2] = t[0];
    EXPECT(ANSWERS(ETCS_OK, GROUPS(3)) && MISSES(1));
    t[3] = balise(ETCS_SHORT, 0, 2, 0, 255, 511);
    EXPECT(ANSWERS(ETCS_OK, GROUPS(4)) && MISSES(0) && group.is_complete == 1);
    EXPECT(STARVES(GROUPS(4)) && !memcmp(&group, &seven, sizeof group));
    /* bytes after a short telegram count for nothing */
    memset(t[0].bytes + 27, 7, 77);
    EXPECT(ANSWERS(ETCS_OK, GROUPS(4)) && group.is_complete == 1);
    t[4] = balise(ETCS_SHORT, 3, 2, 0, 40, 511);
    EXPECT(FAILS(ETCS_CLASH_POSITION, 4, 5));
    t[4] = balise(ETCS_SHORT, 0, 2, 2, 40, 511);
    EXPECT(FAILS(ETCS_CLASH_DUPLICATE, 4, 5));
    t[4] = balise(ETCS_SHORT, 2, 2, 1, 40, 511);
    EXPECT(FAILS(ETCS_CLASH_DUPLICATE, 4, 5));
    t[4] = balise(ETCS_SHORT, 0, 2, 0, 40, 510);
    EXPECT(FAILS(ETCS_CLASH_GROUP, 4, 5));
    t[4] = balise(ETCS_SHORT, 0, 1, 0, 40, 511);
    EXPECT(FAILS(ETCS_CLASH_TOTAL, 4, 5));
    t[4] = balise(ETCS_SHORT, 0, 2, 0, 41, 511);
    EXPECT(FAILS(ETCS_CLASH_COUNTER, 4, 5));
    t[4] = balise(ETCS_SHORT, 0, 2, 0, 40, 511);
    EXPECT(FAILS(ETCS_CLASH_DIFFERS, 4, 5));
    t[4] = balise(ETCS_LONG, 1, 2, 0, 40, 511);
    EXPECT(FAILS(ETCS_CLASH_DIFFERS, 4, 5));
    t[4].kind = ETCS_RADIO;
    EXPECT(FAILS(ETCS_UNKNOWN_KIND, 4, 5));
    t[1].bytes[0] = 0;
    EXPECT(FAILS(ETCS_REFUSED, 1, 5) && a.bit == 0 && !strcmp(a.var, "Q_UPDOWN"));
    /* a duplicate is there for its neighbour */
    t[0] = balise(ETCS_SHORT, 0, 1, 1, 40, 511);
    EXPECT(ANSWERS(ETCS_OK, GROUPS(1)) && MISSES(0) && group.is_complete == 1);
}

/* Null pointers to no bytes, no fields and no room. */
static void no_pointers(void)
{
    uint8_t bytes[64], out[512];
    etcs_field sent[32];
    size_t len = item(bytes, RADIO);
    etcs_answer a = {0};
    EXPECT(etcs_check(ETCS_RADIO, NULL, 0, &a) == ETCS_MORE);
    EXPECT(etcs_show(ETCS_RADIO, 1, NULL, 0, NULL, 0, &a) == ETCS_MORE && etcs_show(ETCS_RADIO, 1, bytes, len, NULL, 0, &a) == ETCS_NO_ROOM);
    EXPECT(etcs_to_json(ETCS_RADIO, NULL, 0, NULL, 0, &a) == ETCS_MORE && etcs_to_json(ETCS_RADIO, bytes, len, NULL, 0, &a) == ETCS_NO_ROOM);
    EXPECT(etcs_fields(ETCS_RADIO, NULL, 0, NULL, 0, &a) == ETCS_MORE && etcs_fields(ETCS_RADIO, bytes, len, NULL, 0, &a) == ETCS_NO_ROOM);
    EXPECT(etcs_places(ETCS_RADIO, NULL, 0, NULL, 0, &a) == ETCS_MORE && etcs_places(ETCS_RADIO, bytes, len, NULL, 0, &a) == ETCS_NO_ROOM);
    EXPECT(etcs_explain(ETCS_RADIO, NULL, 0, NULL, 0, &a) == ETCS_MORE && etcs_explain(ETCS_SHORT, bytes, len, NULL, 0, &a) == ETCS_NO_ROOM);
    etcs_reason reason;
    EXPECT(etcs_refusal(ETCS_RADIO, NULL, 0, &reason, &a) == ETCS_MORE);
    EXPECT(etcs_fields_before(ETCS_RADIO, NULL, 0, NULL, 0, &a) == ETCS_MORE);
    EXPECT(etcs_fields(ETCS_RADIO, bytes, len, sent, 32, &a) == ETCS_OK);
    EXPECT(etcs_from_fields(ETCS_RADIO, NULL, 0, NULL, 0, &a) == ETCS_MORE && etcs_from_fields(ETCS_RADIO, sent, a.written, NULL, 0, &a) == ETCS_NO_ROOM);
    EXPECT(etcs_from_json(ETCS_RADIO, NULL, 0, NULL, 0, &a) == ETCS_BAD_JSON && etcs_explain_json(ETCS_RADIO, NULL, 0, NULL, 0, &a) == ETCS_NO_ROOM);
    EXPECT(etcs_from_json(ETCS_RADIO, NULL, 0, out, sizeof out, &a) == ETCS_BAD_JSON && etcs_explain_json(ETCS_RADIO, NULL, 0, out, sizeof out, &a) == ETCS_BAD_JSON);
    EXPECT(etcs_json_reason(ETCS_RADIO, NULL, 0, NULL, 0, &a) == ETCS_NO_ROOM && etcs_json_reason(ETCS_RADIO, NULL, 0, out, sizeof out, &a) == ETCS_BAD_JSON);
    EXPECT(etcs_meaning(ETCS_RADIO, ETCS_VAR_D_LINK, 1, 3, NULL, 0, &a) == ETCS_OK && etcs_meaning(ETCS_RADIO, ETCS_VAR_Q_LINK, 1, 3, NULL, 0, &a) == ETCS_NO_ROOM);
    EXPECT(etcs_line_bytes(NULL, 0, NULL, 0, &a) == ETCS_EMPTY_LINE && etcs_line_front(NULL, 0) == 0 && etcs_version(NULL, 0, &a) == ETCS_NO_ROOM);
    /* bit 0 is refused, before which there is no field */
    EXPECT(etcs_fields_before(ETCS_SHORT, bytes, len, NULL, 0, &a) == ETCS_REFUSED && a.written == 0 && a.bit == 0);
}

static void variables(void)
{
    uint8_t bytes[64] = {0}, out[64];
    etcs_field sent[512], other[512];
    size_t len = item(bytes, SHORT);
    etcs_answer a = {0};
    EXPECT(etcs_fields(ETCS_SHORT, bytes, len, sent, 512, &a) == ETCS_OK);
    size_t count = a.written;
    /* ten of the header, three of the frame, a bit of packet 44, packet 255, 128 bits of FILL, PAD */
    EXPECT(count == 18 && sent[13].var == ETCS_VAR_OTHER_DATA && sent[13].width == 1 && sent[13].number == 1);
    for (size_t i = 15; i < 17; i++) EXPECT(sent[i].var == ETCS_VAR_FILL && sent[i].width == 64 && sent[i].number == UINT64_MAX);
    EXPECT(sent[17].var == ETCS_VAR_PAD && sent[17].width == 6 && sent[17].number == 0);
    /* a run cut elsewhere is the run of no item */
    memcpy(other, sent, sizeof sent), memmove(other + 17, other + 16, 2 * sizeof *other);
    other[15].width = 60, other[15].number >>= 4, other[16].width = 4, other[16].number = 15;
    EXPECT(etcs_from_fields(ETCS_SHORT, other, count + 1, out, len, &a) == ETCS_BAD_FIELDS);
    for (size_t room = 0; room < count; room++) {
        memset(other, 7, sizeof other);
        EXPECT(etcs_fields(ETCS_SHORT, bytes, len, other, room, &a) == ETCS_NO_ROOM && a.written == count && a.taken == len);
        for (size_t i = 0; i < sizeof other; i++) EXPECT(((uint8_t *)other)[i] == 7);
    }
    for (size_t room = 0; room < len; room++) {
        memset(out, 7, sizeof out);
        EXPECT(etcs_from_fields(ETCS_SHORT, sent, count, out, room, &a) == ETCS_NO_ROOM && a.written == len);
        for (size_t i = 0; i < sizeof out; i++) EXPECT(out[i] == 7);
    }
    EXPECT(etcs_from_fields(ETCS_SHORT, sent, count, out, len, &a) == ETCS_OK && a.written == len && !memcmp(out, bytes, len));
    EXPECT(etcs_from_fields(ETCS_RADIO, sent, count, out, len, &a) != ETCS_OK);
    EXPECT(etcs_from_fields(9, sent, count, out, len, &a) == ETCS_UNKNOWN_KIND);
    for (size_t n = 0; n < count; n++)
        EXPECT(etcs_from_fields(ETCS_SHORT, sent, n, out, len, &a) != ETCS_OK);
    for (size_t i = 0; i < count; i++) {
        memcpy(other, sent, sizeof sent), other[i].var ^= 1;
        EXPECT(etcs_from_fields(ETCS_SHORT, other, count, out, len, &a) == ETCS_BAD_FIELDS);
        memcpy(other, sent, sizeof sent), other[i].width += 1;
        EXPECT(etcs_from_fields(ETCS_SHORT, other, count, out, len, &a) != ETCS_OK);
        memcpy(other, sent, sizeof sent), other[i].width = 0xFFFFFFFF;
        EXPECT(etcs_from_fields(ETCS_SHORT, other, count, out, len, &a) == ETCS_BAD_FIELDS);
        if (sent[i].width == 64) continue;
        memcpy(other, sent, sizeof sent), other[i].number = (uint64_t)1 << other[i].width;
        EXPECT(etcs_from_fields(ETCS_SHORT, other, count, out, len, &a) == ETCS_BAD_FIELDS);
    }
    static etcs_field many[70000];
    for (size_t i = 0; i < 70000; i++) many[i].width = 64;
    EXPECT(etcs_from_fields(ETCS_SHORT, many, 70000, out, len, &a) == ETCS_REFUSED && a.bit == 0 && !strcmp(a.var, "Q_UPDOWN"));
    many[69999].width = 65;
    EXPECT(etcs_from_fields(ETCS_SHORT, many, 70000, out, len, &a) == ETCS_BAD_FIELDS);
    /* a call that takes a variable as the header names it */
    size_t at = etcs_find(sent, count, ETCS_VAR_NID_BG, 0);
    EXPECT(at < count && sent[at].width == 14 && etcs_bit_of(sent, at) == 35 && etcs_bit_of(sent, count) == 216);
    EXPECT(etcs_find(sent, count, ETCS_VAR_D_LINK, 0) == count);
    sent[at].number = 77;
    EXPECT(etcs_from_fields(ETCS_SHORT, sent, count, out, len, &a) == ETCS_OK);
    EXPECT(etcs_fields(ETCS_SHORT, out, len, other, 512, &a) == ETCS_OK && other[at].number == 77);
    EXPECT(!strcmp(etcs_var_name(ETCS_VAR_M_VERSION_HEADER), "M_VERSION") && !*etcs_var_name(ETCS_VAR_COUNT));
    for (etcs_status s = 0; s < 8; s++) EXPECT(strcmp(etcs_status_text(s), etcs_status_text(99)));
}

static uint8_t file[1 << 20], text[1 << 20], json_text[1 << 20];

/* Whether the reader has to check an item of which it held some bytes and has some more: at 1, 2, 3, 6, 12, .. bytes, and at all. */
static int is_due(etcs_kind kind, const uint8_t *front, size_t held, size_t now)
{
    static const size_t marks[] = {1, 2, 3, 6, 12, 24, 48, 96, 192, 384, 768};
    size_t all = kind == ETCS_LONG ? 104 : kind == ETCS_SHORT ? 27 : now < 3 ? 3 : (size_t)(front[1] * 256 + front[2]) / 64;
    for (size_t i = 0; i < sizeof marks / sizeof *marks; i++)
        if (held < marks[i] && marks[i] <= now) return 1;
    return held < all && all <= now;
}

/* A reader that has refused a bit refuses it again, and its bytes have a reason. */
static void stays_refused(etcs_reader *reader, const etcs_answer *a)
{
    etcs_answer b = {0};
    size_t used = 1;
    EXPECT(etcs_reader_feed(reader, file, 1, &used, &b) == ETCS_REFUSED && used == 0 && a->bit == b.bit && !strcmp(a->var, b.var));
    memset(&b, 0, sizeof b);
    EXPECT(etcs_reader_end(reader, &b) == ETCS_REFUSED && a->bit == b.bit && !strcmp(a->var, b.var));
    EXPECT(etcs_explain(reader->kind, reader->bytes, reader->len, text, sizeof text, &b) == ETCS_REFUSED && a->bit == b.bit && b.written > 0);
}

/* Feeds bytes in pieces, and compares what the reader returns, and when, with the items of the bytes at once. */
static void pieces(etcs_kind kind, const uint8_t *bytes, size_t len, size_t piece)
{
    etcs_reader reader;
    etcs_answer a = {0}, b = {0};
    size_t item_at = 0;
    etcs_status s;
    etcs_reader_start(&reader, kind);
    checked = 0;
    for (size_t at = 0; at < len; at += piece) {
        size_t n = len - at < piece ? len - at : piece;
        for (size_t from = 0, used; from < n; from += used) {
            const uint8_t *front = bytes + item_at;
            size_t now = at + n - item_at, before = checked;
            int due = is_due(kind, front, at + from - item_at, now);
            s = etcs_reader_feed(&reader, bytes + at + from, n - from, &used, &a);
            EXPECT(s == (due ? etcs_check(kind, front, now, &b) : ETCS_MORE) && due == (checked > before));
            if (s == ETCS_OK) {
                EXPECT(a.taken == b.taken && !memcmp(reader.bytes, front, a.taken));
                EXPECT(piece > 1 || checked < 3 * a.taken);
                item_at += a.taken, checked = 0;
                EXPECT(item_at == at + from + used);
            } else if (s == ETCS_REFUSED) {
                EXPECT(a.bit == b.bit && !strcmp(a.var, b.var));
                EXPECT(piece > 1 || now < 2 * (a.bit / 8 + 1));
                stays_refused(&reader, &a);
                return;
            } else if (s != ETCS_MORE) { EXPECT(0); return; }
        }
    }
    EXPECT(reader.len == len - item_at);
    s = etcs_reader_end(&reader, &a);
    EXPECT(s == (item_at == len ? ETCS_OK : etcs_check(kind, bytes + item_at, len - item_at, &b)));
    if (s == ETCS_REFUSED) {
        EXPECT(a.bit == b.bit && !strcmp(a.var, b.var));
        stays_refused(&reader, &a);
    }
}

/* A reader for which memory runs out is as it was before, and takes the same piece again. */
static void reader_without_memory(void)
{
    uint8_t bytes[64];
    size_t len = item(bytes, SHORT), used = 1;
    etcs_reader reader;
    etcs_answer a = {0};
    etcs_reader_start(&reader, ETCS_SHORT);
    EXPECT(etcs_reader_feed(&reader, bytes, 13, &used, &a) == ETCS_MORE && used == 13);
    is_starved = 1;
    EXPECT(etcs_reader_feed(&reader, bytes + 13, len - 13, &used, &a) == ETCS_NO_MEMORY && used == 0 && reader.len == 13);
    EXPECT(etcs_reader_end(&reader, &a) == ETCS_NO_MEMORY && reader.len == 13);
    is_starved = 0;
    EXPECT(etcs_reader_end(&reader, &a) == ETCS_MORE);
    EXPECT(etcs_reader_feed(&reader, bytes + 13, len - 13, &used, &a) == ETCS_OK && used == len - 13 && a.taken == len);
    EXPECT(etcs_reader_end(&reader, &a) == ETCS_OK);
}

static void *many(void *arg)
{
    uint8_t bytes[64], out[4096], wanted[4096];
    size_t len = item(bytes, SHORT);
    etcs_answer a = {0};
    (void)arg;
    if (etcs_show(ETCS_SHORT, 1, bytes, len, wanted, sizeof wanted, &a)) return (void *)1;
    size_t size = a.written;
    for (int i = 0; i < 200000; i++)
        if (etcs_show(ETCS_SHORT, 1, bytes, len, out, sizeof out, &a) || a.written != size || memcmp(out, wanted, size)) return (void *)1;
    return NULL;
}

static void threads(void)
{
    pthread_t t[4];
    void *said;
    for (int i = 0; i < 4; i++) pthread_create(&t[i], NULL, many, NULL);
    for (int i = 0; i < 4; i++) { pthread_join(t[i], &said); EXPECT(!said); }
}

/* How much of a thread's stack the calls touch: it is painted before, and looked at afterwards. */
static size_t file_len;
static etcs_kind file_kind;

/* The bytes whose refusal took the most stack and instructions, of a million that were tried. */
static void dear_refusals(int call)
{
    static const char *const digits[] = {
        "A142A818401D028045424E460480150939028045424E4604801509",
        "A03119D4686C86D3592F47F7A6F9F7678D57020FC3171BB92C5C94EFF14F",
        "A0007F802000C6D18220002B1D364652D06DDA69D37D98C76EC711940CDB959516BB8DACF1F49703F24FF03A2D1000158E9B23",
    };
    static etcs_field before[ETCS_MOST_FIELDS];
    uint8_t bytes[64];
    etcs_answer a = {0};
    for (size_t i = 0; i < sizeof digits / sizeof *digits; i++) {
        size_t len = item(bytes, digits[i]);
        if (call == 0) etcs_check(file_kind, bytes, len, &a);
        if (call == 6) etcs_explain(file_kind, bytes, len, text, sizeof text, &a);
        if (call == 6) etcs_refusal(file_kind, bytes, len, &(etcs_reason){0}, &a);
        if (call == 7) etcs_fields_before(file_kind, bytes, len, before, ETCS_MOST_FIELDS, &a);
    }
}

static etcs_telegram group_of_eight[8];

/* The calls that read no item: numbers of each variable, characters as they come, the version. */
static void *no_item(int call)
{
    etcs_answer a = {0};
    if (call == 9)
        for (etcs_kind kind = ETCS_LONG; kind <= ETCS_TRAIN; kind++)
            for (uint32_t i = 0; i < 1024 * ETCS_VAR_COUNT; i++)
                etcs_meaning(kind, i / 1024, (uint64_t)i << i % 41, i & 3, text, sizeof text, &a);
    if (call == 10)
        for (size_t len = 0; len < 4096; len += 61) {
            for (size_t i = 0; i < len; i++) json_text[i] = (uint8_t)"0123456789ABCDEF ,x#:"[(file[i] + len) % 21];
            etcs_line_bytes(json_text, len, text, sizeof text, &a);
            if (etcs_line_front(json_text, len) > len) return (void *)1;
        }
    if (call == 11) etcs_version(text, sizeof text, &a);
    if (call == 12) {
        etcs_group group;
        if (etcs_assemble(group_of_eight, 8, &group, &a) || !group.is_complete) return (void *)1;
    }
    return NULL;
}

static etcs_place places_found[ETCS_MOST_FIELDS];

static void *all_calls(void *arg)
{
    etcs_answer a = {0};
    int call = *(int *)arg;
    static etcs_field sent[ETCS_MOST_FIELDS];
    if (call >= 9) return no_item(call);
    dear_refusals(call);
    for (size_t at = 0; at < file_len; at += a.taken) {
        if (call >= 6) {
            if (etcs_check(file_kind, file + at, file_len - at, &a)) return (void *)1;
            size_t taken = a.taken;
            if (call == 8) {
                if (etcs_to_json(file_kind, file + at, taken, json_text, sizeof json_text, &a)) return (void *)1;
                size_t n = a.written;
                for (size_t i = at % 13; i < n; i += 61) {
                    uint8_t was = json_text[i];
                    json_text[i] = '7';
                    (i % 2 ? etcs_explain_json : etcs_json_reason)(file_kind, json_text, n, text, sizeof text, &a);
                    json_text[i] = was;
                }
            } else
                for (size_t bit = at % 13; bit < 8 * taken; bit += 17) {
                    file[at + bit / 8] ^= 0x80 >> bit % 8;
                    if (call == 6 && bit % 2) etcs_refusal(file_kind, file + at, taken, &(etcs_reason){0}, &a);
                    else if (call == 6) etcs_explain(file_kind, file + at, taken, text, sizeof text, &a);
                    else etcs_fields_before(file_kind, file + at, taken, sent, ETCS_MOST_FIELDS, &a);
                    file[at + bit / 8] ^= 0x80 >> bit % 8;
                }
            a.taken = taken;
        } else if (call < 3) {
            etcs_status s = call == 0 ? etcs_check(file_kind, file + at, file_len - at, &a)
                : call == 1 ? etcs_show(file_kind, 1, file + at, file_len - at, text, sizeof text, &a)
                : etcs_to_json(file_kind, file + at, file_len - at, text, sizeof text, &a);
            if (s) return (void *)1;
        } else if (call > 3) {
            if (etcs_fields(file_kind, file + at, file_len - at, sent, ETCS_MOST_FIELDS, &a)) return (void *)1;
            size_t taken = a.taken;
            if (call == 4 && etcs_places(file_kind, file + at, taken, places_found, ETCS_MOST_FIELDS, &a)) return (void *)1;
            if (call == 5 && etcs_from_fields(file_kind, sent, a.written, text, sizeof text, &a)) return (void *)1;
            a.taken = taken;
        } else {
            if (etcs_to_json(file_kind, file + at, file_len - at, json_text, sizeof json_text, &a)) return (void *)1;
            size_t taken = a.taken, n = a.written;
            memmove(json_text + 1, json_text, n), json_text[0] = ' '; /* a blank: by way of a tree */
            if (etcs_from_json(file_kind, json_text, n + 1, text, sizeof text, &a)) return (void *)1;
            a.taken = taken;
        }
    }
    return NULL;
}

static void *nothing(void *arg)
{
    (void)arg;
    return NULL;
}

/* How many bytes of its stack a thread that does this touches. */
static size_t touched(void *(*does)(void *), void *arg)
{
    size_t size = 1 << 20, clean = 0;
    uint8_t *room;
    if (posix_memalign((void **)&room, 4096, size)) return 0;
    memset(room, 0xA5, size);
    pthread_attr_t attr;
    pthread_t t;
    void *said;
    pthread_attr_init(&attr);
    pthread_attr_setstack(&attr, room, size);
    pthread_create(&t, &attr, does, arg);
    pthread_join(t, &said);
    EXPECT(!said);
    while (clean < size && room[clean] == 0xA5) clean++;
    free(room);
    return size - clean;
}

static void stack(void)
{
    static const size_t most[] = {32, 32, 32, 64, 32, 32, 32, 32, 64, 32, 32, 32, 32}; /* KiB, what etcs.h asks for */
    size_t own = touched(nothing, NULL);
    for (uint64_t i = 0; i < 8; i++) group_of_eight[i] = balise(ETCS_LONG, i, 7, 0, 40, 511);
    for (int call = 0; call < 13; call++) {
        size_t taken = touched(all_calls, &call) - own;
        printf("kind %u, call %d: %zu bytes of stack\n", file_kind, call, taken);
        EXPECT(taken <= most[call] * STACK);
    }
}

/* Nested lists and objects, on the stack that etcs.h asks for. */
static void *deep(void *arg)
{
    static const char *const units[] = {"[", "{\"a\":", "[{\"a\":", "{\"kind\":[", "[[],", "[\"\\u0041\","};
    static const size_t len = 100000;
    uint8_t *text = malloc(len), out[1024];
    etcs_answer a = {0};
    (void)arg;
    for (size_t u = 0; u < sizeof units / sizeof *units; u++)
        for (etcs_kind kind = ETCS_LONG; kind <= ETCS_TRAIN; kind++) {
            for (size_t i = 0; i < len; i++) text[i] = (uint8_t)units[u][i % strlen(units[u])];
            for (size_t n = 1; n <= len; n = n < 2000 ? n + 1 : n * 3) {
                EXPECT(etcs_from_json(kind, text, n, out, sizeof out, &a) == ETCS_BAD_JSON);
                EXPECT((n % 2 ? etcs_explain_json : etcs_json_reason)(kind, text, n, out, sizeof out, &a) == ETCS_BAD_JSON && a.written > 0);
            }
        }
    free(text);
    return NULL;
}

static void deep_json(void)
{
    size_t size = 64 << 10, clean = 0;
    uint8_t *room;
    pthread_attr_t attr;
    pthread_t t;
    if (posix_memalign((void **)&room, 4096, size)) return;
    memset(room, 0xA5, size);
    pthread_attr_init(&attr);
    pthread_attr_setstack(&attr, room, size);
    pthread_create(&t, &attr, deep, NULL);
    pthread_join(t, NULL);
    while (clean < size && room[clean] == 0xA5) clean++;
    printf("deep JSON: %zu bytes of stack\n", size - clean);
    free(room);
}

/* The digits of bytes in a buffer of exactly the line's length, after a time. */
static void exact_line(const uint8_t *bytes, size_t len)
{
    etcs_answer a = {0};
    size_t count = 9 + 2 * len;
    uint8_t *line = malloc(count), *back = malloc(len);
    memcpy(line, "12:00:03 ", 9);
    for (size_t i = 0; i < 2 * len; i++) line[9 + i] = (uint8_t)"0123456789ABCDEF"[bytes[i / 2] >> (i % 2 ? 0 : 4) & 15];
    EXPECT(etcs_line_front(line, count) == 8);
    EXPECT(etcs_line_bytes(line, count, back, len, &a) == ETCS_OK && a.written == len && !memcmp(back, bytes, len));
    free(line), free(back);
}

/* All calls over buffers of exactly their lengths, so that valgrind sees each access past the end. */
static void exact(const uint8_t *bytes, size_t len, size_t taken)
{
    etcs_answer a = {0};
    uint8_t *in = malloc(len);
    memcpy(in, bytes, len);
    etcs_status s = etcs_check(file_kind, in, len, &a);
    EXPECT(s == (len < taken ? ETCS_MORE : ETCS_OK));
    if (s == ETCS_OK) {
        EXPECT(etcs_show(file_kind, 1, in, len, in, 0, &a) == ETCS_NO_ROOM);
        size_t n = a.written;
        uint8_t *out = malloc(n);
        EXPECT(etcs_show(file_kind, 1, in, len, out, n, &a) == ETCS_OK && a.written == n);
        free(out);
        EXPECT(etcs_to_json(file_kind, in, len, in, 0, &a) == ETCS_NO_ROOM);
        out = malloc(n = a.written);
        EXPECT(etcs_to_json(file_kind, in, len, out, n, &a) == ETCS_OK && a.written == n);
        uint8_t *back = malloc(taken);
        EXPECT(etcs_from_json(file_kind, out, n, back, taken, &a) == ETCS_OK && !memcmp(back, in, taken));
        free(out), free(back), back = malloc(taken);
        etcs_field *sent = malloc(sizeof(etcs_field) * ETCS_MOST_FIELDS);
        EXPECT(etcs_fields(file_kind, in, len, sent, ETCS_MOST_FIELDS, &a) == ETCS_OK);
        sent = realloc(sent, sizeof(etcs_field) * a.written);
        EXPECT(etcs_fields(file_kind, in, len, sent, a.written, &a) == ETCS_OK);
        EXPECT(etcs_from_fields(file_kind, sent, a.written, back, taken, &a) == ETCS_OK && !memcmp(back, in, taken));
        free(sent), free(back);
        EXPECT(etcs_places(file_kind, in, len, (etcs_place *)(void *)in, 0, &a) == ETCS_NO_ROOM);
        etcs_place *found = malloc(sizeof(etcs_place) * (n = a.written));
        EXPECT(etcs_places(file_kind, in, len, found, n, &a) == ETCS_OK && a.written == n);
        free(found);
        exact_line(in, taken);
    }
    free(in);
}

/* Whether packets, entries and entries inside them follow each other: NID_PACKET begins the next packet, and in a packet an entry
 * follows the same one, the one before it, or none. */
static int are_ordered(const etcs_field *fields, const etcs_place *places, size_t count)
{
    etcs_place last = {0};
    size_t packets = 0;
    for (size_t i = 0; i < count; last = places[i++]) {
        etcs_place now = places[i];
        if (fields[i].var == ETCS_VAR_NID_PACKET && (++packets != now.packet || now.entry || now.inner)) return 0;
        if (now.packet && (now.packet != packets || (now.inner && !now.entry))) return 0;
        if (!now.packet && (now.entry || now.inner)) return 0;
        if (now.entry && now.entry != last.entry && now.entry != last.entry + 1 && now.entry != 1) return 0;
        if (now.inner && now.inner != last.inner && now.inner != last.inner + 1 && now.inner != 1) return 0;
    }
    return 1;
}

/* For each item: the calls against each other, pieces, and each bit turned. */
static void items(void)
{
    static etcs_field sent[ETCS_MOST_FIELDS];
    static uint8_t out[ETCS_MOST_BYTES];
    etcs_answer a = {0}, b = {0};
    size_t count = 0, most = 0, refused = 0;
    for (size_t at = 0, taken; at < file_len; at += taken, count++) {
        uint8_t *front = file + at;
        if (etcs_check(file_kind, front, file_len - at, &a)) { EXPECT(0); return; }
        taken = a.taken;
        EXPECT(etcs_check(file_kind, front, taken, &b) == ETCS_OK && b.taken == taken);
        EXPECT(etcs_fields(file_kind, front, taken, sent, ETCS_MOST_FIELDS, &a) == ETCS_OK && a.taken == taken);
        size_t fields = a.written;
        if (fields > most) most = fields;
        EXPECT(etcs_places(file_kind, front, taken, places_found, ETCS_MOST_FIELDS, &a) == ETCS_OK && a.taken == taken && a.written == fields);
        EXPECT(are_ordered(sent, places_found, fields));
        EXPECT(etcs_bit_of(sent, fields) == 8 * taken);
        EXPECT(etcs_from_fields(file_kind, sent, fields, out, sizeof out, &a) == ETCS_OK && a.written == taken && !memcmp(out, front, taken));
        EXPECT(etcs_to_json(file_kind, front, taken, json_text, sizeof json_text, &a) == ETCS_OK);
        EXPECT(etcs_from_json(file_kind, json_text, a.written, out, sizeof out, &a) == ETCS_OK && a.written == taken && !memcmp(out, front, taken));
        if (count % 31 == 0)
            for (size_t n = 1; n <= taken; n++)
                exact(front, n, taken);
        if (count % 97 < 20)
            for (size_t bit = 0; bit < 8 * taken; bit++) {
                front[bit / 8] ^= 0x80 >> bit % 8;
                etcs_status s = etcs_check(file_kind, front, taken, &a);
                EXPECT(etcs_fields(file_kind, front, taken, sent, ETCS_MOST_FIELDS, &b) == s && a.bit == b.bit && !strcmp(a.var, b.var));
                if (s == ETCS_OK && a.taken == taken)
                    EXPECT(etcs_from_fields(file_kind, sent, b.written, out, sizeof out, &b) == ETCS_OK && !memcmp(out, front, taken));
                if (s == ETCS_REFUSED) {
                    refused++, pieces(file_kind, front, taken, 1 + bit % 40);
                    pieces(file_kind, front, taken, 1), pieces(file_kind, front, a.bit / 8 + 1, 1);
                    EXPECT(etcs_explain(file_kind, front, taken, text, sizeof text, &b) == s && a.bit == b.bit && !strcmp(a.var, b.var) && b.written > 0);
                    etcs_reason reason;
                    EXPECT(etcs_refusal(file_kind, front, taken, &reason, &b) == s && a.bit == b.bit && !strcmp(a.var, b.var));
                    EXPECT(is_reason(&reason, front, taken, b.bit));
                    EXPECT(etcs_fields_before(file_kind, front, taken, sent, ETCS_MOST_FIELDS, &b) == s && a.bit == b.bit && !strcmp(a.var, b.var));
                    EXPECT(are_first(sent, b.written, front, b.bit));
                }
                front[bit / 8] ^= 0x80 >> bit % 8;
            }
    }
    for (size_t piece = 1; piece < 300; piece += piece / 4 + 1)
        pieces(file_kind, file, file_len < 20000 ? file_len : 20000, piece);
    printf("kind %u: %zu items, at most %zu fields, %zu turned bits refused\n", file_kind, count, most, refused);
}

int main(int argc, char **argv)
{
    if (argc > 2) {
        file_kind = (etcs_kind)atoi(argv[1]);
        FILE *f = fopen(argv[2], "rb");
        file_len = f ? fread(file, 1, sizeof file, f) : 0;
        if (argc < 4) stack();
        items();
    } else {
        refused_memory();
        refused_reasons();
        reasons();
        statuses();
        lines_and_meanings();
        places();
        groups();
        no_pointers();
        short_buffers();
        variables();
        for (size_t n = 1; n < 100; n++) {
            uint8_t bytes[256];
            size_t len = 0;
            for (int i = 0; i < 3; i++) len += item(bytes + len, RADIO);
            pieces(ETCS_RADIO, bytes, len, n);
        }
        reader_without_memory();
        if (argc < 2) deep_json(), threads();
    }
    puts(wrong ? "something is wrong" : "all is well");
    return wrong;
}
