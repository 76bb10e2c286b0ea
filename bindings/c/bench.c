/* bench CALL KIND FILE COUNT: nanoseconds of processor time for each item, over all items of the file COUNT times.
 * CALL is check, show, to_json, from_json, fields, places, pack (fields and from_fields), explain, refusal or before (of telegrams
 * whose last bit is turned, which is refused), explain_json or json_reason (of lines of JSON without their last byte), or a
 * number: the reader, fed pieces of that many bytes. */
#include "etcs_help.h"
#include <stdio.h>
#include <stdlib.h>
#include <string.h>
#include <time.h>

static uint8_t out[1 << 18];
static etcs_field fields[8192];
static etcs_place places[8192];
static char line[1 << 18];

int main(int argc, char **argv) {
    if (argc != 5) return 2;
    const char *call = argv[1];
    etcs_kind kind = !strcmp(argv[2], "long") ? ETCS_LONG : !strcmp(argv[2], "short") ? ETCS_SHORT
        : !strcmp(argv[2], "train") ? ETCS_TRAIN : ETCS_RADIO;
    FILE *file = fopen(argv[3], "rb");
    if (!file) return 2;
    fseek(file, 0, SEEK_END);
    size_t len = (size_t)ftell(file);
    rewind(file);
    uint8_t *bytes = malloc(len);
    if (!bytes || fread(bytes, 1, len, file) != len) return 2;
    int count = atoi(argv[4]);
    etcs_answer answer = {0};
    size_t items = 0, sum = 0, lines = 0;
    char **texts = 0; size_t *lens = 0;
    etcs_status (*why)(etcs_kind, const uint8_t *, size_t, uint8_t *, size_t, etcs_answer *) =
        !strcmp(call, "explain_json") ? etcs_explain_json : !strcmp(call, "json_reason") ? etcs_json_reason : NULL;
    if (why || !strcmp(call, "from_json")) {
        texts = malloc(sizeof *texts * (len + 1)); lens = malloc(sizeof *lens * (len + 1)); /* an item has a byte */
        if (!texts || !lens) return 2;
        for (size_t at = 0; at < len; at += answer.taken) {
            if (etcs_to_json(kind, bytes + at, len - at, (uint8_t *)line, sizeof line, &answer)) return 3;
            texts[lines] = malloc(answer.written); memcpy(texts[lines], line, answer.written); lens[lines++] = answer.written;
        }
    }
    struct timespec a, b;
    clock_gettime(CLOCK_PROCESS_CPUTIME_ID, &a);
    for (int n = 0; n < count; n++) {
        if (lines) {
            for (size_t i = 0; i < lines; i++, items++) {
                if (why ? why(kind, (uint8_t *)texts[i], lens[i] - 1, out, sizeof out, &answer) != ETCS_BAD_JSON
                    : etcs_from_json(kind, (uint8_t *)texts[i], lens[i], out, sizeof out, &answer) != ETCS_OK) return 3;
                sum += answer.written;
            }
            continue;
        }
        if (atoi(call) > 0) {
            etcs_reader reader;
            size_t piece = (size_t)atoi(call);
            etcs_reader_start(&reader, kind);
            for (size_t at = 0; at < len; at += piece) {
                size_t size = len - at < piece ? len - at : piece;
                for (size_t from = 0, used; from < size; from += used) {
                    etcs_status status = etcs_reader_feed(&reader, bytes + at + from, size - from, &used, &answer);
                    if (status == ETCS_OK) items++, sum += answer.taken;
                    else if (status != ETCS_MORE) return 3;
                }
            }
            continue;
        }
        if (!strcmp(call, "explain") || !strcmp(call, "refusal") || !strcmp(call, "before")) {
            etcs_reason reason;
            size_t size = kind == ETCS_LONG ? 104 : 27;
            if (kind > ETCS_SHORT || len % size) return 2;
            for (size_t at = 0; at < len; at += size, items++) {
                bytes[at + size - 1] ^= 1;
                etcs_status status = !strcmp(call, "before") ? etcs_fields_before(kind, bytes + at, size, fields, 8192, &answer)
                    : !strcmp(call, "refusal") ? etcs_refusal(kind, bytes + at, size, &reason, &answer)
                    : etcs_explain(kind, bytes + at, size, out, sizeof out, &answer);
                if (status != ETCS_REFUSED) return 3;
                sum += answer.written;
                bytes[at + size - 1] ^= 1;
            }
            continue;
        }
        for (size_t at = 0; at < len; at += answer.taken, items++) {
            etcs_status status = !strcmp(call, "check") ? etcs_check(kind, bytes + at, len - at, &answer)
                : !strcmp(call, "show") ? etcs_show(kind, items, bytes + at, len - at, out, sizeof out, &answer)
                : !strcmp(call, "places") ? etcs_places(kind, bytes + at, len - at, places, 8192, &answer)
                : !strcmp(call, "fields") || !strcmp(call, "pack") ? etcs_fields(kind, bytes + at, len - at, fields, 8192, &answer)
                : etcs_to_json(kind, bytes + at, len - at, out, sizeof out, &answer);
            if (status) return 3;
            sum += answer.taken + answer.written;
            if (!strcmp(call, "pack")) {
                size_t taken = answer.taken;
                if (etcs_from_fields(kind, fields, answer.written, out, sizeof out, &answer)) return 3;
                answer.taken = taken;
            }
        }
    }
    clock_gettime(CLOCK_PROCESS_CPUTIME_ID, &b);
    printf("%s %s: %.0f ns an item, %zu items, %zu\n", call, argv[2], ((b.tv_sec - a.tv_sec) * 1e9 + (b.tv_nsec - a.tv_nsec)) / (double)items, items, sum);
    return 0;
}
