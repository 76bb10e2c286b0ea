/* A small `etcs` over the header, with a part of the program's command line:
 *
 *     example show|check --kind long|short|radio|train < digits
 *     example convert --kind .. --to json < digits
 *     example convert --kind .. --from json --to hex < lines
 *
 * It takes any characters between the digits, which the program refuses.
 */
#include "etcs.h"

#include <stdio.h>
#include <stdlib.h>
#include <string.h>

static uint8_t input[1 << 22], output[1 << 20];

static const char *option(int argc, char **argv, const char *name)
{
    for (int i = 2; i + 1 < argc; i++)
        if (!strcmp(argv[i], name))
            return argv[i + 1];
    return "";
}

static int digit_of(int c)
{
    if (c >= '0' && c <= '9') return c - '0';
    if (c >= 'a' && c <= 'f') return c - 'a' + 10;
    if (c >= 'A' && c <= 'F') return c - 'A' + 10;
    return -1;
}

/* Digits of standard input as bytes. */
static size_t read_digits(void)
{
    size_t len = 0;
    int c, high = -1;
    while ((c = getchar()) != EOF && len < sizeof input) {
        int digit = digit_of(c);
        if (digit < 0) continue;
        if (high < 0) { high = digit; continue; }
        input[len++] = (uint8_t)(high << 4 | digit);
        high = -1;
    }
    return len;
}

static int fault(unsigned long long item, etcs_status status, const etcs_answer *answer, size_t left)
{
    switch (status) {
    case ETCS_MORE:
        fprintf(stderr, "etcs: item %llu truncated after %zu bits\n", item, 8 * left);
        return 1;
    case ETCS_REFUSED:
        fprintf(stderr, "etcs: item %llu refused at bit %zu, %s\n", item, answer->bit, answer->var);
        return 1;
    case ETCS_BAD_JSON:
        fprintf(stderr, "etcs: line %llu: bad JSON\n", item);
        return 1;
    default:
        fprintf(stderr, "etcs: status %u\n", (unsigned)status);
        return 3;
    }
}

/* Lines of JSON to digits. */
static int from_json(etcs_kind kind)
{
    etcs_answer answer = {0};
    for (unsigned long long line = 1; fgets((char *)input, sizeof input, stdin); line++) {
        etcs_status status = etcs_from_json(kind, input, strcspn((char *)input, "\n"), output, sizeof output, &answer);
        if (status != ETCS_OK)
            return fault(line, status, &answer, 0);
        for (size_t i = 0; i < answer.written; i++)
            printf("%02X", output[i]);
        putchar('\n');
    }
    return 0;
}

int main(int argc, char **argv)
{
    if (argc < 4)
        return 2;
    const char *name = option(argc, argv, "--kind");
    etcs_kind kind = !strcmp(name, "long") ? ETCS_LONG : !strcmp(name, "short") ? ETCS_SHORT
        : !strcmp(name, "train") ? ETCS_TRAIN : ETCS_RADIO;
    if (!strcmp(option(argc, argv, "--from"), "json"))
        return from_json(kind);
    size_t len = read_digits(), at = 0;
    etcs_answer answer = {0};
    for (unsigned long long item = 1; at < len; item++, at += answer.taken) {
        const uint8_t *front = input + at;
        etcs_status status;
        if (!strcmp(argv[1], "show"))
            status = etcs_show(kind, item, front, len - at, output, sizeof output, &answer);
        else if (!strcmp(argv[1], "convert"))
            status = etcs_to_json(kind, front, len - at, output, sizeof output, &answer);
        else
            status = etcs_check(kind, front, len - at, &answer);
        if (status != ETCS_OK)
            return fault(item, status, &answer, len - at);
        if (!strcmp(argv[1], "check"))
            printf("item %llu ok %zu bits\n", item, kind == ETCS_LONG ? 830 : kind == ETCS_SHORT ? 210 : 8 * answer.taken);
        else {
            fwrite(output, 1, answer.written, stdout);
            if (!strcmp(argv[1], "convert"))
                putchar('\n');
        }
    }
    return 0;
}
