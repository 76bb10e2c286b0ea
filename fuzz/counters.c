/* Which counters of the library's code inputs reach: fuzz/counters.py builds and runs it.
 *
 *     counters FOLDER ..    tries each file of the folders as an input, and writes a 1 or 0 for each counter
 */
#include "fuzz.h"

#include <dirent.h>
#include <stdio.h>
#include <stdlib.h>
#include <string.h>

static uint8_t *first, *end;

/* The library's code calls this once. */
void __sanitizer_cov_8bit_counters_init(uint8_t *from, uint8_t *to) { first = from, end = to; }
void __sanitizer_cov_pcs_init(const uintptr_t *from, const uintptr_t *to) { (void)from, (void)to; }

/* The mutator calls this; here it isn't used. */
size_t LLVMFuzzerMutate(uint8_t *data, size_t size, size_t most) { (void)data, (void)most; return size; }

static void try_file(const char *folder, const char *name, char *reached)
{
    static uint8_t data[MOST_INPUT];
    char path[4096];
    snprintf(path, sizeof path, "%s/%s", folder, name);
    FILE *file = fopen(path, "rb");
    if (!file)
        return;
    size_t size = fread(data, 1, sizeof data, file);
    fclose(file);
    memset(first, 0, (size_t)(end - first));
    LLVMFuzzerTestOneInput(data, size);
    for (const uint8_t *at = first; at < end; at++)
        if (*at)
            reached[at - first] = '1';
}

int main(int count, char **words)
{
    char *reached = calloc((size_t)(end - first) + 1, 1);
    memset(reached, '0', (size_t)(end - first));
    for (int i = 1; i < count; i++) {
        struct dirent **names;
        int many = scandir(words[i], &names, NULL, alphasort);
        for (int at = 0; at < many; at++)
            if (names[at]->d_name[0] != '.')
                try_file(words[i], names[at]->d_name, reached);
    }
    puts(reached);
    return 0;
}
