/* example FONT OUT ID..: cuts FONT to the glyphs ID.. and writes OUT; prints the roster. */
#include "pitavele.h"

#include <stdio.h>
#include <stdlib.h>

static int fail(const char *what, const char *name)
{
    fprintf(stderr, "example: %s %s\n", what, name);
    return 1;
}

/* All of a file, or NULL if it can't be read; one byte more, so that an empty file isn't NULL. */
static uint8_t *read_file(const char *name, size_t *length)
{
    FILE *file = fopen(name, "rb");
    uint8_t *bytes = NULL;
    long end;
    if (file == NULL)
        return NULL;
    if (fseek(file, 0, SEEK_END) == 0 && (end = ftell(file)) >= 0 && fseek(file, 0, SEEK_SET) == 0) {
        *length = (size_t)end;
        bytes = malloc(*length + 1);
        if (bytes != NULL && fread(bytes, 1, *length, file) != *length) {
            free(bytes);
            bytes = NULL;
        }
    }
    fclose(file);
    return bytes;
}

static int write_file(const char *name, const uint8_t *bytes, size_t length)
{
    FILE *file = fopen(name, "wb");
    size_t written;
    if (file == NULL)
        return 0;
    written = fwrite(bytes, 1, length, file);
    return fclose(file) == 0 && written == length;
}

int main(int count, char **words)
{
    static uint16_t scratch[PITAVELE_MAX_SCRATCH];
    static uint16_t ids[65536];
    struct pitavele_answer answer;
    size_t font_len, ids_len = 0;
    uint8_t *font, *out;
    if (count < 3 || count - 3 > 65536)
        return fail("usage:", "example FONT OUT ID..");
    for (; ids_len < (size_t)(count - 3); ids_len++) {
        char *end;
        unsigned long id = strtoul(words[3 + ids_len], &end, 10);
        if (end == words[3 + ids_len] || *end != 0 || id > 65535)
            return fail("no glyph id:", words[3 + ids_len]);
        ids[ids_len] = (uint16_t)id;
    }
    font = read_file(words[1], &font_len);
    if (font == NULL)
        return fail("can't read", words[1]);

    /* Without room for the font, refusal 6 says how much is needed. */
    answer = pitavele_subset(font, font_len, 0, ids, ids_len, scratch, PITAVELE_MAX_SCRATCH, NULL, 0);
    if (answer.refusal != PITAVELE_OUTPUT_TOO_SHORT) {
        fprintf(stderr, "example: %s: refusal %lu\n", words[1], (unsigned long)answer.refusal);
        return 1;
    }
    out = malloc((size_t)answer.length);
    if (out == NULL)
        return fail("no memory for", words[2]);
    answer = pitavele_subset(font, font_len, 0, ids, ids_len, scratch, PITAVELE_MAX_SCRATCH, out,
                             (size_t)answer.length);
    for (size_t new_id = 0; new_id < answer.count; new_id++)
        printf("%u %lu\n", scratch[new_id], (unsigned long)new_id);
    if (!write_file(words[2], out, (size_t)answer.length))
        return fail("can't write", words[2]);
    free(out);
    free(font);
    return 0;
}
