/* Reads a file with a JSON text a line, and writes for each what the call that is named makes of it, a line each: what bench/library.sh
   measures. */
#include "wikzord.h"

#include <stdio.h>
#include <stdlib.h>
#include <string.h>

typedef uint32_t call(const uint8_t *, size_t, uint8_t *, size_t, size_t *);

static uint32_t canonical(const uint8_t *text, size_t text_len, uint8_t *out, size_t out_len, size_t *needed)
{
    return wikzord_canonical(text, text_len, 100, out, out_len, needed);
}

static uint32_t event_id(const uint8_t *text, size_t text_len, uint8_t *out, size_t out_len, size_t *needed)
{
    return wikzord_event_id(10, text, text_len, out, out_len, needed);
}

static call *call_of(const char *name)
{
    if (!strcmp(name, "canonical"))
        return canonical;
    if (!strcmp(name, "eventid"))
        return event_id;
    if (!strcmp(name, "content_hash"))
        return wikzord_content_hash;
    return NULL;
}

/* The bytes of a file, whose number is told; NULL where it can't be read. */
static uint8_t *bytes_of(const char *path, size_t *count)
{
    FILE *file = fopen(path, "rb");
    if (!file)
        return NULL;
    uint8_t *bytes = NULL;
    long size = fseek(file, 0, SEEK_END) ? -1 : ftell(file);
    if (size >= 0 && !fseek(file, 0, SEEK_SET) && (bytes = malloc((size_t)size + 1)))
        *count = fread(bytes, 1, (size_t)size, file);
    fclose(file);
    return bytes;
}

int main(int count, char **words)
{
    /* Answers are gathered in the first half, and go out when it is full; an answer has room in the second. */
    static uint8_t out[1 << 20];
    const size_t half = sizeof out / 2;
    call *made = count == 3 ? call_of(words[1]) : NULL;
    size_t size = 0, held = 0;
    uint8_t *bytes = made ? bytes_of(words[2], &size) : NULL;
    if (!bytes) {
        fputs("usage: library canonical|eventid|content_hash FILE\n", stderr);
        return 2;
    }
    setvbuf(stdout, NULL, _IONBF, 0);
    for (size_t start = 0, end; start < size; start = end + 1) {
        const uint8_t *found = memchr(bytes + start, '\n', size - start);
        end = found ? (size_t)(found - bytes) : size;
        size_t needed;
        if (made(bytes + start, end - start, out + held, sizeof out - held - 1, &needed) != WIKZORD_DONE)
            return 1;
        held += needed;
        out[held++] = '\n';
        if (held >= half) {
            fwrite(out, 1, held, stdout);
            held = 0;
        }
    }
    fwrite(out, 1, held, stdout);
    free(bytes);
    return fclose(stdout);
}
