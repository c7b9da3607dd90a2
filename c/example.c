/* Prints the id of the event of a room of version 10 that standard input has, and what the tests of an event say of it. */
#include "wikzord.h"

#include <stdio.h>
#include <stdlib.h>

/* All bytes of a stream, which the caller frees; NULL where it can't be read or memory ran out. */
static uint8_t *read_all(FILE *stream, size_t *len)
{
    size_t room = 65536;
    uint8_t *bytes = malloc(room);
    *len = 0;
    while (bytes) {
        size_t got = fread(bytes + *len, 1, room - *len, stream);
        *len += got;
        if (*len < room) {
            if (!ferror(stream))
                return bytes;
            break;
        }
        uint8_t *more = realloc(bytes, room * 2);
        if (!more)
            break;
        bytes = more;
        room *= 2;
    }
    free(bytes);
    return NULL;
}

/* Prints a text of which the length has to be asked for first. */
static int print_error(const uint8_t *text, size_t len)
{
    uint8_t none;
    size_t needed = 0;
    uint32_t status = wikzord_event_error(text, len, &none, 0, &needed);
    if (status == WIKZORD_DONE) {
        puts("passes");
        return 0;
    }
    if (status != WIKZORD_BUFFER_TOO_SMALL)
        return 1;
    uint8_t *error = malloc(needed);
    if (!error)
        return 1;
    status = wikzord_event_error(text, len, error, needed, &needed);
    if (status == WIKZORD_DONE)
        printf("%.*s\n", (int)needed, (const char *)error);
    free(error);
    return status != WIKZORD_DONE;
}

int main(void)
{
    size_t len;
    uint8_t *text = read_all(stdin, &len);
    if (!text) {
        fputs("no input\n", stderr);
        return 1;
    }
    uint8_t id[44];
    size_t needed;
    uint32_t status = wikzord_event_id(10, text, len, id, sizeof id, &needed);
    int failed = 0;
    if (status == WIKZORD_DONE)
        printf("%.*s\n", (int)needed, (const char *)id);
    else
        printf("no id: status %u\n", (unsigned)status);
    failed = print_error(text, len);
    free(text);
    if (failed)
        fputs("out of memory\n", stderr);
    return failed;
}
