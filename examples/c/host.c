/* A host in C: serves its standard input, and writes what comes of it. Its status is the call's, or 1 where the host
   itself failed. */
#include "bb.h"

#include <stdio.h>
#include <stdlib.h>

/* The most cycles of a run, and the least rating that is chosen. */
enum { CYCLES = 1000, FLOOR = 0 };

static int fail(const char *why)
{
    fprintf(stderr, "host: %s\n", why);
    return EXIT_FAILURE;
}

/* All bytes of a file, or NULL. */
static uint8_t *read_all(FILE *file, size_t *len)
{
    size_t room = 1 << 16;
    uint8_t *bytes = malloc(room);
    *len = 0;
    while (bytes != NULL) {
        *len += fread(bytes + *len, 1, room - *len, file);
        if (*len < room && !ferror(file))
            return bytes;
        room *= 2;
        uint8_t *more = ferror(file) ? NULL : realloc(bytes, room);
        if (more == NULL)
            free(bytes);
        bytes = more;
    }
    return NULL;
}

/* Serves an input with as much room as its answer takes, and writes that. */
static int serve(const uint8_t *input, size_t len)
{
    for (size_t room = 1 << 16;; room *= 2) {
        uint8_t *output = malloc(room);
        if (output == NULL)
            return fail("there is no memory for the answer");
        size_t written;
        uint8_t status = bb_serve(input, len, BB_RUN, CYCLES, FLOOR, output, room, &written);
        int is_told = status == BB_ROOM || (fwrite(output, 1, written, stdout) == written && fflush(stdout) == 0);
        free(output);
        if (!is_told)
            return fail("the answer can't be written");
        if (status != BB_ROOM)
            return status;
    }
}

int main(void)
{
    if (bb_version() != BB_VERSION)
        return fail("the library is of another version than its header");
    size_t len;
    uint8_t *input = read_all(stdin, &len);
    if (input == NULL)
        return fail("the input can't be read");
    int status = serve(input, len);
    free(input);
    return status;
}
