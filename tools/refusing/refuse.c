/* Stands between a program and the C library, and refuses something, once.
 *
 * The program is linked with --wrap for each call below. What is refused the environment says:
 *
 *   REFUSED=N   the N-th request for memory, counted from 1, and with LASTING=1 all behind it
 *   ROOM=N      a write to standard output, once that took N bytes: by an error, or with EMPTY=1 by taking none
 *   GIVEN=N     a read of standard input, once that gave N bytes
 *   STEP=N      nothing: a read or a write moves N bytes at most
 *   COUNTED=F   nothing: at the end the file F is told how many requests for memory there were
 *
 * What comes after a refusal is done, so a program that goes on in spite of it is found out. */

#include <errno.h>
#include <stdio.h>
#include <stdlib.h>
#include <unistd.h>

void *__real_malloc(size_t size);
void *__real_realloc(void *old, size_t size);
ssize_t __real_read(int file, void *bytes, size_t size);
ssize_t __real_write(int file, const void *bytes, size_t size);

#define NEVER (~0ul)

static unsigned long count, refused = NEVER, room = NEVER, given = NEVER, step = NEVER;
static int lasting;

static unsigned long number(const char *name)
{
    const char *text = getenv(name);

    return text ? strtoul(text, NULL, 10) : NEVER;
}

__attribute__((constructor)) static void begin(void)
{
    refused = number("REFUSED");
    lasting = getenv("LASTING") != NULL;
    room = number("ROOM");
    given = number("GIVEN");
    step = number("STEP");
}

__attribute__((destructor)) static void end(void)
{
    const char *name = getenv("COUNTED");
    FILE *file = name ? fopen(name, "w") : NULL;

    if (file) {
        fprintf(file, "%lu\n", count);
        fclose(file);
    }
}

static int is_refused(void)
{
    return ++count == refused || (lasting && count > refused);
}

void *__wrap_malloc(size_t size)
{
    return is_refused() ? NULL : __real_malloc(size);
}

void *__wrap_realloc(void *old, size_t size)
{
    return is_refused() ? NULL : __real_realloc(old, size);
}

/* How much of this size is moved, where so much is left before the refusal. None is left once, and then no end. */
static size_t part(size_t size, unsigned long *left)
{
    size_t moved = size < step ? size : step;

    if (*left == NEVER)
        return moved;
    moved = moved < *left ? moved : *left;
    *left = *left ? *left - moved : NEVER;
    return moved;
}

ssize_t __wrap_read(int file, void *bytes, size_t size)
{
    size_t moved = file == STDIN_FILENO && size ? part(size, &given) : size;

    if (moved == size || moved)
        return __real_read(file, bytes, moved);
    errno = EIO;
    return -1;
}

ssize_t __wrap_write(int file, const void *bytes, size_t size)
{
    size_t moved = file == STDOUT_FILENO && size ? part(size, &room) : size;

    if (moved == size || moved)
        return __real_write(file, bytes, moved);
    if (getenv("EMPTY"))
        return 0;
    errno = ENOSPC;
    return -1;
}
