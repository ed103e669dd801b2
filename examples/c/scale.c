/* A host in C whose sources act by a native of the host. It holds a run of examples/c/scale.bb. Parcels come on its
   standard input, a line each: NAME GRAMS. It posts each as it comes; where the native `weigh` is due it answers with
   the weight; and it tells on which belt each goes. At the end it writes the blackboard, as a document of initial units.
   Its status is that in which the run ends, or 1 where the host itself failed.

       scale examples/c/scale.bb < examples/c/scale.parcels */
#include "bb.h"

#include <inttypes.h>
#include <stdio.h>
#include <stdlib.h>
#include <string.h>

enum { NAME = 32, PIECE = 4096 };

static int fail(const char *why)
{
    fprintf(stderr, "scale: %s\n", why);
    return EXIT_FAILURE;
}

/* All bytes of a file, or NULL. */
static uint8_t *read_file(const char *path, size_t *len)
{
    FILE *file = fopen(path, "rb");
    long size = file != NULL && fseek(file, 0, SEEK_END) == 0 ? ftell(file) : -1;
    uint8_t *bytes = size < 0 ? NULL : malloc((size_t)size + 1);
    if (bytes != NULL) {
        rewind(file);
        *len = fread(bytes, 1, (size_t)size, file);
    }
    if (file != NULL)
        fclose(file);
    return bytes;
}

/* Tells why an input is refused. */
static void explain(const uint8_t *input, size_t input_len)
{
    size_t len;
    if (bb_explain(input, input_len, BB_S("weigh"), 0, NULL, 0, &len) != BB_OK)
        return;
    uint8_t *text = malloc(len + 1);
    if (text != NULL && bb_explain(input, input_len, BB_S("weigh"), 0, text, len, &len) == BB_OK)
        fprintf(stderr, "scale: %.*s\n", (int)len, (const char *)text);
    free(text);
}

/* Reads what the run told, which is of no use here. */
static void skip_trace(bb_run *run)
{
    uint8_t bytes[PIECE];
    size_t len;
    while (bb_read(run, bytes, sizeof bytes, &len) == BB_OK && len > 0)
        continue;
}

/* How many bytes of a text of such a length are there. */
static int shown(size_t len)
{
    return (int)(len < NAME ? len : NAME);
}

/* Tells on which belt a parcel goes. Returns how the looks went. */
static uint8_t tell(bb_run *run, uint64_t parcel)
{
    char name[NAME], belt[NAME];
    size_t name_len, belt_len;
    int64_t grams;
    uint8_t looked = bb_text(run, parcel, BB_S("name"), (uint8_t *)name, NAME, &name_len);
    if (looked == BB_OK)
        looked = bb_label(run, parcel, BB_S("belt"), (uint8_t *)belt, NAME, &belt_len);
    if (looked == BB_OK)
        looked = bb_int(run, parcel, BB_S("grams"), &grams);
    if (looked == BB_OK)
        printf("%.*s: %.*s, %" PRId64 " g\n", shown(name_len), name, shown(belt_len), belt, grams);
    return looked;
}

/* Answers for the native that is due: what lies on the scale has so many grams. Returns how the run stands then. */
static uint8_t weigh(bb_run *run, int64_t grams)
{
    uint64_t unit;
    uint8_t name[NAME];
    size_t len;
    if (bb_due(run, &unit, name, sizeof name, &len) != BB_OK || len != 5 || memcmp(name, "weigh", len) != 0)
        return BB_MISUSE;
    uint8_t asked = bb_ask_int(run, unit, BB_S("grams"), grams);
    return asked == BB_OK ? bb_answer(run) : asked;
}

/* A parcel comes. Returns how the run stands once it rests. */
static uint8_t parcel_comes(bb_run *run, const char *name, int64_t grams)
{
    uint64_t unit = bb_next(run);
    uint8_t asked = bb_ask_new(run, BB_S("parcel"));
    if (asked == BB_OK)
        asked = bb_ask_text(run, unit, BB_S("name"), (const uint8_t *)name, strlen(name));
    uint8_t stands = asked == BB_OK ? bb_post(run) : asked;
    while (stands == BB_GOING || stands == BB_DUE)
        stands = stands == BB_DUE ? weigh(run, grams) : bb_turn(run);
    skip_trace(run);
    return stands == BB_RESTING ? tell(run, unit) : stands;
}

/* Writes the blackboard as a document of first units. Returns whether it could. */
static int write_document(bb_run *run)
{
    size_t len;
    if (bb_document(run, NULL, 0, &len) != BB_OK)
        return 0;
    uint8_t *text = malloc(len + 1);
    int is_there = text != NULL && bb_document(run, text, len, &len) == BB_OK;
    if (is_there) {
        text[len] = 0;
        puts((const char *)text);
    }
    free(text);
    return is_there;
}

int main(int count, char **words)
{
    if (bb_version() != BB_VERSION)
        return fail("the library is of another version than its header");
    if (count != 2)
        return fail("usage: scale INPUT < PARCELS");
    size_t len;
    uint8_t *input = read_file(words[1], &len);
    if (input == NULL)
        return fail("the input can't be read");
    bb_run run = BB_RUN_NONE;
    uint8_t stands = bb_open(&run, input, len, BB_S("weigh"), 0);
    if (stands == BB_REFUSED)
        explain(input, len);
    free(input);
    while (stands == BB_GOING)
        stands = bb_turn(&run);
    char name[NAME];
    int64_t grams;
    while (stands == BB_RESTING && scanf("%31s %" SCNd64, name, &grams) == 2)
        stands = parcel_comes(&run, name, grams);
    if (stands == BB_RESTING)
        stands = write_document(&run) ? bb_finish(&run) : BB_MEMORY;
    bb_close(&run);
    return fflush(stdout) == 0 ? stands : fail("the parcels can't be told");
}
