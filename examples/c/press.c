/* A host in C that schedules. It holds a run of examples/press.bb, whose first units are two presses. Jobs come on its
   standard input, by rising time, a line each: TIME HOURS DUE NAME. It posts each as it comes, and that a press is free
   when its job has ended, lets the sources decide, tells each decision, and at the end how many jobs are printed. Where
   a second file is named the trace goes there, of which `tools/see` makes a page. Its status is that in which the run
   ends, or 1 where the host itself failed.

       press examples/press.bb day.trace < examples/c/press.jobs */
#include "bb.h"

#include <inttypes.h>
#include <stdio.h>
#include <stdlib.h>
#include <string.h>

enum { PRESSES = 2, NAME = 32, PIECE = 4096 };

/* A job as it comes, or none. */
struct job {
    int64_t time, hours, due;
    char name[NAME];
    int is_there;
};

/* A run, the file for its trace, if there is one, the time, and when the job of each press ends (0: it has none). */
struct shop {
    bb_run run;
    FILE *trace;
    int64_t now, ends[PRESSES];
};

static int fail(const char *why)
{
    fprintf(stderr, "press: %s\n", why);
    return EXIT_FAILURE;
}

/* All bytes of a file, or NULL. */
static uint8_t *read_file(const char *path, size_t *len)
{
    FILE *file = fopen(path, "rb");
    long size = file != NULL && fseek(file, 0, SEEK_END) == 0 ? ftell(file) : -1;
    uint8_t *bytes = size < 0 ? NULL : malloc((size_t)size + 1);
    if (bytes != NULL) {
        rewind(file);
        *len = fread(bytes, 1, (size_t)size, file);
    }
    if (file != NULL)
        fclose(file);
    return bytes;
}

static struct job next_job(void)
{
    struct job job;
    job.is_there = scanf("%" SCNd64 " %" SCNd64 " %" SCNd64 " %31s", &job.time, &job.hours, &job.due, job.name) == 4;
    return job;
}

/* Reads what the run told since it was read last. */
static void read_trace(struct shop *shop)
{
    uint8_t bytes[PIECE];
    size_t len;
    while (bb_read(&shop->run, bytes, sizeof bytes, &len) == BB_OK && len > 0)
        if (shop->trace != NULL)
            fwrite(bytes, 1, len, shop->trace);
}

/* A unit's name, or as much of it as there is room for. */
static uint8_t read_name(bb_run *run, uint64_t unit, char name[NAME])
{
    size_t len = 0;
    uint8_t looked = bb_text(run, unit, BB_S("name"), (uint8_t *)name, NAME - 1, &len);
    name[len < NAME ? len : NAME - 1] = 0;
    return looked;
}

/* Tells that a press begins a job. */
static uint8_t tell_begin(struct shop *shop, uint64_t press, uint64_t job)
{
    bb_run *run = &shop->run;
    char press_name[NAME], job_name[NAME];
    int64_t hours, due;
    uint8_t looked = read_name(run, press, press_name);
    if (looked == BB_OK)
        looked = read_name(run, job, job_name);
    if (looked == BB_OK)
        looked = bb_int(run, job, BB_S("hours"), &hours);
    if (looked == BB_OK)
        looked = bb_int(run, job, BB_S("due"), &due);
    if (looked != BB_OK)
        return looked;
    int64_t end = shop->ends[press - 1] = shop->now + hours;
    printf("%" PRId64 ": %s begins %s, until %" PRId64 "%s\n", shop->now, press_name, job_name, end,
           end > due ? ", late" : "");
    return BB_OK;
}

/* Tells what was decided: which job each press has that had none. Returns how the looks went. */
static uint8_t tell(struct shop *shop)
{
    uint8_t looked = BB_OK;
    for (uint64_t press = 1; press <= PRESSES && looked == BB_OK; press++) {
        uint64_t job;
        size_t count;
        if (shop->ends[press - 1] != 0)
            continue;
        looked = bb_links(&shop->run, press, BB_S("job"), &job, 1, &count);
        if (looked == BB_OK && count == 1)
            looked = tell_begin(shop, press, job);
    }
    return looked;
}

/* Posts what was asked, unless a call failed, makes turns until the run rests, and tells what was decided. Returns
   BB_RESTING, or why it does not. */
static uint8_t decide(struct shop *shop, uint8_t asked)
{
    uint8_t stands = asked == BB_OK ? bb_post(&shop->run) : asked;
    while (stands == BB_GOING)
        stands = bb_turn(&shop->run);
    read_trace(shop);
    return stands == BB_RESTING ? tell(shop) : stands;
}

/* A job comes, as the next unit. */
static uint8_t job_comes(struct shop *shop, const struct job *job)
{
    bb_run *run = &shop->run;
    uint64_t unit = bb_next(run);
    uint8_t asked = bb_ask_new(run, BB_S("job"));
    if (asked == BB_OK)
        asked = bb_ask_text(run, unit, BB_S("name"), (const uint8_t *)job->name, strlen(job->name));
    if (asked == BB_OK)
        asked = bb_ask_int(run, unit, BB_S("hours"), job->hours);
    if (asked == BB_OK)
        asked = bb_ask_int(run, unit, BB_S("due"), job->due);
    if (asked == BB_OK)
        asked = bb_ask_enter(run, unit, BB_S("tray"));
    shop->now = job->time;
    return decide(shop, asked);
}

static uint8_t press_is_free(struct shop *shop, int press)
{
    shop->now = shop->ends[press];
    shop->ends[press] = 0;
    return decide(shop, bb_ask_bool(&shop->run, (uint64_t)press + 1, BB_S("free"), 1));
}

/* Tells how many jobs the blackboard has as printed. */
static void tell_printed(struct shop *shop)
{
    static const char printed[] = "printed";
    uint8_t state[NAME];
    size_t len, count = 0;
    for (uint64_t unit = 1; unit < bb_next(&shop->run); unit++)
        if (bb_label(&shop->run, unit, BB_S("state"), state, sizeof state, &len) == BB_OK)
            count += len == strlen(printed) && memcmp(state, printed, len) == 0;
    printf("%zu jobs are printed\n", count);
}

/* The press whose job ends first, or -1 where none has one. */
static int first_to_end(const struct shop *shop)
{
    int first = -1;
    for (int press = 0; press < PRESSES; press++)
        if (shop->ends[press] != 0 && (first < 0 || shop->ends[press] < shop->ends[first]))
            first = press;
    return first;
}

/* Takes what happens outside in its order, as long as the run comes to rest after it. Returns how the run stands. */
static uint8_t work(struct shop *shop, uint8_t stands)
{
    struct job job = next_job();
    while (stands == BB_RESTING) {
        int press = first_to_end(shop);
        if (press >= 0 && (!job.is_there || shop->ends[press] <= job.time)) {
            stands = press_is_free(shop, press);
        } else if (job.is_there) {
            stands = job_comes(shop, &job);
            job = next_job();
        } else {
            break;
        }
    }
    return stands;
}

int main(int count, char **words)
{
    if (bb_version() != BB_VERSION)
        return fail("the library is of another version than its header");
    if (count != 2 && count != 3)
        return fail("usage: press INPUT [TRACE] < JOBS");
    size_t len;
    uint8_t *input = read_file(words[1], &len);
    if (input == NULL)
        return fail("the input can't be read");
    struct shop shop = {BB_RUN_NONE, NULL, 0, {0}};
    if (count == 3 && (shop.trace = fopen(words[2], "wb")) == NULL)
        return fail("the trace can't be written");
    uint8_t stands = bb_open(&shop.run, input, len, BB_S(""), 0);
    free(input);
    while (stands == BB_GOING)
        stands = bb_turn(&shop.run);
    stands = work(&shop, stands);
    if (stands == BB_RESTING) {
        tell_printed(&shop);
        stands = bb_finish(&shop.run);
        read_trace(&shop);
    }
    bb_close(&shop.run);
    if (shop.trace != NULL && fclose(shop.trace) != 0)
        return fail("the trace can't be written");
    return fflush(stdout) == 0 ? stands : fail("the decisions can't be written");
}
