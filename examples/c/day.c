/* A host in C that may be killed at any moment, and goes on as if nothing had happened. It holds a run of examples/day.bb.

       day examples/day.bb JOBS LOG TRACE

   JOBS has a line for each job, by rising time: TIME MINUTES DUE NAME. Each move of the run is in LOG before it is made.
   When the program is started again, it takes the run up from there: all that it has to know is on the blackboard. At the
   end of the day the whole trace is in TRACE. Its status is 0, or 1 if the host failed.
   bindings/python/examples/day.py is the same host in Python. */
#include "bb.h"

#include <inttypes.h>
#include <stdio.h>
#include <stdlib.h>
#include <string.h>

enum { PRESSES = 2, NAME = 32, PIECE = 4096, LOG_FAILED = 100 };

/* A job, and when it comes. */
struct job {
    int64_t time, minutes, due;
    char name[NAME];
};

/* A run, its log, and the jobs of the day. */
struct day {
    bb_run run;
    FILE *log;
    struct job *jobs;
    size_t count;
};

static int fail(const char *why)
{
    fprintf(stderr, "day: %s\n", why);
    return EXIT_FAILURE;
}

/* All bytes of a file, and a zero after them; or NULL. */
static uint8_t *read_file(const char *path, size_t *len)
{
    FILE *file = fopen(path, "rb");
    long size = file != NULL && fseek(file, 0, SEEK_END) == 0 ? ftell(file) : -1;
    uint8_t *bytes = size < 0 ? NULL : malloc((size_t)size + 1);
    if (bytes != NULL) {
        rewind(file);
        *len = fread(bytes, 1, (size_t)size, file);
        bytes[*len] = 0;
    }
    if (file != NULL)
        fclose(file);
    return bytes;
}

/* Reads the jobs of a file. Returns whether it could. */
static int read_jobs(struct day *day, const char *path)
{
    size_t len = 0, lines = 0;
    uint8_t *text = read_file(path, &len);
    if (text == NULL)
        return 0;
    for (size_t at = 0; at < len; at++)
        lines += text[at] == '\n';
    day->jobs = malloc((lines + 1) * sizeof *day->jobs);
    for (char *line = strtok((char *)text, "\n"); line != NULL && day->jobs != NULL; line = strtok(NULL, "\n")) {
        struct job *job = &day->jobs[day->count];
        day->count += sscanf(line, "%" SCNd64 " %" SCNd64 " %" SCNd64 " %31s", &job->time, &job->minutes, &job->due, job->name) == 4;
    }
    free(text);
    return day->jobs != NULL;
}

static int is_line(const uint8_t *line, size_t len, const char *wanted)
{
    return len == strlen(wanted) && memcmp(line, wanted, len) == 0;
}

/* How many bytes of a log are whole moves. A program that is killed while it writes one leaves a part of it, and has not
   made it. */
static size_t whole_moves(const uint8_t *log, size_t len)
{
    size_t whole = 0;
    int is_open = 0;
    for (size_t begin = 0, end; begin < len; begin = end) {
        const uint8_t *line = log + begin, *feed = memchr(line, '\n', len - begin);
        if (feed == NULL)
            break;
        end = (size_t)(feed - log) + 1;
        if (is_line(line, end - begin, "post\n") || is_line(line, end - begin, "answer\n"))
            is_open = 1;
        else if (is_line(line, end - begin, "end\n"))
            is_open = 0;
        if (!is_open)
            whole = end;
    }
    return whole;
}

/* Takes the run up as the moves of the log leave it, and keeps the log open for more. Returns how the run stands. */
static uint8_t begin(struct day *day, const char *input_path, const char *log_path)
{
    size_t input_len = 0, len = 0;
    uint64_t line = 0;
    uint8_t stands = LOG_FAILED;
    uint8_t *input = read_file(input_path, &input_len), *log = read_file(log_path, &len);
    if (log != NULL)
        len = whole_moves(log, len);
    day->log = fopen(log_path, "wb");
    if (input != NULL && day->log != NULL && (len == 0 || fwrite(log, 1, len, day->log) == len) && fflush(day->log) == 0)
        stands = bb_resume(&day->run, input, input_len, NULL, 0, 0, log, len, &line);
    free(input);
    free(log);
    return stands;
}

/* Writes the text of a move to the log, before it is made. */
static uint8_t keep(struct day *day, uint8_t move)
{
    size_t len = 0;
    uint8_t told = bb_history(&day->run, move, 0, NULL, 0, &len);
    uint8_t *text = told == BB_OK ? malloc(len) : NULL;
    if (told == BB_OK)
        told = text == NULL ? BB_MEMORY : bb_history(&day->run, move, 0, text, len, &len);
    if (told == BB_OK && (fwrite(text, 1, len, day->log) != len || fflush(day->log) != 0))
        told = LOG_FAILED;
    free(text);
    return told;
}

/* Makes turns until the run rests. */
static uint8_t rest(struct day *day, uint8_t stands)
{
    while (stands == BB_GOING) {
        uint8_t kept = keep(day, BB_MOVE_TURN);
        stands = kept == BB_OK ? bb_turn(&day->run) : kept;
    }
    return stands;
}

/* How many jobs have come. */
static size_t come(struct day *day)
{
    size_t count = 0;
    return bb_units(&day->run, BB_S("job"), NULL, 0, &count) == BB_OK ? count : day->count;
}

/* When something happens next: a job comes, or a press has printed its own. -1 at the end of the day. */
static int64_t next_minute(struct day *day)
{
    uint64_t presses[PRESSES], job;
    size_t there = 0, linked, coming = come(day);
    int64_t first = coming < day->count ? day->jobs[coming].time : -1, until;
    if (bb_units(&day->run, BB_S("press"), presses, PRESSES, &there) != BB_OK)
        return -1;
    for (size_t at = 0; at < there && at < PRESSES; at++)
        if (bb_links(&day->run, presses[at], BB_S("job"), &job, 1, &linked) == BB_OK && linked == 1
            && bb_int(&day->run, presses[at], BB_S("until"), &until) == BB_OK && (first < 0 || until < first))
            first = until;
    return first;
}

/* Asks for a job, as the unit of this number. */
static uint8_t ask_job(bb_run *run, uint64_t unit, const struct job *job)
{
    uint8_t asked = bb_ask_new(run, BB_S("job"));
    if (asked == BB_OK)
        asked = bb_ask_text(run, unit, BB_S("name"), (const uint8_t *)job->name, strlen(job->name));
    if (asked == BB_OK)
        asked = bb_ask_int(run, unit, BB_S("minutes"), job->minutes);
    if (asked == BB_OK)
        asked = bb_ask_int(run, unit, BB_S("due"), job->due);
    if (asked == BB_OK)
        asked = bb_ask_enter(run, unit, BB_S("tray"));
    return asked;
}

/* Reports to the run that it is this minute, and which jobs came. Returns how the run stands. */
static uint8_t post(struct day *day, int64_t minute)
{
    uint64_t today = 0, unit = bb_next(&day->run);
    size_t count = 0;
    uint8_t asked = bb_units(&day->run, BB_S("day"), &today, 1, &count);
    if (asked == BB_OK)
        asked = bb_ask_int(&day->run, today, BB_S("minute"), minute);
    for (size_t at = come(day); asked == BB_OK && at < day->count && day->jobs[at].time <= minute; at++)
        asked = ask_job(&day->run, unit++, &day->jobs[at]);
    if (asked == BB_OK)
        asked = keep(day, BB_MOVE_POST);
    return asked == BB_OK ? bb_post(&day->run) : asked;
}

/* Ends the run, and writes its whole trace. Returns whether it could. */
static int write_trace(struct day *day, const char *path)
{
    uint8_t bytes[PIECE];
    size_t len;
    FILE *trace = fopen(path, "wb");
    if (trace == NULL)
        return 0;
    bb_finish(&day->run);
    while (bb_read(&day->run, bytes, sizeof bytes, &len) == BB_OK && len > 0)
        fwrite(bytes, 1, len, trace);
    return (ferror(trace) == 0) & (fclose(trace) == 0);
}

int main(int count, char **words)
{
    struct day day = {BB_RUN_NONE, NULL, NULL, 0};
    if (bb_version() != BB_VERSION)
        return fail("the library is of another version than its header");
    if (count != 5)
        return fail("usage: day INPUT JOBS LOG TRACE");
    if (!read_jobs(&day, words[2]))
        return fail("the jobs can't be read");
    uint8_t stands = rest(&day, begin(&day, words[1], words[3]));
    for (int64_t minute; stands == BB_RESTING && (minute = next_minute(&day)) >= 0;)
        stands = rest(&day, post(&day, minute));
    int is_written = stands == BB_RESTING && write_trace(&day, words[4]);
    bb_close(&day.run);
    free(day.jobs);
    if (day.log != NULL)
        fclose(day.log);
    if (stands != BB_RESTING)
        fprintf(stderr, "day: the run has status %d\n", stands);
    return is_written ? EXIT_SUCCESS : fail("the day has no trace");
}
