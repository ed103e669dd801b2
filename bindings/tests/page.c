/* What a block of C on the pages for hosts leaves to its reader: the jobs that come, and who calls it. */
#include "bb.h"

#include <stdio.h>

static int next_job(int64_t *due)
{
    static const int64_t jobs[] = {4, 10};
    static size_t next = 0;
    if (next == sizeof jobs / sizeof *jobs)
        return 0;
    *due = jobs[next++];
    return 1;
}

void print_trace(bb_run *run);
uint8_t price(bb_run *run);
uint8_t drive(bb_run *run, uint8_t state);
uint8_t work(const uint8_t *input, size_t input_len);

/* The block of the page. */

int main(int count, char **words)
{
    static uint8_t input[1 << 12];
    FILE *file = count == 2 ? fopen(words[1], "rb") : NULL;
    if (file == NULL)
        return 1;
    size_t len = fread(input, 1, sizeof input, file);
    fclose(file);
    return work(input, len);
}
