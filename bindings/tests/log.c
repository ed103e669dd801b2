/* What a block of C on the pages for hosts that keep a log leaves to its reader: who calls it, and where the log is. */
#include "bb.h"

#include <stdio.h>

uint8_t logged_turn(bb_run *run, FILE *log);
uint8_t go_on(bb_run *run, const uint8_t *input, size_t input_len, const uint8_t *log, size_t log_len);

/* The block of the page. */

int main(int count, char **words)
{
    static uint8_t input[1 << 12], text[1 << 12], trace[1 << 12];
    bb_run run = BB_RUN_NONE, again = BB_RUN_NONE;
    FILE *file = count == 2 ? fopen(words[1], "rb") : NULL, *log = tmpfile();
    if (file == NULL || log == NULL)
        return 1;
    size_t len = fread(input, 1, sizeof input, file), text_len;
    fclose(file);
    if (bb_open(&run, input, len, BB_S("price"), 0) != BB_GOING || logged_turn(&run, log) != BB_RESTING)
        return 1;
    bb_close(&run);
    rewind(log);
    text_len = fread(text, 1, sizeof text, log);
    fclose(log);
    if (go_on(&again, input, len, text, text_len) != BB_RESTING || bb_finish(&again) != BB_DONE
        || bb_read(&again, trace, sizeof trace, &len) != BB_OK || fwrite(trace, 1, len, stdout) != len)
        return 1;
    bb_close(&again);
    return 0;
}
