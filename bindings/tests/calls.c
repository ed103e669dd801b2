/* What the calls of the library promise where a host makes a mistake. Its status is 0 if all hold; otherwise standard
   error has the line of the first that does not. What is wanted was worked out by hand. */
#include "bb.h"

#include <stdio.h>
#include <string.h>

#define WANT(is_so)                                                   \
    do {                                                              \
        if (!(is_so)) {                                               \
            fprintf(stderr, "calls: line %d: %s\n", __LINE__, #is_so); \
            return 1;                                                 \
        }                                                             \
    } while (0)

static const char input[] =
    "%schema\n"
    "{\"classes\":[{\"name\":\"box\",\"slots\":[{\"name\":\"weight\",\"kind\":\"int\"}]}]}\n"
    "%sources\n"
    "source weigh on box { when create box; rate 10; native; }\n";

/* Whether the trace that was not read yet is this. */
static int tells(bb_run *run, const char *wanted)
{
    uint8_t bytes[512];
    size_t len = 0;
    return bb_read(run, bytes, sizeof bytes, &len) == BB_OK && len == strlen(wanted) && memcmp(bytes, wanted, len) == 0;
}

/* A post while a native is due, and an answer while none is: nothing is taken, and the asks stay. */
static int asks_stay(void)
{
    bb_run run = BB_RUN_NONE;
    int64_t weight = -1;
    WANT(bb_open(&run, BB_S(input), BB_S("weigh"), 0) == BB_GOING);
    WANT(bb_ask_new(&run, BB_S("box")) == BB_OK);
    WANT(bb_answer(&run) == BB_MISUSE);
    WANT(tells(&run, ""));
    WANT(bb_post(&run) == BB_GOING);
    WANT(tells(&run, "post\ncreate 1 box\nend post 1\ntrigger 1 weigh unit 1 rating 10\n"));
    WANT(bb_turn(&run) == BB_DUE);
    WANT(tells(&run, "cycle 1 act 1 weigh unit 1 rating 10\n"));
    WANT(bb_ask_int(&run, 1, BB_S("weight"), 7) == BB_OK);
    WANT(bb_post(&run) == BB_MISUSE);
    WANT(tells(&run, ""));
    WANT(bb_int(&run, 1, BB_S("weight"), &weight) == BB_OK && weight == 0);
    WANT(bb_answer(&run) == BB_GOING);
    WANT(tells(&run, "set 1.weight\nend native 1\n"));
    WANT(bb_int(&run, 1, BB_S("weight"), &weight) == BB_OK && weight == 7);
    WANT(bb_finish(&run) == BB_DONE);
    WANT(bb_post(&run) == BB_MISUSE && bb_answer(&run) == BB_MISUSE);
    bb_close(&run);
    return 0;
}

/* Whether a call tells this of an input that `bb_open` refuses, with these natives, also if it is asked for its length
   alone, and if there is less room. */
static int explains(uint8_t (*call)(const uint8_t *, size_t, const uint8_t *, size_t, int64_t, uint8_t *, size_t, size_t *),
                    const char *data, const char *natives, const char *wanted)
{
    uint8_t text[512];
    size_t len = 0, whole = 0, part = strlen(wanted) / 2;
    const uint8_t *bytes = (const uint8_t *)data, *names = (const uint8_t *)natives;
    bb_run run = BB_RUN_NONE;
    WANT(bb_open(&run, bytes, strlen(data), names, strlen(natives), 0) == BB_REFUSED);
    WANT(call(bytes, strlen(data), names, strlen(natives), 0, bb_room(NULL), 0, &whole) == BB_OK);
    WANT(whole == strlen(wanted));
    text[part] = '!';
    WANT(call(bytes, strlen(data), names, strlen(natives), 0, text, part, &len) == BB_OK && len == whole);
    WANT(memcmp(text, wanted, part) == 0 && text[part] == '!');
    WANT(call(bytes, strlen(data), names, strlen(natives), 0, text, sizeof text, &len) == BB_OK && len == whole);
    WANT(memcmp(text, wanted, len) == 0);
    return 0;
}

/* Why an input is refused: the line, and the message, with the natives that the host has. */
static int refusals_are_told(void)
{
    static const char no_json[] = "%schema\n{";
    uint8_t text[] = "as it is";
    size_t len = 7;
    WANT(explains(bb_refusal, no_json, "", "refused schema 1") == 0);
    WANT(explains(bb_explain, no_json, "", "input:2:2: error[schema 1]: it is not JSON\n  | line 1 of %schema\n  | {\n  |  ^") == 0);
    WANT(explains(bb_refusal, input, "wiegh", "refused rule weigh 8") == 0);
    WANT(explains(bb_explain, input, "", "input: error[rule 8]: source weigh: there is no native of this name") == 0);
    WANT(bb_refusal(BB_S(input), BB_S("weigh"), 0, text, sizeof text, &len) == BB_NONE);
    WANT(bb_explain(BB_S(input), BB_S("weigh"), 0, text, sizeof text, &len) == BB_NONE);
    WANT(bb_refusal(BB_S(no_json), BB_S("\xff"), 0, text, sizeof text, &len) == BB_REFUSED);
    WANT(bb_explain(BB_S(no_json), BB_S("\xff"), 0, text, sizeof text, &len) == BB_REFUSED);
    WANT(len == 7 && memcmp(text, "as it is", sizeof text) == 0);
    return 0;
}

static const char shop[] =
    "%schema\n"
    "{\"labels\":[{\"name\":\"state\",\"values\":[\"waiting\",\"done\"]}],"
    "\"classes\":[{\"name\":\"job\",\"slots\":[{\"name\":\"name\",\"kind\":\"text\"},"
    "{\"name\":\"state\",\"kind\":\"label\",\"of\":\"state\"}],"
    "\"links\":[{\"name\":\"next\",\"to\":\"job\",\"many\":true,\"inverse\":\"last\"},"
    "{\"name\":\"last\",\"to\":\"job\",\"many\":true,\"inverse\":\"next\"}]}]}\n"
    "%units\n"
    "{\"units\":[{\"name\":\"a\",\"class\":\"job\",\"slots\":{\"name\":\"posters\"}},{\"name\":\"b\",\"class\":\"job\"}]}\n"
    "%sources\n"
    "source state on job { when create job; rate 1; native; }\n";

/* NULL stands for no bytes and for no room, whatever length comes with it. Arguments that are only read may be one. */
static int null_is_nothing(void)
{
    bb_run run = BB_RUN_NONE;
    uint64_t unit = 0;
    size_t len = 0;
    WANT(bb_open(&run, NULL, 7, NULL, 7, 0) == BB_REFUSED);
    WANT(bb_refusal(NULL, 7, NULL, 7, 0, NULL, 7, &len) == BB_OK && len == strlen("refused input sections"));
    WANT(bb_explain(NULL, 0, NULL, 0, 0, NULL, 0, &len) == BB_OK && len > 0);
    WANT(bb_open(&run, BB_S(shop), BB_S("state"), 0) == BB_GOING);
    WANT(bb_text(&run, 1, BB_S("name"), NULL, 7, &len) == BB_OK && len == strlen("posters"));
    WANT(bb_class(&run, 1, NULL, 0, &len) == BB_OK && len == strlen("job"));
    WANT(bb_units(&run, BB_S("job"), NULL, 2, &len) == BB_OK && len == 2);
    WANT(bb_ask_label(&run, 1, BB_S("state"), BB_S("state"), BB_S("done")) == BB_OK);
    WANT(bb_ask_link(&run, 1, BB_S("next"), 2) == BB_OK);
    WANT(bb_ask_text(&run, 2, BB_S("name"), NULL, 0) == BB_OK);
    WANT(bb_ask_say(&run, NULL, 0) == BB_OK);
    WANT(bb_post(&run) == BB_GOING);
    WANT(bb_label(&run, 1, BB_S("state"), NULL, 0, &len) == BB_OK && len == strlen("done"));
    WANT(bb_links(&run, 1, BB_S("next"), NULL, 1, &len) == BB_OK && len == 1);
    WANT(bb_text(&run, 2, BB_S("name"), NULL, 0, &len) == BB_OK && len == 0);
    WANT(bb_document(&run, NULL, 0, &len) == BB_OK && len > 100);
    WANT(bb_read(&run, NULL, 9, &len) == BB_OK && len == 0);
    WANT(bb_skip(&run) == BB_OK && tells(&run, ""));
    WANT(bb_turn(&run) == BB_DUE);
    WANT(bb_due(&run, &unit, NULL, 0, &len) == BB_OK && unit == 1 && len == strlen("state"));
    bb_close(&run);
    WANT(bb_serve(NULL, 0, BB_RUN, 1, 0, NULL, 0, NULL) == BB_ROOM);
    return 0;
}

/* What a handle without a run answers: one that was never opened, one that was closed, and one whose run was finished. */
static int a_handle_without_a_run(void)
{
    bb_run run = BB_RUN_NONE;
    size_t len = 7;
    for (int closed = 0; closed < 2; closed++) {
        WANT(bb_turn(&run) == BB_MISUSE && bb_advance(&run, 1) == BB_MISUSE && bb_finish(&run) == BB_MISUSE);
        WANT(bb_post(&run) == BB_MISUSE && bb_answer(&run) == BB_MISUSE && bb_discard(&run) == BB_MISUSE);
        WANT(bb_ask_delete(&run, 1) == BB_MISUSE && bb_ask_new(&run, BB_S("box")) == BB_MISUSE);
        WANT(bb_class(&run, 1, NULL, 0, &len) == BB_MISUSE && bb_document(&run, NULL, 0, &len) == BB_MISUSE && len == 7);
        WANT(bb_read(&run, NULL, 0, &len) == BB_MISUSE && len == 0 && bb_skip(&run) == BB_MISUSE);
        WANT(bb_made(&run) == 0 && bb_next(&run) == 0);
        len = 7;
        bb_close(&run);
        WANT(bb_open(&run, BB_S(input), BB_S("weigh"), 0) == BB_GOING);
        WANT(bb_open(&run, BB_S(input), BB_S("weigh"), 0) == BB_MISUSE);
        WANT(bb_turn(&run) == BB_RESTING && bb_next(&run) == 1);
        bb_close(&run);
    }
    return 0;
}

/* A log, as a host keeps it. */
typedef struct {
    uint8_t text[512];
    size_t len;
} history;

/* Whether a move has this text, also if it is asked for its length alone. It is appended to the log. */
static int keeps(history *log, bb_run *run, uint8_t step, uint32_t cycles, const char *wanted)
{
    size_t len = 0, whole = 0;
    uint8_t *at = log->text + log->len;
    if (bb_history(run, step, cycles, NULL, 9, &whole) != BB_OK || whole != strlen(wanted)
        || bb_history(run, step, cycles, at, sizeof log->text - log->len, &len) != BB_OK || len != whole)
        return 0;
    log->len += len;
    return memcmp(at, wanted, len) == 0;
}

/* Whether the history of this log is refused, or the input is, with this line. There is no run then. */
static int refuses(const char *data, const char *natives, const char *log, uint64_t wanted)
{
    bb_run run = BB_RUN_NONE;
    uint64_t line = 99;
    size_t len = 0;
    return bb_resume(&run, (const uint8_t *)data, strlen(data), (const uint8_t *)natives, strlen(natives), 0,
                     (const uint8_t *)log, strlen(log), &line) == BB_REFUSED
        && line == wanted && bb_read(&run, NULL, 0, &len) == BB_MISUSE;
}

/* The text of each move is had before it is made, and from these texts another run comes to the same. */
static int a_run_is_taken_up_again(void)
{
    bb_run run = BB_RUN_NONE, again = BB_RUN_NONE;
    history log = {{0}, 0};
    uint64_t line = 99, unit = 0, number = 0;
    int64_t weight = 0;
    size_t len = 7;
    uint8_t text[3] = "as";
    WANT(bb_history(&run, BB_MOVE_TURN, 0, NULL, 0, &len) == BB_MISUSE && len == 7);
    WANT(bb_open(&run, BB_S(input), BB_S("weigh"), 0) == BB_GOING);
    WANT(keeps(&log, &run, BB_MOVE_TURN, 7, "turn\n"));
    WANT(bb_turn(&run) == BB_RESTING);
    WANT(bb_ask_new(&run, BB_S("box")) == BB_OK && bb_ask_say(&run, BB_S("gr\xc3\xbcn \"1\"")) == BB_OK);
    WANT(keeps(&log, &run, BB_MOVE_POST, 0, "post\nnew box\nsay \"gr\xc3\xbcn \\\"1\\\"\"\nend\n"));
    WANT(bb_post(&run) == BB_GOING);
    WANT(keeps(&log, &run, BB_MOVE_ADVANCE, 4294967295, "advance 4294967295\n"));
    WANT(bb_advance(&run, 4294967295) == BB_DUE);
    WANT(bb_resume(&again, BB_S(input), BB_S("weigh"), 0, log.text, log.len, &line) == BB_DUE && line == 0);
    WANT(bb_due(&again, &unit, NULL, 0, &len) == BB_OK && unit == 1 && len == strlen("weigh"));
    line = 99;
    WANT(bb_resume(&again, BB_S(input), BB_S("weigh"), 0, log.text, log.len, &line) == BB_MISUSE && line == 0);
    bb_close(&again);

    /* The move is logged, and the host is killed before it is made. */
    WANT(bb_ask_int(&run, 1, BB_S("weight"), 7) == BB_OK && bb_ask_new(&run, BB_S("box")) == BB_OK);
    WANT(keeps(&log, &run, BB_MOVE_ANSWER, 0, "answer\nset 1 weight 7\nnew box\nend\n"));
    WANT(bb_resume(&again, BB_S(input), BB_S("weigh"), 0, log.text, log.len, &line) == BB_GOING);
    WANT(bb_int(&again, 1, BB_S("weight"), &weight) == BB_OK && weight == 7);
    WANT(bb_int(&run, 1, BB_S("weight"), &weight) == BB_OK && weight == 0);
    WANT(bb_answer(&run) == BB_GOING);
    WANT(bb_next(&run) == 3 && bb_next(&again) == 3 && bb_made(&run) == 1 && bb_made(&again) == 1);
    WANT(bb_choice(&run, &number) == BB_OK && number == 2 && bb_choice(&again, &number) == BB_OK && number == 2);
    for (int it = 0; it < 2; it++) {
        bb_run *one = it == 0 ? &run : &again;
        WANT(tells(one, "quiescence\npost\ncreate 1 box\nsay \"gr\xc3\xbcn \\\"1\\\"\"\nend post 2\ntrigger 1 weigh unit 1 rating 10\n"
                        "cycle 1 act 1 weigh unit 1 rating 10\nset 1.weight\ncreate 2 box\nend native 2\ntrigger 2 weigh unit 2 rating 10\n"));
        WANT(bb_turn(one) == BB_DUE && bb_answer(one) == BB_GOING && bb_turn(one) == BB_RESTING);
        WANT(tells(one, "cycle 2 act 2 weigh unit 2 rating 10\nend native 0\nquiescence\n"));
    }

    /* What has no text: a name that is none, a move that is none, and a run that was finished. */
    len = 7;
    WANT(bb_ask_new(&run, BB_S("a box")) == BB_OK);
    WANT(bb_history(&run, BB_MOVE_POST, 0, text, sizeof text, &len) == BB_REFUSED && len == 7 && memcmp(text, "as", 3) == 0);
    WANT(bb_history(&run, 4, 0, text, sizeof text, &len) == BB_REFUSED && len == 7);
    WANT(bb_discard(&run) == BB_OK && bb_history(&run, BB_MOVE_POST, 0, text, 2, &len) == BB_OK);
    WANT(len == strlen("post\nend\n") && memcmp(text, "po", 3) == 0);
    WANT(bb_finish(&run) == BB_DONE && bb_history(&run, BB_MOVE_TURN, 0, NULL, 0, &len) == BB_MISUSE);
    bb_close(&run);
    bb_close(&again);

    /* What is no history: a line that is cut, a post without its end, and bytes that are no text. */
    WANT(refuses(input, "weigh", "turn\nadva", 2));
    WANT(refuses(input, "weigh", "# morning\n\npost\n  new box\n  set 1 weight", 5));
    WANT(refuses(input, "weigh", "post\nnew box\n", 3));
    WANT(refuses(input, "weigh", "say \"\xc3", 0));
    WANT(refuses(input, "weigh\xff", "turn\n", 0));
    WANT(refuses(input, "", "turn\n", 0));
    WANT(refuses("%schema\n{", "", "nothing", 0));
    WANT(bb_resume(&run, BB_S(input), BB_S("weigh"), 0, NULL, 9, &line) == BB_GOING);
    bb_close(&run);
    return 0;
}

int main(void)
{
    return asks_stay() || refusals_are_told() || null_is_nothing() || a_handle_without_a_run() || a_run_is_taken_up_again();
}
