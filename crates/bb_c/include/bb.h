/* The blackboard shell as a library. Link `out/libbb_c.a` of this crate and then the kit's `c/lib*_c.a`, as
   `examples/c/try` does. See `docs/hosts/C_AND_PYTHON.md`. */
#ifndef BB_H
#define BB_H

#include <stddef.h>
#include <stdint.h>

#ifdef __cplusplus
extern "C" {
#endif

/* The version of the calls declared here. Check that `bb_version()`, the library's own, equals it. */
#define BB_VERSION 4

/* Modes of `bb_serve`. BB_UNITS runs the input and writes a document of the units that are left, not the trace. */
enum { BB_RUN = 0, BB_CHECK = 1, BB_COMPILE = 2, BB_UNITS = 3 };

/* How a call of `bb_serve`, or a run, ended. */
enum {
    BB_DONE = 0,    /* the run reached quiescence, or the check or bundle is written */
    BB_REFUSED = 2, /* the input is refused and the output says why; or no such mode, and the output is empty */
    BB_LIMIT = 3,   /* the run made all the cycles of its limit */
    BB_FULL = 4,    /* the run has no room for another unit or activation */
    BB_MEMORY = 5,  /* memory ran out; the output holds whole segments of the trace, or nothing */
    BB_ROOM = 6     /* the result is longer than the output, which is full of a prefix of it */
};

/* Returns the version of these calls. It is raised if a call is added, removed or changed in meaning. */
uint32_t bb_version(void);

/* ---- A whole run in one call */

/* Serves an input of `input_len` bytes as the program `bb` does without its natives, with at most `limit` cycles and no
   activation rated below `floor`. Writes the result into `output`, with no terminating byte, and its length in bytes
   into `written`. Returns how it ended. The input may be any bytes: if they are not UTF-8, or too many, it is refused.
   Sources with `native` are refused here; a run that the host holds has natives.

   The caller must make sure of the following, which nothing checks:

   - `input` points to `input_len` bytes that nobody changes during the call, `output` to `output_len` bytes that nobody
     else reads or changes during it, and `written` to an aligned `size_t`. No two of them overlap. Lengths are at most
     PTRDIFF_MAX. No pointer is null, except as told under "NULL for no bytes".
   - Several threads may make calls at the same time: calls share nothing. But no call is made from a signal handler, or
     from the forked child of a process that has threads.
   - `malloc`, `realloc` and `free` belong to one allocator. `malloc` and `realloc` align a block to each power of two
     up to 16 that divides its size.

   The call allocates memory by `malloc` and frees all of it: `output_len` bytes at once, however short the result is; a
   copy of the input; the blackboard, the codes and the pending activations; and all notes of one execution with their
   text. `limit` bounds neither memory nor time: it counts cycles, and one `do` may nest four loops over 65,536 units.
   If you run sources of strangers, bound the process from outside (RLIMIT_CPU, RLIMIT_AS). The call recurses over
   nested JSON, blocks and expressions, to bounded depths: a main thread has ample stack; try out a smaller one. */
uint8_t bb_serve(const uint8_t *input, size_t input_len, uint8_t mode, uint32_t limit, int64_t floor, uint8_t *output,
                 size_t output_len, size_t *written);

/* `bb_serve`, but a pointer to no bytes may be null, and so may `written`. */
static inline uint8_t bb_serve_nullable(const uint8_t *input, size_t input_len, uint8_t mode, uint32_t limit,
                                        int64_t floor, uint8_t *output, size_t output_len, size_t *written)
{
    const uint8_t no_input = 0;
    uint8_t no_output = 0;
    size_t not_wanted = 0;
    return bb_serve(input == NULL ? &no_input : input, input_len, mode, limit, floor,
                    output == NULL ? &no_output : output, output_len, written == NULL ? &not_wanted : written);
}

/* ---- A run that the host holds

   A host can begin a run, have it make some cycles, post what happened meanwhile, and have it continue. Pauses leave no
   mark in the trace: 3 cycles and then 4 write the same trace as 7.

       bb_run run = BB_RUN_NONE;
       uint8_t stands = bb_open(&run, input, input_len, BB_S(""), 0);
       while (stands == BB_GOING)
           stands = bb_turn(&run);
       bb_finish(&run);
       bb_close(&run);

   The caller must make sure of the following, besides the list of `bb_serve`. Nothing checks it:

   - The handle belongs to the caller, and what it points to belongs to the library, from `bb_open` to `bb_close`. A
     handle is initialized with BB_RUN_NONE, and only the library writes its fields. Of the copies of an open handle,
     only one is used. If an open handle is lost, its run leaks. A handle that has no run yet, or was closed, is told
     from one that has; one that was never initialized is not.
   - What a call writes to, including the handle, overlaps no other argument. What it only reads may overlap, as two
     equal literals do. The library copies the bytes that you pass. No pointer is null, except one to no bytes or to no
     room, for which this header passes another (below).
   - A run stays on the thread that opened it, because references to its texts are counted without locks. Runs share
     nothing, so each thread can have its own. No call is made from a signal handler, or from the forked child of a
     process that has threads. */

/* A run, or no run. */
typedef struct bb_run {
    void *at;
    uint8_t is_open;
} bb_run;

#define BB_RUN_NONE {NULL, 0}

/* A literal: its bytes and its length. */
#define BB_S(text) (const uint8_t *)(text), sizeof(text) - 1

/* What a call on a run returns. A move (`bb_open`, `bb_resume`, `bb_turn`, `bb_advance`, `bb_post`, `bb_answer`)
   returns the state of the run: BB_RESTING, BB_GOING, BB_DUE, or BB_FULL if it is over because there is no room for
   another unit or activation. Every call can return these:

   - BB_REFUSED: the input, a name or a value is refused. Nothing was done.
   - BB_MEMORY: memory ran out. If it ran out in this move or an earlier one, the run can only be read and closed, and
     the blackboard may be as it was in the middle of the move. After `bb_open` and `bb_resume` there is no run. Any
     other call did nothing, and may be tried again.
   - BB_MISUSE: the run does not exist, or was finished; for `bb_open` and `bb_resume`, it is already open; for
     `bb_post`, a native is due; for `bb_answer`, none is. Nothing was done, and the gathered asks stay. */
enum {
    BB_OK = 0,      /* the call was made */
    BB_NONE = 1,    /* nothing was found */
    BB_RESTING = 0, /* the trace has quiescence, and nothing can be chosen: only a post continues the run */
    BB_GOING = 3,   /* something can be chosen, or a turn reports quiescence */
    BB_DUE = 8,     /* a native is due: only `bb_answer` continues the run */
    BB_MISUSE = 9
};

/* Begins the run of an input, with no activation rated below `floor`: reports the initial units, and what the sources
   do about them. `natives` has the names of the natives, one a line, that sources may have: when such a source is to
   act, its native is due, and the host answers. Returns BB_GOING, even if nothing can be chosen, because only a turn
   reports quiescence; or BB_FULL. BB_REFUSED: `bb_refusal` and `bb_explain` say why. */
uint8_t bb_open(bb_run *run, const uint8_t *input, size_t input_len, const uint8_t *natives, size_t natives_len,
                int64_t floor);

/* Why `bb_open` refuses an input, with the same arguments. `bb_refusal` gives the line by which the program `bb` would
   refuse it (`refused compile NAME 3:14 1`), without a line feed. `bb_explain` gives a message for people, as the
   program writes it to standard error: what is wrong and, on lines below it, what the input has at that place. As many
   bytes as `to_len` allows are written into `to`, and the whole length into `len`. BB_NONE: the input is not refused.
   BB_REFUSED: the names of natives are not UTF-8. Both read the input again, and need no run. */
uint8_t bb_refusal(const uint8_t *input, size_t input_len, const uint8_t *natives, size_t natives_len, int64_t floor,
                   uint8_t *to, size_t to_len, size_t *len);
uint8_t bb_explain(const uint8_t *input, size_t input_len, const uint8_t *natives, size_t natives_len, int64_t floor,
                   uint8_t *to, size_t to_len, size_t *len);

/* Makes a cycle, or reports quiescence if nothing can be chosen. Does nothing if the run is at rest or over, or a
   native is due. */
uint8_t bb_turn(bb_run *run);

/* Makes at most `cycles` more cycles, then reports quiescence if nothing can be chosen. Ends early if a native is due:
   `bb_made` shows how many cycles were made. */
uint8_t bb_advance(bb_run *run, uint32_t cycles);

/* The number of cycles made so far. 0: none, or the run does not exist or was finished. */
uint64_t bb_made(bb_run *run);

/* Each of these calls adds an ask: to create a unit, give it a value or a link, take a link away, have it enter or
   leave a space, delete it, or say a text. The run gathers asks until they are posted, or answer for a native. Refused
   are bytes that are not UTF-8, an interval that ends before it begins, and a label or label set that the schema does
   not have. Any other fault of an ask is found when it is applied; the trace then has `refused ask I R`. */
uint8_t bb_ask_new(bb_run *run, const uint8_t *class_name, size_t class_name_len);
uint8_t bb_ask_int(bb_run *run, uint64_t unit, const uint8_t *slot, size_t slot_len, int64_t value);
uint8_t bb_ask_bool(bb_run *run, uint64_t unit, const uint8_t *slot, size_t slot_len, uint8_t value);
uint8_t bb_ask_interval(bb_run *run, uint64_t unit, const uint8_t *slot, size_t slot_len, int64_t low, int64_t high);
uint8_t bb_ask_text(bb_run *run, uint64_t unit, const uint8_t *slot, size_t slot_len, const uint8_t *value,
                    size_t value_len);
uint8_t bb_ask_label(bb_run *run, uint64_t unit, const uint8_t *slot, size_t slot_len, const uint8_t *set,
                     size_t set_len, const uint8_t *label, size_t label_len);
uint8_t bb_ask_link(bb_run *run, uint64_t unit, const uint8_t *slot, size_t slot_len, uint64_t other);
uint8_t bb_ask_unlink(bb_run *run, uint64_t unit, const uint8_t *slot, size_t slot_len, uint64_t other);
uint8_t bb_ask_enter(bb_run *run, uint64_t unit, const uint8_t *space, size_t space_len);
uint8_t bb_ask_leave(bb_run *run, uint64_t unit, const uint8_t *space, size_t space_len);
uint8_t bb_ask_delete(bb_run *run, uint64_t unit);
uint8_t bb_ask_say(bb_run *run, const uint8_t *text, size_t text_len);

/* Drops the asks gathered since the last post or answer. */
uint8_t bb_discard(bb_run *run);

/* Posts the gathered asks: they are applied in order, and the sources respond to the changes. Then no asks are
   gathered. BB_MISUSE: a native is due, which has to be answered first, and the asks stay. If the run is over, nothing
   is applied, and the asks are dropped. */
uint8_t bb_post(bb_run *run);

/* The unit on which a native is due, and the native's name. BB_NONE: no native is due. */
uint8_t bb_due(bb_run *run, uint64_t *unit, uint8_t *to, size_t to_len, size_t *len);

/* Answers for the native that is due with the gathered asks, perhaps none: they are applied in order, as if the native
   had been called and had asked for them. Then no asks are gathered. BB_MISUSE: no native is due, and the asks stay. */
uint8_t bb_answer(bb_run *run);

/* The number that the next new unit gets, gathered asks not counted. 0: the run does not exist or was finished. */
uint64_t bb_next(bb_run *run);

/* These calls look up what is on the blackboard between two moves. Each returns BB_OK; or BB_NONE, and writes nothing,
   if there is no such unit, its class has no such slot, the slot holds a value of another kind, or the run was
   finished. As many bytes as `to_len` allows are written into `to`, and the whole length into `len`: if that is more
   than `to_len`, the rest is missing. A label is given by its name. Partners are in the order in which they were
   linked; an ordinary slot has none. */
uint8_t bb_class(bb_run *run, uint64_t unit, uint8_t *to, size_t to_len, size_t *len);
uint8_t bb_int(bb_run *run, uint64_t unit, const uint8_t *slot, size_t slot_len, int64_t *value);
uint8_t bb_bool(bb_run *run, uint64_t unit, const uint8_t *slot, size_t slot_len, uint8_t *value);
uint8_t bb_interval(bb_run *run, uint64_t unit, const uint8_t *slot, size_t slot_len, int64_t *low, int64_t *high);
uint8_t bb_text(bb_run *run, uint64_t unit, const uint8_t *slot, size_t slot_len, uint8_t *to, size_t to_len,
                size_t *len);
uint8_t bb_label(bb_run *run, uint64_t unit, const uint8_t *slot, size_t slot_len, uint8_t *to, size_t to_len,
                 size_t *len);
uint8_t bb_links(bb_run *run, uint64_t unit, const uint8_t *slot, size_t slot_len, uint64_t *to, size_t to_len,
                 size_t *count);

/* What a slot holds. */
enum {
    BB_KIND_INT = 0,
    BB_KIND_TEXT = 1,
    BB_KIND_BOOL = 2,
    BB_KIND_LABEL = 3,
    BB_KIND_INTERVAL = 4,
    BB_KIND_LINK = 5    /* it is a link slot: `bb_links` has its partners */
};

/* The kind of a slot of a unit, so that one look reads it. BB_NONE: there is no such unit or slot. */
uint8_t bb_kind(bb_run *run, uint64_t unit, const uint8_t *slot, size_t slot_len, uint8_t *kind);

/* The units of a class and of the classes below it, in ascending order: as many as `to_len` allows are written into
   `to`, and their whole number into `count`. BB_NONE: there is no such class. */
uint8_t bb_units(bb_run *run, const uint8_t *class_name, size_t class_name_len, uint64_t *to, size_t to_len,
                 size_t *count);

/* The units in a space, as `bb_units` has those of a class. BB_NONE: there is no such space. */
uint8_t bb_members(bb_run *run, const uint8_t *space, size_t space_len, uint64_t *to, size_t to_len, size_t *count);

/* The agenda. `bb_pending` has the numbers of the pending activations, in ascending order; `bb_activation` of one of
   them the unit of its event (0: it has none), its base, its rating, which is the base plus the weights of the foci
   that match, and the name of its source; `bb_choice` the number of the one that the next cycle executes. A rating that
   has no room in 64 bits is INT64_MAX or INT64_MIN. BB_NONE: the activation is not pending, nothing can be chosen, or
   the run was finished. What is chosen is not known after BB_MEMORY of a move. */
uint8_t bb_pending(bb_run *run, uint64_t *to, size_t to_len, size_t *count);
uint8_t bb_activation(bb_run *run, uint64_t number, uint64_t *unit, int64_t *base, int64_t *rating, uint8_t *to,
                      size_t to_len, size_t *len);
uint8_t bb_choice(bb_run *run, uint64_t *number);

/* The blackboard as a document of initial units, which an input can have below its line `%units`: as many bytes as
   `to_len` allows are written into `to`, and the whole length into `len`. The units are named by new numbers there,
   from 1 without gaps. The document has no agenda, and no numbers of activations or cycles: an input with it begins a
   new run, and does not continue this one. Each call makes the document again. */
uint8_t bb_document(bb_run *run, uint8_t *to, size_t to_len, size_t *len);

/* What the sources of the run can cost: the maximum number of steps that an execution of any of their codes can make if
   no sequence that it finds has more than `found` units; a run has 65,536 units at most. UINT64_MAX: that many or more.
   `bb_creates` sets 1 if one of their codes has an op that creates a unit, else 0. */
uint8_t bb_most_steps(bb_run *run, uint32_t found, uint64_t *steps);
uint8_t bb_creates(bb_run *run, uint8_t *creates);

/* ---- The history of a run

   A host that may be killed keeps a log: it asks for the text of each move, and has it written to the log, before it
   makes the move. Then the input and the log restore the run, with its agenda and all numbers:

       uint8_t told = bb_history(&run, BB_MOVE_TURN, 0, text, sizeof text, &len);
       if (told != BB_OK || fwrite(text, 1, len, log) != len || fflush(log) != 0)
           return stop();
       stands = bb_turn(&run); */

/* The moves that `bb_history` has the text of. */
enum {
    BB_MOVE_TURN = 0,
    BB_MOVE_ADVANCE = 1, /* by `cycles` */
    BB_MOVE_POST = 2,    /* of the asks gathered so far */
    BB_MOVE_ANSWER = 3   /* with the asks gathered so far */
};

/* The text of a move that is about to be made, by its number: whole lines in the format of docs/users/formats/moves.md.
   As many bytes as `to_len` allows are written into `to`, and the whole length into `len`: if that is more than
   `to_len`, the rest is missing. `cycles` counts for an advance alone. The run and the gathered asks are unchanged, and
   the move is not made. BB_REFUSED: there is no such move; or an ask has a class, a slot or a space that is no name,
   which the format can't tell. `bb_discard` drops the asks then; the run would refuse such an ask anyway. */
uint8_t bb_history(bb_run *run, uint8_t step, uint32_t cycles, uint8_t *to, size_t to_len, size_t *len);

/* Begins the run of an input as `bb_open` does, and makes the moves of a history: texts of `bb_history`, one after the
   other, for an input, natives and a floor that are the same. The host need not answer for natives, as its answers are
   in the history. The run is as it was after these moves: units, numbers, agenda, cycles, and a native that is due. Its
   trace is read from its start, so a host that has it reads and drops it. Returns the state of the run, as a move does.
   BB_REFUSED, and there is no run: the history has a line that is wrong, and `line` is its number, from 1, or the one
   after the last if the history ends in a post or an answer; or the input is refused, or the names of natives or the
   history are not UTF-8, and `line` is 0. With any other status `line` is 0.

   If the host was killed while it wrote to its log, the log may end in the middle of a move, which was not made. Cut
   that off before: what comes after the last line feed, and then a last `post` or `answer` without its `end`. */
uint8_t bb_resume(bb_run *run, const uint8_t *input, size_t input_len, const uint8_t *natives, size_t natives_len,
                  int64_t floor, const uint8_t *history, size_t history_len, uint64_t *line);

/* ---- The trace, and the end of a run */

/* Reads the part of the trace that was not read yet: as many bytes as `to_len` allows are written into `to`, and their
   number into `len`, which is 0 once everything is read. Each byte is read once. After each move, all that it added to
   the trace can be read. A run keeps in memory what was not read: a host that does not need it calls `bb_skip` after
   each move, which discards it. */
uint8_t bb_read(bb_run *run, uint8_t *to, size_t to_len, size_t *len);
uint8_t bb_skip(bb_run *run);

/* Ends a run, and adds its end to the trace. It makes no cycle: if nothing can be chosen, it reports quiescence, unless
   that was reported already; if something can be chosen then, the run ends by its limit. Returns how the run ended:
   BB_DONE, BB_LIMIT, BB_FULL or BB_MEMORY. After that it can only be closed, or its trace be read: the blackboard is
   gone. BB_DUE: a native is due, and the run is as it was. */
uint8_t bb_finish(bb_run *run);

/* Closes a run, finished or not, and frees all its memory. The handle is BB_RUN_NONE afterwards, and such a handle may
   be closed too. */
void bb_close(bb_run *run);

/* ---- NULL for no bytes

   The functions above take no null pointer. With this header NULL may stand for no bytes, as in
   `bb_open(&run, input, input_len, NULL, 0, 0)`, and for no room: `bb_text(&run, unit, BB_S("name"), NULL, 0, &len)`
   asks for the length of a text alone. No bytes are read or written at NULL, whatever length comes with it. */

/* Returns a pointer that is not null: `bytes`, or, if it is null, one to no bytes. */
static inline const uint8_t *bb_bytes(const void *bytes)
{
    static const uint8_t none = 0;
    return bytes == NULL ? &none : (const uint8_t *)bytes;
}

/* A pointer to room that is not null, even if there is no room. */
static inline uint8_t *bb_room(void *room)
{
    static uint8_t none = 0;
    return room == NULL ? &none : (uint8_t *)room;
}

/* The same for room for units. */
static inline uint64_t *bb_unit_room(uint64_t *room)
{
    static uint64_t none = 0;
    return room == NULL ? &none : room;
}

/* How long what is at a pointer is: nothing is at NULL. */
static inline size_t bb_len(const void *at, size_t len)
{
    return at == NULL ? 0 : len;
}

static inline uint8_t bb_open_or_null(bb_run *run, const uint8_t *input, size_t input_len, const uint8_t *natives,
                                      size_t natives_len, int64_t floor)
{
    return bb_open(run, bb_bytes(input), bb_len(input, input_len), bb_bytes(natives), bb_len(natives, natives_len),
                   floor);
}

static inline uint8_t bb_resume_or_null(bb_run *run, const uint8_t *input, size_t input_len, const uint8_t *natives,
                                        size_t natives_len, int64_t floor, const uint8_t *history, size_t history_len,
                                        uint64_t *line)
{
    return bb_resume(run, bb_bytes(input), bb_len(input, input_len), bb_bytes(natives), bb_len(natives, natives_len),
                     floor, bb_bytes(history), bb_len(history, history_len), line);
}

static inline uint8_t bb_history_or_null(bb_run *run, uint8_t step, uint32_t cycles, uint8_t *to, size_t to_len,
                                         size_t *len)
{
    return bb_history(run, step, cycles, bb_room(to), bb_len(to, to_len), len);
}

static inline uint8_t bb_refusal_or_null(const uint8_t *input, size_t input_len, const uint8_t *natives,
                                         size_t natives_len, int64_t floor, uint8_t *to, size_t to_len, size_t *len)
{
    return bb_refusal(bb_bytes(input), bb_len(input, input_len), bb_bytes(natives), bb_len(natives, natives_len),
                      floor, bb_room(to), bb_len(to, to_len), len);
}

static inline uint8_t bb_explain_or_null(const uint8_t *input, size_t input_len, const uint8_t *natives,
                                         size_t natives_len, int64_t floor, uint8_t *to, size_t to_len, size_t *len)
{
    return bb_explain(bb_bytes(input), bb_len(input, input_len), bb_bytes(natives), bb_len(natives, natives_len),
                      floor, bb_room(to), bb_len(to, to_len), len);
}

static inline uint8_t bb_ask_text_or_null(bb_run *run, uint64_t unit, const uint8_t *slot, size_t slot_len,
                                          const uint8_t *value, size_t value_len)
{
    return bb_ask_text(run, unit, bb_bytes(slot), bb_len(slot, slot_len), bb_bytes(value), bb_len(value, value_len));
}

static inline uint8_t bb_ask_say_or_null(bb_run *run, const uint8_t *text, size_t text_len)
{
    return bb_ask_say(run, bb_bytes(text), bb_len(text, text_len));
}

static inline uint8_t bb_due_or_null(bb_run *run, uint64_t *unit, uint8_t *to, size_t to_len, size_t *len)
{
    return bb_due(run, unit, bb_room(to), bb_len(to, to_len), len);
}

static inline uint8_t bb_class_or_null(bb_run *run, uint64_t unit, uint8_t *to, size_t to_len, size_t *len)
{
    return bb_class(run, unit, bb_room(to), bb_len(to, to_len), len);
}

static inline uint8_t bb_text_or_null(bb_run *run, uint64_t unit, const uint8_t *slot, size_t slot_len, uint8_t *to,
                                      size_t to_len, size_t *len)
{
    return bb_text(run, unit, bb_bytes(slot), bb_len(slot, slot_len), bb_room(to), bb_len(to, to_len), len);
}

static inline uint8_t bb_label_or_null(bb_run *run, uint64_t unit, const uint8_t *slot, size_t slot_len, uint8_t *to,
                                       size_t to_len, size_t *len)
{
    return bb_label(run, unit, bb_bytes(slot), bb_len(slot, slot_len), bb_room(to), bb_len(to, to_len), len);
}

static inline uint8_t bb_links_or_null(bb_run *run, uint64_t unit, const uint8_t *slot, size_t slot_len, uint64_t *to,
                                       size_t to_len, size_t *count)
{
    return bb_links(run, unit, bb_bytes(slot), bb_len(slot, slot_len), bb_unit_room(to), bb_len(to, to_len), count);
}

static inline uint8_t bb_units_or_null(bb_run *run, const uint8_t *class_name, size_t class_name_len, uint64_t *to,
                                       size_t to_len, size_t *count)
{
    return bb_units(run, bb_bytes(class_name), bb_len(class_name, class_name_len), bb_unit_room(to),
                    bb_len(to, to_len), count);
}

static inline uint8_t bb_members_or_null(bb_run *run, const uint8_t *space, size_t space_len, uint64_t *to,
                                         size_t to_len, size_t *count)
{
    return bb_members(run, bb_bytes(space), bb_len(space, space_len), bb_unit_room(to), bb_len(to, to_len), count);
}

static inline uint8_t bb_pending_or_null(bb_run *run, uint64_t *to, size_t to_len, size_t *count)
{
    return bb_pending(run, bb_unit_room(to), bb_len(to, to_len), count);
}

static inline uint8_t bb_activation_or_null(bb_run *run, uint64_t number, uint64_t *unit, int64_t *base,
                                            int64_t *rating, uint8_t *to, size_t to_len, size_t *len)
{
    return bb_activation(run, number, unit, base, rating, bb_room(to), bb_len(to, to_len), len);
}

static inline uint8_t bb_document_or_null(bb_run *run, uint8_t *to, size_t to_len, size_t *len)
{
    return bb_document(run, bb_room(to), bb_len(to, to_len), len);
}

static inline uint8_t bb_read_or_null(bb_run *run, uint8_t *to, size_t to_len, size_t *len)
{
    return bb_read(run, bb_room(to), bb_len(to, to_len), len);
}

#define bb_open(...) bb_open_or_null(__VA_ARGS__)
#define bb_resume(...) bb_resume_or_null(__VA_ARGS__)
#define bb_history(...) bb_history_or_null(__VA_ARGS__)
#define bb_refusal(...) bb_refusal_or_null(__VA_ARGS__)
#define bb_explain(...) bb_explain_or_null(__VA_ARGS__)
#define bb_ask_text(...) bb_ask_text_or_null(__VA_ARGS__)
#define bb_ask_say(...) bb_ask_say_or_null(__VA_ARGS__)
#define bb_due(...) bb_due_or_null(__VA_ARGS__)
#define bb_class(...) bb_class_or_null(__VA_ARGS__)
#define bb_text(...) bb_text_or_null(__VA_ARGS__)
#define bb_label(...) bb_label_or_null(__VA_ARGS__)
#define bb_links(...) bb_links_or_null(__VA_ARGS__)
#define bb_units(...) bb_units_or_null(__VA_ARGS__)
#define bb_members(...) bb_members_or_null(__VA_ARGS__)
#define bb_pending(...) bb_pending_or_null(__VA_ARGS__)
#define bb_activation(...) bb_activation_or_null(__VA_ARGS__)
#define bb_document(...) bb_document_or_null(__VA_ARGS__)
#define bb_read(...) bb_read_or_null(__VA_ARGS__)
#define bb_serve(...) bb_serve_nullable(__VA_ARGS__)

#ifdef __cplusplus
}
#endif

#endif
