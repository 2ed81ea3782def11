/* lus.h: Lustre V6 programs, and instances of their nodes that several threads call, each by a seat of its own.
 *
 * Link liblus.a, or liblus.so, whose number is that of LUS_VERSION. Nothing here waits, sleeps or starts a thread.
 *
 * Handles. A handle is a struct of the caller's that starts as LUS_NONE (zeros) and is then only given to these calls: never
 * copied, read or written. Each kind of handle is a type of its own. A handle is given to one call at a time. It may go to another
 * thread where a lock, a thread's start or join, or a sequentially consistent atomic orders that; so each thread has its own seat,
 * and seats of one instance are called at the same time. `lus_free` lets any handle go; a freed handle is LUS_NONE again.
 *
 * Wrong use. A null pointer, an empty handle, a handle of another kind behind a cast and an output handle that isn't empty give
 * LUS_HANDLE, and nothing is done. What can't be seen is the caller's: that a pointer points to a handle, an array is as long as is
 * said, a handle is no copy, no two calls have one at a time, and arguments of one call don't overlap. */
#ifndef LUS_H
#define LUS_H

#include <stddef.h>
#include <stdint.h>

#ifdef __cplusplus
extern "C" {
#endif

/* The number of these calls: another one has others, or other structs. */
#define LUS_VERSION 1

typedef struct { uint64_t live; void *kept; } lus_handle; /* what each handle has; not for callers */
typedef struct { lus_handle own; } lus_program;           /* an accepted program */
typedef struct { lus_handle own; } lus_seat;              /* a caller's place at an instance of a node */
typedef struct { lus_handle own; } lus_journal;           /* the entries of an instance that was closed */
typedef struct { lus_handle own; } lus_live;              /* an instance whose entries are handed out, and not kept */

#define LUS_NONE {{0, 0}}

typedef enum {
    LUS_OK = 0,
    LUS_BUSY = 1,     /* no entry was made: another seat has the machine */
    LUS_MEMORY = 2,   /* no entry was made: out of memory */
    LUS_FULL = 3,     /* no entry was made: the history has 4,294,967,295 entries */
    LUS_REFUSED = 4,  /* the text is refused: see lus_refusal and lus_explain */
    LUS_NO_SUCH = 5,  /* there is none of this name or number */
    LUS_VALUE = 6,    /* nothing was done: the inputs are no row of values, there is no such request, a line is none of the next entry, or a
                         name isn't one word */
    LUS_SHORT = 7,    /* done, but an array is too short: answer->count, or the like, says how long it has to be */
    LUS_HANDLE = 8,   /* nothing was done: wrong use of a handle, or a null pointer */
    LUS_SEATS = 9,    /* nothing was done: these aren't all seats of one instance */
    LUS_TEXT = 10,    /* nothing was done: the bytes are not UTF-8 */
    LUS_WRONG = 11    /* no entry was made: the line tells another reply than the instance gives */
} lus_status;

/* Why a text is refused: E1 to E11 as 1 to 11, with the place. For a cycle, `cycle` variables, whose names take `bytes` bytes
 * with a 0 behind each. */
typedef struct { uint32_t number, line, column, cycle; uint64_t bytes; } lus_refusal;

/* Kinds of values. */
enum { LUS_ABSENT = 0, LUS_BOOL = 1, LUS_INT = 2, LUS_ENUM = 3, LUS_STRUCT = 4 };

/* A value: of LUS_BOOL number is 0 or 1, of LUS_INT the number, of LUS_ENUM the number of the constructor of type `type`. A
 * structure is a LUS_STRUCT whose number is how many fields it has, and then its fields in declared order, which may be
 * structures again. What isn't used is 0. A row is one value for each input, or output, in declared order, or LUS_ABSENT where
 * its clock is not. */
typedef struct { uint32_t kind, type; int64_t number; } lus_value;

/* An input, an output or a field: its kind, for LUS_ENUM and LUS_STRUCT the number of its type, whether it is on a clock, and how
 * many bytes its name has. */
typedef struct { uint32_t kind, type, clocked, unused; uint64_t bytes; } lus_formal;

/* What a node costs, before anything runs: the orders that a step obeys at most, the places of the row on which steps are made, and
 * the bytes of an instance and of a saved state. Each is exact, or UINT64_MAX where it is that or more. */
typedef struct { uint64_t orders, row, instance_bytes, saved_bytes; } lus_bounds;

/* Requests. */
enum { LUS_STEP = 1, LUS_RESET = 2, LUS_SAVE = 3, LUS_RESTORE = 4, LUS_BURST = 5 };
/* Replies, and why a request is refused. */
enum { LUS_OUTPUTS = 1, LUS_DONE = 2, LUS_NOT_DONE = 3, LUS_ROWS = 4 };
enum { LUS_SHAPE = 1, LUS_PRESENCE = 2, LUS_FAULT = 3, LUS_NO_SAVE = 4 };

/* The reply to a request: one of the replies, why it was refused, and how many values the outputs are, heads of structures too.
 * After LUS_BUSY `count` is how many entries there are; after other errors it is 0. */
typedef struct { uint32_t kind, why; uint64_t count; } lus_answer;

/* An entry of a journal: the caller's number, the request and its slot, or how many rows a LUS_BURST has, the reply and why it was
 * refused, and how many values the inputs and the outputs are. */
typedef struct {
    uint32_t caller, request;
    uint64_t slot;
    uint32_t reply, why;
    uint64_t inputs, outputs;
} lus_entry;

/* The LUS_VERSION of the library. A host that isn't compiled with it, as one that loads it at run time, compares it with its own. */
uint32_t lus_version(void);

/* The program of a text of `bytes` bytes. `refusal` may be null, and `names` where `room` is 0. */
lus_status lus_compile(const char *text, size_t bytes, lus_program *program, lus_refusal *refusal, char *names, size_t room);

/* Why a text is refused, as the program `lus_explain` says it of a file of this name, without a 0 behind it: the place, what is wrong,
 * the line, and notes. `bytes` is how long it is. LUS_NO_SUCH where the text is accepted. */
lus_status lus_explain(const char *text, size_t text_bytes, const char *name, size_t name_bytes, char *explanation, size_t room,
                       uint64_t *bytes);

/* Nodes have numbers from 0. Names are written without a 0 behind them, as far as `room` goes; `bytes` is how long they are. */
lus_status lus_nodes(lus_program *, uint32_t *count);
lus_status lus_node(lus_program *, const char *name, size_t bytes, uint32_t *node);
lus_status lus_node_name(lus_program *, uint32_t node, uint64_t *bytes, char *name, size_t room);
lus_status lus_formals(lus_program *, uint32_t node, uint32_t *inputs, uint32_t *outputs);
lus_status lus_cost(lus_program *, uint32_t node, lus_bounds *);
lus_status lus_input(lus_program *, uint32_t node, uint32_t place, lus_formal *, char *name, size_t room);
lus_status lus_output(lus_program *, uint32_t node, uint32_t place, lus_formal *, char *name, size_t room);
lus_status lus_field(lus_program *, uint32_t structure, uint32_t place, lus_formal *, char *name, size_t room);
lus_status lus_constructor(lus_program *, uint32_t type, uint32_t constructor, uint64_t *bytes, char *name, size_t room);

/* The text of values as journals have it, as "(18, true)", without a 0 behind it. `bytes` is how long it is. */
lus_status lus_row_text(lus_program *, const lus_value *, size_t n, char *text, size_t room, uint64_t *bytes);

/* An instance of a node, with a seat for each of `count` callers: seats[k] is number k. */
lus_status lus_open(lus_program *, uint32_t node, lus_seat *seats, uint32_t count);

/* One call where the machine is free. On LUS_SHORT the call was made, and `lus_outputs` gives its reply again. `inputs` are for
 * LUS_STEP and LUS_BURST, `slot` (0 to 7) is for LUS_SAVE and LUS_RESTORE; of LUS_BURST it is how many rows the inputs are. */
lus_status lus_try_call(lus_seat *, uint32_t request, uint64_t slot, const lus_value *inputs, size_t n, lus_answer *, lus_value *outputs,
                        size_t room);
static inline lus_status lus_try_step(lus_seat *seat, const lus_value *inputs, size_t n, lus_answer *answer, lus_value *outputs,
                                      size_t room) {
    return lus_try_call(seat, LUS_STEP, 0, inputs, n, answer, outputs, room);
}

/* Several instants in one call: all of them or none, and one entry. `inputs` are `rows` rows of one length, one behind another,
 * and so are the outputs of the reply LUS_ROWS. More than 1,000 rows are refused as LUS_SHAPE, more than 65,535 are LUS_VALUE. */
static inline lus_status lus_try_burst(lus_seat *seat, uint64_t rows, const lus_value *inputs, size_t n, lus_answer *answer,
                                       lus_value *outputs, size_t room) {
    return lus_try_call(seat, LUS_BURST, rows, inputs, n, answer, outputs, room);
}

/* The reply to the seat's last call again; LUS_NO_SUCH before the first. */
lus_status lus_outputs(lus_seat *, lus_answer *, lus_value *outputs, size_t room);
lus_status lus_count(lus_seat *, uint64_t *entries);
lus_status lus_number(lus_seat *, uint32_t *number);

/* Two seats of one instance then know the same entries: what either has seen, the other's later calls come after. */
lus_status lus_meet(lus_seat *, lus_seat *);

/* Takes the machine, where it is free, for this seat alone: until `lus_release` every other seat's calls are LUS_BUSY, and this
 * handle is only released or freed. On LUS_BUSY `entries` is how many entries there are. */
lus_status lus_hold(lus_seat *, uint64_t *entries);
lus_status lus_release(lus_seat *);

/* Closes an instance, given all of its seats in any order; they are empty then. Otherwise they stay as they are. */
lus_status lus_close(lus_seat *seats, uint32_t count, lus_journal *);
lus_status lus_entries(lus_journal *, uint64_t *count);
lus_status lus_entry_at(lus_journal *, uint64_t place, lus_entry *, lus_value *inputs, size_t n, lus_value *outputs, size_t room);

/* The text of a journal, as `lus` prints it and `lus_draw` reads it, without a 0 behind it: `instance` is the instance's name,
 * `callers` are the callers' names in the order of their numbers, with a 0 behind each, `length` bytes in all. Names are words, as
 * journals are read back with them: LUS_VALUE where one has a blank or a line feed. */
lus_status lus_journal_text(lus_journal *, const char *instance, size_t instance_bytes, const char *callers, size_t length, char *text,
                            size_t room, uint64_t *bytes);

/* The line of one entry in that text; names as there. */
lus_status lus_entry_text(lus_journal *, uint64_t place, const char *callers, size_t length, char *text, size_t room, uint64_t *bytes);

/* A live instance of a node. It keeps its last entry and no other, so what it takes doesn't grow with its calls. It has no seats:
 * one call at a time has it, and any that comes meanwhile is LUS_HANDLE, as with an empty handle. */
lus_status lus_live_open(lus_program *, uint32_t node, lus_live *);

/* One call, as `lus_try_call`, of the caller 0. On LUS_SHORT the call was made, and `lus_live_entry` gives its reply again. */
lus_status lus_live_call(lus_live *, uint32_t request, uint64_t slot, const lus_value *inputs, size_t n, lus_answer *, lus_value *outputs,
                         size_t room);
static inline lus_status lus_live_step(lus_live *live, const lus_value *inputs, size_t n, lus_answer *answer, lus_value *outputs,
                                       size_t room) {
    return lus_live_call(live, LUS_STEP, 0, inputs, n, answer, outputs, room);
}

/* The last call's entry, until the next call; LUS_NO_SUCH before the first call, and behind a line that was replayed. */
lus_status lus_live_entry(lus_live *, lus_entry *, lus_value *inputs, size_t n, lus_value *outputs, size_t room);

/* The same entry as its line in a journal, with the name of its caller and a line feed: LUS_VALUE where that name has a blank or a line
 * feed. A journal is the line `instance NAME NODE`, the lines of all entries, and where the instance ended the line `entries COUNT`. */
lus_status lus_live_line(lus_live *, const char *caller, size_t length, char *text, size_t room, uint64_t *bytes);

/* Makes the entry of a line, with its line feed, where it is the right next one: given each line of a journal, the instance is where
 * that journal's was. LUS_WRONG where its reply is another, LUS_VALUE where it is no line of the next entry. */
lus_status lus_live_replay(lus_live *, const char *line, size_t bytes);
lus_status lus_live_count(lus_live *, uint64_t *entries);

/* Lets a handle of any kind go. */
lus_status lus_free(void *handle);

#ifdef __cplusplus
}
#endif
#endif
