/* The public calls of Schotterei, for C. Link target/staticlib/libschotterei.a (./schotterei library); x86-64.
   Each table is lent by the caller as a pointer and a length, and is never kept; one that is declared as an array has just this
   length. No pointer may be NULL, not even one with the length 0. docs/TABLES.md has their layout. No call asks anything of what the tables hold: any contents are safe. Static tables,
   which are all zero, hold an empty guideline. examples/c has a program. */
#ifndef SCHOTTEREI_H
#define SCHOTTEREI_H

#include <stddef.h>
#include <stdint.h>

#ifdef __cplusplus
extern "C" {
#endif

/* The least lengths of the tables: cells of 32 bits, or bytes. */
#define SCHOTTEREI_ROWS 10920
#define SCHOTTEREI_PARTS 4096
#define SCHOTTEREI_PLAN 1640
#define SCHOTTEREI_WAITS 1024
#define SCHOTTEREI_TEXTS 65536
#define SCHOTTEREI_STATE 2952
/* Rows of the Changes table. */
#define SCHOTTEREI_CHANGES 1024
/* The cells and bytes of a value that a row shows. */
#define SCHOTTEREI_VALUE_CELLS 34
#define SCHOTTEREI_VALUE_BYTES 768

/* How a run ended. */
#define SCHOTTEREI_QUIET 1
#define SCHOTTEREI_BOUNDED 2
#define SCHOTTEREI_EXCEPTION 3

/* What an element of a value is, by its tag. */
#define SCHOTTEREI_UNKNOWN 0
#define SCHOTTEREI_TRUTH 1
#define SCHOTTEREI_INTEGER 2
#define SCHOTTEREI_REAL 3
#define SCHOTTEREI_TEXT 4

/* number: 0, or that of the refusal; then nothing has changed, but after a refused load nothing is loaded. ending and count: of a
   run, how it ended and the cycles that it enacted. place: of a refused load, where in the text; 0 else. */
typedef struct {
    uint32_t number;
    uint32_t ending;
    uint32_t count;
    uint64_t place;
} schotterei_outcome;

/* A row of the Changes table: its component, its property, and the tag and number of its new value. All zero is blank. */
typedef struct {
    uint32_t component;
    uint32_t property;
    uint32_t tag;
    uint32_t number;
} schotterei_change;

/* Loads a guideline from its text, afresh, at engine time 0: the tables are then those of every other call. Refused 1 to 6 and 10,
   with the place in the text; 6 at the text's length where a table is too short. All tables are zero after a refusal. */
schotterei_outcome schotterei_load(const uint8_t *text, size_t text_length, uint32_t *rows, size_t rows_length,
                                   uint32_t *parts, size_t parts_length, uint32_t *plan, size_t plan_length,
                                   uint8_t waits[SCHOTTEREI_WAITS], uint8_t *texts, size_t texts_length,
                                   uint32_t *state, size_t state_length);

/* Runs the engine for at most bound cycles. Refused 7: nothing is loaded, or an exception has stopped it; 6: the bound is over 256,
   or fewer than 1,024 rows are lent. What the Changes table held is ignored, and every row of it is blank after an accepted run. */
schotterei_outcome schotterei_run(const uint32_t *parts, size_t parts_length, uint8_t *texts, size_t texts_length,
                                  const uint32_t *plan, size_t plan_length, const uint8_t *waits, size_t waits_length,
                                  uint32_t *state, size_t state_length, schotterei_change *changes,
                                  size_t changes_length, uint64_t bound);

/* Sets the engine time, in seconds. Refused 7, or 6: over 4,294,967,295. */
schotterei_outcome schotterei_set_time(uint32_t *state, size_t state_length, uint64_t time);

/* Confirms the task with this number. Refused 7, or 8: there is no such task. */
schotterei_outcome schotterei_confirm(const uint32_t *plan, size_t plan_length, uint32_t *state, size_t state_length,
                                      uint64_t task);

/* Sends a trigger. Refused 7, or 6: over 48 bytes, or a byte over 127. One that no task has is done. */
schotterei_outcome schotterei_trigger(const uint8_t *texts, size_t texts_length, const uint32_t *plan, size_t plan_length,
                                      uint32_t *state, size_t state_length, const uint8_t *name, size_t name_length);

/* Adds a value to the data item with this number. tags[0] is 0 for one value, k + 1 for a list of k; the value, or each element, is a
   tag and a number behind it: 1 or 0 for true or false, an integer, thousandths of a real, or of a text 64 times its place among the
   lent bytes, and its length. Refused 7; 8: there is no such item; 9: the value is not of its type; 6: it passes a limit. */
schotterei_outcome schotterei_add(uint8_t *texts, size_t texts_length, const uint32_t *plan, size_t plan_length,
                                  uint32_t *state, size_t state_length, uint64_t item,
                                  const uint32_t *tags, size_t tags_length, const int64_t *numbers, size_t numbers_length,
                                  const uint8_t *bytes, size_t bytes_length);

/* What reading a row shows. */
#define SCHOTTEREI_NO_ROW 0
#define SCHOTTEREI_THERE 1
#define SCHOTTEREI_SHOWS_VALUE 2
#define SCHOTTEREI_SHOWS_STATE 3
#define SCHOTTEREI_SHOWS_CLASS 4
#define SCHOTTEREI_SHOWS_TYPE 5
#define SCHOTTEREI_SHOWS_TIME 6
#define SCHOTTEREI_SHOWS_COMPONENT 7

/* The states of a task. */
#define SCHOTTEREI_DORMANT 1
#define SCHOTTEREI_IN_PROGRESS 2
#define SCHOTTEREI_DISCARDED 3
#define SCHOTTEREI_COMPLETED 4

/* In the cells of a value: its shape is cells[0], 0 for one value, k + 1 for a list of k. From these on, of each of 16 elements its tag
   and its number: 1 or 0 for true or false; an integer, or thousandths of a real, and SCHOTTEREI_ZERO; of a text 64 times its place
   among the bytes, and its length. */
#define SCHOTTEREI_VALUE_TAGS 1
#define SCHOTTEREI_VALUE_NUMBERS 18
#define SCHOTTEREI_ZERO 2000000000

/* number: 0, or that of the refusal. shown: what is shown. first: the state, class, type or time, or the kind of a component; second:
   its number; 0 else. Classes: 1 data item, 3 plan, 5 enquiry, 6 action, 7 source; types as in docs/TABLES.md. */
typedef struct {
    uint32_t number;
    uint32_t shown;
    uint32_t first;
    uint32_t second;
} schotterei_row;

/* Reads a property of a component, by the numbers of docs/REPLAY.md. Refused 7: nothing is loaded; after an exception rows may be read.
   cells and bytes hold the value that is shown, and zeros where none is. */
schotterei_row schotterei_read(const uint8_t *texts, size_t texts_length, const uint32_t *plan, size_t plan_length,
                               const uint8_t *waits, size_t waits_length, const uint32_t *state, size_t state_length,
                               uint64_t kind, uint64_t component, uint64_t property,
                               uint32_t cells[SCHOTTEREI_VALUE_CELLS], uint8_t bytes[SCHOTTEREI_VALUE_BYTES]);

#ifdef __cplusplus
}
#endif

#endif
