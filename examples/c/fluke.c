/* Liver fluke on a wet field: loads the guideline, answers its enquiry with three depths, and prints the advice.
   ./schotterei library
   cc -Iinclude examples/c/fluke.c target/staticlib/libschotterei.a -o fluke
   ./fluke examples/guidelines/three_plots.pf */
#include <stdio.h>
#include "schotterei.h"

/* The components of the guideline, by their numbers in its text; kinds and properties are those of docs/REPLAY.md. */
enum { DOSE = 2, DEPTHS = 0, FLUKE_RISK = 1 };
enum { TASK = 0, DATA_ITEM = 1 };
enum { STATE = 6, VALUE = 42 };

/* The guideline and its state, lent to every call. */
static uint32_t rows[SCHOTTEREI_ROWS], parts[SCHOTTEREI_PARTS], plan[SCHOTTEREI_PLAN], state[SCHOTTEREI_STATE];
static uint8_t waits[SCHOTTEREI_WAITS], texts[SCHOTTEREI_TEXTS];
static schotterei_change changes[SCHOTTEREI_CHANGES];

/* Ends the program where a call is refused. */
static int refused(const char *call, schotterei_outcome outcome)
{
    if (outcome.number != 0)
        printf("%s: refused with %u at byte %llu\n", call, outcome.number, (unsigned long long)outcome.place);
    return outcome.number != 0;
}

static schotterei_outcome run(void)
{
    return schotterei_run(parts, SCHOTTEREI_PARTS, texts, SCHOTTEREI_TEXTS, plan, SCHOTTEREI_PLAN, waits, SCHOTTEREI_WAITS,
                          state, SCHOTTEREI_STATE, changes, SCHOTTEREI_CHANGES, 256);
}

/* The value that the last row read has shown. */
static uint32_t cells[SCHOTTEREI_VALUE_CELLS];
static uint8_t bytes[SCHOTTEREI_VALUE_BYTES];

static schotterei_row read_row(uint64_t kind, uint64_t component, uint64_t property)
{
    return schotterei_read(texts, SCHOTTEREI_TEXTS, plan, SCHOTTEREI_PLAN, waits, SCHOTTEREI_WAITS, state, SCHOTTEREI_STATE,
                           kind, component, property, cells, bytes);
}

int main(int count, char **words)
{
    static uint8_t text[16385];
    /* A list of three integers: its length and 1, then a tag and a number for each. */
    const uint32_t tags[] = {4, SCHOTTEREI_INTEGER, SCHOTTEREI_INTEGER, SCHOTTEREI_INTEGER};
    const int64_t numbers[] = {0, 12, 3, 15};
    FILE *file = count == 2 ? fopen(words[1], "rb") : NULL;
    if (!file) {
        fprintf(stderr, "usage: fluke GUIDELINE\n");
        return 2;
    }
    size_t length = fread(text, 1, sizeof text, file);
    fclose(file);

    if (refused("load", schotterei_load(text, length, rows, SCHOTTEREI_ROWS, parts, SCHOTTEREI_PARTS, plan, SCHOTTEREI_PLAN,
                                        waits, texts, SCHOTTEREI_TEXTS, state, SCHOTTEREI_STATE)))
        return 1;
    if (refused("run", run()))
        return 1;
    if (refused("add", schotterei_add(texts, SCHOTTEREI_TEXTS, plan, SCHOTTEREI_PLAN, state, SCHOTTEREI_STATE, DEPTHS,
                                      tags, 4, numbers, 4, bytes, 0)))
        return 1;
    if (refused("run", run()))
        return 1;
    printf("depths of 12, 3 and 15 cm: dose is %s\n",
           read_row(TASK, DOSE, STATE).first == SCHOTTEREI_IN_PROGRESS ? "in progress" : "not advised");

    if (refused("confirm", schotterei_confirm(plan, SCHOTTEREI_PLAN, state, SCHOTTEREI_STATE, DOSE)))
        return 1;
    schotterei_outcome last = run();
    if (refused("run", last))
        return 1;
    printf("dosed: quiet after %u cycles\n", last.count);
    if (read_row(DATA_ITEM, FLUKE_RISK, VALUE).shown == SCHOTTEREI_SHOWS_VALUE && cells[SCHOTTEREI_VALUE_TAGS] == SCHOTTEREI_TEXT)
        printf("fluke_risk = %.*s\n", (int)(cells[SCHOTTEREI_VALUE_NUMBERS] % 64), (const char *)bytes);
    return 0;
}
