/* Calls the library on a table, for bench/run to measure from outside.
 *
 *   drive check-chart|run-chart|stack-chart CHART EVENTS
 *   drive check-flat|run-flat|stack-flat FLAT EVENTS
 *   drive flatten CHART FLAT
 *
 * Tables are files of little-endian words, events are bytes. There is one call for each event; runs go from the start state on,
 * the state carried from event to event. check and run print the sum of all output words, stack the most bytes of stack that a
 * run took; flatten writes the flat table to FLAT.
 */
#include <stdio.h>
#include <stdlib.h>
#include <string.h>

#include "olivrescum.h"

enum { OUTPUT_WORDS = 64, EVENTS_MAX = 4096, STACK_BYTES = 8192, PAINT = 0x5a };

/* The calls of a form, the chart's or the flat table's. */
struct form {
    uint32_t (*check)(const uint16_t *, size_t, uint32_t *, size_t);
    uint32_t (*start)(const uint16_t *, size_t, uint16_t *, size_t, uint32_t *, size_t);
    uint32_t (*run)(const uint16_t *, size_t, uint16_t *, size_t, uint32_t, uint16_t *, size_t, uint32_t *, size_t);
};

static const struct form chart = {olivrescum_check_chart, olivrescum_start_chart, olivrescum_run_chart};
static const struct form flat = {olivrescum_check_flat, olivrescum_start_flat, olivrescum_run_flat};

static uint16_t table[OLIVRESCUM_FLAT_ROOM_MAX], room[OLIVRESCUM_FLAT_ROOM_MAX];
static uint16_t state[OLIVRESCUM_STATE_WORDS_MAX], outputs[OUTPUT_WORDS];
static uint32_t report[OLIVRESCUM_REPORT_WORDS];
static size_t table_words, state_words;
static unsigned long sum, most;

static void fail(const char *what, const char *why)
{
    fprintf(stderr, "drive: %s: %s\n", what, why);
    exit(1);
}

static void must_be_done(const char *what, uint32_t answer)
{
    if (answer != OLIVRESCUM_DONE)
        fail(what, olivrescum_sentence(answer));
}

static size_t read_file(const char *path, void *to, size_t size, size_t most_of_them)
{
    FILE *file = fopen(path, "rb");
    size_t number;

    if (file == NULL)
        fail(path, "cannot be read");
    number = fread(to, size, most_of_them, file);
    fclose(file);
    return number;
}

static void write_words(const char *path, const uint16_t *words, size_t number)
{
    FILE *file = fopen(path, "wb");

    if (file == NULL || fwrite(words, sizeof *words, number, file) != number || fclose(file) != 0)
        fail(path, "cannot be written");
}

/* Lends a start ever more words until it takes them: it tests only the length. */
static void start(const struct form *form)
{
    uint32_t answer = OLIVRESCUM_STATE;

    for (state_words = 0; state_words < OLIVRESCUM_STATE_WORDS_MAX && answer != OLIVRESCUM_DONE; state_words++)
        answer = form->start(table, table_words, state, state_words + 1, report, OLIVRESCUM_REPORT_WORDS);
    must_be_done("start", answer);
}

static void check(const struct form *form, uint32_t event)
{
    (void)event;
    must_be_done("check", form->check(table, table_words, report, OLIVRESCUM_REPORT_WORDS));
}

static inline __attribute__((always_inline)) uint32_t run_call(const struct form *form, uint32_t event)
{
    return form->run(table, table_words, state, state_words, event, outputs, OUTPUT_WORDS, report, OLIVRESCUM_REPORT_WORDS);
}

static void run(const struct form *form, uint32_t event)
{
    uint32_t k;

    must_be_done("run", run_call(form, event));
    for (k = 0; k < 2 * report[OLIVRESCUM_REPORT_OUTPUTS]; k++)
        sum += outputs[k];
}

/* Paints the stack below this function's frame, runs the event, and looks how far down the paint is gone. Arguments that go over
 * the stack and the return address are among the bytes. */
static __attribute__((noinline)) void stack(const struct form *form, uint32_t event)
{
    volatile unsigned char *top, *at;
    uint32_t answer;

    __asm__ volatile("mov %%rsp, %0" : "=r"(top));
    for (at = top - STACK_BYTES; at < top; at++)
        *at = PAINT;
    answer = run_call(form, event);
    for (at = top - STACK_BYTES; at < top && *at == PAINT; at++)
        ;
    if ((unsigned long)(top - at) > most)
        most = top - at;
    must_be_done("run", answer);
}

/* What is done with each event. */
static const struct {
    const char *name;
    const struct form *form;
    void (*each)(const struct form *, uint32_t);
    const unsigned long *result;
} works[] = {
    {"check-chart", &chart, check, &sum},  {"check-flat", &flat, check, &sum},
    {"run-chart", &chart, run, &sum},      {"run-flat", &flat, run, &sum},
    {"stack-chart", &chart, stack, &most}, {"stack-flat", &flat, stack, &most},
};

static void work(const char *name, const char *events_path)
{
    static unsigned char events[EVENTS_MAX];
    size_t number = read_file(events_path, events, 1, EVENTS_MAX), k, e;

    for (k = 0; k < sizeof works / sizeof works[0]; k++) {
        if (strcmp(works[k].name, name) != 0)
            continue;
        start(works[k].form);
        for (e = 0; e < number; e++)
            works[k].each(works[k].form, events[e]);
        printf("%lu\n", *works[k].result);
        return;
    }
    fail(name, "no such call");
}

static void flatten(const char *path)
{
    uint32_t answer = olivrescum_flatten(table, table_words, room, OLIVRESCUM_FLAT_ROOM_MAX, report, OLIVRESCUM_REPORT_WORDS);

    must_be_done("flatten", answer);
    write_words(path, room, report[OLIVRESCUM_REPORT_FLAT_WORDS]);
}

int main(int count, char **words)
{
    if (count != 4)
        fail("usage", "drive CALL TABLE EVENTS, or drive flatten CHART FLAT");
    table_words = read_file(words[2], table, sizeof table[0], OLIVRESCUM_FLAT_ROOM_MAX);
    if (strcmp(words[1], "flatten") == 0)
        flatten(words[3]);
    else
        work(words[1], words[3]);
    return 0;
}
