/* Olivrescum for C (C99 on) and C++ (C++11 on): check, start and run charts and flat tables, and flatten charts.
 *
 * All tables, states and outputs are 16-bit words in the machine's own byte order, as paper 01 lays them out. The library
 * keeps nothing between calls, takes no memory but stack, and calls nothing of the C library but memcpy and memset. Every call
 * takes any words at all: it is proved to return one of the answers below, and which one.
 *
 * Each slice is a pointer and a length in words (not in bytes). A pointer may be null where its length is 0, and is aligned for
 * its words where it is not. The slices of one call must not overlap. What is lent as const is not written.
 *
 * Each call returns the number of its answer: 0 is done, the others are refusals (OLIVRESCUM_ANSWERS below). A refusal writes
 * nothing but the report.
 *
 * The report has eight words (enum olivrescum_report). Lend as many as you want to have, also none: word k is written where it
 * is lent, and words from the ninth on stay as they were. What a call does not count is 0; a refusal has only its place.
 *
 * crates/capi/specs/Calls.antt says all of this exactly.
 */
#ifndef OLIVRESCUM_H
#define OLIVRESCUM_H

#include <stddef.h>
#include <stdint.h>

#ifdef __cplusplus
extern "C" {
#endif

/* The words of a report. */
enum olivrescum_report {
    OLIVRESCUM_REPORT_PLACE = 0,      /* the number, at a refusal, of what OLIVRESCUM_ANSWERS names last */
    OLIVRESCUM_REPORT_MICROSTEPS = 1, /* of a run */
    OLIVRESCUM_REPORT_TAKEN = 2,      /* transitions taken, of a chart's run */
    OLIVRESCUM_REPORT_LEFT = 3,       /* and-states left, of a chart's run */
    OLIVRESCUM_REPORT_ENTERED = 4,    /* and-states entered, of a chart's run */
    OLIVRESCUM_REPORT_FIRED = 5,      /* rules fired, of a flat table's run */
    OLIVRESCUM_REPORT_OUTPUTS = 6,    /* outputs of a run, each a pair of words */
    OLIVRESCUM_REPORT_FLAT_WORDS = 7, /* words of the flat table that flattening wrote */
    OLIVRESCUM_REPORT_WORDS = 8       /* how many words a report has */
};

/* Lengths, in words, that are always enough. */
#define OLIVRESCUM_CHART_WORDS_MAX 3040 /* the longest chart */
#define OLIVRESCUM_STATE_WORDS_MAX 40   /* the longest state: 24 or-states or machines, and 16 variables */
#define OLIVRESCUM_OUTPUT_WORDS_MAX 512 /* 256 outputs, number and value each */
#define OLIVRESCUM_FLAT_ROOM_MAX 52162  /* the room that flattening a chart asks for */

/* The answers: number, name, sentence, and what the place names ("" where it is always 0). */
#define OLIVRESCUM_ANSWERS(X) \
    X(0, DONE, "done", "") \
    X(1, CHART_FORM, "chart: shorter than its header, of another form, or its total is not its length", "") \
    X(2, CHART_COUNT, "chart: a count of the header is out of range", "") \
    X(3, CHART_LAYOUT, "chart: an offset or the total does not fit the layout", "") \
    X(4, CHART_TREE, "chart: a state's kind, parent, initial word or item counts break the rules of the tree", "state") \
    X(5, CHART_SPAN, "chart: a span leaves its section, or a transition has over 8 literals", "state, or states + transition,") \
    X(6, CHART_LITERAL, "chart: a literal of unknown kind, or one that names nothing that it may name", "literal") \
    X(7, CHART_ITEM, "chart: an item of unknown kind, or one that names nothing that it may name", "item") \
    X(8, CHART_SOURCE, "chart: a transition's source is no and-state, or its trigger is no event or signal", "transition") \
    X(9, CHART_TARGETS, "chart: a transition's targets are not and-states that can be active together", "transition") \
    X(11, FLAT_FORM, "flat table: shorter than its header, of another form, or its total is not its length", "") \
    X(12, FLAT_COUNT, "flat table: a count of the header is out of range", "") \
    X(13, FLAT_LAYOUT, "flat table: an offset or the total does not fit the layout", "") \
    X(14, FLAT_MACHINE, "flat table: an initial state is not of its machine, or a state of no machine", "machine, or machines + state,") \
    X(15, FLAT_SPAN, "flat table: a guard's span leaves its section", "guard") \
    X(16, FLAT_LITERAL, "flat table: a guard holds a bad literal", "guard") \
    X(17, FLAT_ITEM, "flat table: an item of unknown kind, or one that names nothing that it may name", "item") \
    X(18, FLAT_RULE, "flat table: a field of a rule names nothing that it may name", "rule") \
    X(20, NO_EVENT, "there is no such event", "") \
    X(21, SIGNALS, "a signal is raised while 32 wait", "") \
    X(22, OUTPUTS, "an output beyond 256, or beyond the room lent for outputs", "") \
    X(23, MICROSTEPS, "signals still wait after 64 microsteps", "") \
    X(24, STATE, "the lent state has the wrong length, or is not a state of this table", "") \
    X(31, ROOM, "the room lent for the flat table is below the formula", "") \
    /* no answer has another number */

#define OLIVRESCUM_ANSWER_(number, name, sentence, place) OLIVRESCUM_##name = number,
enum olivrescum_answer {
    OLIVRESCUM_ANSWERS(OLIVRESCUM_ANSWER_)
};
#undef OLIVRESCUM_ANSWER_

/* Is this a chart table? */
uint32_t olivrescum_check_chart(const uint16_t *chart, size_t chart_words,
                                uint32_t *report, size_t report_words);

/* Writes the start state of a chart. A state has a word for each or-state and then one for each variable; lent with another
 * length it is refused (24). */
uint32_t olivrescum_start_chart(const uint16_t *chart, size_t chart_words,
                                uint16_t *state, size_t state_words,
                                uint32_t *report, size_t report_words);

/* Runs one event on a chart to the end of its macrostep. The state becomes the state after it. Each output is written as two
 * words, number and value, from the first word of outputs on; words behind them stay. */
uint32_t olivrescum_run_chart(const uint16_t *chart, size_t chart_words,
                              uint16_t *state, size_t state_words,
                              uint32_t event,
                              uint16_t *outputs, size_t outputs_words,
                              uint32_t *report, size_t report_words);

/* Writes a flat table of the chart into the front of the room: for every list of events it answers as the chart does. The
 * report has its length; words behind it stay. Refused (31) where the room is shorter than 01's formula. */
uint32_t olivrescum_flatten(const uint16_t *chart, size_t chart_words,
                            uint16_t *room, size_t room_words,
                            uint32_t *report, size_t report_words);

/* Is this a flat table? */
uint32_t olivrescum_check_flat(const uint16_t *flat, size_t flat_words,
                               uint32_t *report, size_t report_words);

/* Writes the start state of a flat table: a word for each machine and then one for each variable. */
uint32_t olivrescum_start_flat(const uint16_t *flat, size_t flat_words,
                               uint16_t *state, size_t state_words,
                               uint32_t *report, size_t report_words);

/* Runs one event on a flat table, as olivrescum_run_chart does on a chart. */
uint32_t olivrescum_run_flat(const uint16_t *flat, size_t flat_words,
                             uint16_t *state, size_t state_words,
                             uint32_t event,
                             uint16_t *outputs, size_t outputs_words,
                             uint32_t *report, size_t report_words);

/* What an answer means, in a sentence. */
#define OLIVRESCUM_SENTENCE_(number, name, sentence, place) case number: return sentence;
static inline const char *olivrescum_sentence(uint32_t answer)
{
    switch (answer) {
    OLIVRESCUM_ANSWERS(OLIVRESCUM_SENTENCE_)
    default: return "no answer of this library";
    }
}
#undef OLIVRESCUM_SENTENCE_

/* What the place of an answer names; "" where it names nothing. */
#define OLIVRESCUM_PLACE_NAME_(number, name, sentence, place) case number: return place;
static inline const char *olivrescum_place_name(uint32_t answer)
{
    switch (answer) {
    OLIVRESCUM_ANSWERS(OLIVRESCUM_PLACE_NAME_)
    default: return "";
    }
}
#undef OLIVRESCUM_PLACE_NAME_

#ifdef __cplusplus
}
#endif

#endif
