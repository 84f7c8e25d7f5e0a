/* The edges of the calls for C: null and empty slices on every call, and reports of other lengths than eight. Prints "ok", or
 * the first line that fails. */
#include <stdio.h>
#include <string.h>

#include "olivrescum.h"

/* What no call writes into a report here. */
#define UNTOUCHED 4000000000u

static int failed = 0;

#define EXPECT(fact) expect((fact), __LINE__, #fact)

static void expect(int holds, int line, const char *fact)
{
    if (!holds && !failed) {
        printf("edges.c:%d: %s\n", line, fact);
        failed = 1;
    }
}

/* Every slice null with length 0. */
static void try_null(void)
{
    EXPECT(olivrescum_check_chart(NULL, 0, NULL, 0) == OLIVRESCUM_CHART_FORM);
    EXPECT(olivrescum_start_chart(NULL, 0, NULL, 0, NULL, 0) == OLIVRESCUM_CHART_FORM);
    EXPECT(olivrescum_run_chart(NULL, 0, NULL, 0, 0, NULL, 0, NULL, 0) == OLIVRESCUM_CHART_FORM);
    EXPECT(olivrescum_flatten(NULL, 0, NULL, 0, NULL, 0) == OLIVRESCUM_CHART_FORM);
    EXPECT(olivrescum_check_flat(NULL, 0, NULL, 0) == OLIVRESCUM_FLAT_FORM);
    EXPECT(olivrescum_start_flat(NULL, 0, NULL, 0, NULL, 0) == OLIVRESCUM_FLAT_FORM);
    EXPECT(olivrescum_run_flat(NULL, 0, NULL, 0, 0, NULL, 0, NULL, 0) == OLIVRESCUM_FLAT_FORM);
}

/* The smallest chart: a root with one and-state, one event, and a transition of it that emits output 0. */
static const uint16_t CHART[] = {
    1, 41, 2, 1, 1, 0, 1, 0, 0, 0, 1, 16, 30, 38, 38, 38, /* header */
    0, 65535, 1, 0, 0, 0, 0,                              /* the root, an or-state */
    2, 0, 65535, 0, 0, 0, 0,                              /* its and-state */
    1, 0, 0, 0, 0, 1, 0, 0,                               /* the transition */
    0, 0, 0,                                              /* the item */
};
#define CHART_WORDS (sizeof CHART / sizeof CHART[0])

static uint16_t flat[OLIVRESCUM_FLAT_ROOM_MAX];
static size_t flat_words;

/* The report of a call must be these eight words, as many as are lent of `lent`, and the rest untouched. */
static void expect_report(const uint32_t *report, size_t lent, const uint32_t *values, int line)
{
    size_t k;

    for (k = 0; k < 12; k++)
        expect(report[k] == (k < lent && k < OLIVRESCUM_REPORT_WORDS ? values[k] : UNTOUCHED), line, "report");
}

static void clear(uint32_t *report)
{
    size_t k;

    for (k = 0; k < 12; k++)
        report[k] = UNTOUCHED;
}

/* All calls with a report of this length, which is lent as null where it is 0. */
static void try_report(size_t lent)
{
    static const uint32_t none[] = {0, 0, 0, 0, 0, 0, 0, 0};
    static const uint32_t chart_run[] = {0, 1, 1, 0, 0, 0, 1, 0};
    uint32_t flattened[] = {0, 0, 0, 0, 0, 0, 0, 0};
    uint32_t flat_run[] = {0, 1, 0, 0, 0, 1, 1, 0};
    uint32_t report[12];
    uint32_t *r = lent == 0 ? NULL : report;
    uint16_t state[2] = {7, 7};
    uint16_t outputs[3] = {7, 7, 7};

    flattened[OLIVRESCUM_REPORT_FLAT_WORDS] = (uint32_t)flat_words;

    clear(report);
    EXPECT(olivrescum_check_chart(CHART, CHART_WORDS, r, lent) == OLIVRESCUM_DONE);
    expect_report(report, lent, none, __LINE__);

    clear(report);
    EXPECT(olivrescum_start_chart(CHART, CHART_WORDS, state, 1, r, lent) == OLIVRESCUM_DONE);
    expect_report(report, lent, none, __LINE__);
    EXPECT(state[0] == 1 && state[1] == 7);

    clear(report);
    EXPECT(olivrescum_run_chart(CHART, CHART_WORDS, state, 1, 0, outputs, 3, r, lent) == OLIVRESCUM_DONE);
    expect_report(report, lent, chart_run, __LINE__);
    EXPECT(state[0] == 1 && outputs[0] == 0 && outputs[1] == 0 && outputs[2] == 7);

    clear(report);
    EXPECT(olivrescum_flatten(CHART, CHART_WORDS, flat, OLIVRESCUM_FLAT_ROOM_MAX, r, lent) == OLIVRESCUM_DONE);
    expect_report(report, lent, flattened, __LINE__);

    clear(report);
    EXPECT(olivrescum_check_flat(flat, flat_words, r, lent) == OLIVRESCUM_DONE);
    expect_report(report, lent, none, __LINE__);

    state[0] = 7;
    clear(report);
    EXPECT(olivrescum_start_flat(flat, flat_words, state, 1, r, lent) == OLIVRESCUM_DONE);
    expect_report(report, lent, none, __LINE__);
    EXPECT(state[0] == 0 && state[1] == 7);

    outputs[0] = outputs[1] = 7;
    clear(report);
    EXPECT(olivrescum_run_flat(flat, flat_words, state, 1, 0, outputs, 3, r, lent) == OLIVRESCUM_DONE);
    expect_report(report, lent, flat_run, __LINE__);
    EXPECT(state[0] == 0 && outputs[0] == 0 && outputs[1] == 0 && outputs[2] == 7);
}

/* Refusals, with one slice null and the others lent: nothing but the report is written, and that has only a place. */
static void try_refused(void)
{
    static const uint32_t none[] = {0, 0, 0, 0, 0, 0, 0, 0};
    static const uint32_t at_state_1[] = {1, 0, 0, 0, 0, 0, 0, 0};
    uint16_t damaged[CHART_WORDS];
    uint16_t state[1] = {1};
    uint16_t flat_state[1] = {0};
    uint16_t room[3] = {7, 7, 7};
    uint32_t report[12];

    memcpy(damaged, CHART, sizeof damaged);
    damaged[16 + 7] = 9;
    clear(report);
    EXPECT(olivrescum_check_chart(damaged, CHART_WORDS, report, 12) == OLIVRESCUM_CHART_TREE);
    expect_report(report, 12, at_state_1, __LINE__);

    clear(report);
    EXPECT(olivrescum_start_chart(CHART, CHART_WORDS, NULL, 0, report, 12) == OLIVRESCUM_STATE);
    expect_report(report, 12, none, __LINE__);
    EXPECT(olivrescum_start_flat(flat, flat_words, NULL, 0, NULL, 0) == OLIVRESCUM_STATE);

    clear(report);
    EXPECT(olivrescum_run_chart(CHART, CHART_WORDS, state, 1, 0, NULL, 0, report, 12) == OLIVRESCUM_OUTPUTS);
    expect_report(report, 12, none, __LINE__);
    EXPECT(olivrescum_run_flat(flat, flat_words, flat_state, 1, 0, NULL, 0, NULL, 0) == OLIVRESCUM_OUTPUTS);
    EXPECT(olivrescum_run_chart(CHART, CHART_WORDS, NULL, 0, 0, NULL, 0, NULL, 0) == OLIVRESCUM_STATE);
    EXPECT(olivrescum_run_flat(flat, flat_words, NULL, 0, 0, NULL, 0, NULL, 0) == OLIVRESCUM_STATE);
    EXPECT(olivrescum_run_chart(CHART, CHART_WORDS, state, 1, 4294967295u, room, 3, NULL, 0) == OLIVRESCUM_NO_EVENT);
    EXPECT(olivrescum_run_flat(flat, flat_words, flat_state, 1, 4294967295u, room, 3, NULL, 0) == OLIVRESCUM_NO_EVENT);

    clear(report);
    EXPECT(olivrescum_flatten(CHART, CHART_WORDS, NULL, 0, report, 12) == OLIVRESCUM_ROOM);
    expect_report(report, 12, none, __LINE__);
    EXPECT(olivrescum_flatten(CHART, CHART_WORDS, room, 3, NULL, 0) == OLIVRESCUM_ROOM);
    EXPECT(state[0] == 1 && flat_state[0] == 0 && room[0] == 7 && room[1] == 7 && room[2] == 7);
}

int main(void)
{
    static const size_t lengths[] = {0, 3, 8, 10};
    uint32_t report[OLIVRESCUM_REPORT_WORDS];
    size_t k;

    EXPECT(olivrescum_flatten(CHART, CHART_WORDS, flat, OLIVRESCUM_FLAT_ROOM_MAX, report, OLIVRESCUM_REPORT_WORDS)
           == OLIVRESCUM_DONE);
    flat_words = report[OLIVRESCUM_REPORT_FLAT_WORDS];
    try_null();
    for (k = 0; k < sizeof lengths / sizeof lengths[0]; k++)
        try_report(lengths[k]);
    try_refused();
    if (!failed)
        printf("ok\n");
    return failed;
}
