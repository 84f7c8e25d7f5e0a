/* Runs a chart and its flat table on the same events, and shows a refused call.
 *
 *     aid [FILE]      FILE is a chart of little-endian 16-bit words, charts/aid.chart where none is given
 */
#include <stdio.h>
#include <string.h>

#include "olivrescum.h"

#define CHART_HEADER_WORDS 16
#define STATE_RECORD_WORDS 7

/* Header words that both tables have at the same place: a chart's states or a flat table's machines, and the variables. */
#define HEADER_COUNT 2
#define HEADER_VARIABLES 7

static const uint32_t EVENTS[] = {0, 3, 2, 2, 1, 0, 2};
#define EVENT_COUNT (sizeof EVENTS / sizeof EVENTS[0])

/* A table that is run: which call runs it, its words, and its state. */
struct machine {
    const char *name;
    uint32_t (*run)(const uint16_t *, size_t, uint16_t *, size_t, uint32_t, uint16_t *, size_t, uint32_t *, size_t);
    const uint16_t *table;
    size_t table_words;
    uint16_t state[OLIVRESCUM_STATE_WORDS_MAX];
    size_t state_words;
};

/* What a run of one event gave. */
struct outcome {
    uint32_t answer;
    uint32_t report[OLIVRESCUM_REPORT_WORDS];
    uint16_t outputs[OLIVRESCUM_OUTPUT_WORDS_MAX];
};

/* Reads the words of a file, the low byte first. Returns how many, or -1 where the file cannot be read, is too long or ends
 * within a word. */
static long read_words(const char *path, uint16_t *words, size_t most)
{
    FILE *file = fopen(path, "rb");
    long count = 0;
    int low, high = 0;

    if (file == NULL)
        return -1;
    while ((low = getc(file)) != EOF && (high = getc(file)) != EOF && (size_t)count < most)
        words[count++] = (uint16_t)(low + 256 * high);
    if (low != EOF || ferror(file))
        count = -1;
    fclose(file);
    return count;
}

/* A word as the signed number that it stands for. */
static int signed_of(uint16_t word)
{
    return word < 32768 ? word : (int)word - 65536;
}

/* The rest of a line on a refusal: its number and place, what it means, and what the place names. */
static void print_refusal(uint32_t answer, const uint32_t *report)
{
    const char *named = olivrescum_place_name(answer);

    printf(" refused, %u at %u: %s", (unsigned)answer, (unsigned)report[OLIVRESCUM_REPORT_PLACE],
           olivrescum_sentence(answer));
    if (named[0] != '\0')
        printf(": %s %u", named, (unsigned)report[OLIVRESCUM_REPORT_PLACE]);
    printf("\n");
}

/* The line of an event: microsteps, the counts of a chart or of a flat table, and the outputs as number:value. */
static void print_outcome(const struct machine *m, uint32_t event, const struct outcome *o)
{
    const uint32_t *report = o->report;
    uint32_t k;

    printf("%-5s event %u:", m->name, (unsigned)event);
    if (o->answer != OLIVRESCUM_DONE) {
        print_refusal(o->answer, report);
        return;
    }
    printf(" microsteps %u", (unsigned)report[OLIVRESCUM_REPORT_MICROSTEPS]);
    if (m->run == olivrescum_run_chart)
        printf(", taken %u, left %u, entered %u", (unsigned)report[OLIVRESCUM_REPORT_TAKEN],
               (unsigned)report[OLIVRESCUM_REPORT_LEFT], (unsigned)report[OLIVRESCUM_REPORT_ENTERED]);
    else
        printf(", fired %u", (unsigned)report[OLIVRESCUM_REPORT_FIRED]);
    printf(", outputs");
    for (k = 0; k < report[OLIVRESCUM_REPORT_OUTPUTS]; k++)
        printf(" %u:%d", (unsigned)o->outputs[2 * k], signed_of(o->outputs[2 * k + 1]));
    printf("\n");
}

static void run_event(struct machine *m, uint32_t event, struct outcome *o)
{
    memset(o, 0, sizeof *o);
    o->answer = m->run(m->table, m->table_words, m->state, m->state_words, event, o->outputs, OLIVRESCUM_OUTPUT_WORDS_MAX,
                       o->report, OLIVRESCUM_REPORT_WORDS);
    print_outcome(m, event, o);
}

/* Whether two runs gave the same answer, microsteps and outputs, and left the same variables. */
static int agree(const struct machine *a, const struct outcome *x, const struct machine *b, const struct outcome *y)
{
    size_t variables = a->table[HEADER_VARIABLES];

    return x->answer == y->answer
        && x->report[OLIVRESCUM_REPORT_MICROSTEPS] == y->report[OLIVRESCUM_REPORT_MICROSTEPS]
        && x->report[OLIVRESCUM_REPORT_OUTPUTS] == y->report[OLIVRESCUM_REPORT_OUTPUTS]
        && memcmp(x->outputs, y->outputs, sizeof x->outputs) == 0
        && memcmp(a->state + a->state_words - variables, b->state + b->state_words - variables,
                  variables * sizeof(uint16_t)) == 0;
}

/* How many or-states an accepted chart has: each has a word in its state. */
static size_t or_states(const uint16_t *chart)
{
    size_t count = 0, k;

    for (k = 0; k < chart[HEADER_COUNT]; k++)
        if (chart[CHART_HEADER_WORDS + STATE_RECORD_WORDS * k] < 2)
            count++;
    return count;
}

/* Prints what the check says of a copy of an accepted chart whose state 1 is of no kind. */
static void show_refusal(const uint16_t *chart, size_t words)
{
    static uint16_t damaged[OLIVRESCUM_CHART_WORDS_MAX];
    uint32_t report[OLIVRESCUM_REPORT_WORDS];
    uint32_t answer;

    memcpy(damaged, chart, words * sizeof(uint16_t));
    damaged[CHART_HEADER_WORDS + STATE_RECORD_WORDS] = 9;
    answer = olivrescum_check_chart(damaged, words, report, OLIVRESCUM_REPORT_WORDS);
    printf("damaged chart:");
    print_refusal(answer, report);
}

/* Whether an answer is done; a refusal is printed. */
static int is_done(const char *what, uint32_t answer, const uint32_t *report)
{
    if (answer == OLIVRESCUM_DONE)
        return 1;
    printf("%s:", what);
    print_refusal(answer, report);
    return 0;
}

/* Checks the chart and starts it. */
static int start_chart(struct machine *m, const uint16_t *table, size_t words)
{
    uint32_t report[OLIVRESCUM_REPORT_WORDS];

    if (!is_done("chart", olivrescum_check_chart(table, words, report, OLIVRESCUM_REPORT_WORDS), report))
        return 0;
    m->name = "chart";
    m->run = olivrescum_run_chart;
    m->table = table;
    m->table_words = words;
    m->state_words = or_states(table) + table[HEADER_VARIABLES];
    return is_done("chart", olivrescum_start_chart(table, words, m->state, m->state_words, report, OLIVRESCUM_REPORT_WORDS),
                   report);
}

/* Flattens the chart into the room, and starts the flat table. */
static int start_flat(struct machine *m, const struct machine *chart, uint16_t *room, size_t room_words)
{
    uint32_t report[OLIVRESCUM_REPORT_WORDS];

    if (!is_done("flattening", olivrescum_flatten(chart->table, chart->table_words, room, room_words, report,
                                                  OLIVRESCUM_REPORT_WORDS), report))
        return 0;
    m->name = "flat";
    m->run = olivrescum_run_flat;
    m->table = room;
    m->table_words = report[OLIVRESCUM_REPORT_FLAT_WORDS];
    m->state_words = (size_t)room[HEADER_COUNT] + room[HEADER_VARIABLES];
    return is_done("flat", olivrescum_start_flat(room, m->table_words, m->state, m->state_words, report,
                                                 OLIVRESCUM_REPORT_WORDS), report);
}

/* Runs all events on both tables. Returns on how many they agree. */
static size_t run_both(struct machine *chart, struct machine *flat)
{
    static struct outcome x, y;
    size_t same = 0, k;

    for (k = 0; k < EVENT_COUNT; k++) {
        run_event(chart, EVENTS[k], &x);
        run_event(flat, EVENTS[k], &y);
        same += (size_t)agree(chart, &x, flat, &y);
    }
    return same;
}

int main(int argc, char **argv)
{
    static uint16_t table[OLIVRESCUM_CHART_WORDS_MAX], room[OLIVRESCUM_FLAT_ROOM_MAX];
    static struct machine chart, flat;
    const char *path = argc > 1 ? argv[1] : "charts/aid.chart";
    long words = read_words(path, table, OLIVRESCUM_CHART_WORDS_MAX);
    size_t same;

    if (words < 0) {
        fprintf(stderr, "aid: cannot read a chart from %s\n", path);
        return 2;
    }
    if (!start_chart(&chart, table, (size_t)words) || !start_flat(&flat, &chart, room, OLIVRESCUM_FLAT_ROOM_MAX))
        return 1;
    printf("chart of %u words, flat table of %u words\n", (unsigned)words, (unsigned)flat.table_words);
    same = run_both(&chart, &flat);
    printf("chart and flat table agree on %u of %u events\n", (unsigned)same, (unsigned)EVENT_COUNT);
    show_refusal(table, (size_t)words);
    return same == EVENT_COUNT ? 0 : 1;
}
