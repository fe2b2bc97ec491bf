/*
 * Measures the library against C that climbs and C with the library's method, each built by two compilers, and prints five tables in
 * Markdown. First every measured call is made once on every side, and any difference in answers or bytes ends the program with
 * status 1; then the sides are timed in turn, and the shortest time of each is shown, of a C side that of the quicker compiler.
 * The one argument is a sentence on how the program was built and is run, which is printed on top.
 */
#define _POSIX_C_SOURCE 199309L

#include "fidhaqooban.h"
#include "sheets.h"
#include "sides.h"

#include "../tests/format.h"

#include <stdbool.h>
#include <stdio.h>
#include <stdlib.h>
#include <string.h>
#include <time.h>

/* How many elements an array has. */
#define LENGTH(array) (sizeof(array) / sizeof((array)[0]))

/* What fills an output before a call; some of a record's numbers, in the order in which fq_write takes them; the ticks of the log. */
enum { UNTOUCHED = 0xA5, DEADLINE = 2, PERIOD = 3, PRIORITY = 4, LOG_TICKS = 10000 };

/* The columns: the library, and each C side as either compiler built it. */
enum { LIBRARY, COMPILERS = 2, COLUMNS = 1 + METHODS * COMPILERS };

/* The bytes of a sheet and its number of tasks. */
struct packed {
    uint8_t bytes[FQ_SHEET_BYTES];
    size_t len;
    size_t count;
};

/* One measured use of a side; answers and bytes are compared with the library's. */
typedef int64_t measured_use(const struct side *side, const struct packed *sheet, uint8_t *out);

/*
 * One line of a table. A count of 0 takes the sheet's own; a deadline that is not 0 takes the place of the one in the
 * record at the place (from 0). The times are the shortest so far.
 */
struct row {
    const char *name;
    measured_use *use;
    const struct sheet *sheet;
    uint8_t count;
    uint8_t place;
    uint16_t deadline;
    const char *reason;
    double seconds[COLUMNS];
};

/* How a row is timed after its check: at least so many repetitions, each so long, and so long in all. */
struct effort {
    int repetitions;
    double each;
    double all;
};

/* One table: by which rule its sides are asked, and its rows. */
struct table {
    const char *title;
    int rule;
    struct row *rows;
    size_t count;
    struct effort effort;
};

/* The library's calls by each rule. */
static const struct side library_sides[RULES] = {
    {fq_judge, fq_rewrite, fq_response, fq_verdict, fq_least_interval, fq_next, fq_list, fq_replay},
    {fq_judge, fq_rewrite, fq_assured_response, fq_verdict, fq_least_interval, fq_assured_next, fq_assured_list, fq_replay},
};

/* What the columns of the C sides are headed. */
static const char *const method_names[METHODS] = {"climbing C", "C, same method"};

/* The side of a column of a table. */
static const struct side *side_of(int rule, int column)
{
    if (column == LIBRARY) {
        return &library_sides[rule];
    }
    int method = (column - 1) / COMPILERS;
    return (column - 1) % COMPILERS == 0 ? &gcc_sides[rule][method] : &clang_sides[rule][method];
}

/* What each side writes, and the log that is replayed. */
static uint8_t outputs[COLUMNS][FQ_LIST_BYTES];
static uint8_t busy_log[LOG_TICK_BYTES * LOG_TICKS];

/* Judges a sheet. */
static int64_t use_judge(const struct side *side, const struct packed *sheet, uint8_t *out)
{
    (void)out;
    return side->judge(sheet->bytes, sheet->len);
}

/* Reads and writes a sheet. */
static int64_t use_rewrite(const struct side *side, const struct packed *sheet, uint8_t *out)
{
    return side->rewrite(sheet->bytes, sheet->len, out, FQ_SHEET_BYTES);
}

/* Asks for the response of each record. */
static int64_t use_responses(const struct side *side, const struct packed *sheet, uint8_t *out)
{
    for (size_t place = 0; place < sheet->count; place++) {
        int64_t answer = side->response(sheet->bytes, sheet->len, place);
        memcpy(out + place * sizeof answer, &answer, sizeof answer);
    }
    return 0;
}

/* Asks for the response of the first record. */
static int64_t use_response(const struct side *side, const struct packed *sheet, uint8_t *out)
{
    (void)out;
    return side->response(sheet->bytes, sheet->len, 0);
}

/* Asks for the verdict. */
static int64_t use_verdict(const struct side *side, const struct packed *sheet, uint8_t *out)
{
    (void)out;
    return side->verdict(sheet->bytes, sheet->len);
}

/* Asks for the least interval. */
static int64_t use_least_interval(const struct side *side, const struct packed *sheet, uint8_t *out)
{
    (void)out;
    return side->least_interval(sheet->bytes, sheet->len);
}

/* Asks for the first passing choice. */
static int64_t use_next(const struct side *side, const struct packed *sheet, uint8_t *out)
{
    (void)out;
    return side->next(sheet->bytes, sheet->len, 0);
}

/* Walks from before the first choice to the end, and answers how many choices pass. */
static int64_t use_walk(const struct side *side, const struct packed *sheet, uint8_t *out)
{
    int64_t steps = 0;
    uint32_t choice = (uint32_t)side->next(sheet->bytes, sheet->len, 0);
    while (choice != 0) {
        memcpy(out + (size_t)steps * sizeof choice, &choice, sizeof choice);
        choice = (uint32_t)side->next(sheet->bytes, sheet->len, choice);
        steps++;
    }
    return steps;
}

/* Lists the passing choices into room for all of them. */
static int64_t use_list(const struct side *side, const struct packed *sheet, uint8_t *out)
{
    return side->list(sheet->bytes, sheet->len, out, FQ_LIST_BYTES);
}

/* Fills the log of the everyday sheet in which each task and each fault comes as soon as it may. */
static void fill_log(void)
{
    for (size_t tick = 0; tick < LOG_TICKS; tick++) {
        for (size_t place = 0; place < everyday.count; place++) {
            const uint16_t *fields = everyday.fields + FQ_RECORD_NUMBERS * place;
            if (tick % fields[PERIOD] == 0) {
                busy_log[LOG_TICK_BYTES * tick] |= (uint8_t)(1u << (fields[PRIORITY] - 1));
            }
        }
        busy_log[LOG_TICK_BYTES * tick + 1] = tick % everyday.interval == 0 ? FAULT_BIT : 0;
    }
}

/* Replays a log of LOG_TICKS ticks. */
static int64_t use_replay(const struct side *side, const struct packed *sheet, uint8_t *out)
{
    uint64_t counts[FQ_COUNTS];
    int64_t answer = side->replay(sheet->bytes, sheet->len, busy_log, sizeof busy_log, counts, FQ_COUNTS);
    memcpy(out, counts, sizeof counts);
    return answer;
}

/* Makes calls that are refused, each for another reason, and lists into one byte too little. */
static int64_t use_refused(const struct side *side, const struct packed *sheet, uint8_t *out)
{
    size_t len = sheet->len;
    size_t passing = (size_t)side->list(sheet->bytes, len, out, FQ_LIST_BYTES);
    uint64_t counts[FQ_COUNTS];
    memset(out, UNTOUCHED, FQ_LIST_BYTES);
    int64_t answers[] = {
        side->judge(sheet->bytes, 2),
        side->verdict(sheet->bytes, len - 1),
        side->least_interval(sheet->bytes + 1, len - 1),
        side->response(sheet->bytes, len, sheet->count),
        side->next(sheet->bytes, len, 1),
        side->rewrite(sheet->bytes, len, out, len - 1),
        side->list(sheet->bytes, len, out, CHOICE_BYTES * passing - 1),
        side->replay(sheet->bytes, len, busy_log, 3, counts, FQ_COUNTS),
        side->replay(sheet->bytes, len, busy_log, sizeof busy_log, counts, FQ_COUNTS - 1),
    };
    memcpy(out + FQ_LIST_BYTES - sizeof answers, answers, sizeof answers);
    return (int64_t)passing;
}

/* The first table. */
static struct row main_rows[] = {
    {.name = "judge a sheet of 8", .use = use_judge, .sheet = &everyday},
    {.name = "rewrite a sheet of 8", .use = use_rewrite, .sheet = &everyday},
    {.name = "all 8 responses", .use = use_responses, .sheet = &everyday},
    {.name = "verdict on 8 tasks, passing", .use = use_verdict, .sheet = &everyday},
    {.name = "list of 8 tasks, all 40320 pass", .use = use_list, .sheet = &everyday},
    {.name = "list of 8 tasks, 20160 pass", .use = use_list, .sheet = &everyday, .place = 3, .deadline = 170},
    {.name = "list of 8 tasks, none: second record late", .use = use_list, .sheet = &everyday, .place = 1,
     .deadline = 115},
    {.name = "list of 8 tasks, none: last record late", .use = use_list, .sheet = &everyday, .place = 7, .deadline = 29},
    {.name = "least interval of 8 tasks, 171", .use = use_least_interval, .sheet = &everyday},
    {.name = "one step of the walk of 8 tasks", .use = use_next, .sheet = &everyday},
    {.name = "walk through all 720 of 6 tasks", .use = use_walk, .sheet = &everyday, .count = 6},
    {.name = "replay of 10000 ticks of 8 tasks", .use = use_replay, .sheet = &everyday},
};

/* The rows of one call in the second table, on the first n records of the everyday sheet. */
#define GROWTH(NAME, USE) \
    {.name = NAME ", n = 1", .use = USE, .sheet = &everyday, .count = 1}, \
    {.name = NAME ", n = 2", .use = USE, .sheet = &everyday, .count = 2}, \
    {.name = NAME ", n = 3", .use = USE, .sheet = &everyday, .count = 3}, \
    {.name = NAME ", n = 4", .use = USE, .sheet = &everyday, .count = 4}, \
    {.name = NAME ", n = 5", .use = USE, .sheet = &everyday, .count = 5}, \
    {.name = NAME ", n = 6", .use = USE, .sheet = &everyday, .count = 6}, \
    {.name = NAME ", n = 7", .use = USE, .sheet = &everyday, .count = 7}, \
    {.name = NAME ", n = 8", .use = USE, .sheet = &everyday, .count = 8}

/* The second table. */
static struct row growth_rows[] = {
    GROWTH("rewrite", use_rewrite),
    GROWTH("all responses", use_responses),
    GROWTH("least interval", use_least_interval),
    GROWTH("list, all pass", use_list),
};

/* The third table. */
static struct row lowest_rows[] = {
    {.name = "list, lowest in the first record", .use = use_list, .sheet = &lowest_late_first},
    {.name = "list, lowest in the last record", .use = use_list, .sheet = &lowest_late_last},
    {.name = "one step of the walk, lowest in the first record", .use = use_next, .sheet = &lowest_late_first},
    {.name = "one step of the walk, lowest in the last record", .use = use_next, .sheet = &lowest_late_last},
};

/* The fourth table. */
static struct row slow_rows[] = {
    {.name = "response", .use = use_response, .sheet = &slow_response,
     .reason = "a fault at every tick: 65535 steps of one tick, then late"},
    {.name = "verdict", .use = use_verdict, .sheet = &slow_verdict,
     .reason = "short jobs and many faults: 58631 steps before a record is late"},
    {.name = "least interval, none", .use = use_least_interval, .sheet = &slow_interval,
     .reason = "long climbs at most intervals"},
    {.name = "list of 6 tasks, none", .use = use_list, .sheet = &slow_steps,
     .reason = "jobs at nearly every tick: each of 720 choices is refuted after some 15000 steps"},
    {.name = "list of 8 tasks, none", .use = use_list, .sheet = &slow_choices,
     .reason = "each of 40320 choices is refuted after some 190 steps"},
    {.name = "one step of the walk, end", .use = use_next, .sheet = &slow_choices,
     .reason = "the same sheet: one call goes through all 40320 choices"},
};

/* The fifth table, of the assured sides. */
static struct row assured_rows[] = {
    {.name = "one assured time, of the lowest of 8", .use = use_response, .sheet = &everyday},
    {.name = "all 8 assured times", .use = use_responses, .sheet = &everyday},
    {.name = "list of 8 tasks, all 40320 assured", .use = use_list, .sheet = &everyday},
    {.name = "list of 8 tasks, 21504 assured", .use = use_list, .sheet = &everyday, .place = 3, .deadline = 169},
    {.name = "list of 8 tasks, none: second record has no time", .use = use_list, .sheet = &everyday, .place = 1,
     .deadline = 115},
    {.name = "list of 8 tasks, none: last record has no time", .use = use_list, .sheet = &everyday, .place = 7, .deadline = 29},
    {.name = "list of 8 tasks, none: lowest in the last record", .use = use_list, .sheet = &lowest_late_last},
    {.name = "list of 6 tasks, none: slow steps", .use = use_list, .sheet = &slow_steps},
    {.name = "one step of the walk of 8 tasks", .use = use_next, .sheet = &everyday},
    {.name = "one step of the walk, end: slow choices", .use = use_next, .sheet = &slow_choices},
    {.name = "walk through all 720 of 6 tasks", .use = use_walk, .sheet = &everyday, .count = 6},
};

/* What is checked and not timed. */
static struct row refused_rows[] = {{.name = "refused calls", .use = use_refused, .sheet = &everyday}};

/* How the rows of a table are timed. */
#define USUAL {3, 0.002, 0.4}
#define SLOW {1, 0.002, 0.2}

/* The refused calls by both rules. */
static const struct table refused_calls[] = {
    {"Refused calls", BY_RESPONSE, refused_rows, LENGTH(refused_rows), USUAL},
    {"Refused calls for assured choices", BY_ASSURED_TIME, refused_rows, LENGTH(refused_rows), USUAL},
};

/* The tables that are printed. */
static const struct table tables[] = {
    {"The calls", BY_RESPONSE, main_rows, LENGTH(main_rows), USUAL},
    {"Growth with the number of tasks n", BY_RESPONSE, growth_rows, LENGTH(growth_rows), USUAL},
    {"The lowest task of 8 is late", BY_RESPONSE, lowest_rows, LENGTH(lowest_rows), USUAL},
    {"Slow sheets (judging and rewriting are slowest on any good sheet of 8)", BY_RESPONSE, slow_rows, LENGTH(slow_rows), SLOW},
    {"Assured times and choices", BY_ASSURED_TIME, assured_rows, LENGTH(assured_rows), USUAL},
};

/* The present time in seconds. */
static double now(void)
{
    struct timespec time;
    clock_gettime(CLOCK_PROCESS_CPUTIME_ID, &time);
    return (double)time.tv_sec + 1e-9 * (double)time.tv_nsec;
}

/* The bytes of a row's sheet; a row whose sheet is not good ends the program. */
static struct packed pack(const struct row *row)
{
    struct sheet sheet = *row->sheet;
    struct packed packed = {.count = row->count != 0 ? row->count : sheet.count};
    if (row->deadline != 0) {
        sheet.fields[FQ_RECORD_NUMBERS * row->place + DEADLINE] = row->deadline;
    }
    int64_t len = fq_write((uint8_t)packed.count, sheet.interval, sheet.fields, LENGTH(sheet.fields),
                           packed.bytes, sizeof packed.bytes);
    if (len <= 0) {
        fprintf(stderr, "the sheet of \"%s\" is refused\n", row->name);
        exit(1);
    }
    packed.len = (size_t)len;
    return packed;
}

/* Makes the calls of each row of a table once on each of its sides; a difference ends the program. */
static void check_table(const struct table *table)
{
    for (struct row *row = table->rows; row < table->rows + table->count; row++) {
        struct packed sheet = pack(row);
        int64_t answers[COLUMNS];
        for (int side = 0; side < COLUMNS; side++) {
            memset(outputs[side], UNTOUCHED, FQ_LIST_BYTES);
            double start = now();
            answers[side] = row->use(side_of(table->rule, side), &sheet, outputs[side]);
            row->seconds[side] = now() - start;
            if (answers[side] != answers[LIBRARY] || memcmp(outputs[side], outputs[LIBRARY], FQ_LIST_BYTES) != 0) {
                fprintf(stderr, "the sides differ on \"%s\"\n", row->name);
                exit(1);
            }
        }
    }
}

/* Makes the calls of each of so many tables. */
static void check(const struct table *some, size_t count)
{
    for (size_t index = 0; index < count; index++) {
        check_table(&some[index]);
    }
}

/* Times the sides of a row of a table in turn, and keeps the shortest time of each, which sets how often to call next. */
static void measure(const struct table *table, struct row *row)
{
    const struct effort *effort = &table->effort;
    struct packed sheet = pack(row);
    double end = now() + effort->all;
    for (int turn = 0; turn < COLUMNS * effort->repetitions || turn % COLUMNS != 0 || now() < end; turn++) {
        int side = turn % COLUMNS;
        long calls = 1 + (long)(effort->each / (row->seconds[side] + 1e-9));
        double start = now();
        for (long call = 0; call < calls; call++) {
            row->use(side_of(table->rule, side), &sheet, outputs[side]);
        }
        double seconds = (now() - start) / (double)calls;
        if (seconds < row->seconds[side]) {
            row->seconds[side] = seconds;
        }
    }
}

/* Prints a time in a unit that suits it. */
static void print_time(double seconds)
{
    if (seconds < 1e-6) {
        printf(" %.0f ns |", seconds * 1e9);
    } else if (seconds < 1e-3) {
        printf(" %.2f us |", seconds * 1e6);
    } else if (seconds < 1) {
        printf(" %.2f ms |", seconds * 1e3);
    } else {
        printf(" %.2f s |", seconds);
    }
}

/* The shorter time of a C side, of those that the two compilers' have. */
static double quickest(const struct row *row, int method)
{
    const double *built = row->seconds + 1 + COMPILERS * method;
    return built[0] < built[1] ? built[0] : built[1];
}

/* Prints the head of a table: the library's time, and beside it that of each C side with the ratio to it. */
static void print_head(const struct table *table)
{
    bool has_reasons = table->rows->reason != NULL;
    printf("\n## %s\n\n| Call | library |", table->title);
    for (int method = 0; method < METHODS; method++) {
        printf(" %s | ratio |", method_names[method]);
    }
    printf("%s\n|---|---:|---:|---:|---:|---:|%s\n", has_reasons ? " why it is slow |" : "", has_reasons ? "---|" : "");
}

/* Measures and prints one table. */
static void print_table(const struct table *table)
{
    print_head(table);
    for (struct row *row = table->rows; row < table->rows + table->count; row++) {
        measure(table, row);
        printf("| %s |", row->name);
        print_time(row->seconds[LIBRARY]);
        for (int method = 0; method < METHODS; method++) {
            double seconds = quickest(row, method);
            double ratio = row->seconds[LIBRARY] / seconds;
            print_time(seconds);
            printf(" %.*f |", ratio < 0.1 ? 5 : 2, ratio);
        }
        if (row->reason != NULL) {
            printf(" %s |", row->reason);
        }
        printf("\n");
        fflush(stdout);
    }
}

/* Checks everything, then prints the tables. */
int main(int argc, char **argv)
{
    if (argc != 2) {
        fprintf(stderr, "one argument is wanted: how the program was built and is run\n");
        return 2;
    }
    fill_log();
    check(refused_calls, LENGTH(refused_calls));
    check(tables, LENGTH(tables));
    printf("%s Times are for one call; all sides gave the same answers and bytes.\n", argv[1]);
    for (size_t index = 0; index < LENGTH(tables); index++) {
        print_table(&tables[index]);
    }
    return 0;
}
