/* How the library answers each kind of row: what is asked, as the first line of its file names it, and what the answer says. */
#include "answers.h"

#include "../format.h"

#include <inttypes.h>
#include <stdbool.h>
#include <stdio.h>
#include <stdlib.h>
#include <string.h>

/* A list of no more choices is given whole. */
enum { FEW_CHOICES = 24 };

/* Bytes read from hexadecimal. */
struct bytes {
    size_t length;
    uint8_t at[LONGEST_LINE / 2];
};

/* The bytes of a word in hexadecimal; a word that is none ends the program. */
static void read_bytes(const char *word, struct bytes *bytes)
{
    bytes->length = 0;
    if (strcmp(word, "-") == 0) {
        return;
    }
    for (; word[0] != '\0'; word += 2) {
        unsigned byte;
        if (sscanf(word, "%2x", &byte) != 1 || word[1] == '\0') {
            fprintf(stderr, "no bytes in hexadecimal: %s\n", word);
            exit(2);
        }
        bytes->at[bytes->length] = (uint8_t)byte;
        bytes->length++;
    }
}

/* Adds a number to the answer, after a space if it is not the first. */
static void add_number(struct row *row, int64_t number)
{
    size_t length = strlen(row->answer);
    snprintf(row->answer + length, ANSWER_ROOM - length, "%s%" PRId64, length == 0 ? "" : " ", number);
}

/* Adds a word to the answer, after a space if it is not the first. */
static void add_word(struct row *row, const char *word)
{
    size_t length = strlen(row->answer);
    snprintf(row->answer + length, ANSWER_ROOM - length, "%s%s", length == 0 ? "" : " ", word);
}

/* Adds bytes in hexadecimal to the answer. */
static void add_bytes(struct row *row, const uint8_t *bytes, size_t length)
{
    char word[2 * FQ_SHEET_BYTES + 1] = "";
    for (size_t index = 0; index < length; index++) {
        snprintf(word + 2 * index, 3, "%02x", (unsigned)bytes[index]);
    }
    add_word(row, word);
}

/* SHEET LOG: the refusal and the seven counts. */
void answer_replay(struct row *row)
{
    static struct bytes sheet, log;
    uint64_t counts[FQ_COUNTS] = {0};
    read_bytes(row->word[0], &sheet);
    read_bytes(row->word[1], &log);
    add_number(row, -fq_replay(sheet.at, sheet.length, log.at, log.length, counts, FQ_COUNTS));
    for (size_t count = 0; count < FQ_COUNTS; count++) {
        add_number(row, (int64_t)counts[count]);
    }
}

/* SHEET LOG: the verdict, the refusal of the replay and the missed jobs. */
void answer_run(struct row *row)
{
    static struct bytes sheet, log;
    uint64_t counts[FQ_COUNTS] = {0};
    read_bytes(row->word[0], &sheet);
    read_bytes(row->word[1], &log);
    add_number(row, fq_verdict(sheet.at, sheet.length));
    add_number(row, -fq_replay(sheet.at, sheet.length, log.at, log.length, counts, FQ_COUNTS));
    add_number(row, (int64_t)counts[FQ_MISSED]);
}

/* SHEET RECORD: the refusal, and where there is none accepted, or differs and the first tick that does. */
void answer_record(struct row *row)
{
    static struct bytes sheet, record;
    read_bytes(row->word[0], &sheet);
    read_bytes(row->word[1], &record);
    int64_t same = fq_check(sheet.at, sheet.length, record.at, record.length);
    if (same < 0) {
        add_number(row, -same);
    } else if (same == (int64_t)(record.length / RECORD_TICK_BYTES)) {
        add_word(row, "0 accepted");
    } else {
        add_word(row, "0 differs");
        add_number(row, same);
    }
}

/* SHEET CORES: the refusal, and where there is none each record's core, or none and the first record that fits none. */
void answer_cores(struct row *row)
{
    static struct bytes sheet;
    uint8_t cores[FQ_MOST_TASKS] = {0};
    read_bytes(row->word[0], &sheet);
    int64_t answer = fq_cores(sheet.at, sheet.length, (uint8_t)atoi(row->word[1]), cores, sizeof cores);
    add_number(row, answer < 0 ? -answer : 0);
    if (answer > 0) {
        add_word(row, "none");
        add_number(row, answer);
    }
    for (size_t place = 0; answer == 0 && place < sheet.at[0] / 16u; place++) {
        add_number(row, cores[place]);
    }
}

/* Adds the response and the slack of each record. */
static void add_slacks(struct row *row, const struct bytes *sheet)
{
    int32_t slack;
    int64_t figures = fq_slack(sheet->at, sheet->length, 0, &slack, 1);
    for (size_t place = 0; figures >= 0; place++, figures = fq_slack(sheet->at, sheet->length, place, &slack, 1)) {
        char figure[32] = "none";
        int64_t start = fq_record(sheet->at, sheet->length, place);
        int32_t deadline = sheet->at[start + 4] * 256 + sheet->at[start + 5];
        int64_t time = fq_response(sheet->at, sheet->length, place);
        if (figures == 1) {
            snprintf(figure, sizeof figure, "%" PRId32 "/%" PRId32, deadline - slack, slack);
        }
        if (time != (figures == 1 && slack >= 0 ? deadline - slack : 0)) {
            add_word(row, "the response is not the deadline less the slack:");
        }
        add_word(row, figure);
    }
}

/* Whether a row expects a question mark at the word after another: a question that takes too long. */
static bool is_left_out(const struct row *row, const char *word)
{
    const char *found = strstr(row->expected, word);
    return found != NULL && found[strlen(word)] == '?';
}

/* SHEET: the refusal, the response and slack of each record, the number of choices, the least interval. */
void answer_slack(struct row *row)
{
    static struct bytes sheet;
    static uint8_t list[FQ_LIST_BYTES];
    read_bytes(row->word[0], &sheet);
    add_number(row, fq_judge(sheet.at, sheet.length));
    if (fq_judge(sheet.at, sheet.length) != 0) {
        return;
    }
    add_slacks(row, &sheet);
    add_word(row, "list");
    if (is_left_out(row, "list ")) {
        add_word(row, "?");
    } else {
        add_number(row, fq_list(sheet.at, sheet.length, list, sizeof list));
    }
    add_word(row, "least");
    if (is_left_out(row, "least ")) {
        add_word(row, "?");
    } else {
        int64_t least = fq_least_interval(sheet.at, sheet.length);
        if (least == 0) {
            add_word(row, "none");
        } else {
            add_number(row, least);
        }
    }
}

/* The jobs of a start table, offset:length:resources each with a comma between, or none: how many. */
static uint8_t read_jobs(const char *word, uint32_t *starts, uint8_t *uses)
{
    uint8_t count = 0;
    while (strcmp(word, "-") != 0) {
        unsigned bits;
        int used;
        if (count == UINT8_MAX || sscanf(word, "%" SCNu32 ":%" SCNu32 ":%2x%n", &starts[FQ_JOB_NUMBERS * count], &starts[FQ_JOB_NUMBERS * count + 1], &bits, &used) != 3) {
            fprintf(stderr, "no jobs: %s\n", word);
            exit(2);
        }
        uses[count] = (uint8_t)bits;
        count++;
        if (word[used] != ',') {
            break;
        }
        word += used + 1;
    }
    return count;
}

/* PERIOD JOBS USERS HOLDERS p t RESOURCE LENGTH: the refusal, whether it is granted, and the margin. */
void answer_locks(struct row *row)
{
    static struct bytes users, holders;
    uint32_t starts[FQ_JOB_NUMBERS * UINT8_MAX];
    uint8_t uses[UINT8_MAX], resources[FQ_RESOURCES_BYTES] = {0};
    uint8_t count = read_jobs(row->word[1], starts, uses);
    int64_t margin = 0;
    read_bytes(row->word[2], &users);
    read_bytes(row->word[3], &holders);
    if (users.length != RESOURCES || holders.length != RESOURCES) {
        fprintf(stderr, "not %d users and holders\n", RESOURCES);
        exit(2);
    }
    memcpy(resources, users.at, RESOURCES);
    memcpy(resources + RESOURCES, holders.at, RESOURCES);
    int64_t answer = fq_grant((uint32_t)strtoul(row->word[0], NULL, 10), count, starts, FQ_JOB_NUMBERS * (size_t)count, uses, count, resources,
                              sizeof resources, (uint8_t)strtoul(row->word[4], NULL, 10), strtoull(row->word[5], NULL, 10),
                              (uint8_t)strtoul(row->word[6], NULL, 10), (uint32_t)strtoul(row->word[7], NULL, 10), &margin, 1);
    add_number(row, answer < 0 ? -answer : 0);
    add_number(row, answer < 0 ? 0 : answer);
    add_number(row, margin);
}

/* SHEET: the refusal, and where there is none the mended sheet and its changes, each place:field:old:new. */
void answer_mend(struct row *row)
{
    static const char *const fields[] = {[FQ_LENGTH] = "length", [FQ_DEADLINE] = "deadline", [FQ_FAULT_PRIORITY] = "fault"};
    static struct bytes sheet;
    uint8_t mended[FQ_SHEET_BYTES];
    uint64_t changes[FQ_CHANGES_NUMBERS];
    char list[ANSWER_ROOM] = "-";
    read_bytes(row->word[0], &sheet);
    int64_t written = fq_mend(sheet.at, sheet.length, mended, sizeof mended, changes, FQ_CHANGES_NUMBERS);
    add_number(row, written < 0 ? -written : 0);
    if (written < 0) {
        add_word(row, "- -");
        return;
    }
    add_bytes(row, mended, (size_t)written);
    size_t length = 0;
    for (size_t index = 0; index < changes[0]; index++) {
        const uint64_t *change = changes + 1 + FQ_CHANGE_NUMBERS * index;
        length += (size_t)snprintf(list + length, sizeof list - length, "%s%" PRIu64 ":%s:%" PRIu64 ":%" PRIu64, index == 0 ? "" : ",",
                                   change[0], fields[change[1]], change[2], change[3]);
    }
    add_word(row, list);
}

/* IN-USE CANDIDATE PROTECTED: the refusal, and which of the two is to be loaded. */
void answer_release(struct row *row)
{
    static struct bytes in_use, candidate, places;
    read_bytes(row->word[0], &in_use);
    read_bytes(row->word[1], &candidate);
    read_bytes(row->word[2], &places);
    if (places.length != 1) {
        fprintf(stderr, "not one byte of protected places\n");
        exit(2);
    }
    int64_t answer = fq_release(in_use.at, in_use.length, candidate.at, candidate.length, places.at[0]);
    if (answer < 0) {
        add_number(row, -answer);
    } else {
        add_word(row, answer == 1 ? "0 candidate" : "0 in-use");
    }
}

/* Adds a choice as eight digits, or minus the refusal. */
static void add_choice(struct row *row, int64_t choice)
{
    char digits[16];
    snprintf(digits, sizeof digits, "%08" PRIx64, (uint64_t)choice);
    if (choice < 0) {
        add_number(row, choice);
    } else {
        add_word(row, digits);
    }
}

/* Adds the assured time of each record, or none. */
static void add_assured_times(struct row *row, const struct bytes *sheet)
{
    int64_t time = fq_assured_response(sheet->at, sheet->length, 0);
    for (size_t place = 1; time >= 0; place++) {
        if (time == 0) {
            add_word(row, "none");
        } else {
            add_number(row, time);
        }
        time = fq_assured_response(sheet->at, sheet->length, place);
    }
}

/* Adds how many choices a list has, and the choices if they are few. */
static void add_choices(struct row *row, const uint8_t *list, int64_t choices)
{
    add_number(row, choices);
    for (int64_t choice = 0; choice < choices && choices <= FEW_CHOICES; choice++) {
        const uint8_t *bytes = list + CHOICE_BYTES * choice;
        add_choice(row, (int64_t)bytes[0] << 24 | (int64_t)bytes[1] << 16 | (int64_t)bytes[2] << 8 | bytes[3]);
    }
}

/* SHEET AFTER: the refusal, and where there is none the assured times, the verdict, the assured choices and the one after another. */
void answer_assured(struct row *row)
{
    static struct bytes sheet;
    static uint8_t list[FQ_LIST_BYTES];
    read_bytes(row->word[0], &sheet);
    int64_t choices = fq_assured_list(sheet.at, sheet.length, list, sizeof list);
    int64_t next = fq_assured_next(sheet.at, sheet.length, (uint32_t)strtoul(row->word[1], NULL, 16));
    add_number(row, choices < 0 ? -choices : 0);
    if (choices < 0) {
        add_number(row, -next);
        add_number(row, -fq_assured_response(sheet.at, sheet.length, 0));
        return;
    }
    add_assured_times(row, &sheet);
    add_word(row, "verdict");
    add_number(row, fq_verdict(sheet.at, sheet.length));
    add_word(row, "list");
    add_choices(row, list, choices);
    add_word(row, "next");
    add_choice(row, next);
}
