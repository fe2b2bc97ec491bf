/* The rows of tests/rows/ and how the library answers each kind of them. */
#ifndef ANSWERS_H
#define ANSWERS_H

#include <stddef.h>

/* Room for the words that are asked and for an answer. */
enum { LONGEST_LINE = 1 << 16, MOST_WORDS = 16, ANSWER_ROOM = 1024 };

/* A row taken apart: what is asked, and how the library answers it. */
struct row {
    size_t words;
    char *word[MOST_WORDS];
    const char *expected;
    char answer[ANSWER_ROOM];
};

/* Adds the library's answer to a row; words that cannot be read end the program. */
typedef void answering(struct row *row);

/* Each kind of row, with what its comment in answers.c says is asked. */
answering answer_replay, answer_run, answer_record, answer_cores, answer_slack, answer_locks, answer_mend, answer_release, answer_assured;

#endif
