/*
 * Runs the rows of tests/rows/ through the library: rows FILE... A row is what is asked, `=` and the answer; bytes are in
 * hexadecimal, `-` is none, and a line that begins with `#` names the fields. Each row that differs is printed with the
 * library's answer; the last line counts.
 */
#include "answers.h"

#include <stdbool.h>
#include <stdio.h>
#include <stdlib.h>
#include <string.h>

/* What answers the rows of a file, by the end of its name, and how many words are asked. */
static const struct kind {
    const char *name;
    size_t words;
    answering *answer;
} KINDS[] = {
    {"01-replay.txt", 2, answer_replay},
    {"03-second-job.txt", 1, answer_slack},
    {"06-share.txt", 1, answer_slack},
    {"07-record.txt", 2, answer_record},
    {"09-locks.txt", 8, answer_locks},
    {"11-mend.txt", 1, answer_mend},
    {"12-runs.txt", 2, answer_run},
    {"13-cores.txt", 2, answer_cores},
    {"14-release.txt", 3, answer_release},
    {"assured.txt", 2, answer_assured},
    {"slow.txt", 1, answer_slack},
};

/* The kind of a file. */
static const struct kind *kind_of(const char *file)
{
    for (size_t index = 0; index < sizeof KINDS / sizeof KINDS[0]; index++) {
        size_t length = strlen(KINDS[index].name);
        if (strlen(file) >= length && strcmp(file + strlen(file) - length, KINDS[index].name) == 0) {
            return &KINDS[index];
        }
    }
    fprintf(stderr, "nothing answers the rows of %s\n", file);
    exit(2);
}

/* Runs one line: whether the library's answer is the one after `=`. */
static bool run_row(const struct kind *kind, char *line)
{
    struct row row = {0};
    char *expected = strstr(line, " = ");
    line[strcspn(line, "\n")] = '\0';
    if (expected == NULL) {
        fprintf(stderr, "no answer in the row %s\n", line);
        exit(2);
    }
    *expected = '\0';
    expected += strlen(" = ");
    row.expected = expected;
    for (char *word = strtok(line, " "); word != NULL && row.words < MOST_WORDS; word = strtok(NULL, " ")) {
        row.word[row.words] = word;
        row.words++;
    }
    if (row.words != kind->words) {
        fprintf(stderr, "%zu words are asked in a row, not %zu\n", row.words, kind->words);
        exit(2);
    }
    kind->answer(&row);
    if (strcmp(row.answer, expected) == 0) {
        return true;
    }
    printf("differs: %s .. = %s, and the library answers %s\n", row.word[0], expected, row.answer);
    return false;
}

/* Runs the rows of each file. */
int main(int argc, char **argv)
{
    static char line[LONGEST_LINE];
    unsigned long rows = 0, different = 0;
    for (int index = 1; index < argc; index++) {
        const struct kind *kind = kind_of(argv[index]);
        FILE *file = fopen(argv[index], "r");
        if (file == NULL) {
            perror(argv[index]);
            return 2;
        }
        while (fgets(line, sizeof line, file) != NULL) {
            if (line[0] != '#') {
                rows++;
                different += !run_row(kind, line);
            }
        }
        fclose(file);
    }
    printf("%lu rows of %d files, %lu differ\n", rows, argc - 1, different);
    return rows == 0 || different != 0;
}
