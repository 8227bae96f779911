/* What the press controller does with a field: builds its record, files it, reads it back, checks it and prints the verdict.
 *
 *     controller FIELD A B RECORD
 *
 * FIELD is a text file with the x and y of one hole on each line, A and B give the ratio A/B, and RECORD is the file to write. Prints
 * `points N` and `pairs M`, or `refused NUMBER VALUE` by document 01's numbers. Ends with 0 for a record that is taken, 1 for a refusal and
 * 2 for trouble, which is said in one line. */
#include "antlophis.h"

#include <errno.h>
#include <inttypes.h>
#include <stdio.h>
#include <string.h>

/* The longest record there is: 1,024 holes and 523,776 pairs. */
#define LONGEST 2107398
/* The most lines that are read: more than the builder takes, so that it can say how many are too many. */
#define LINES 65536

static uint8_t holes[4 * LINES];
static uint8_t work[65536];
static uint8_t built[LONGEST];
static uint8_t filed[LONGEST + 1];

/* Says what stopped the work on a file. */
static int trouble(const char *path, const char *what) {
    fprintf(stderr, "%s: %s\n", path, what);
    return 2;
}

/* Reads a decimal number from a text and moves past it; 0 where there is none, or it is above the most. */
static int number(const char **at, uint64_t most, uint64_t *value) {
    const char *start = *at;
    *value = 0;
    for (; **at >= '0' && **at <= '9'; ++*at) {
        uint64_t digit = (uint64_t)(**at - '0');
        if (*value > (most - digit) / 10)
            return 0;
        *value = 10 * *value + digit;
    }
    return *at != start;
}

/* Reads the hole of a line, which ends with its line feed or with the file. */
static int hole(const char *line, int last, uint8_t *four) {
    uint64_t x, y;
    if (!number(&line, 65535, &x) || *line++ != ' ' || !number(&line, 65535, &y))
        return 0;
    if (strcmp(line, "\n") != 0 && !(last && *line == '\0'))
        return 0;
    four[0] = (uint8_t)(x >> 8);
    four[1] = (uint8_t)x;
    four[2] = (uint8_t)(y >> 8);
    four[3] = (uint8_t)y;
    return 1;
}

/* Reads the coordinate list from an open file; 0, or 2 with the trouble said. */
static int read_lines(FILE *file, const char *path, size_t *length) {
    char line[32];
    for (size_t n = 0; fgets(line, sizeof line, file) != NULL; ++n) {
        if (n == LINES)
            return trouble(path, "more than 65536 lines");
        if (!hole(line, feof(file), holes + 4 * n)) {
            fprintf(stderr, "%s:%zu: not two numbers from 0 to 65535 with a space between\n", path, n + 1);
            return 2;
        }
        *length = 4 * (n + 1);
    }
    return ferror(file) ? trouble(path, strerror(errno)) : 0;
}

/* Reads the coordinate list from a file; 0, or 2 with the trouble said. */
static int read_field(const char *path, size_t *length) {
    FILE *file = fopen(path, "r");
    if (file == NULL)
        return trouble(path, strerror(errno));
    int result = read_lines(file, path, length);
    fclose(file);
    return result;
}

/* Files a record; 0, or 2 with the trouble said. */
static int write_record(const char *path, size_t length) {
    FILE *file = fopen(path, "wb");
    if (file == NULL)
        return trouble(path, strerror(errno));
    int written = fwrite(built, 1, length, file) == length;
    if (fclose(file) != 0 || !written)
        return trouble(path, strerror(errno));
    return 0;
}

/* Reads a record back; 0, or 2 with the trouble said. */
static int read_record(const char *path, size_t *length) {
    FILE *file = fopen(path, "rb");
    if (file == NULL)
        return trouble(path, strerror(errno));
    *length = fread(filed, 1, sizeof filed, file);
    int failed = ferror(file);
    fclose(file);
    return failed ? trouble(path, strerror(errno)) : 0;
}

/* Prints a refusal. */
static int refused(antlophis_answer answer) {
    printf("refused %" PRIu64 " %" PRIu64 "\n", answer.number, answer.first);
    return 1;
}

/* Builds, files, reads back and checks the record of a field at a ratio. */
static int run(const char *field, uint64_t a, uint64_t b, const char *record) {
    size_t length = 0;
    if (read_field(field, &length) != 0)
        return 2;
    antlophis_answer answer = antlophis_build(holes, length, a, b, work, sizeof work, built, sizeof built);
    if (answer.number != 0)
        return refused(answer);
    if (write_record(record, (size_t)answer.first) != 0 || read_record(record, &length) != 0)
        return 2;
    answer = antlophis_check(filed, length, work, sizeof work);
    if (answer.number != 0)
        return refused(answer);
    printf("points %" PRIu64 "\npairs %" PRIu64 "\n", answer.first, answer.second);
    return 0;
}

/* Reads a number that is a whole argument. */
static int argument(const char *word, uint64_t *value) {
    return number(&word, UINT64_MAX, value) && *word == '\0';
}

int main(int count, char **word) {
    uint64_t a, b;
    if (count != 5 || !argument(word[2], &a) || !argument(word[3], &b)) {
        fprintf(stderr, "usage: controller FIELD A B RECORD\n");
        return 2;
    }
    return run(word[1], a, b, word[4]);
}
