/* A small billing program: lists a day and hour of row bytes.
 *
 *     host DAY HOUR [FILE]
 *
 * reads the row bytes from FILE, or from standard input, and prints the listing. Status 1: the listing was refused, and
 * standard error says why. Status 2: wrong words, or the bytes could not be read or the listing written. */
#include <errno.h>
#include <stdbool.h>
#include <stdio.h>
#include <stdlib.h>
#include <string.h>

#include "nookplover.h"

struct bytes {
    uint8_t *at;
    size_t length;
    size_t room;
};

/* Makes room for more bytes: twice as much as before. */
static bool grow(struct bytes *bytes)
{
    size_t room = bytes->room == 0 ? 4096 : bytes->room * 2;
    uint8_t *at = room > bytes->room ? realloc(bytes->at, room) : NULL;
    if (at == NULL)
        return false;
    bytes->at = at;
    bytes->room = room;
    return true;
}

/* Reads to the end. There is room for a byte even if there is none to read, so that `at` is not NULL. */
static bool read_all(FILE *file, struct bytes *bytes)
{
    do {
        if (bytes->length == bytes->room && !grow(bytes))
            return false;
        bytes->length += fread(bytes->at + bytes->length, 1, bytes->room - bytes->length, file);
    } while (!feof(file) && !ferror(file));
    return !ferror(file);
}

/* Reads a decimal number that 32 bits hold. Whether it is a day or an hour is for the listing to say. */
static bool read_number(const char *word, uint32_t *number)
{
    uint64_t value = 0;
    if (*word == '\0')
        return false;
    for (; *word != '\0'; word++) {
        if (*word < '0' || *word > '9')
            return false;
        value = value * 10 + (uint64_t)(*word - '0');
        if (value > UINT32_MAX)
            return false;
    }
    *number = (uint32_t)value;
    return true;
}

static const char *in_words(int64_t refusal)
{
    switch (refusal) {
    case NOOKPLOVER_OUT_OF_RANGE:
        return "the day is not 1 to 60000, or the hour is not 0 to 25";
    case NOOKPLOVER_ARCHIVE_FULL:
        return "there are more rows than places in the memory";
    case NOOKPLOVER_PARTIAL_ROW:
        return "the bytes are not whole rows";
    case NOOKPLOVER_UNKNOWN_MARK:
        return "a row has an unknown mark";
    case NOOKPLOVER_UNLAWFUL_ROW:
        return "a row has a field out of its range";
    case NOOKPLOVER_TEXT_TOO_LONG:
        return "the listing does not fit the output";
    default:
        return "for an unknown reason";
    }
}

/* Lists the rows in memory of their own size, and prints the listing or the refusal. Gives the program's status. */
static int list(uint32_t day, uint32_t hour, const struct bytes *rows)
{
    uint8_t output[NOOKPLOVER_LONGEST_LISTING];
    uint8_t *memory = calloc(rows->length + 1, 1); /* one more, so that it is not NULL for no rows */
    if (memory == NULL) {
        fputs("host: no memory for the rows\n", stderr);
        return 2;
    }
    int64_t answer = nookplover_list(day, hour, rows->at, rows->length, memory, rows->length, output, sizeof output);
    free(memory);
    if (answer < 0) {
        fprintf(stderr, "host: refused with %d: %s\n", (int)-answer, in_words(-answer));
        return 1;
    }
    if (fwrite(output, 1, (size_t)answer, stdout) != (size_t)answer || fflush(stdout) != 0) {
        fprintf(stderr, "host: the listing could not be written: %s\n", strerror(errno));
        return 2;
    }
    return 0;
}

int main(int count, char **words)
{
    uint32_t day;
    uint32_t hour;
    if (count < 3 || count > 4 || !read_number(words[1], &day) || !read_number(words[2], &hour)) {
        fputs("usage: host DAY HOUR [FILE]\n", stderr);
        return 2;
    }
    const char *name = count == 4 ? words[3] : "standard input";
    FILE *file = count == 4 ? fopen(name, "rb") : stdin;
    struct bytes rows = {NULL, 0, 0};
    if (file == NULL || !read_all(file, &rows)) {
        fprintf(stderr, "host: %s could not be read: %s\n", name, strerror(errno));
        return 2;
    }
    int status = list(day, hour, &rows);
    free(rows.at);
    if (file != stdin)
        fclose(file);
    return status;
}
