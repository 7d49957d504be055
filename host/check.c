/* Calls nookplover_list on good and bad bytes. For each case the answer, all of the memory and all of the output are
 * held to what was worked out by hand. Prints 'ok NAME' or 'FAILED NAME'; status 1 if one failed. */
#include <inttypes.h>
#include <stdbool.h>
#include <stdio.h>
#include <stdlib.h>
#include <string.h>

#include "nookplover.h"

/* What memory and output hold before a call, and what must stand on either side of them after it. */
#define FILL 0xA5
#define SIDE 64

/* Whether the rows are taken into the memory: only then is it written. */
enum intake { REFUSED, TAKEN };

struct call {
    const char *name;
    uint32_t day;
    uint32_t hour;
    const char *rows; /* hexadecimal digits */
    size_t times;     /* how often these bytes stand there */
    size_t memory;    /* lengths */
    size_t output;
    enum intake intake;
    int64_t answer;
    const char *text; /* "" where the listing is refused */
};

/* Rows of day 9000, hour 1: suppliers 1 and 2 of the worked listing, in stages 1 and 2. */
#define A "45482328010101" "0000000000001D75" /* 7541 */
#define B "45482328010102" "00000000000126C3" /* 75459 */
#define C "45482328010201" "0000000000000057" /* 87 */
#define D "45482328010202" "000000000000000D" /* 13 */
#define MINUS_C "45482328010201" "FFFFFFFFFFFFFFA9" /* -87 */
#define WORKED A B C D
#define WORKED_TEXT "1 7628\n2 75472\nzone 83100\n"

/* Other hours and days, and peaks. */
#define HOUR_2 "45482328020101" "0000000000000005"
#define DAY_9001 "45482329010101" "0000000000000007"
#define PEAK_1 "504C2328000001" "0000000000003077"   /* 12407 */
#define PEAK_32 "504C2328000020" "00000000000011F1"  /* 4593 */
#define OTHER_PEAK "504C2329000001" "0000000000000009"

/* Ends of the ranges. */
#define MOST "45482328010101" "00000000B2D05E00"       /* 3,000,000,000 */
#define LEAST "45482328010101" "FFFFFFFF4D2FA200"      /* -3,000,000,000 */
#define FIRST_DAY "45480001010101" "0000000000000001"
#define LAST_DAY "4548EA60190220" "0000000000000001"   /* day 60,000, hour 25, stage 2, supplier 32 */

/* Not rows. */
#define NO_MARK "45492328010101" "0000000000000001"
#define LOW_MARK "65682328010101" "0000000000000001"
#define HALF_MARK "504823280000010000000000000001"
#define MARK_TURNED "484523280101010000000000000001"
#define DAY_0 "454800000101010000000000000001"
#define DAY_60001 "4548EA610101010000000000000001"
#define HOUR_0 "454823280001010000000000000001"
#define HOUR_26 "454823281A01010000000000000001"
#define STAGE_0 "454823280100010000000000000001"
#define STAGE_3 "454823280103010000000000000001"
#define SUPPLIER_0 "454823280101000000000000000001"
#define SUPPLIER_33 "454823280101210000000000000001"
#define NOTHING "454823280101010000000000000000"
#define TOO_MUCH "4548232801010100000000B2D05E01"
#define TOO_LITTLE "45482328010101FFFFFFFF4D2FA1FF"
#define LOW_FIRST "454823280101015700000000000000"
#define PEAK_HOUR "504C23280100010000000000000001"
#define PEAK_STAGE "504C23280001010000000000000001"

static const struct call calls[] = {
    {"the worked listing", 9000, 1, WORKED, 1, 60, 26, TAKEN, 26, WORKED_TEXT},
    {"room to spare", 9000, 1, WORKED, 1, 107, 720, TAKEN, 26, WORKED_TEXT},
    {"rows in another order", 9000, 1, D B C A, 1, 60, 26, TAKEN, 26, WORKED_TEXT},
    {"no rows, no memory", 9000, 1, "", 1, 0, 7, TAKEN, 7, "zone 0\n"},
    {"no rows, some memory", 1, 0, "", 1, 40, 30, TAKEN, 7, "zone 0\n"},
    {"other hours and days stand by", 9000, 1, HOUR_2 A DAY_9001 PEAK_1, 1, 60, 40, TAKEN, 17, "1 7541\nzone 7541\n"},
    {"another hour", 9000, 2, HOUR_2 A DAY_9001 PEAK_1, 1, 60, 40, TAKEN, 11, "1 5\nzone 5\n"},
    {"another day", 9001, 1, HOUR_2 A DAY_9001 PEAK_1, 1, 60, 40, TAKEN, 11, "1 7\nzone 7\n"},
    {"an hour without rows", 9000, 25, WORKED, 1, 60, 40, TAKEN, 7, "zone 0\n"},
    {"peaks", 9000, 0, PEAK_32 A OTHER_PEAK PEAK_1, 1, 60, 40, TAKEN, 27, "1 12407\n32 4593\nzone 17000\n"},
    {"a sum of 0 is left out", 9000, 1, C MINUS_C D, 1, 45, 40, TAKEN, 13, "2 13\nzone 13\n"},
    {"all sums 0", 9000, 1, C MINUS_C, 1, 30, 40, TAKEN, 7, "zone 0\n"},
    {"below 0", 9000, 1, MINUS_C, 1, 15, 40, TAKEN, 15, "1 -87\nzone -87\n"},
    {"below 0 and above", 9000, 1, MINUS_C D, 1, 30, 40, TAKEN, 20, "1 -87\n2 13\nzone -74\n"},
    {"the highest amount", 9000, 1, MOST, 1, 15, 40, TAKEN, 29, "1 3000000000\nzone 3000000000\n"},
    {"the lowest amount", 9000, 1, LEAST, 1, 15, 40, TAKEN, 31, "1 -3000000000\nzone -3000000000\n"},
    {"the first day", 1, 1, FIRST_DAY LAST_DAY, 1, 30, 40, TAKEN, 11, "1 1\nzone 1\n"},
    {"the last day, hour and supplier", 60000, 25, FIRST_DAY LAST_DAY, 1, 30, 40, TAKEN, 12, "32 1\nzone 1\n"},
    {"65,536 rows", 9000, 1, MOST, 65536, 983040, 720, TAKEN, 39, "1 196608000000000\nzone 196608000000000\n"},

    {"output too short by one", 9000, 1, WORKED, 1, 60, 25, TAKEN, -33, ""},
    {"output of no bytes", 9000, 1, WORKED, 1, 60, 0, TAKEN, -33, ""},
    {"output too short for no rows", 9000, 1, "", 1, 0, 6, TAKEN, -33, ""},
    {"day 0", 0, 1, WORKED, 1, 60, 40, TAKEN, -10, ""},
    {"day 60,001", 60001, 1, WORKED, 1, 60, 40, TAKEN, -10, ""},
    {"the highest day of 32 bits", 4294967295, 1, WORKED, 1, 60, 40, TAKEN, -10, ""},
    {"day 65,536 and 9000", 74536, 1, WORKED, 1, 60, 40, TAKEN, -10, ""},
    {"hour 26", 9000, 26, WORKED, 1, 60, 40, TAKEN, -10, ""},
    {"hour 256 and 1", 9000, 257, WORKED, 1, 60, 40, TAKEN, -10, ""},
    {"the highest hour of 32 bits", 9000, 4294967295, WORKED, 1, 60, 40, TAKEN, -10, ""},
    {"day before output", 0, 1, WORKED, 1, 60, 0, TAKEN, -10, ""},

    {"one byte", 9000, 1, "45", 1, 60, 40, REFUSED, -30, ""},
    {"fourteen bytes", 9000, 1, "4548232801010100000000000000", 1, 60, 40, REFUSED, -30, ""},
    {"sixteen bytes", 9000, 1, A "45", 1, 60, 40, REFUSED, -30, ""},
    {"fifty-nine bytes", 9000, 1, A B C "4548232801020200000000000000", 1, 60, 40, REFUSED, -30, ""},
    {"length before mark", 9000, 1, NO_MARK "45", 1, 60, 40, REFUSED, -30, ""},
    {"length before day", 0, 1, "45", 1, 60, 40, REFUSED, -30, ""},
    {"unknown mark", 9000, 1, NO_MARK, 1, 60, 40, REFUSED, -31, ""},
    {"mark in small letters", 9000, 1, LOW_MARK, 1, 60, 40, REFUSED, -31, ""},
    {"half of each mark", 9000, 1, HALF_MARK, 1, 60, 40, REFUSED, -31, ""},
    {"mark turned round", 9000, 1, MARK_TURNED, 1, 60, 40, REFUSED, -31, ""},
    {"unknown mark after good rows", 9000, 1, A B C NO_MARK, 1, 60, 40, REFUSED, -31, ""},
    {"unknown mark, then bad field", 9000, 1, A NO_MARK DAY_0, 1, 60, 40, REFUSED, -31, ""},
    {"bad field, then unknown mark", 9000, 1, A DAY_0 NO_MARK, 1, 60, 40, REFUSED, -32, ""},
    {"row of day 0", 9000, 1, DAY_0, 1, 60, 40, REFUSED, -32, ""},
    {"row of day 60,001", 9000, 1, DAY_60001, 1, 60, 40, REFUSED, -32, ""},
    {"energy row of hour 0", 9000, 1, HOUR_0, 1, 60, 40, REFUSED, -32, ""},
    {"row of hour 26", 9000, 1, HOUR_26, 1, 60, 40, REFUSED, -32, ""},
    {"energy row of stage 0", 9000, 1, STAGE_0, 1, 60, 40, REFUSED, -32, ""},
    {"row of stage 3", 9000, 1, STAGE_3, 1, 60, 40, REFUSED, -32, ""},
    {"row of supplier 0", 9000, 1, SUPPLIER_0, 1, 60, 40, REFUSED, -32, ""},
    {"row of supplier 33", 9000, 1, SUPPLIER_33, 1, 60, 40, REFUSED, -32, ""},
    {"row of amount 0", 9000, 1, NOTHING, 1, 60, 40, REFUSED, -32, ""},
    {"amount too high by one", 9000, 1, TOO_MUCH, 1, 60, 40, REFUSED, -32, ""},
    {"amount too low by one", 9000, 1, TOO_LITTLE, 1, 60, 40, REFUSED, -32, ""},
    {"amount with its low byte first", 9000, 1, LOW_FIRST, 1, 60, 40, REFUSED, -32, ""},
    {"peak row of hour 1", 9000, 1, PEAK_HOUR, 1, 60, 40, REFUSED, -32, ""},
    {"peak row of stage 1", 9000, 1, PEAK_STAGE, 1, 60, 40, REFUSED, -32, ""},
    {"bad field in the last row", 9000, 1, A B C DAY_0, 1, 60, 40, REFUSED, -32, ""},
    {"memory too small by one byte", 9000, 1, WORKED, 1, 59, 40, REFUSED, -27, ""},
    {"memory of no bytes", 9000, 1, A, 1, 0, 40, REFUSED, -27, ""},
    {"room before day", 0, 1, WORKED, 1, 59, 40, REFUSED, -27, ""},
    {"mark before room", 9000, 1, A NO_MARK, 1, 15, 40, REFUSED, -31, ""},
    {"field before room", 9000, 1, A DAY_0, 1, 15, 40, REFUSED, -32, ""},
    {"65,537 rows", 9000, 1, MOST, 65537, 983055, 720, REFUSED, -27, ""},
};

static int digit(char c)
{
    return c <= '9' ? c - '0' : c - 'A' + 10;
}

/* Memory that the tests cannot do without. */
static uint8_t *wanted(size_t length)
{
    uint8_t *at = malloc(length);
    if (at == NULL) {
        fputs("FAILED check: no memory\n", stdout);
        exit(1);
    }
    return at;
}

/* The bytes that hexadecimal digits write, so many times; the length is written through `length`. */
static uint8_t *bytes_of(const char *digits, size_t times, size_t *length)
{
    size_t once = strlen(digits) / 2;
    *length = once * times;
    uint8_t *at = wanted(*length + 1);
    for (size_t i = 0; i < *length; i++)
        at[i] = (uint8_t)(digit(digits[i % once * 2]) * 16 + digit(digits[i % once * 2 + 1]));
    return at;
}

/* So many bytes, and a side on either hand, all filled. */
static uint8_t *filled(size_t length)
{
    uint8_t *at = wanted(length + 2 * SIDE);
    memset(at, FILL, length + 2 * SIDE);
    return at + SIDE;
}

/* Whether these bytes begin with `front`, and the rest and both sides are as they were. */
static bool holds(const uint8_t *at, size_t length, const void *front, size_t front_length)
{
    uint8_t *expected = filled(length);
    memcpy(expected, front, front_length);
    bool same = memcmp(at - SIDE, expected - SIDE, length + 2 * SIDE) == 0;
    free(expected - SIDE);
    return same;
}

static bool agrees(const char *name, const char *what, bool same)
{
    if (!same)
        printf("     %s: %s\n", name, what);
    return same;
}

static bool passes(const struct call *call)
{
    size_t length;
    uint8_t *rows = bytes_of(call->rows, call->times, &length);
    uint8_t *again = bytes_of(call->rows, call->times, &length);
    uint8_t *memory = filled(call->memory);
    uint8_t *output = filled(call->output);
    int64_t answer = nookplover_list(call->day, call->hour, rows, length, memory, call->memory, output, call->output);
    bool answered = agrees(call->name, "another answer", answer == call->answer);
    if (!answered)
        printf("     answered %" PRId64 ", expected %" PRId64 "\n", answer, call->answer);
    bool kept = agrees(call->name, "other bytes in the memory",
                       holds(memory, call->memory, rows, call->intake == TAKEN ? length : 0));
    bool written = agrees(call->name, "other bytes in the output",
                          holds(output, call->output, call->text, strlen(call->text)));
    bool left = agrees(call->name, "the row bytes were written", memcmp(rows, again, length) == 0);
    free(rows);
    free(again);
    free(memory - SIDE);
    free(output - SIDE);
    return answered && kept && written && left;
}

/* Every place of an archive in use, suppliers 32 to 1 over and over: 2,048 rows of -3,000,000,000 for each. */
static bool lists_all_suppliers(void)
{
    enum { SUPPLIERS = 32, EACH = 2048, ROWS = SUPPLIERS * EACH };
    size_t one;
    size_t length = (size_t)ROWS * NOOKPLOVER_ROW_BYTES;
    uint8_t *row = bytes_of(LEAST, 1, &one);
    uint8_t *rows = wanted(length);
    for (size_t i = 0; i < ROWS; i++) {
        memcpy(rows + i * one, row, one);
        rows[i * one + 6] = (uint8_t)(SUPPLIERS - i % SUPPLIERS);
    }
    char text[NOOKPLOVER_LONGEST_LISTING + 1];
    size_t written = 0;
    for (int supplier = 1; supplier <= SUPPLIERS; supplier++)
        written += (size_t)snprintf(text + written, sizeof text - written, "%d -6144000000000\n", supplier);
    written += (size_t)snprintf(text + written, sizeof text - written, "zone -196608000000000\n");
    uint8_t *memory = filled(length);
    uint8_t *output = filled(NOOKPLOVER_LONGEST_LISTING);
    int64_t answer = nookplover_list(9000, 1, rows, length, memory, length, output, NOOKPLOVER_LONGEST_LISTING);
    bool good = answer == (int64_t)written && holds(memory, length, rows, length) &&
                holds(output, NOOKPLOVER_LONGEST_LISTING, text, written);
    free(row);
    free(rows);
    free(memory - SIDE);
    free(output - SIDE);
    return good;
}

/* What an earlier call left in the memory counts for nothing. */
static bool begins_anew(void)
{
    size_t length;
    uint8_t *rows = bytes_of(WORKED, 1, &length);
    uint8_t *memory = filled(60);
    uint8_t *output = filled(40);
    int64_t first = nookplover_list(9000, 1, rows, 60, memory, 60, output, 40);
    int64_t second = nookplover_list(9000, 1, rows, 15, memory, 60, output, 40);
    bool good = first == 26 && second == 17 && memcmp(output, "1 7541\nzone 7541\n", 17) == 0 &&
                memcmp(memory, rows, 60) == 0;
    free(rows);
    free(memory - SIDE);
    free(output - SIDE);
    return good;
}

static bool tell(const char *name, bool good)
{
    printf("%s host check: %s\n", good ? "ok" : "FAILED", name);
    return good;
}

int main(void)
{
    bool good = true;
    for (size_t i = 0; i < sizeof calls / sizeof calls[0]; i++)
        good &= tell(calls[i].name, passes(&calls[i]));
    good &= tell("all suppliers, in rising number", lists_all_suppliers());
    good &= tell("a second call in the same memory", begins_anew());
    return good ? 0 : 1;
}
