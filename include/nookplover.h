/* Nookplover for a billing host in C: the listing of an hour from row bytes.
 * Link with target/staticlib/libbilling.a (`tools/build library`). It allocates nothing and keeps nothing. */
#ifndef NOOKPLOVER_H
#define NOOKPLOVER_H

#include <stddef.h>
#include <stdint.h>

#ifdef __cplusplus
extern "C" {
#endif

/* The bytes of one row (docs/FORMAT.md). */
#define NOOKPLOVER_ROW_BYTES 15

/* An archive uses the memory of so many rows, even if it is given more. */
#define NOOKPLOVER_MOST_ROWS 65536

/* No listing is longer, so an output of so many bytes never meets NOOKPLOVER_TEXT_TOO_LONG. */
#define NOOKPLOVER_LONGEST_LISTING 720

/* Why a listing was refused. nookplover_list answers the number with a minus. */
enum nookplover_refusal {
    /* The day is not 1 to 60,000, or the hour is not 0 to 25. */
    NOOKPLOVER_OUT_OF_RANGE = 10,
    /* There are more rows than the memory has places for. */
    NOOKPLOVER_ARCHIVE_FULL = 27,
    /* The length of the row bytes is not a multiple of 15. */
    NOOKPLOVER_PARTIAL_ROW = 30,
    /* A row begins with neither 45 48 (energy) nor 50 4C (peak). */
    NOOKPLOVER_UNKNOWN_MARK = 31,
    /* A row has another field out of its range. */
    NOOKPLOVER_UNLAWFUL_ROW = 32,
    /* The listing is longer than the output. */
    NOOKPLOVER_TEXT_TOO_LONG = 33
};

/* Takes the row bytes into an empty archive in `memory`, and writes the listing of a day and hour (hour 0 lists the
 * day's peak rows) at the beginning of `output`: for each supplier whose rows do not add up to 0, in rising number, a
 * line "SUPPLIER SUM", and then a line "zone SUM", each ended by one line feed (0A); a sum below 0 has a minus. No 0
 * byte ends the text. Sums are in hundredths of a kWh, those of peak rows in hundredths of a kW.
 *
 * Answers the length of the listing, or a refusal's number with a minus. What is looked at, in this order: the length of
 * the row bytes (30), each row in turn (31, 32), the places for them (27), day and hour (10), the output's length (33).
 *
 * `memory` holds length / 15 rows, and 65,536 at most. Refused with 27, 30, 31 or 32, it is as it was. Otherwise
 * the row bytes stand at its beginning, as scratch, also where 10 or 33 is answered; the rest of it is as it was.
 * `output` is written on success alone, and past the listing never. `rows` is only read.
 *
 * What the caller owes, since nothing here can check it: each pointer is not NULL, even where its length is 0; it points
 * to as many bytes as its length says; and no two of the three overlap. Calls that share no `memory` and no `output`
 * may run at the same time. */
int64_t nookplover_list(uint32_t day, uint32_t hour, const uint8_t *rows, size_t rows_length, uint8_t *memory,
                        size_t memory_length, uint8_t *output, size_t output_length);

#ifdef __cplusplus
}
#endif

#endif
