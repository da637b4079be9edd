/* The library's interface for C. It converts metres to centimetres and back, gives the readings expected at a place, searches for
 * the places that readings allow, tells whether there is exactly one, reads and writes records (docs/FORMATS.md), and makes the
 * listing of a log.
 *
 * Every function but lay_version returns the number of a refusal, or LAY_OK if nothing is refused. It sets every result that the
 * caller lends it by pointer, whatever it held before: after a refusal to 0, unless the comment of the function says otherwise.
 * Every function is proved to end, for all numbers and for every content and length of a buffer. Places, readings and tolerances
 * are whole centimetres. A place is its easting, 0 to LAY_MOST_EASTING, and its northing, 0 to LAY_MOST_NORTHING. Chains, jobs and
 * log records are passed in and out as the bytes of their records.
 *
 * The factor of a chain is its scale, grid to ground, in millionths. A range from a place to a station is the distance on the grid,
 * cut to whole centimetres, times 1,000,000 divided by the factor, cut again; a reading is the range to the slave minus that to the
 * master. A chain is sound if its factor is LAY_LEAST_FACTOR to LAY_MOST_FACTOR, its three stations are in range and no two of them
 * are equal. With LAY_UNIT_FACTOR every range is the distance.
 *
 * What the caller must ensure, as for any C function: the pointer to a result points to one variable of its type; the pointer to a
 * buffer or list points to as many elements as the length argument after it says, and is not NULL even if that length is 0; and
 * nothing that a call writes overlaps anything else that it writes or reads.
 *
 * Threads: no function keeps anything from one call to the next, opens a file, allocates memory on a heap or blocks. Any number of
 * threads may call at once, as long as nothing that one call writes is lent to another call at the same time.
 */
#ifndef LAY_H
#define LAY_H

#include <stddef.h>
#include <stdint.h>

#ifdef __cplusplus
extern "C" {
#endif

/* The version of this header. It changes whenever callers must be compiled anew; lay_version() returns the version that the library
 * was built with. */
#define LAY_VERSION 3

/* The numbers of refusal. The comments below name them by number. */
enum {
    LAY_OK = 0,
    LAY_REFUSED_LENGTH = 1,      /* a length that does not fit */
    LAY_REFUSED_KIND = 2,        /* unknown kind, or a byte that must be zero is not */
    LAY_REFUSED_NUMBER = 3,      /* a number that is NaN, infinite or too large */
    LAY_REFUSED_PLACE = 4,       /* a place out of range */
    LAY_REFUSED_CHAIN = 5,       /* no such chain, or a chain that is not sound: its stations, or its factor */
    LAY_REFUSED_WINDOW = 6,      /* an exponent over LAY_MOST_EXPONENT, or a window out of range */
    LAY_REFUSED_TOLERANCE = 7,   /* a tolerance over LAY_MOST_TOLERANCE */
    LAY_REFUSED_NO_MATCH = 8,    /* no matching cell */
    LAY_REFUSED_ROOM = 9,        /* no room in the list or the buffer */
    LAY_REFUSED_ALLOWANCE = 10,  /* the allowance is used up */
    LAY_REFUSED_HOLD = 11        /* a hold with nothing to hold: only in the text of a listing, never returned */
};

/* Where exactly 100 times a number of metres lies, as seen from the whole centimetres that it was rounded to. */
enum {
    LAY_EQUAL = 0,   /* it is that whole number: nothing was lost */
    LAY_BELOW = 1,
    LAY_ABOVE = 2
};

/* How many places readings allow, as lay_how_many tells it. 0, which it sets after a refusal, is none of these. */
enum {
    LAY_NO_PLACE = 1,
    LAY_ONE_PLACE = 2,
    LAY_SEVERAL_PLACES = 3
};

/* Sizes in bytes, and how many numbers and readings a chain has. */
enum {
    LAY_RECORD_BYTES = 32,
    LAY_CHAIN_BYTES = 24,
    LAY_JOB_BYTES = 32,
    LAY_TABLE_BYTES = 384,   /* the longest table */
    LAY_FACTOR_BYTES = 4,
    LAY_SCALE_BYTES = 64,    /* the longest side file: the factors of a table's chains, in the table's order */
    LAY_LINE_BYTES = 5760,   /* the room that lay_list needs for a line */
    LAY_CHAIN_NUMBERS = 6,   /* easting and northing of master, A and B */
    LAY_CHAIN_READINGS = 2   /* A and B */
};

/* The largest values that are allowed. */
enum {
    LAY_MOST_EASTING = 100000000,
    LAY_MOST_NORTHING = 1000000000,
    LAY_MOST_READING = 1000000000,   /* in size: from minus this to plus this */
    LAY_MOST_EXPONENT = 24,
    LAY_MOST_TOLERANCE = 100000,
    LAY_MOST_CHAINS = 16
};

/* The factors that are allowed, in millionths, and the one that leaves distances as they are. */
enum {
    LAY_LEAST_FACTOR = 999000,
    LAY_MOST_FACTOR = 1001000,
    LAY_UNIT_FACTOR = 1000000
};

/* What a search found: how many places, in how many visits. */
struct lay_found {
    uint64_t count;
    uint64_t visits;
};

/* The place that lay_how_many gives. */
struct lay_place {
    uint32_t easting;
    uint32_t northing;
};

/* A part of a listing: the length of its text in bytes and, if `held` is 1, the place that a hold right after it repeats, with the
 * last field of that place's line: `rounded` is 1 if a number of its record was rounded, else 0. */
struct lay_part {
    uint64_t length;
    uint32_t held;
    uint32_t easting;
    uint32_t northing;
    uint32_t rounded;
};

/* Returns the LAY_VERSION of the header that the library was built with. */
uint32_t lay_version(void);

/* Converts metres to whole centimetres: the whole number nearest to exactly 100 times the metres; a tie goes to the even one. The
 * mark says where exactly 100 times the metres lies: LAY_EQUAL, LAY_BELOW or LAY_ABOVE these centimetres. Returns 3 for NaN, for an
 * infinity and for anything over 10,000,000 in size, and then sets LAY_EQUAL. */
uint32_t lay_centimetres(double metres, int64_t *centimetres, uint32_t *mark);

/* Converts whole centimetres to metres: one division by 100, rounded once. lay_centimetres turns the result back into the same
 * centimetres. Returns 3 for anything over 1,000,000,000 in size, and then sets plus zero. */
uint32_t lay_metres(int64_t centimetres, double *metres);

/* Gives the readings expected at a place, from the bytes of a chain and its factor, in a list of LAY_CHAIN_READINGS: the range to
 * slave A minus that to the master, then the same for B. Returns 1 for another length of list or chain, then 4 for a place out of
 * range, then 5 for a chain that is not sound. */
uint32_t lay_expected(int64_t *readings, size_t readings_length, const uint8_t *chain, size_t chain_length, uint32_t factor,
                      uint32_t easting, uint32_t northing);

/* Finds every cell of a job's window that matches the readings, LAY_CHAIN_READINGS of them. On success the list begins with the
 * easting and northing of each of these cells, and its other entries are zero. The cells are in chart order: the quarters of the
 * window south-west, south-east, north-west, north-east, and the quarters of each quarter likewise. Two entries of the list are
 * room for one place; an entry left over is no room.
 *
 * Returns 1 for a chain, readings or a job of another length, 2 if a byte of the job that must be zero is not, then 3, 5, 6, 7 in
 * this order, then 8, 9 or 10 as the search meets them. After a refusal the whole list is zero and the count is 0. After 8, 9 and
 * 10 the visits are those that were made; after any other refusal they are 0. */
uint32_t lay_search(uint32_t *list, size_t entries, const uint8_t *chain, size_t chain_length, uint32_t factor,
                    const int64_t *readings, size_t readings_length, const uint8_t *job, size_t job_length,
                    struct lay_found *found);

/* Tells whether no cell, one cell or several cells of a job's window match the readings, and which cell if it is one. It visits the
 * window as lay_search does, but needs no list and stops at the second matching cell: LAY_SEVERAL_PLACES comes with the visits up to
 * and with that cell, LAY_NO_PLACE and LAY_ONE_PLACE with those of the whole window. The place is (0, 0) unless the answer is
 * LAY_ONE_PLACE. Where lay_search with enough room finds places within the same allowance, or returns 8, the answer agrees with it.
 *
 * Returns 1 for a chain, readings or a job of another length, 2 if a byte of the job that must be zero is not, then 3, 5, 6, 7 in
 * this order, all as lay_search does, then 10 if the allowance is used up before this is decided; never 8 or 9. After 10 the visits
 * are the allowance; after any other refusal they are 0. */
uint32_t lay_how_many(const uint8_t *chain, size_t chain_length, uint32_t factor, const int64_t *readings,
                      size_t readings_length, const uint8_t *job, size_t job_length, uint32_t *answer,
                      struct lay_place *place, uint64_t *visits);

/* Reads a log record of LAY_RECORD_BYTES: its kind (1 hyperbolic, 2 grid, 3 hold); its chain number, which is 0 for kinds 2 and 3;
 * its line number; and, as x and y in whole centimetres, readings A and B, or easting and northing, or two zeros for a hold. Each of
 * x and y has its mark, as lay_centimetres gives it; those of a hold are LAY_EQUAL. Returns 1 for another length, then 2, 3, 4 in
 * this order. The line number is set after 2, 3 and 4 too, since any is allowed. */
uint32_t lay_read_record(const uint8_t *bytes, size_t length, uint32_t *kind, uint32_t *chain, uint32_t *line, int64_t *x,
                         int64_t *y, uint32_t *x_mark, uint32_t *y_mark);

/* Writes a log record into a buffer of LAY_RECORD_BYTES, from the same numbers. What the kind does not use is ignored. Refuses with
 * 1 to 5, tested in this order. When this or a writing function below refuses, the whole buffer is zero, whatever its length. */
uint32_t lay_write_record(uint8_t *buffer, size_t length, uint32_t kind, uint32_t chain, uint32_t line, int64_t x, int64_t y);

/* Reads a job of LAY_JOB_BYTES: the place of the south-west cell of the window, the exponent k (the window has 2^k by 2^k cells),
 * the tolerance and the allowance (how many visits a search may make). Refuses with 1, 2, 6 or 7, tested in this order. */
uint32_t lay_read_job(const uint8_t *bytes, size_t length, uint32_t *easting, uint32_t *northing, uint32_t *k,
                      uint32_t *tolerance, uint64_t *allowance);

/* Writes a job into a buffer of LAY_JOB_BYTES, from the same numbers. Refuses with 1, 6 or 7, tested in this order. */
uint32_t lay_write_job(uint8_t *buffer, size_t length, uint32_t easting, uint32_t northing, uint32_t k, uint32_t tolerance,
                       uint64_t allowance);

/* Counts the chains of a table, 1 to LAY_MOST_CHAINS. Returns 1 if the length is not that of 1 to LAY_MOST_CHAINS chains. */
uint32_t lay_count_chains(const uint8_t *table, size_t length, size_t *count);

/* Puts the bytes of the chain with this number in a table, counted from 1, into a buffer of LAY_CHAIN_BYTES, and gives its factor
 * from the side file, which has LAY_FACTOR_BYTES for each chain of the table. Returns 1 for a table of a wrong length, then 1 for a
 * side file of a wrong length, then 5 if the number is not in the table or the chain is not sound, then 1 for another length of
 * buffer. */
uint32_t lay_chain(uint8_t *buffer, size_t length, const uint8_t *table, size_t table_length, const uint8_t *scale,
                   size_t scale_length, uint32_t number, uint32_t *factor);

/* Reads the stations of a chain from its bytes into a list of LAY_CHAIN_NUMBERS: easting and northing of master, A and B. Returns 1
 * for another length of chain or list, then 5 for a chain that is not sound. */
uint32_t lay_read_chain(const uint8_t *chain, size_t chain_length, uint32_t factor, uint32_t *stations,
                        size_t stations_length);

/* Writes a chain into a buffer of LAY_CHAIN_BYTES, from such a list. The factor is only tested: lay_write_factor writes it. Returns
 * 1 for another length of list or buffer, then 5 for a chain that is not sound. */
uint32_t lay_write_chain(uint8_t *buffer, size_t length, const uint32_t *stations, size_t stations_length, uint32_t factor);

/* Writes a factor into a buffer of LAY_FACTOR_BYTES, as the side file has it. Returns 1 for another length of buffer, then 5 for a
 * factor out of LAY_LEAST_FACTOR to LAY_MOST_FACTOR. */
uint32_t lay_write_factor(uint8_t *buffer, size_t length, uint32_t factor);

/* Puts the text that the listing program prints for a log, or for a further part of a log, at the start of a buffer. If the log has
 * LAY_RECORD_BYTES, that is the line of one record.
 *
 * Set `part` to all zeros before the first part of a log, then pass it on unchanged from each part to the next. On entry it says
 * what place a hold at the start of this part repeats, and with what last field (any `held` or `rounded` other than 0 is taken as
 * 1). On return it says how long the text is, what place is held after it, and its last field; an empty log passes on what it was
 * given.
 *
 * If the job, the table or the side file `scale` is refused, tested in this order, this call itself is not: it returns LAY_OK, and
 * the text is the one line that the program would print, whatever the log, for example `JOB REFUSED 6` or `SCALE REFUSED 1` and a
 * newline. No place is held then.
 *
 * The buffer must have LAY_LINE_BYTES for each whole record of the log and for one more; if not, this returns 9 and leaves the
 * buffer as it was. What is in the buffer after the text is left as it was too. */
uint32_t lay_list(uint8_t *text, size_t length, const uint8_t *job, size_t job_length, const uint8_t *table,
                  size_t table_length, const uint8_t *scale, size_t scale_length, const uint8_t *log, size_t log_length,
                  struct lay_part *part);

#ifdef __cplusplus
}
#endif

#endif
