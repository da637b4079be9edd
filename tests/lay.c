/* The harness by which the tests call the library: it reads requests from standard input, one to a line, calls a function of lay.h
 * for each, and prints each answer on a line of standard output. A verb is the name of its function without `lay_`.
 *
 * Words are separated by single spaces. Numbers are decimal. BYTES, CHAIN, JOB, TABLE, SCALE, LOG and TEXT are lower-case
 * hexadecimal, `-` for no bytes. A CHAIN, and the JOB of search and how_many, may also be its numbers with commas between, as in
 * 0,0,30000,0,0,40000 and 30000,40000,1,0,100; for log records CHAIN is the chain's number. A PATTERN is the bits of a binary64
 * number in 16 hexadecimal digits, the highest first. READING.. and N.. are any number of numbers. R is the number of the refusal,
 * 0 for none. A MARK is 0, 1 or 2 as in lay.h; an ANSWER is 1, 2 or 3 as there, and 0 after a refusal. LENGTH is how many elements
 * a lent buffer or list has, and DIRT is what each of them holds before the call.
 *
 *   version                                      ->  VERSION
 *   centimetres PATTERN                          ->  R C MARK
 *   metres C                                     ->  R PATTERN
 *   expected LENGTH DIRT CHAIN FACTOR E N        ->  R and every entry of the list
 *   search LENGTH DIRT CHAIN FACTOR JOB READING..
 *                                                ->  R COUNT VISITS and every entry of the list
 *   how_many CHAIN FACTOR JOB READING..          ->  R ANSWER E N VISITS
 *   read_record BYTES                            ->  R KIND CHAIN LINE X Y XMARK YMARK
 *   write_record LENGTH DIRT KIND CHAIN LINE X Y ->  R BYTES, the whole buffer
 *   read_job BYTES                               ->  R E N K T ALLOWANCE
 *   write_job LENGTH DIRT E N K T ALLOWANCE      ->  R BYTES
 *   count_chains BYTES                           ->  R COUNT
 *   chain LENGTH DIRT NUMBER TABLE SCALE         ->  R BYTES FACTOR
 *   read_chain LENGTH DIRT CHAIN FACTOR          ->  R and every entry of the list
 *   write_chain LENGTH DIRT FACTOR N..           ->  R BYTES
 *   write_factor LENGTH DIRT FACTOR              ->  R BYTES
 *   list LENGTH DIRT HELD E N ROUNDED JOB TABLE SCALE LOG
 *                                                ->  R TEXTLENGTH HELD E N ROUNDED TEXT, and `kept` if every byte after the
 *                                                    text still holds DIRT, else `touched`
 *
 * Each buffer, list and result that is lent to a call has exactly its length and lies between guard bytes; a result holds dirt
 * before the call. If the call has changed a guard, or bytes that it may only read, the answer ends with `damaged`. The program
 * ends with 2 at a request that is none of these.
 */
#define _POSIX_C_SOURCE 200809L
#include "lay.h"
#include <inttypes.h>
#include <stdbool.h>
#include <stdio.h>
#include <stdlib.h>
#include <string.h>

/* The structs have the same layout in memory as the arrays that the library takes them for. */
_Static_assert(sizeof(struct lay_found) == 2 * sizeof(uint64_t), "two numbers of 64 bits");
_Static_assert(offsetof(struct lay_found, visits) == 8, "the second of them");
_Static_assert(sizeof(struct lay_place) == 2 * sizeof(uint32_t), "two numbers of 32 bits");
_Static_assert(offsetof(struct lay_place, easting) == 0 && offsetof(struct lay_place, northing) == 4, "in this order");
_Static_assert(offsetof(struct lay_part, held) == 8 && offsetof(struct lay_part, easting) == 12, "behind the length");
_Static_assert(offsetof(struct lay_part, northing) == 16 && offsetof(struct lay_part, rounded) == 20, "behind these");
_Static_assert(sizeof(struct lay_part) == 24, "and nothing else");

enum { GUARD = 64, GUARD_BYTE = 0xC3, RESULT_DIRT = 0xA5, MOST_LENT = 8 };

static const char HEX[] = "0123456789abcdef";

/* The number of the request, how many of its words are not read yet, and the next of these; each ends with a zero byte. */
static size_t request_number, words_left;
static const char *next_word;

static _Noreturn void ill_formed(const char *why)
{
    fflush(stdout);
    fprintf(stderr, "lay: request %zu: %s\n", request_number, why);
    exit(2);
}

/* Reading words. `answer` checks how many there are before a verb reads its own. */

static const char *word(void)
{
    const char *start = next_word;
    if (*start == '\0')
        ill_formed("a word is empty");
    next_word += strlen(start) + 1;
    words_left--;
    return start;
}

static uint64_t number_in(const char *digits, uint64_t most)
{
    uint64_t number = 0;
    if (*digits == '\0')
        ill_formed("a number has no digits");
    for (; *digits != '\0'; digits++) {
        if (*digits < '0' || *digits > '9')
            ill_formed("a number has something else than digits");
        uint64_t digit = (uint64_t)(*digits - '0');
        if (number > (most - digit) / 10)
            ill_formed("a number is too large");
        number = 10 * number + digit;
    }
    return number;
}

static uint8_t byte(void) { return (uint8_t)number_in(word(), UINT8_MAX); }

static uint32_t number32(void) { return (uint32_t)number_in(word(), UINT32_MAX); }

static uint64_t number64(void) { return number_in(word(), UINT64_MAX); }

static size_t size(void) { return (size_t)number_in(word(), SIZE_MAX); }

static int64_t signed64(void)
{
    const char *digits = word();
    if (*digits != '-')
        return (int64_t)number_in(digits, INT64_MAX);
    uint64_t below_zero = number_in(digits + 1, (uint64_t)1 << 63);
    return below_zero == 0 ? 0 : -(int64_t)(below_zero - 1) - 1;
}

static unsigned digit_of(char c)
{
    if (c >= '0' && c <= '9')
        return (unsigned)(c - '0');
    if (c >= 'a' && c <= 'f')
        return (unsigned)(c - 'a') + 10;
    ill_formed("something else than hexadecimal digits");
}

static uint8_t byte_in(const char *hex) { return (uint8_t)(16 * digit_of(hex[0]) + digit_of(hex[1])); }

static double pattern(void)
{
    const char *hex = word();
    uint64_t bits = 0;
    double number;
    if (strlen(hex) != 16)
        ill_formed("a pattern has not 16 digits");
    for (size_t i = 0; i < 16; i += 2)
        bits = bits << 8 | byte_in(hex + i);
    memcpy(&number, &bits, sizeof number);
    return number;
}

struct place {
    uint32_t easting, northing;
};

static struct place place(void)
{
    struct place p;
    p.easting = number32();
    p.northing = number32();
    return p;
}

/* What is lent to a call. `hex` has the digits of bytes that the call must not change; it is NULL for what the call may write. */

struct loan {
    uint8_t *whole;
    size_t length;
    const char *hex;
};

static struct loan loans[MOST_LENT];
static size_t loan_count;

static void *lend(size_t length, uint8_t dirt)
{
    uint8_t *whole = length > SIZE_MAX - 2 * GUARD ? NULL : malloc(length + 2 * GUARD);
    if (whole == NULL || loan_count == MOST_LENT)
        ill_formed("there is no room for what it needs");
    memset(whole, GUARD_BYTE, GUARD);
    memset(whole + GUARD, dirt, length);
    memset(whole + GUARD + length, GUARD_BYTE, GUARD);
    loans[loan_count++] = (struct loan){whole, length, NULL};
    return whole + GUARD;
}

static void *result(size_t length) { return lend(length, RESULT_DIRT); }

static uint32_t *result32(void) { return result(sizeof(uint32_t)); }

static int64_t *result_signed(void) { return result(sizeof(int64_t)); }

static uint64_t *result64(void) { return result(sizeof(uint64_t)); }

static size_t *result_size(void) { return result(sizeof(size_t)); }

struct bytes {
    const uint8_t *at;
    size_t length;
};

static struct bytes bytes_in(const char *hex)
{
    size_t digits = strcmp(hex, "-") == 0 ? 0 : strlen(hex);
    if (digits % 2 != 0)
        ill_formed("a byte has one digit");
    uint8_t *at = lend(digits / 2, 0);
    for (size_t i = 0; i < digits / 2; i++)
        at[i] = byte_in(hex + 2 * i);
    loans[loan_count - 1].hex = hex;
    return (struct bytes){at, digits / 2};
}

static struct bytes bytes(void) { return bytes_in(word()); }

/* Where a number begins in a record, and in how many bytes it is, the lowest first. */
struct field {
    size_t at, width;
};

/* Puts numbers with commas between into `hex`, the digits of a record, which are all zero before. */
static void put_fields(const char *numbers, const struct field *fields, size_t count, char *hex)
{
    for (size_t i = 0; i < count; i++) {
        char digits[21] = "";
        size_t n = strcspn(numbers, ",");
        if (n >= sizeof digits || (numbers[n] == ',') != (i + 1 < count))
            ill_formed("numbers too many, too few or too long");
        memcpy(digits, numbers, n);
        uint64_t number = number_in(digits, UINT64_MAX >> (64 - 8 * fields[i].width));
        for (size_t j = fields[i].at; j < fields[i].at + fields[i].width; j++, number >>= 8) {
            hex[2 * j] = HEX[number >> 4 & 15];
            hex[2 * j + 1] = HEX[number & 15];
        }
        numbers += n + 1;
    }
}

/* The bytes that the next word has in hexadecimal, or those of its numbers with commas between. */
static struct bytes bytes_by(const struct field *fields, size_t count, char *hex, size_t digits)
{
    const char *given = word();
    if (strchr(given, ',') == NULL)
        return bytes_in(given);
    memset(hex, '0', digits);
    put_fields(given, fields, count, hex);
    return bytes_in(hex);
}

static struct bytes chain_bytes(void)
{
    static const struct field fields[] = {{0, 4}, {4, 4}, {8, 4}, {12, 4}, {16, 4}, {20, 4}};
    static char hex[2 * LAY_CHAIN_BYTES + 1];
    return bytes_by(fields, sizeof fields / sizeof *fields, hex, sizeof hex - 1);
}

/* A job has k in one byte. */
static struct bytes job_bytes(void)
{
    static const struct field fields[] = {{0, 4}, {4, 4}, {8, 1}, {12, 4}, {16, 8}};
    static char hex[2 * LAY_JOB_BYTES + 1];
    return bytes_by(fields, sizeof fields / sizeof *fields, hex, sizeof hex - 1);
}

static bool all(const uint8_t *at, size_t length, uint8_t value)
{
    for (size_t i = 0; i < length; i++)
        if (at[i] != value)
            return false;
    return true;
}

static bool unharmed(const struct loan *loan)
{
    const uint8_t *at = loan->whole + GUARD;
    if (!all(loan->whole, GUARD, GUARD_BYTE) || !all(at + loan->length, GUARD, GUARD_BYTE))
        return false;
    for (size_t i = 0; loan->hex != NULL && i < loan->length; i++)
        if (at[i] != byte_in(loan->hex + 2 * i))
            return false;
    return true;
}

static void take_back(void)
{
    bool damaged = false;
    for (size_t i = 0; i < loan_count; i++) {
        damaged = damaged || !unharmed(&loans[i]);
        free(loans[i].whole);
    }
    loan_count = 0;
    if (damaged)
        fputs(" damaged", stdout);
}

static void print_bytes(const uint8_t *at, size_t length)
{
    putchar(' ');
    if (length == 0)
        putchar('-');
    for (size_t i = 0; i < length; i++) {
        putchar(HEX[at[i] / 16]);
        putchar(HEX[at[i] % 16]);
    }
}

/* The verbs, each with its call of the library. */

static void ask_version(void) { printf("%" PRIu32, lay_version()); }

static void ask_centimetres(void)
{
    double metres = pattern();
    int64_t *centimetres = result_signed();
    uint32_t *mark = result32();
    uint32_t refusal = lay_centimetres(metres, centimetres, mark);
    printf("%" PRIu32 " %" PRId64 " %" PRIu32, refusal, *centimetres, *mark);
}

static void ask_metres(void)
{
    int64_t centimetres = signed64();
    double *metres = result(sizeof *metres);
    uint32_t refusal = lay_metres(centimetres, metres);
    uint64_t bits;
    memcpy(&bits, metres, sizeof bits);
    printf("%" PRIu32 " %016" PRIx64, refusal, bits);
}

static void *lend_list(size_t entries, size_t size)
{
    return lend(entries > SIZE_MAX / size ? SIZE_MAX : entries * size, 0);
}

static void ask_expected(void)
{
    size_t length = size();
    int64_t dirt = signed64();
    int64_t *readings = lend_list(length, sizeof *readings);
    for (size_t i = 0; i < length; i++)
        readings[i] = dirt;
    struct bytes chain = chain_bytes();
    uint32_t factor = number32();
    struct place p = place();
    printf("%" PRIu32, lay_expected(readings, length, chain.at, chain.length, factor, p.easting, p.northing));
    for (size_t i = 0; i < length; i++)
        printf(" %" PRId64, readings[i]);
}

static uint32_t *dirty_list(size_t entries, uint32_t dirt)
{
    uint32_t *list = lend_list(entries, sizeof *list);
    for (size_t i = 0; i < entries; i++)
        list[i] = dirt;
    return list;
}

static void print_list(const uint32_t *list, size_t entries)
{
    for (size_t i = 0; i < entries; i++)
        printf(" %" PRIu32, list[i]);
}

/* Lends all the words that are left, as readings; `count` is set to how many they are. */
static const int64_t *readings_left(size_t *count)
{
    *count = words_left;
    int64_t *readings = lend_list(*count, sizeof *readings);
    for (size_t i = 0; i < *count; i++)
        readings[i] = signed64();
    return readings;
}

static void ask_search(void)
{
    size_t length = size(), count;
    uint32_t *list = dirty_list(length, number32());
    struct bytes chain = chain_bytes();
    uint32_t factor = number32();
    struct bytes job = job_bytes();
    const int64_t *readings = readings_left(&count);
    struct lay_found *found = result(sizeof *found);
    uint32_t refusal =
        lay_search(list, length, chain.at, chain.length, factor, readings, count, job.at, job.length, found);
    printf("%" PRIu32 " %" PRIu64 " %" PRIu64, refusal, found->count, found->visits);
    print_list(list, length);
}

static void ask_how_many(void)
{
    size_t count;
    struct bytes chain = chain_bytes();
    uint32_t factor = number32();
    struct bytes job = job_bytes();
    const int64_t *readings = readings_left(&count);
    uint32_t *answer = result32();
    struct lay_place *found = result(sizeof *found);
    uint64_t *visits = result64();
    uint32_t refusal =
        lay_how_many(chain.at, chain.length, factor, readings, count, job.at, job.length, answer, found, visits);
    printf("%" PRIu32 " %" PRIu32 " %" PRIu32 " %" PRIu32 " %" PRIu64, refusal, *answer, found->easting, found->northing,
           *visits);
}

static void ask_read_record(void)
{
    struct bytes s = bytes();
    uint32_t *kind = result32(), *number = result32(), *line = result32();
    int64_t *x = result_signed(), *y = result_signed();
    uint32_t *x_mark = result32(), *y_mark = result32();
    uint32_t refusal = lay_read_record(s.at, s.length, kind, number, line, x, y, x_mark, y_mark);
    printf("%" PRIu32 " %" PRIu32 " %" PRIu32 " %" PRIu32, refusal, *kind, *number, *line);
    printf(" %" PRId64 " %" PRId64 " %" PRIu32 " %" PRIu32, *x, *y, *x_mark, *y_mark);
}

static void ask_write_record(void)
{
    size_t length = size();
    uint8_t *buffer = lend(length, byte());
    uint32_t kind = number32();
    uint32_t number = number32();
    uint32_t line = number32();
    int64_t x = signed64();
    int64_t y = signed64();
    printf("%" PRIu32, lay_write_record(buffer, length, kind, number, line, x, y));
    print_bytes(buffer, length);
}

static void ask_read_job(void)
{
    struct bytes s = bytes();
    uint32_t *easting = result32(), *northing = result32(), *k = result32(), *tolerance = result32();
    uint64_t *allowance = result64();
    uint32_t refusal = lay_read_job(s.at, s.length, easting, northing, k, tolerance, allowance);
    printf("%" PRIu32 " %" PRIu32 " %" PRIu32 " %" PRIu32 " %" PRIu32 " %" PRIu64, refusal, *easting, *northing, *k,
           *tolerance, *allowance);
}

static void ask_write_job(void)
{
    size_t length = size();
    uint8_t *buffer = lend(length, byte());
    struct place corner = place();
    uint32_t k = number32();
    uint32_t tolerance = number32();
    uint64_t allowance = number64();
    printf("%" PRIu32, lay_write_job(buffer, length, corner.easting, corner.northing, k, tolerance, allowance));
    print_bytes(buffer, length);
}

static void ask_count_chains(void)
{
    struct bytes table = bytes();
    size_t *count = result_size();
    uint32_t refusal = lay_count_chains(table.at, table.length, count);
    printf("%" PRIu32 " %zu", refusal, *count);
}

static void ask_chain(void)
{
    size_t length = size();
    uint8_t *buffer = lend(length, byte());
    uint32_t number = number32();
    struct bytes table = bytes(), scale = bytes();
    uint32_t *factor = result32();
    printf("%" PRIu32, lay_chain(buffer, length, table.at, table.length, scale.at, scale.length, number, factor));
    print_bytes(buffer, length);
    printf(" %" PRIu32, *factor);
}

static void ask_read_chain(void)
{
    size_t length = size();
    uint32_t *stations = dirty_list(length, number32());
    struct bytes chain = chain_bytes();
    uint32_t factor = number32();
    printf("%" PRIu32, lay_read_chain(chain.at, chain.length, factor, stations, length));
    print_list(stations, length);
}

static void ask_write_chain(void)
{
    size_t length = size();
    uint8_t *buffer = lend(length, byte());
    uint32_t factor = number32();
    size_t count = words_left;
    uint32_t *stations = dirty_list(count, 0);
    for (size_t i = 0; i < count; i++)
        stations[i] = number32();
    printf("%" PRIu32, lay_write_chain(buffer, length, stations, count, factor));
    print_bytes(buffer, length);
}

static void ask_write_factor(void)
{
    size_t length = size();
    uint8_t *buffer = lend(length, byte());
    uint32_t factor = number32();
    printf("%" PRIu32, lay_write_factor(buffer, length, factor));
    print_bytes(buffer, length);
}

static void ask_list(void)
{
    size_t length = size();
    uint8_t dirt = byte();
    uint8_t *text = lend(length, dirt);
    struct lay_part *part = result(sizeof *part);
    part->held = number32();
    part->easting = number32();
    part->northing = number32();
    part->rounded = number32();
    struct bytes job = bytes(), table = bytes(), scale = bytes(), log = bytes();
    uint32_t refusal = lay_list(text, length, job.at, job.length, table.at, table.length, scale.at, scale.length, log.at,
                                log.length, part);
    printf("%" PRIu32 " %" PRIu64 " %" PRIu32 " %" PRIu32 " %" PRIu32 " %" PRIu32, refusal, part->length, part->held,
           part->easting, part->northing, part->rounded);
    if (part->length > length) {
        fputs(" beyond", stdout);
        return;
    }
    print_bytes(text, part->length);
    fputs(all(text + part->length, length - part->length, dirt) ? " kept" : " touched", stdout);
}

/* `words` is how many words follow the verb; if `more` is true, there may be any number of others after them. */
static const struct verb {
    const char *name;
    size_t words;
    bool more;
    void (*ask)(void);
} VERBS[] = {
    {"version", 0, false, ask_version},
    {"centimetres", 1, false, ask_centimetres},
    {"metres", 1, false, ask_metres},
    {"expected", 6, false, ask_expected},
    {"search", 5, true, ask_search},
    {"how_many", 3, true, ask_how_many},
    {"read_record", 1, false, ask_read_record},
    {"write_record", 7, false, ask_write_record},
    {"read_job", 1, false, ask_read_job},
    {"write_job", 7, false, ask_write_job},
    {"count_chains", 1, false, ask_count_chains},
    {"chain", 5, false, ask_chain},
    {"read_chain", 4, false, ask_read_chain},
    {"write_chain", 3, true, ask_write_chain},
    {"write_factor", 3, false, ask_write_factor},
    {"list", 10, false, ask_list},
};

static const struct verb *verb(void)
{
    const char *name = word();
    for (size_t i = 0; i < sizeof VERBS / sizeof *VERBS; i++)
        if (strcmp(name, VERBS[i].name) == 0)
            return &VERBS[i];
    ill_formed("no such verb");
}

/* Ends each word of the line with a zero byte, and counts the words after the first. */
static size_t part(char *line)
{
    size_t spaces = 0;
    for (; *line != '\0'; line++)
        if (*line == ' ') {
            *line = '\0';
            spaces++;
        }
    return spaces;
}

static void answer(char *line, size_t length)
{
    if (length > 0 && line[length - 1] == '\n')
        line[--length] = '\0';
    if (strlen(line) != length)
        ill_formed("a zero byte");
    size_t words = part(line);
    next_word = line;
    words_left = words + 1;
    const struct verb *asked = verb();
    if (asked->more ? words < asked->words : words != asked->words)
        ill_formed("words too many or too few");
    asked->ask();
    take_back();
    putchar('\n');
}

int main(void)
{
    char *line = NULL;
    size_t room = 0;
    ssize_t length;
    while ((length = getline(&line, &room, stdin)) >= 0) {
        request_number++;
        answer(line, (size_t)length);
    }
    free(line);
    return ferror(stdin) || fflush(stdout) != 0 ? 1 : 0;
}
