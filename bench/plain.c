// Lists a lay log in the plain way: the program with which the bench compares the times of the others.
//     cc -O2 -o target/bench/plain bench/plain.c -lm && target/bench/plain FOLDER
// It prints what laylist prints for FOLDER, or for the folder it is run in if none is given. Each visit takes three square roots and
// three divisions.
#include <inttypes.h>
#include <stdbool.h>
#include <stdio.h>
#include <stdlib.h>
#include <string.h>

#include "distance.h"

enum { ROOM = 256, LOG_RECORD = 32, CHAIN_RECORD = 24, FACTOR_RECORD = 4, JOB_RECORD = 32, MOST_CHAINS = 16 };
enum { MOST_EASTING = 100000000, MOST_NORTHING = 1000000000, MOST_EXPONENT = 24, MOST_TOLERANCE = 100000 };
enum { LEAST_FACTOR = 999000, MOST_FACTOR = 1001000 };
enum { HYPERBOLIC = 1, GRID = 2, HOLD = 3 };

typedef struct {
    uint8_t *bytes;
    size_t length;
} File;

// The chains' stations, and the side file with their factors.
typedef struct {
    File chains, scale;
} Table;

typedef struct {
    Place master, a, b;
    int64_t factor;
} Chain;

typedef struct {
    Place corner;
    int k;
    int64_t tolerance;
    uint64_t allowance;
} Job;

// A search: what it is asked for, whether that was rounded, and what it has done so far.
typedef struct {
    Chain chain;
    int64_t a, b, tolerance;
    bool rounded;
    uint64_t allowance, visits;
    int refusal, count;
    Place places[ROOM];
} Search;

static uint64_t number(const uint8_t *bytes, int width) {
    uint64_t n = 0;
    for (int i = width - 1; i >= 0; i--) n = n << 8 | bytes[i];
    return n;
}

static bool zeros(const uint8_t *bytes, int width) { return number(bytes, width) == 0; }

static Place place_at(const uint8_t *bytes) {
    return (Place){(int64_t)number(bytes, 4), (int64_t)number(bytes + 4, 4)};
}

static bool in_range(Place p) {
    return p.easting >= 0 && p.easting <= MOST_EASTING && p.northing >= 0 && p.northing <= MOST_NORTHING;
}

static bool same(Place p, Place q) { return p.easting == q.easting && p.northing == q.northing; }

static bool sound(Chain c) {
    if (c.factor < LEAST_FACTOR || c.factor > MOST_FACTOR) return false;
    if (!in_range(c.master) || !in_range(c.a) || !in_range(c.b)) return false;
    return !same(c.master, c.a) && !same(c.master, c.b) && !same(c.a, c.b);
}

// Metres to the nearest centimetre, a tie to the even one; false for NaN and for what is too large. The 53 binary digits of a
// double, times 100, fit into 64, so the product is exact and is rounded once; `rounded` is set if anything is lost.
static bool centimetres(const uint8_t *bytes, int64_t *answer, bool *rounded) {
    uint64_t bits = number(bytes, 8);
    double metres;
    memcpy(&metres, &bits, sizeof metres);
    if (!(fabs(metres) <= 10000000.0)) return false;
    int exponent;
    uint64_t digits = (uint64_t)ldexp(frexp(fabs(metres), &exponent), 53) * 100;
    int shift = 53 - exponent;
    int64_t size = 0;
    uint64_t rest = digits;
    if (shift < 63) {
        uint64_t half = (uint64_t)1 << (shift - 1);
        rest = digits & (2 * half - 1);
        size = (int64_t)(digits >> shift);
        if (rest > half || (rest == half && size % 2 == 1)) size++;
    }
    if (rest != 0) *rounded = true;
    *answer = metres < 0 ? -size : size;
    return true;
}

// Whether both readings at a place are as wanted, give or take slack.
static bool matches(const Search *s, Place p, int64_t slack) {
    int64_t factor = s->chain.factor, master = range(p, s->chain.master, factor);
    int64_t a = range(p, s->chain.a, factor) - master, b = range(p, s->chain.b, factor) - master;
    return llabs(a - s->a) <= slack && llabs(b - s->b) <= slack;
}

static void test_cell(Search *s, Place p) {
    if (!matches(s, p, s->tolerance)) return;
    if (s->count == ROOM)
        s->refusal = 9;
    else
        s->places[s->count++] = p;
}

// Easting and northing are passed as two numbers: some compilers pass a struct of both through memory, which costs half as much
// again.
static void visit(Search *s, int64_t e, int64_t n, int64_t side) {
    if (s->refusal) return;
    if (s->visits == s->allowance) {
        s->refusal = 10;
        return;
    }
    s->visits++;
    if (side == 1) {
        test_cell(s, (Place){e, n});
        return;
    }
    int64_t half = side / 2;
    if (!matches(s, (Place){e + half, n + half}, s->tolerance + 2 * side + 4)) return;
    visit(s, e, n, half);
    visit(s, e + half, n, half);
    visit(s, e, n + half, half);
    visit(s, e + half, n + half, half);
}

static int job_of(File f, Job *job) {
    if (f.length != JOB_RECORD) return 1;
    if (!zeros(f.bytes + 9, 3) || !zeros(f.bytes + 24, 8)) return 2;
    job->corner = place_at(f.bytes);
    job->k = f.bytes[8];
    job->tolerance = (int64_t)number(f.bytes + 12, 4);
    job->allowance = number(f.bytes + 16, 8);
    if (job->k > MOST_EXPONENT) return 6;
    int64_t last = ((int64_t)1 << job->k) - 1;
    if (!in_range((Place){job->corner.easting + last, job->corner.northing + last})) return 6;
    return job->tolerance > MOST_TOLERANCE ? 7 : 0;
}

static int table_refusal(File f) {
    bool fits = f.length > 0 && f.length <= MOST_CHAINS * CHAIN_RECORD && f.length % CHAIN_RECORD == 0;
    return fits ? 0 : 1;
}

static int scale_refusal(Table t) {
    return t.scale.length == t.chains.length / CHAIN_RECORD * FACTOR_RECORD ? 0 : 1;
}

// The refusal of a log record by itself, 0 for none; `numbers` gets its two numbers in centimetres, and `rounded` is set if one was
// rounded.
static int record_refusal(const uint8_t *r, int64_t numbers[2], bool *rounded) {
    if (r[0] < HYPERBOLIC || r[0] > HOLD || !zeros(r + 2, 2) || !zeros(r + 24, 8)) return 2;
    if (r[0] != HYPERBOLIC && r[1] != 0) return 2;
    if (r[0] == HOLD) return zeros(r + 8, 8) && zeros(r + 16, 8) ? 0 : 2;
    if (!centimetres(r + 8, &numbers[0], rounded) || !centimetres(r + 16, &numbers[1], rounded)) return 3;
    if (r[0] == GRID && !in_range((Place){numbers[0], numbers[1]})) return 4;
    return 0;
}

static int chain_of(Table table, int which, Chain *chain) {
    if (which == 0 || (size_t)which * CHAIN_RECORD > table.chains.length) return 5;
    const uint8_t *r = table.chains.bytes + (which - 1) * CHAIN_RECORD;
    int64_t factor = (int64_t)number(table.scale.bytes + (which - 1) * FACTOR_RECORD, FACTOR_RECORD);
    *chain = (Chain){place_at(r), place_at(r + 8), place_at(r + 16), factor};
    return sound(*chain) ? 0 : 5;
}

static void search(Search *s, const Job *job, Table table, int which, const int64_t readings[2]) {
    s->refusal = chain_of(table, which, &s->chain);
    if (s->refusal) return;
    s->a = readings[0];
    s->b = readings[1];
    s->tolerance = job->tolerance;
    s->allowance = job->allowance;
    visit(s, job->corner.easting, job->corner.northing, (int64_t)1 << job->k);
    if (!s->refusal && s->count == 0) s->refusal = 8;
}

// Leaves the answer of a record in `s`, as a search does. There a hold finds the answer of the record before it.
static void answer(Search *s, const Job *job, Table table, const uint8_t *r) {
    int64_t numbers[2];
    bool held = !s->refusal && s->count == 1, rounded = false;
    s->visits = 0;
    s->refusal = record_refusal(r, numbers, &rounded);
    if (s->refusal) return;
    if (r[0] == HOLD) {
        s->refusal = held ? 0 : 11;
        return;
    }
    s->count = 0;
    s->rounded = rounded;
    if (r[0] == HYPERBOLIC) {
        search(s, job, table, r[1], numbers);
        return;
    }
    s->count = 1;
    s->places[0] = (Place){numbers[0], numbers[1]};
}

// Puts a space and a number at `at`, and returns where they end. With many places, printf would take longer than the search.
static char *put_number(char *at, int64_t n) {
    char digits[20];
    int count = 0;
    do digits[count++] = (char)('0' + n % 10);
    while (n /= 10);
    *at++ = ' ';
    while (count > 0) *at++ = digits[--count];
    return at;
}

static void print(const Search *s, const uint8_t *r) {
    static const char *const words[] = {"", "FIX", "GRID", "HOLD"};
    char text[64 + 2 * ROOM * 21], *at = text;
    uint32_t line = (uint32_t)number(r + 4, 4);
    if (s->refusal) {
        printf("%" PRIu32 " REFUSED %d %" PRIu64 "\n", line, s->refusal, s->visits);
        return;
    }
    at += sprintf(at, "%" PRIu32 " %s %d %" PRIu64, line, words[r[0]], s->count, s->visits);
    for (int i = 0; i < s->count; i++) {
        at = put_number(at, s->places[i].easting);
        at = put_number(at, s->places[i].northing);
    }
    at = put_number(at, s->rounded);
    *at++ = '\n';
    fwrite(text, 1, (size_t)(at - text), stdout);
}

static void list(const Job *job, Table table, File log) {
    static Search s;
    size_t at = 0;
    for (; log.length - at >= LOG_RECORD; at += LOG_RECORD) {
        answer(&s, job, table, log.bytes + at);
        print(&s, log.bytes + at);
    }
    if (at < log.length) puts("- REFUSED 1 0");
}

// A whole file; one that is missing is empty.
static File read_file(const char *folder, const char *name) {
    char path[4096];
    snprintf(path, sizeof path, "%s/%s", folder, name);
    File f = {NULL, 0};
    FILE *in = fopen(path, "rb");
    if (!in) return f;
    fseek(in, 0, SEEK_END);
    f.length = (size_t)ftell(in);
    rewind(in);
    f.bytes = malloc(f.length + 1);
    if (fread(f.bytes, 1, f.length, in) != f.length) exit(1);
    fclose(in);
    return f;
}

int main(int argc, char **argv) {
    static char buffer[1 << 16];
    setvbuf(stdout, buffer, _IOFBF, sizeof buffer);
    const char *folder = argc > 1 ? argv[1] : ".";
    Table table = {read_file(folder, "chain.dat"), read_file(folder, "scale.dat")};
    Job job;
    int refusal = job_of(read_file(folder, "job.dat"), &job);
    if (refusal) {
        printf("JOB REFUSED %d\n", refusal);
        return 0;
    }
    refusal = table_refusal(table.chains);
    if (refusal) {
        printf("CHAIN REFUSED %d\n", refusal);
        return 0;
    }
    refusal = scale_refusal(table);
    if (refusal) {
        printf("SCALE REFUSED %d\n", refusal);
        return 0;
    }
    list(&job, table, read_file(folder, "lay.dat"));
    return 0;
}
