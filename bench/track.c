// Makes a folder for the bench: its log is a ship's track through the middle of a chain with baselines of about 100 km.
//     cc -O2 -o target/bench/track bench/track.c -lm && target/bench/track FOLDER K TOLERANCE RECORDS
// The window of 2^K by 2^K cells lies around the track, and each record has the exact readings of a place on the track.
#include <stdio.h>
#include <stdlib.h>
#include <string.h>

#include "distance.h"

enum { LOG_RECORD = 32, CHAIN_RECORD = 24, FACTOR_RECORD = 4, JOB_RECORD = 32, LEGS = 5 };

static const Place master = {50000000, 500000000}, a = {41400000, 505100000}, b = {50100000, 510000000};
static const Place middle = {47200000, 505000000};

// The scale of the grid on its central meridian. With 1,000,000 a program might leave out the scaling.
static const int64_t factor = 999600;

// Farther from the middle the hyperbolas of the chain cross at so small an angle that with tolerance 10 more cells match than a
// list has room for.
static const int64_t most_reach = 1000000;

// The usual allowance, which no record of the track uses up. Under a larger one laylist prints line by line.
static const uint64_t allowance = 1000000;

static void put(uint8_t *bytes, int width, uint64_t n) {
    for (int i = 0; i < width; i++) bytes[i] = (uint8_t)(n >> 8 * i);
}

static void put_place(uint8_t *bytes, Place p) {
    put(bytes, 4, (uint64_t)p.easting);
    put(bytes + 4, 4, (uint64_t)p.northing);
}

static void put_reading(uint8_t *bytes, Place slave, Place p) {
    double metres = (double)(range(p, slave, factor) - range(p, master, factor)) / 100;
    uint64_t bits;
    memcpy(&bits, &metres, sizeof bits);
    put(bytes, 8, bits);
}

static FILE *create(const char *folder, const char *name) {
    char path[4096];
    snprintf(path, sizeof path, "%s/%s", folder, name);
    FILE *f = fopen(path, "wb");
    if (f) return f;
    perror(path);
    exit(1);
}

static void write_file(const char *folder, const char *name, const uint8_t *bytes, size_t length) {
    FILE *f = create(folder, name);
    fwrite(bytes, 1, length, f);
    fclose(f);
}

static void write_job(const char *folder, int k, uint64_t tolerance) {
    int64_t before = ((int64_t)3 << k) / 8; // so that the track does not lie along the window's own middle
    uint8_t job[JOB_RECORD] = {0};
    put_place(job, (Place){middle.easting - before, middle.northing - before});
    job[8] = (uint8_t)k;
    put(job + 12, 4, tolerance);
    put(job + 16, 8, allowance);
    write_file(folder, "job.dat", job, sizeof job);
}

static void write_chain(const char *folder) {
    uint8_t chain[CHAIN_RECORD];
    put_place(chain, master);
    put_place(chain + 8, a);
    put_place(chain + 16, b);
    write_file(folder, "chain.dat", chain, sizeof chain);
}

static void write_scale(const char *folder) {
    uint8_t scale[FACTOR_RECORD];
    put(scale, FACTOR_RECORD, (uint64_t)factor);
    write_file(folder, "scale.dat", scale, sizeof scale);
}

// The ship goes east at an even speed, and north and south in turn on legs of equal length.
static Place on_track(int64_t i, int64_t records, int64_t reach) {
    int64_t along = i * LEGS % records, leg = i * LEGS / records;
    int64_t north = 2 * reach * along / records;
    if (leg % 2 == 1) north = 2 * reach - north;
    return (Place){middle.easting - reach + 2 * reach * i / records, middle.northing - reach + north};
}

static void write_log(const char *folder, int k, int64_t records) {
    int64_t reach = ((int64_t)1 << k) / 4;
    if (reach > most_reach) reach = most_reach;
    FILE *f = create(folder, "lay.dat");
    for (int64_t i = 0; i < records; i++) {
        uint8_t record[LOG_RECORD] = {1, 1};
        Place p = on_track(i, records, reach);
        put(record + 4, 4, (uint64_t)i + 1);
        put_reading(record + 8, a, p);
        put_reading(record + 16, b, p);
        fwrite(record, 1, sizeof record, f);
    }
    fclose(f);
}

int main(int argc, char **argv) {
    if (argc != 5) {
        fputs("track: give a folder, k, a tolerance and a number of records\n", stderr);
        return 2;
    }
    int k = atoi(argv[2]);
    write_job(argv[1], k, strtoull(argv[3], NULL, 10));
    write_chain(argv[1]);
    write_scale(argv[1]);
    write_log(argv[1], k, atoll(argv[4]));
    return 0;
}
