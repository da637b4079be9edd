// For the C programs of the bench: places, the distance of two places by the processor's square root, and ranges.
#include <math.h>
#include <stdint.h>

typedef struct {
    int64_t easting, northing;
} Place;

// The whole part of the root. Just below a perfect square the root of a double may be one too large, so it is corrected.
static int64_t whole_root(int64_t n) {
    int64_t r = (int64_t)sqrt((double)n);
    while (r * r > n) r--;
    while ((r + 1) * (r + 1) <= n) r++;
    return r;
}

static int64_t distance(Place p, Place q) {
    int64_t e = p.easting - q.easting, n = p.northing - q.northing;
    return whole_root(e * e + n * n);
}

// From a place to a station over the ground: the distance on the grid divided by the chain's factor, which is in millionths.
static int64_t range(Place p, Place station, int64_t factor) { return distance(p, station) * 1000000 / factor; }
