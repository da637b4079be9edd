// Times several ways to find the whole part of a square root, in one run, against the processor's own square root.
//     cc -O3 -o target/roots bench/roots.c -lm && target/roots
// The numbers are squared distances of two places up to 280 km apart. Each way is timed twice: with each root waiting for
// the one before (latency), as in a search, where the next visit depends on the last one, and with none waiting (throughput).
#include <math.h>
#include <stdint.h>
#include <stdio.h>
#include <time.h>

enum { COUNT = 1 << 16, TURNS = 64 };
static uint64_t numbers[COUNT];
static uint16_t table[256];

static inline uint64_t processor(uint64_t n) {
    uint64_t r = (uint64_t)sqrt((double)n);
    while (r > 0xffffffffu || r * r > n) r--;
    while (r < 0xffffffffu && (r + 1) * (r + 1) <= n) r++;
    return r;
}

static inline uint64_t step(uint64_t n, uint64_t r) { return (r + n / r) / 2; }

static inline uint64_t settled(uint64_t n, uint64_t r) {
    if (r > 0xffffffffu) r = 0xffffffffu;
    while (n < r * r) r = step(n, r);
    return r;
}

// The body of squares::root.
static inline uint64_t three_steps(uint64_t n) {
    if (n == 0) return 0;
    uint64_t s = (64 - __builtin_clzll(n)) / 2;
    uint64_t r = ((1ull << s) + (n >> s)) / 2;
    return settled(n, step(n, step(n, step(n, r))));
}

// Newton's steps in a loop, from the power of two above the root.
static inline uint64_t power(uint64_t n) {
    if (n == 0) return 0;
    return settled(n, 1ull << ((65 - __builtin_clzll(n)) / 2));
}

// Two steps from a table of the roots of the leading eight binary digits.
static inline uint64_t tabled(uint64_t n) {
    uint64_t k = 64 - __builtin_clzll(n | 1);
    uint64_t s = k <= 8 ? 0 : (k - 7) / 2;
    uint64_t r = (((uint64_t)table[n >> (2 * s)] << s) >> 12) + 2;
    return settled(n, step(n, step(n, r)));
}

static inline uint64_t digit_pairs(uint64_t n) {
    uint64_t r = 0, bit = 1ull << 62;
    while (bit > n) bit >>= 2;
    for (; bit; bit >>= 2) {
        if (n >= r + bit) {
            n -= r + bit;
            r = (r >> 1) + bit;
        } else {
            r >>= 1;
        }
    }
    return r;
}

static inline uint64_t bisection(uint64_t n) {
    uint64_t lo = 0, hi = 1ull << 32;
    while (lo + 1 < hi) {
        uint64_t mid = (lo + hi) / 2;
        if (mid * mid <= n) lo = mid; else hi = mid;
    }
    return lo;
}

static double now(void) {
    struct timespec t;
    clock_gettime(CLOCK_MONOTONIC, &t);
    return t.tv_sec * 1e9 + t.tv_nsec;
}

static double unit[2];

static void tell(const char *name, uint64_t wrong, double latency, double throughput) {
    if (unit[0] == 0) unit[0] = latency, unit[1] = throughput;
    printf("%-12s latency %6.1f ns %5.2f   throughput %6.1f ns %5.2f   wrong %llu\n", name, latency, latency / unit[0],
           throughput, throughput / unit[1], (unsigned long long)wrong);
}

#define MEASURE(name, root)                                                                        \
    do {                                                                                           \
        uint64_t wrong = 0, sum = 0;                                                               \
        for (int i = 0; i < COUNT; i++) wrong += root(numbers[i]) != bisection(numbers[i]);        \
        double a = now();                                                                          \
        for (int t = 0; t < TURNS; t++)                                                            \
            for (int i = 0; i < COUNT; i++) sum += root(numbers[i] ^ (sum & 1));                   \
        double b = now();                                                                          \
        for (int t = 0; t < TURNS; t++)                                                            \
            for (int i = 0; i < COUNT; i++) sum += root(numbers[i]);                               \
        double c = now();                                                                          \
        __asm__ volatile("" : : "r"(sum));                                                         \
        tell(name, wrong, (b - a) / COUNT / TURNS, (c - b) / COUNT / TURNS);                       \
    } while (0)

int main(void) {
    uint64_t x = 88172645463325252ull;
    for (int i = 0; i < COUNT; i++) {
        x ^= x << 13, x ^= x >> 7, x ^= x << 17;
        uint64_t e = x % 20000000, n = (x >> 32) % 20000000;
        numbers[i] = e * e + n * n;
    }
    for (int i = 0; i < 256; i++) table[i] = (uint16_t)fmin(65535, sqrt(i + 0.5) * 4096);
    MEASURE("processor", processor);
    MEASURE("three steps", three_steps);
    MEASURE("table", tabled);
    MEASURE("power of two", power);
    MEASURE("digit pairs", digit_pairs);
    MEASURE("bisection", bisection);
}
