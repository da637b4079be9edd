/* Asks the library, from C, for the places that 01's readings of -100 m and -200 m allow in a window of 2 by 2 cells, and says
 * whether a reading had to be rounded to centimetres. */
#include "lay.h"
#include <inttypes.h>
#include <stdio.h>

int main(void)
{
    static const uint32_t stations[LAY_CHAIN_NUMBERS] = {0, 0, 30000, 0, 0, 40000};
    uint8_t chain[LAY_CHAIN_BYTES], job[LAY_JOB_BYTES];
    int64_t readings[LAY_CHAIN_READINGS];
    uint32_t marks[LAY_CHAIN_READINGS], list[8];
    struct lay_found found;
    if (lay_version() != LAY_VERSION)
        return 1;
    if (lay_write_chain(chain, sizeof chain, stations, LAY_CHAIN_NUMBERS, LAY_UNIT_FACTOR) != LAY_OK ||
        lay_write_job(job, sizeof job, 30000, 40000, 1, 0, 100) != LAY_OK ||
        lay_centimetres(-100.0, &readings[0], &marks[0]) != LAY_OK ||
        lay_centimetres(-200.0, &readings[1], &marks[1]) != LAY_OK)
        return 1;
    int rounded = marks[0] != LAY_EQUAL || marks[1] != LAY_EQUAL;
    uint32_t refusal = lay_search(list, 8, chain, sizeof chain, LAY_UNIT_FACTOR, readings, LAY_CHAIN_READINGS, job, sizeof job,
                                  &found);
    printf("refusal %" PRIu32 ", %" PRIu64 " places, %" PRIu64 " visits, rounded %d\n", refusal, found.count, found.visits,
           rounded);
    for (size_t i = 0; i < found.count; i++)
        printf("%" PRIu32 " %" PRIu32 "\n", list[2 * i], list[2 * i + 1]);
    return 0;
}
