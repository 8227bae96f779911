/* Builds the record of two holes, checks it and asks for the closest pair. */
#include "antlophis.h"

#include <inttypes.h>
#include <stdio.h>

static uint8_t work[65536];     /* lent to each call, whatever it holds */
static uint8_t record[2107398]; /* room for the record of every field */

int main(void) {
    const uint8_t holes[] = {0, 0, 0, 0, 0, 10, 0, 0}; /* (0, 0) and (10, 0), in units of 1/64 mm */

    antlophis_answer built = antlophis_build(holes, sizeof holes, 3, 1, work, sizeof work, record, sizeof record);
    if (built.number != 0) {
        printf("refused %" PRIu64 " %" PRIu64 "\n", built.number, built.first);
        return 1;
    }
    antlophis_answer taken = antlophis_check(record, built.first, work, sizeof work);
    antlophis_answer closest = antlophis_closest(record, built.first, work, sizeof work);
    printf("%" PRIu64 " bytes: %" PRIu64 " holes, %" PRIu64 " pairs\n", built.first, taken.first, taken.second);
    printf("closest: holes %" PRIu64 " and %" PRIu64 ", squared distance %" PRIu64 "\n", closest.first, closest.second, closest.third);
    return 0;
}
