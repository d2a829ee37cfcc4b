/* A day of three nodes, written as a scenario to standard output. The program day.rs writes the
 * same. */

#include <inttypes.h>
#include <stdio.h>
#include <stdlib.h>

#include "gyodaebeun.h"

#define NODES 3
#define PAIRS (NODES * NODES)
#define SLOTS 8
#define QUEUE_LIMIT 40
#define FAIR 0
#define POST 0
#define FRAME 1
#define ENTRIES 12
#define POSTS 5

int main(void)
{
    static const uint32_t kinds[ENTRIES] = {
        POST, FRAME, POST, FRAME, POST, POST, FRAME, FRAME, POST, FRAME, FRAME, FRAME,
    };
    static const uint32_t arrivals[POSTS * PAIRS] = {
        0, 4, 2, 3, 0, 5, 1, 6, 0,
        0, 9, 3, 8, 0, 2, 4, 7, 0,
        0, 30, 5, 12, 0, 20, 2, 25, 0,
        0, 25, 0, 30, 0, 4, 0, 28, 6,
        0, 2, 1, 1, 0, 3, 2, 1, 0,
    };
    uint8_t file[20 + 8 * ENTRIES + 2 * PAIRS * POSTS];
    uint32_t report[2];
    uint32_t number = gyodaebeun_write_scenario(NODES, SLOTS, QUEUE_LIMIT, FAIR, kinds, ENTRIES,
                                                arrivals, POSTS * PAIRS, file, sizeof file, report);
    if (number != 0) {
        fprintf(stderr, "refused %" PRIu32 " %" PRIu32 "\n", number, report[0]);
        return EXIT_FAILURE;
    }
    return fwrite(file, 1, report[1], stdout) == report[1] ? EXIT_SUCCESS : EXIT_FAILURE;
}
