/* Tables without a cell lent as NULL, which gyodaebeun.h allows: every choice of an entry's tables.
 * Each call is refused, by 4 where it is demand or arrivals that are missing, otherwise by 5; but
 * for scenarios without kinds, which have no posts, and a file of 0 bytes, of which the text says
 * that it is no scenario. Prints nothing where all is so. */

#include <inttypes.h>
#include <stdio.h>
#include <stdlib.h>
#include <string.h>

#include "gyodaebeun.h"

#define NODES 3
#define PAIRS (NODES * NODES)
#define SLOTS 4
#define QUEUE_LIMIT 6
#define LEAST 1

/* A table and its number of cells, or NULL and 0 where the choice has its bit. */
#define LENT(bit, table, cells) \
    (choice >> (bit) & 1u) != 0 ? NULL : (table), (choice >> (bit) & 1u) != 0 ? (size_t)0 : (cells)

static const uint32_t asked[PAIRS] = {1, 1, 1, 1, 1, 1, 1, 1, 1};

static int32_t slacks[2 * NODES];
static uint32_t kept[PAIRS], withdrawn[PAIRS], waiting[PAIRS];
static uint64_t posted[PAIRS], sent[PAIRS], dropped[PAIRS];
static uint8_t schedule[SLOTS * NODES];

#define FILE_BYTES (20 + 8 + 2 * PAIRS)

static const uint32_t kinds[1] = {0};
static uint8_t file[FILE_BYTES], text[GYODAEBEUN_TEXT_BYTES];

static void expect(const char *entry, unsigned choice, uint32_t number, uint32_t given)
{
    if (given != number) {
        printf("%s, choice %u: %" PRIu32 " in place of %" PRIu32 "\n", entry, choice, given, number);
        exit(EXIT_FAILURE);
    }
}

/* The refusal of an entry whose first table holds what is asked. */
static uint32_t asked_first(unsigned choice)
{
    return (choice & 1u) != 0 ? 4 : 5;
}

static void call_slacks(unsigned choice)
{
    uint32_t place;
    uint32_t number = gyodaebeun_slacks(NODES, SLOTS, LENT(0, asked, PAIRS),
                                        LENT(1, slacks, 2 * NODES), &place);
    expect("slacks", choice, asked_first(choice), number);
}

static void call_plan(unsigned choice)
{
    uint32_t report[4];
    uint32_t number = gyodaebeun_plan(NODES, SLOTS, LEAST, LENT(0, asked, PAIRS),
                                      LENT(1, kept, PAIRS), LENT(2, withdrawn, PAIRS),
                                      LENT(3, schedule, SLOTS * NODES), report);
    expect("plan", choice, asked_first(choice), number);
}

static void call_fresh(unsigned choice)
{
    struct gyodaebeun_run run = {0, 0, 0, 0, 0, 0};
    uint32_t place;
    uint32_t number = gyodaebeun_fresh(&run, NODES, SLOTS, QUEUE_LIMIT, LEAST,
                                       LENT(0, waiting, PAIRS), LENT(1, posted, PAIRS),
                                       LENT(2, sent, PAIRS), LENT(3, dropped, PAIRS), &place);
    expect("fresh", choice, 5, number);
}

static void call_post(unsigned choice)
{
    struct gyodaebeun_run run = {NODES, SLOTS, QUEUE_LIMIT, LEAST, 0, 0};
    uint32_t place;
    uint32_t number = gyodaebeun_post(&run, LENT(0, asked, PAIRS), LENT(1, waiting, PAIRS),
                                      LENT(2, posted, PAIRS), LENT(3, sent, PAIRS),
                                      LENT(4, dropped, PAIRS), &place);
    expect("post", choice, asked_first(choice), number);
}

static void call_frame(unsigned choice)
{
    struct gyodaebeun_run run = {NODES, SLOTS, QUEUE_LIMIT, LEAST, 0, 0};
    uint32_t report[4];
    uint32_t number = gyodaebeun_frame(&run, LENT(0, waiting, PAIRS), LENT(1, posted, PAIRS),
                                       LENT(2, sent, PAIRS), LENT(3, dropped, PAIRS),
                                       LENT(4, kept, PAIRS), LENT(5, withdrawn, PAIRS),
                                       LENT(6, schedule, SLOTS * NODES), report);
    expect("frame", choice, 5, number);
}

/* One post, or none where the kinds are missing. */
static void call_write_scenario(unsigned choice)
{
    uint32_t report[2];
    uint32_t number = gyodaebeun_write_scenario(NODES, SLOTS, QUEUE_LIMIT, LEAST, LENT(0, kinds, 1),
                                                LENT(1, asked, PAIRS), LENT(2, file, FILE_BYTES),
                                                report);
    unsigned lacks_cells = (choice & 3u) == 2, lacks_bytes = (choice & 4u) != 0;
    expect("write_scenario", choice, lacks_cells ? 4 : lacks_bytes ? 5 : 0, number);
    expect("write_scenario's length", choice, number == 0 ? 20 : 0, report[1]);
}

static void call_play_scenario(unsigned choice)
{
    static const char none[] = "refused 10 0\n";
    uint32_t report[2];
    uint32_t number = gyodaebeun_play_scenario(LENT(0, file, FILE_BYTES),
                                               LENT(1, text, GYODAEBEUN_TEXT_BYTES), report);
    unsigned refused = (choice & 2u) != 0;
    expect("play_scenario", choice, refused ? 5 : 0, number);
    expect("play_scenario's length", choice, refused ? 0 : sizeof none - 1, report[1]);
    if (!refused)
        expect("play_scenario's text", choice, 0, memcmp(text, none, sizeof none - 1) != 0);
}

static void every_choice(void (*call)(unsigned choice), unsigned tables)
{
    for (unsigned choice = 1; choice < 1u << tables; choice++)
        call(choice);
}

int main(void)
{
    every_choice(call_slacks, 2);
    every_choice(call_plan, 4);
    every_choice(call_fresh, 4);
    every_choice(call_post, 5);
    every_choice(call_frame, 7);
    every_choice(call_write_scenario, 3);
    every_choice(call_play_scenario, 2);
    return EXIT_SUCCESS;
}
