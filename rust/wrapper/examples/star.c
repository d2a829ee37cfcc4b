/* Three nodes, frames of four slots: one plan, then a run of three posts and three frames. The
 * program star.rs prints the same. */

#include <inttypes.h>
#include <stdio.h>
#include <stdlib.h>

#include "gyodaebeun.h"

#define NODES 3
#define PAIRS (NODES * NODES)
#define SLOTS 4
#define QUEUE_LIMIT 6
#define LEAST 1

/* What a plan or a frame writes. */
struct frame {
    uint32_t kept[PAIRS];
    uint32_t withdrawn[PAIRS];
    uint8_t schedule[SLOTS * NODES];
    uint32_t report[4];
};

/* The four tables of a run. */
struct books {
    uint32_t waiting[PAIRS];
    uint64_t posted[PAIRS];
    uint64_t sent[PAIRS];
    uint64_t dropped[PAIRS];
};

static void expect_accepted(uint32_t number, uint32_t place)
{
    if (number != 0) {
        printf("refused %" PRIu32 " %" PRIu32 "\n", number, place);
        exit(EXIT_FAILURE);
    }
}

/* In how many slots a destination hears a source. */
static int heard(const uint8_t *schedule, int destination)
{
    int count = 0;
    for (int k = 0; k < SLOTS; k++)
        count += schedule[k * NODES + destination] != 255;
    return count;
}

static void print_report(const char *what, const struct frame *frame)
{
    const uint8_t *schedule = frame->schedule;
    printf("%s: kept %" PRIu32 " refused %" PRIu32, what, frame->report[1], frame->report[2]);
    printf(", slots heard [%d, %d, %d]\n",
           heard(schedule, 0), heard(schedule, 1), heard(schedule, 2));
}

static void print_rows(const uint32_t *table)
{
    for (int i = 0; i < NODES; i++) {
        printf(" ");
        for (int j = 0; j < NODES; j++)
            printf(" %" PRIu32, table[i * NODES + j]);
        printf("\n");
    }
}

static uint64_t sum(const uint64_t *table)
{
    uint64_t total = 0;
    for (int cell = 0; cell < PAIRS; cell++)
        total += table[cell];
    return total;
}

static uint64_t sum_waiting(const uint32_t *table)
{
    uint64_t total = 0;
    for (int cell = 0; cell < PAIRS; cell++)
        total += table[cell];
    return total;
}

static uint32_t plan(uint32_t nodes, const uint32_t *demand, struct frame *frame)
{
    return gyodaebeun_plan(nodes, SLOTS, LEAST, demand, PAIRS,
                           frame->kept, PAIRS, frame->withdrawn, PAIRS,
                           frame->schedule, SLOTS * NODES, frame->report);
}

static void plan_once(struct frame *frame)
{
    static const uint32_t demand[PAIRS] = {2, 2, 1, 2, 0, 3, 1, 3, 0};
    uint32_t number = plan(NODES, demand, frame);
    expect_accepted(number, frame->report[0]);
    print_report("plan", frame);
    print_rows(frame->kept);
}

static void start(struct gyodaebeun_run *run, struct books *books)
{
    uint32_t place;
    uint32_t number = gyodaebeun_fresh(run, NODES, SLOTS, QUEUE_LIMIT, LEAST,
                                       books->waiting, PAIRS, books->posted, PAIRS,
                                       books->sent, PAIRS, books->dropped, PAIRS, &place);
    expect_accepted(number, place);
}

static void post(struct gyodaebeun_run *run, const uint32_t *arrivals, struct books *books)
{
    uint32_t place;
    uint32_t number = gyodaebeun_post(run, arrivals, PAIRS,
                                      books->waiting, PAIRS, books->posted, PAIRS,
                                      books->sent, PAIRS, books->dropped, PAIRS, &place);
    expect_accepted(number, place);
}

static void send_frame(struct gyodaebeun_run *run, struct books *books, struct frame *frame)
{
    uint32_t number = gyodaebeun_frame(run, books->waiting, PAIRS, books->posted, PAIRS,
                                       books->sent, PAIRS, books->dropped, PAIRS,
                                       frame->kept, PAIRS, frame->withdrawn, PAIRS,
                                       frame->schedule, SLOTS * NODES, frame->report);
    expect_accepted(number, frame->report[0]);
}

static void play(struct frame *frame)
{
    static const uint32_t posts[3][PAIRS] = {
        {5, 0, 0, 0, 3, 0, 0, 0, 9},
        {0, 1, 0, 0, 0, 1, 1, 0, 0},
        {0, 0, 0, 2, 2, 2, 0, 0, 0},
    };
    struct gyodaebeun_run run;
    struct books books;
    start(&run, &books);
    for (int event = 0; event < 3; event++) {
        post(&run, posts[event], &books);
        send_frame(&run, &books, frame);
        print_report("frame", frame);
        print_rows(books.waiting);
    }
    printf("%" PRIu32 " posts and %" PRIu32 " frames: ", run.posts, run.frames);
    printf("posted %" PRIu64 " sent %" PRIu64, sum(books.posted), sum(books.sent));
    printf(" dropped %" PRIu64, sum(books.dropped));
    printf(" waiting %" PRIu64 "\n", sum_waiting(books.waiting));
}

int main(void)
{
    static const uint32_t nothing[PAIRS];
    struct frame frame;
    plan_once(&frame);
    play(&frame);
    uint32_t number = plan(0, nothing, &frame);
    printf("refused %" PRIu32 " %" PRIu32 "\n", number, frame.report[0]);
    return EXIT_SUCCESS;
}
