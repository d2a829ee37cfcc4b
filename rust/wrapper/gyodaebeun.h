/* The planner for optical star networks: N edge nodes on one switch, frames of L slots.
 *
 * Every entry checks all it is given and returns the number of its refusal, 0 if the call was
 * accepted. The refusal's place goes to *place or report[0], 0 if the call was accepted.
 *
 *   1  N is not 1 to 64
 *   2  L is not 1 to 1024
 *   3  the rule is neither 0 (fair) nor 1 (least)
 *   4  demand or arrivals are shorter than N * N, or a scenario's than N * N for each post
 *   5  a table to be written, or one of a run's four, is too short
 *   6  a demand or arrival is above 65535; the place is its cell
 *   7  the queue limit is not 1 to 65535
 *   8  a pair's books disagree; the place is its cell
 *   9  this kind of call was accepted 1000000 times or more already
 *  10  what is no scenario; the place is its entry, counted from 0, or 0 where it is about none
 *
 * Each entry names those that it can give. Where several apply, the first in the order of the checks
 * is given; README.md of the repository has that order, under "What is refused". The place is 0
 * unless said otherwise; of several bad cells, or entries, the first one is given. A refusal changes
 * no table and nothing in the record of a run; it writes the place, and zeros to the rest of a
 * report.
 *
 * A table is lent as a pointer and its number of cells. A longer one than needed is accepted; its
 * extra cells are neither read nor changed. (The kinds of a scenario, and a file to be played, have
 * no extra cells: all that is lent belongs to it.) Pair (i,j), source i to destination j, is cell
 * i * N + j. Lines 0 to N - 1 are the rows of a matrix, line N + j is its column j. Slot k,
 * destination j is byte k * N + j of a schedule: the source that it hears, or 255 for idle.
 *
 * What the caller must keep, and there is nothing else:
 *
 *   - each pointer is valid for as many cells as are given with it, that of a report for four or
 *     two, as it is declared, that of a record or a place for one: to be read and, unless it is
 *     const, to be written (a record only where the call is accepted);
 *   - none is NULL but that of a table of 0 cells. With such a table every call is refused, by 4 or
 *     5 if by nothing before, but for these: a scenario may be written without kinds, and without
 *     cells where it has no posts, and a file of 0 bytes may be played;
 *   - each pointer is aligned as its type asks;
 *   - nothing that is lent to a call overlaps, but for kinds and cells, which are both only read: no
 *     two tables, no table and the record, *place or the report, nor the record and *place or the
 *     report. So &run.posts is no place for a call on run;
 *   - during a call nobody else writes to what is lent, nor reads what the call writes.
 *
 * An entry keeps nothing between calls, takes no memory but its stack, and may be called from
 * several threads at once on tables of their own.
 *
 * To link: crates/export/out/libexport.a, which `rt lib` in crates/export makes, for x86-64 Linux.
 * It calls memcpy and memset, and needs nothing else.
 *
 * The stack that a call needs, measured of the x86-64 code at N 64 and L 1024 over many families of
 * demands, rounded up, in bytes:
 *
 *   slacks            1200
 *   fresh              200
 *   post               360
 *   plan              3800 under either rule
 *   frame             4000 under either rule
 *   write_scenario     260
 *   play_scenario   218000 under either rule
 *
 * Of a plan or a frame, placing what is kept takes 1510. No function of the library calls itself but
 * the one that prints a number, for two digits once, and a call takes the same whatever is asked; so
 * 4 KiB are enough for every entry but play_scenario, which holds the tables of the run that it
 * plays: for it 220 KiB are enough, more than some systems give a thread. A program that binds
 * symbols lazily may take 4 KiB more when memset or memcpy is called first. */

#ifndef GYODAEBEUN_H
#define GYODAEBEUN_H

#include <stddef.h>
#include <stdint.h>

#ifdef __cplusplus
extern "C" {
#endif

/* The slack of each line: L minus the line's sum, negative where the line overflows.
 *
 * demand  N * N cells, read
 * slacks  2 * N cells in line order, written
 *
 * Refusals: 1, 2, 4 to 6. */
uint32_t gyodaebeun_slacks(uint32_t nodes, uint32_t slots,
                           const uint32_t *demand, size_t demand_length,
                           int32_t *slacks, size_t slacks_length,
                           uint32_t *place);

/* The slots that each pair keeps, and how a frame carries them.
 *
 * rule       0 fair, 1 least
 * demand     N * N cells, read
 * kept       N * N cells, written
 * withdrawn  N * N cells, written: what the least rule withdrew, zeros under the fair rule
 * schedule   L * N bytes, written
 * report     4 cells, written: the place, the kept total, the refused total and the
 *            reconfigurations: how many slots differ from the one before for some destination, idle
 *            being a value like any other
 *
 * The fair rule: as long as the sum of some line is above L, each such line has the fraction
 * (L - b) / a, where b is the sum of its cells that were cut before and a that of the others, and
 * the line with the smallest fraction, of equal ones the lowest line, is cut: its other cells are
 * multiplied by the fraction and rounded down. Slots lost by rounding stay idle.
 *
 * The least rule: from the pairs whose row and column both have a sum above L, as many slots as
 * possible are withdrawn, from no pair more than it asks and from no line more than it is above L.
 * Each line whose sum s is then still above L keeps v * L / s of each cell v, rounded down, and its
 * slots still missing from L go one each to the cells with the largest remainder, of equal ones the
 * first in the line.
 *
 * Under both rules kept is at most the demand, no line of kept is above L, the schedule gives each
 * pair exactly its kept slots and is idle elsewhere, and no source stands twice in a slot. The
 * refused total is the total of the demand minus that of kept; under the least rule no schedule of
 * L slots could refuse less. Withdrawn is not demand minus kept, but only what was withdrawn before
 * lines were cut: at L 10 and under the least rule
 *
 *   demand  11 1   withdrawn  1 0   kept  9 1   refused total  2
 *            0 0              0 0         0 0
 *
 * Where several plans are right, in which slots a pair sends or in what is withdrawn, the library
 * chooses one.
 *
 * Refusals: 1 to 6. */
uint32_t gyodaebeun_plan(uint32_t nodes, uint32_t slots, uint32_t rule,
                         const uint32_t *demand, size_t demand_length,
                         uint32_t *kept, size_t kept_length,
                         uint32_t *withdrawn, size_t withdrawn_length,
                         uint8_t *schedule, size_t schedule_length,
                         uint32_t report[4]);

/* The record of a run. gyodaebeun_fresh fills it; gyodaebeun_post and gyodaebeun_frame check the
 * values that they find in it and use them. With the run's four tables it is all there is of a run:
 * who stores them can go on later.
 *
 * What is stored in it: by an accepted fresh the whole record, by an accepted post only posts, by an
 * accepted frame only frames; by a refused call nothing, so that a record that must not be written
 * may be lent to one.
 *
 * A cell of the four tables counts slots of its pair:
 *
 * waiting  what was posted and neither sent nor dropped: the queue
 * posted   what all posts asked for
 * sent     what all frames carried
 * dropped  what found its queue full
 *
 * The books of a pair agree when waiting is at most the queue limit, posted equals waiting plus sent
 * plus dropped, and posted is at most 65535 times the posts; sums are exact and do not wrap. */
struct gyodaebeun_run {
    uint32_t nodes;  /* N, 1 to 64 */
    uint32_t slots;  /* L, 1 to 1024 */
    uint32_t limit;  /* how many slots of one pair may wait, 1 to 65535 */
    uint32_t rule;   /* 0 fair, 1 least */
    uint32_t posts;  /* how many posts were accepted */
    uint32_t frames; /* how many frames were accepted */
};

/* Starts a run: the four values go into the record, both counts become 0, and so do the first N * N
 * cells of the four tables. What the record and the tables held before does not matter.
 *
 * run      written, all of it
 * waiting  N * N cells, written
 * posted   N * N cells, written
 * sent     N * N cells, written
 * dropped  N * N cells, written
 *
 * Refusals: 1 to 3, 5, 7. */
uint32_t gyodaebeun_fresh(struct gyodaebeun_run *run,
                          uint32_t nodes, uint32_t slots, uint32_t limit, uint32_t rule,
                          uint32_t *waiting, size_t waiting_length,
                          uint64_t *posted, size_t posted_length,
                          uint64_t *sent, size_t sent_length,
                          uint64_t *dropped, size_t dropped_length,
                          uint32_t *place);

/* Posts arrivals: each is added to posted, what would lift waiting above the queue limit to
 * dropped, the rest to waiting; the record's posts rise by 1.
 *
 * run       read and written, only its count of posts changes
 * arrivals  N * N cells, read
 * waiting   N * N cells, read and written
 * posted    N * N cells, read and written
 * sent      N * N cells, read
 * dropped   N * N cells, read and written
 *
 * Refusals: 1 to 9; of these 1 to 3 and 7 for what the record holds. */
uint32_t gyodaebeun_post(struct gyodaebeun_run *run,
                         const uint32_t *arrivals, size_t arrivals_length,
                         uint32_t *waiting, size_t waiting_length,
                         uint64_t *posted, size_t posted_length,
                         const uint64_t *sent, size_t sent_length,
                         uint64_t *dropped, size_t dropped_length,
                         uint32_t *place);

/* Plans a frame with what is waiting as the demand and sends it: kept, withdrawn, schedule and
 * report are written as by gyodaebeun_plan, what is kept is taken from waiting and added to sent;
 * the record's frames rise by 1. A frame over empty queues is accepted.
 *
 * run        read and written, only its count of frames changes
 * waiting    N * N cells, read and written
 * posted     N * N cells, read
 * sent       N * N cells, read and written
 * dropped    N * N cells, read
 * kept       N * N cells, written
 * withdrawn  N * N cells, written
 * schedule   L * N bytes, written
 * report     4 cells, written
 *
 * Refusals: 1 to 3, 5, 7 to 9; of these 1 to 3 and 7 for what the record holds, 5 for any of the
 * seven tables. */
uint32_t gyodaebeun_frame(struct gyodaebeun_run *run,
                          uint32_t *waiting, size_t waiting_length,
                          const uint64_t *posted, size_t posted_length,
                          uint64_t *sent, size_t sent_length,
                          const uint64_t *dropped, size_t dropped_length,
                          uint32_t *kept, size_t kept_length,
                          uint32_t *withdrawn, size_t withdrawn_length,
                          uint8_t *schedule, size_t schedule_length,
                          uint32_t report[4]);

/* A scenario is a run kept as one file of bytes. It begins with a table of numbers of four bytes: N,
 * L, the queue limit, the rule, the number of entries, at most 4096; then two numbers for each
 * entry, its kind, 0 for a post and 1 for a frame, and the place of its matrix, counted in bytes
 * from the file's start, 0 for a frame. The matrices of the posts stand behind the table, row by
 * row, two bytes for a cell. Of each number the lowest byte comes first. */

/* Writes a scenario to the front of file, with a matrix for each post, the first right behind the
 * table, each of the others right behind the one before. The length is
 * 20 + 8 * entries + 2 * N * N * posts; the bytes behind it stay as they were. It may be more than
 * gyodaebeun_play_scenario plays.
 *
 * rule    0 fair, 1 least
 * kinds   a cell for each entry, in the order in which they are played, read: 0 post, 1 frame. Their
 *         number is the number of entries
 * cells   N * N cells for each post, one post after the other, read
 * file    as many bytes as the length, written
 * report  2 cells, written: the place and the length
 *
 * Refusals: 1 to 7, 10; the cell of 6 is counted on from post to post, and 10 is given with place 0
 * for more than 4096 entries, or with the first entry that is neither a post nor a frame. */
uint32_t gyodaebeun_write_scenario(uint32_t nodes, uint32_t slots, uint32_t limit, uint32_t rule,
                                   const uint32_t *kinds, size_t kinds_length,
                                   const uint32_t *cells, size_t cells_length,
                                   uint8_t *file, size_t file_length,
                                   uint32_t report[2]);

/* How many bytes gyodaebeun_play_scenario must be lent for its text. */
#define GYODAEBEUN_TEXT_BYTES 516096

/* Plays a scenario: a fresh start, then each entry as a post of its matrix or a frame. The text has a
 * line for each pair with anything posted, in row order: its source, destination, and what of it was
 * posted, sent, dropped and is waiting at the end, parted by one space. Without posts there is no
 * line. Where several plans are right the library chooses one; so under the least rule what was
 * sent, dropped and is waiting may differ from what another player prints.
 *
 * A matrix may stand anywhere between the table and the end of the file; posts may share one, or
 * parts of one, and bytes of no matrix are not looked at.
 *
 * Bytes that are no scenario are not refused: the text says so. It is "bad input" for more than
 * 65536 bytes. Otherwise, before anything is played, it is "refused" with the number and the place
 * of the first check that fires, as "refused 10 0": 1 to 3 or 7 for what the table holds; 10 with
 * place 0 for a table that is cut short or has more than 4096 entries; 10 with the first entry that
 * is neither a post nor a frame, that is a frame with a place other than 0, or whose matrix does not
 * lie wholly between the table and the end of the file. Every line of the text ends with a line feed;
 * no zero byte follows the last.
 *
 * file    any bytes, read
 * text    GYODAEBEUN_TEXT_BYTES bytes, of which the text is written and no more
 * report  2 cells, written: the place, which is 0, and the length of the text
 *
 * Refusals: 5, exactly if text has fewer than GYODAEBEUN_TEXT_BYTES bytes. */
uint32_t gyodaebeun_play_scenario(const uint8_t *file, size_t file_length,
                                  uint8_t *text, size_t text_length,
                                  uint32_t report[2]);

#ifdef __cplusplus
}
#endif

#endif
