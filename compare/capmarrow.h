/* The yard's calls for C: the functions of the static library libcapmarrow.a, which `rt lib` in crates/capmarrow proves and writes for
 * x86-64 Linux. Each is proved complete in crates/capmarrow: its answer and every word it leaves in lent memory, for all inputs.
 *
 * A slice is a pointer and its number of 64-bit words; slices of one call must not overlap. Each function gives back the scope's
 * number, and each has a slice `told` for what is told beside it. After any number but 0 the state and the answer slice are as found.
 *
 * told[0] is 1 if the entity, cell or id is found and else 0; where the number is 0 the rest of an answer stands behind it, as each
 * call's CAPMARROW_TOLD has it. After any other number told[0] is 0, and told[1] and told[2] tell where the fault is:
 *
 *    1  the state, the batch or `told` is too short              0, 0
 *    2  the state is not consistent                              the first broken point, 1 to 9 (capmarrow_consistent); 0
 *    3  more than 1,024 events                                   0, 0
 *    4  a coordinate is out of range                             the position of the first such move, counted from 0 in the list of
 *                                                                moves, or of the cell (0, a second cell 1); its first such axis
 *    5  fewer than 2,048 ids are left                            0, 0
 *    6  an event would leave more than 4,096 entities            0, 0
 *    7  an event would leave more than 1,024 occupied cells      0, 0
 *    8  the answer is longer than its slice                      how many words it needs; 0
 *   10  a report's values are not ones that may be               0 its coordinates, 1 its error; the axis
 *   11  a frame is not one                                       0 its edge, 1 its origin; the axis
 *   12  no path joins the cells                                  0, 0
 *   13  what touching means is not 6, 18 or 26                   0, 0
 *
 * A state chooses when it is made what touching means, its kind, and keeps it: 6 (cells 1 apart on one axis), 18 (on one axis or two) or
 * 26 (on one, two or three). Neighbour counts, groups, nearby, flood and path go by the kind; cube does not.
 *
 * An axis is x 0, y 1, z 2. A `told` that is shorter than the call's CAPMARROW_TOLD gives 1, and then it too is as found; so are words of
 * `told` that are not named. Coordinates in words are in two's complement. */
#ifndef CAPMARROW_H
#define CAPMARROW_H

#include <stdbool.h>
#include <stddef.h>
#include <stdint.h>

#ifdef __cplusplus
extern "C" {
#endif

/* How many words a state has. */
#define CAPMARROW_STATE_LEN 49168
/* The longest answer of a list: 1,024 cells of four words, or 4,096 entities. */
#define CAPMARROW_ANSWER_LEN 4096
/* The longest batch: 1,024 moves of five words. */
#define CAPMARROW_BATCH_LEN 5120

/* How many words `told` has at least, and what stands there after 0. */
#define CAPMARROW_TOLD_DONE 3   /* 0, 0, 0: fresh, update, consistent */
#define CAPMARROW_TOLD_KIND 3   /* 1, and 6, 18 or 26 */
#define CAPMARROW_TOLD_WHERE 5  /* found, grid, x, y, z */
#define CAPMARROW_TOLD_ID 3     /* found, id */
#define CAPMARROW_TOLD_COUNT 3  /* found, how many */
#define CAPMARROW_TOLD_GROUP 10 /* found, grid, cell count, entity count, low x, y, z, high x, y, z */
#define CAPMARROW_TOLD_LIST 3   /* found, how many */
#define CAPMARROW_TOLD_FLOOD 3  /* found, how many cells, 1 if that was all */

/* Makes a fresh state whose first id and kind are given; refuses by 1, 13 and 5, in that order. */
uint64_t capmarrow_fresh(uint64_t *state, size_t state_len, uint64_t first_id, uint64_t kind, uint64_t *told, size_t told_len);

/* Updates the state by a batch: the removals first, one word each (the entity), then the moves, five words each (entity, grid, x, y,
 * z); refuses by 1 to 7. */
uint64_t capmarrow_update(uint64_t *state, size_t state_len, const uint64_t *batch, size_t batch_len, uint64_t removals, uint64_t moves, uint64_t *told, size_t told_len);

/* Tests whether a state is consistent; refuses by 1 and 2. The points, of which 2 tells the first that is broken, in the order in which
 * they are tried:
 *   9  what touching means is 6, 18 or 26
 *   1  entities distinct, they and the occupied cells within number
 *   2  the cells with an id, each held once, are exactly those an entity stands in
 *   3  the mask has exactly the bits of touching occupied cells
 *   4  ids shared exactly by joined cells
 *   5  one group record for each id that a cell has and no other, its grid, corners and counts exact
 *   6  every id below the next id
 *   7  coordinates in range
 *   8  net lists strictly ascending, at most 1,024 cells each, the first occupied, the second not */
uint64_t capmarrow_consistent(const uint64_t *state, size_t state_len, uint64_t *told, size_t told_len);

/* Tells what touching means in a state; refuses by 1 and 2. */
uint64_t capmarrow_kind_of(const uint64_t *state, size_t state_len, uint64_t *told, size_t told_len);

/* Tells where an entity stands; refuses by 1 and 2. */
uint64_t capmarrow_where_is(const uint64_t *state, size_t state_len, uint64_t entity, uint64_t *told, size_t told_len);

/* Tells the id of a cell; refuses by 1, 2 and 4. */
uint64_t capmarrow_id_of(const uint64_t *state, size_t state_len, uint64_t grid, int32_t x, int32_t y, int32_t z, uint64_t *told, size_t told_len);

/* Tells how many neighbours of a cell are occupied; refuses by 1, 2 and 4. */
uint64_t capmarrow_neighbour_count(const uint64_t *state, size_t state_len, uint64_t grid, int32_t x, int32_t y, int32_t z, uint64_t *told, size_t told_len);

/* Tells a group by its id; refuses by 1 and 2. */
uint64_t capmarrow_group(const uint64_t *state, size_t state_len, uint64_t id, uint64_t *told, size_t told_len);

/* Gives the ids, ascending, one word each; refuses by 1, 2 and 8. */
uint64_t capmarrow_ids(const uint64_t *state, size_t state_len, uint64_t *answer, size_t answer_len, uint64_t *told, size_t told_len);

/* Gives the cells newly occupied in the last batch, ascending, four words each (grid, x, y, z); refuses by 1, 2 and 8. */
uint64_t capmarrow_newly_occupied(const uint64_t *state, size_t state_len, uint64_t *answer, size_t answer_len, uint64_t *told, size_t told_len);

/* Gives the cells newly emptied in the last batch, ascending, four words each; refuses by 1, 2 and 8. */
uint64_t capmarrow_newly_emptied(const uint64_t *state, size_t state_len, uint64_t *answer, size_t answer_len, uint64_t *told, size_t told_len);

/* Gives the entities of a cell, ascending, one word each; refuses by 1, 2, 4 and 8. */
uint64_t capmarrow_entities_in(const uint64_t *state, size_t state_len, uint64_t grid, int32_t x, int32_t y, int32_t z, uint64_t *answer, size_t answer_len, uint64_t *told, size_t told_len);

/* Gives a cell and then the occupied cells that it touches in cell order, four words each; refuses by 1, 2, 4 and 8. */
uint64_t capmarrow_nearby(const uint64_t *state, size_t state_len, uint64_t grid, int32_t x, int32_t y, int32_t z, uint64_t *answer, size_t answer_len, uint64_t *told, size_t told_len);

/* Gives the centre first and then its neighbours of a radius in cell order, occupied ones only, four words each; an empty centre is not
 * found, and its neighbours are still given; refuses by 1, 2, 4 and 8. */
uint64_t capmarrow_cube(const uint64_t *state, size_t state_len, uint64_t grid, int32_t x, int32_t y, int32_t z, uint8_t radius, uint64_t *answer, size_t answer_len, uint64_t *told, size_t told_len);

/* Gives the first cells of the flood from a seed, four words each, to a depth if `deep`, up to a budget of cells; refuses by 1, 2, 4 and
 * 8. */
uint64_t capmarrow_flood(const uint64_t *state, size_t state_len, uint64_t grid, int32_t x, int32_t y, int32_t z, bool deep, int32_t depth, uint64_t budget, uint64_t *answer, size_t answer_len, uint64_t *told, size_t told_len);

/* Gives the path from a cell to another, both included, four words a cell: touching occupied cells, the fewest, and among as few those that
 * come first in cell order; refuses by 1, 2, 4, 12 and 8, in that order. */
uint64_t capmarrow_path(const uint64_t *state, size_t state_len, uint64_t grid, int32_t x, int32_t y, int32_t z, uint64_t to_grid, int32_t to_x, int32_t to_y, int32_t to_z, uint64_t *answer, size_t answer_len, uint64_t *told, size_t told_len);

/* A report in metres. Its kinds; any other number is nothing. */
#define CAPMARROW_REPORT_NOTHING 0
#define CAPMARROW_REPORT_FIX 1      /* x, y, z */
#define CAPMARROW_REPORT_RECKONED 2 /* x, y, z, error */

/* Event or not (1 or 0); the words of its move, as a batch has them (entity, grid, x, y, z); the offsets on x, y, z, by the bits of a
 * double; whether an error was reported, and its bits. With no event all are 0. */
#define CAPMARROW_TOLD_EVENT 11

/* Tells what a report makes in a yard's frame, of an entity and a grid that the caller names. Refuses by 1 (`told` is too short), by 11
 * (the edge is not 1, 2, 4, 8, 16, 32 or 64 m; the origin is not whole metres within 1,048,576 of zero) and by 10 (a coordinate is not
 * finite, or beyond 1,048,576 m of the origin; the error is not finite, or below zero), tried in that order. */
uint64_t capmarrow_event_of(double origin_x, double origin_y, double origin_z, double edge, uint64_t kind, double x, double y, double z, double error, uint64_t entity, uint64_t grid, uint64_t *told, size_t told_len);

#ifdef __cplusplus
}
#endif

#endif
