/* The wall search of a map planner, as proved C functions: prepare, cover, lift, begin, step, read, judge, rank, closer.
 *
 * Build the archive with `make lib`, and link target/staticlib/libwalls_c.a. bindings/c/example.c is a whole program.
 *
 * A planner prepares the mover to keep out, and the mover to let pass if there is one; begins a search; steps it, in any portions,
 * until its reason is no longer Running; and reads the walls from the layouts area. Judging tells what a selection comes to.
 *
 * Before a search, rank tells how far a footprint lies from an entrance, and closer whether one rank is nearer than another, to sort
 * placements by.
 *
 * An editor that drags a building prepares the movers without it and covers it; then lifts it and covers it elsewhere, on each mover's
 * baseline, and begins a new search. What this costs grows with the building, not with the window.
 *
 * Rules for every call
 *
 *  - Every call is answered, on every input: HITROVZEN_ACCEPTED, or the number of the first check that fails, in the order that
 *    is told below for each function; closer, which turns nothing away, answers 1 or 0. A call allocates nothing, keeps no pointer,
 *    and ends after finitely many steps.
 *  - A row of values is two arguments: a pointer, and the number of its elements. The pointer must be valid for so many elements,
 *    aligned and not NULL, also where the number is 0. An area that a call writes must not overlap another area of that call.
 *    This, and that single pointers (`index`, `first`, `quotient`, ..) be valid, aligned, and each point to a number of its own
 *    outside these areas, is all that is asked of a caller.
 *  - An area may be longer than needed. What lies past the needed length is never written.
 *  - A search lives in its record and its four store areas, which belong to the caller. Between the calls of one search, its
 *    inputs (QUERY, LIMITS, PLACES, BASES, STEPS), its record and its store must stay as they were. What is promised of a search
 *    is promised under this condition; a record that does not fit its inputs and its store is refused with 16, which does not see
 *    another order of steps. Cover and lift alter a baseline: they belong between searches, not between the calls of one.
 *
 * Parameter blocks, in the order in which the functions take them
 *
 *  QUERY   window_left, window_top, window_right, window_bottom: the part of the map that is looked at, in pixels; right and bottom
 *          are exclusive. Each of its pixels is a centre; it has at most HITROVZEN_MOST_CENTRES.
 *          start_x, start_y, end_x, end_y: the ends, in map pixels, inside the window.
 *          block_left, block_top, block_right, block_bottom: how far the mover to keep out reaches from its centre, 0 to 256.
 *          allow_given: 0 where there is no mover to let pass (HITROVZEN_NOBODY fills this and the next four), else it reaches
 *          allow_left, allow_top, allow_right, allow_bottom from its centre, 0 to 256.
 *  LIMITS  states: the most sets that the search may evaluate, 1 to 100,000. results: the most layouts it may list, 1 to 32.
 *          A search begun again with raised limits and nothing else changed has, once it has stopped, what was listed before at
 *          the top of its list, with the same routes, and has evaluated no fewer sets.
 *  PLACES  groups: how many slots each group has; at most 6 groups, 1 to 6 slots each, at most 6 together.
 *          numbers: 4 a placement: spec index (0 to 5), group, tile x, tile y. Spec index and tile are carried along.
 *          edges: 8 a placement: left, top, right, bottom of its footprint, which lies inside the window, then of its collision
 *          rectangle, which keeps movers off. At most 6,144 placements; they are told apart by their index alone.
 *          A part left over in numbers or edges counts as one more placement with empty rectangles.
 *  BASES   block_base, allow_base: the baselines of the two movers, as prepare made them or cover and lift left them. A baseline holds
 *          a count for each centre, a byte; the centre is blocked where it is not zero. Any counts are taken, and the answer is the
 *          same as if every count that is not zero were 1. allow_base is not looked at where there is no mover to let pass.
 *  STEPS   steps: the order in which a route tries the eight steps from each centre. HITROVZEN_STEPS numbers, no fewer and no more:
 *          eight x, y pairs, in which each of the eight steps stands exactly once. HITROVZEN_ORIGINAL_STEPS is the original's order.
 *          The route has the fewest points that any chain of steps over open centres has from start to end, and of all with as few it
 *          is the first in this order: where another one first leaves it, the route's own step stands earlier in the table.
 *          With another order a search may keep other routes, list its walls in another sequence and evaluate more sets or fewer, so
 *          that a limit may stop it with other walls. But two searches alike except for steps and limits list the same walls where
 *          both stop Exhausted; and baselines, verdicts and the ground left are the same with every order.
 *  WORK    counts, map, queue, predecessors, route: working areas, zero after each accepted call.
 *  STORE   lists, visited, layouts, points: what a search holds beside its record. Row k of layouts is HITROVZEN_ROW numbers: how
 *          many members layout k has, then their indexes, ascending, in six places. The first `record[HITROVZEN_LAYOUTS]` rows
 *          are the layouts. points are x, y pairs in map pixels, route after route; any length will do where there is no mover to
 *          let pass.
 *
 * How long each area must be is told by the inline functions below.
 */
#ifndef HITROVZEN_WALLS_H
#define HITROVZEN_WALLS_H

#include <stddef.h>
#include <stdint.h>

#ifdef __cplusplus
extern "C" {
#endif

/* The answers. */
enum hitrovzen_answer {
    HITROVZEN_ACCEPTED = 0,
    HITROVZEN_MAP_INVALID = 1,           /* The map is not 1 to 1,024 cells each way, has not one byte a cell, or has a cell byte that is neither 0 nor 1. */
    HITROVZEN_WINDOW_INVALID = 2,        /* The window is empty, has a negative edge, reaches beyond the map or has more than 1,048,576 centres. */
    HITROVZEN_END_OUTSIDE = 3,           /* The start or the end lies outside the window. */
    HITROVZEN_BOUND_TOO_LARGE = 4,       /* A mover's bound is above 256. */
    HITROVZEN_OBSTACLE_INVALID = 5,      /* There are more than 4,096 obstacles, or one of them is empty. */
    HITROVZEN_AREA_TOO_SHORT = 6,        /* A lent area is too short. */
    HITROVZEN_START_BLOCKED = 7,         /* The start is closed to the mover. */
    HITROVZEN_END_BLOCKED = 8,           /* The end is closed to the mover. */
    HITROVZEN_NO_ROUTE = 9,              /* The mover has no route from start to end. */
    HITROVZEN_GROUPS_INVALID = 10,       /* There are more than 6 groups, a group has not 1 to 6 slots, or there are more than 6 slots together. */
    HITROVZEN_STATE_LIMIT_INVALID = 11,  /* The state limit is not 1 to 100,000. */
    HITROVZEN_RESULT_LIMIT_INVALID = 12, /* The result limit is not 1 to 32. */
    /* 13 is reserved: no call gives it. */
    HITROVZEN_TOO_MANY_PLACEMENTS = 14,  /* There are more than 6,144 placements. */
    HITROVZEN_PLACEMENT_INVALID = 15,    /* A placement has a spec index above 5, no such group, an empty rectangle or a footprint not wholly inside the window; or the rectangle to cover or lift is empty; or the footprint to rank is empty or not wholly inside the map. */
    HITROVZEN_RECORD_INVALID = 16,       /* The record and its areas are not those of a search over these inputs. */
    HITROVZEN_SELECTION_INVALID = 17,    /* No layout has this number, or the selection does not ascend strictly, names no placement or has more than 6. */
    /* 18 is an answer of the program that reads drive sheets. */
    HITROVZEN_STEPS_INVALID = 19,        /* The table of steps is not 16 numbers, or does not hold each of the eight steps exactly once. */
    HITROVZEN_COUNT_OUT_OF_RANGE = 20,   /* A cover would take a count above 255, or a lift one below zero. */
    /* No call gives 21. */
    HITROVZEN_SITE_INVALID = 22          /* The radius is above 1,024, an entrance point lies beyond the map, or the two entrance points are equal. */
};

/* Why a search stands where it stands: record[HITROVZEN_REASON]. */
enum hitrovzen_reason {
    HITROVZEN_RUNNING = 1,     /* It can be stepped on. */
    HITROVZEN_EXHAUSTED = 2,   /* Every set was looked at: the layouts are exactly the walls. */
    HITROVZEN_STATE_LIMIT = 3, /* The state limit was met. Whether a wall is left is not known. */
    HITROVZEN_RESULT_LIMIT = 4 /* The result limit was met, or a route did not fit among the points that are kept. */
};

/* What a selection comes to: the first of these that holds. */
enum hitrovzen_verdict {
    HITROVZEN_SLOTS = 1,       /* A group has more members than slots. */
    HITROVZEN_OVERLAP = 2,     /* Two footprints overlap. */
    HITROVZEN_END_COVERED = 3, /* An end is closed to the blocked mover. */
    HITROVZEN_OPEN = 4,        /* The blocked mover has a route. */
    HITROVZEN_SPARE = 5,       /* With some member lifted, the blocked mover still has no route. */
    HITROVZEN_SHUT = 6,        /* The allowed mover lacks an open end or a route. */
    HITROVZEN_WALL = 7         /* It is a wall. */
};

/* The record of a search: HITROVZEN_RECORD numbers, of which these are the places. */
enum hitrovzen_record {
    HITROVZEN_REASON = 0,
    HITROVZEN_EVALUATIONS = 1,    /* sets evaluated, the number of visited rows */
    HITROVZEN_PLACEMENTS = 2,
    HITROVZEN_LAYOUTS = 3,        /* layouts listed */
    HITROVZEN_LISTS = 4,
    HITROVZEN_PENDING = 5,        /* 0 or 1: whether a set is pending */
    HITROVZEN_ROUTE_LENGTHS = 6,  /* 32 numbers: the points of each layout's kept route */
    HITROVZEN_LIST_LENGTHS = 38,  /* 6 numbers */
    HITROVZEN_LIST_NEXTS = 44     /* 6 numbers: how many entries of each list have been taken */
};

#define HITROVZEN_RECORD 50

#define HITROVZEN_NUMBERS 4 /* numbers a placement: spec index, group, tile x, tile y */
#define HITROVZEN_EDGES 8   /* edges a placement: footprint, collision rectangle */
#define HITROVZEN_ROW 7     /* numbers a row of visited or layouts: length, six members */
#define HITROVZEN_STEPS 16  /* numbers in a table of steps: eight x, y pairs */

#define HITROVZEN_MOST_CENTRES 1048576
#define HITROVZEN_MOST_POINTS 1000000

/* An array, not a pointer, as the two arguments of a row. */
#define HITROVZEN_ARRAY(array) (array), sizeof(array) / sizeof *(array)

/* No mover to let pass: the last five numbers of QUERY. */
#define HITROVZEN_NOBODY 0, 0, 0, 0, 0

/* The original's order of steps, the straight ones before the diagonal ones:
 * static const int32_t steps[HITROVZEN_STEPS] = HITROVZEN_ORIGINAL_STEPS; */
#define HITROVZEN_ORIGINAL_STEPS {1, 0, 0, 1, -1, 0, 0, -1, 1, 1, -1, 1, -1, -1, 1, -1}

/* The lengths of the areas, in elements. 0 where the window or the limit is one that the calls refuse by its own number. */

/* The centres of a window: the length of a baseline, and of map, queue, predecessors and route. */
static inline size_t hitrovzen_centres(int32_t left, int32_t top, int32_t right, int32_t bottom) {
    if (left < 0 || top < 0 || right <= left || bottom <= top) return 0;
    uint64_t centres = (uint64_t)(right - left) * (uint64_t)(bottom - top);
    return centres <= HITROVZEN_MOST_CENTRES ? (size_t)centres : 0;
}

static inline size_t hitrovzen_counts(int32_t left, int32_t top, int32_t right, int32_t bottom) {
    if (hitrovzen_centres(left, top, right, bottom) == 0) return 0;
    return ((size_t)(right - left) + 1) * ((size_t)(bottom - top) + 1);
}

static inline size_t hitrovzen_lists(size_t placements) { return 6 * placements; }

static inline size_t hitrovzen_visited(uint32_t states) { return states <= 100000 ? HITROVZEN_ROW * (size_t)states : 0; }

static inline size_t hitrovzen_layouts(uint32_t results) { return results <= 32 ? HITROVZEN_ROW * (size_t)results : 0; }

/* The points area of a search with a mover to let pass: two numbers a point. */
static inline size_t hitrovzen_points(uint32_t results, size_t centres) {
    if (results > 32 || centres > HITROVZEN_MOST_CENTRES) return 0;
    size_t points = results * centres;
    return 2 * (points < HITROVZEN_MOST_POINTS ? points : HITROVZEN_MOST_POINTS);
}

/* Marks a mover's baseline: 1 at every centre where an unwalkable cell, an obstacle or the map's edge keeps it off, otherwise 0.
 *
 * across, down: the map's size in walk cells of 8 by 8 pixels, 1 to 1,024 each way. cells: one byte a cell, row by row, 1 walkable,
 * 0 not. obstacles: four edges each (left, top, right, bottom), at most 4,096. The window and the ends are those of QUERY; mover is
 * its block or its allow. steps: as STEPS. baseline: as long as the window has centres.
 *
 * Refused, in this order, with 19, 1, 2, 3, 4, 5, 6, 7, 8, 9. 19 and 1 to 6 write nothing; 7 to 9 leave baseline and WORK zero up to
 * their needed lengths. */
uint32_t hitrovzen_prepare(
    uint32_t across, uint32_t down,
    const uint8_t *cells, size_t cells_len,
    const int32_t *obstacles, size_t obstacles_len,
    int32_t window_left, int32_t window_top, int32_t window_right, int32_t window_bottom,
    uint32_t start_x, uint32_t start_y, uint32_t end_x, uint32_t end_y,
    uint32_t mover_left, uint32_t mover_top, uint32_t mover_right, uint32_t mover_bottom,
    const int32_t *steps, size_t steps_len,
    uint8_t *baseline, size_t baseline_len,
    int32_t *counts, size_t counts_len,
    uint8_t *map, size_t map_len,
    uint32_t *queue, size_t queue_len,
    uint32_t *predecessors, size_t predecessors_len,
    uint32_t *route, size_t route_len);

/* Covers a mover's baseline with a building: adds 1 to the count of every centre off which the rectangle keeps the mover, that is, of
 * each centre x, y of the window with rect_left - mover_right <= x < rect_right + mover_left and
 * rect_top - mover_bottom <= y < rect_bottom + mover_top. Nothing else is written.
 *
 * The window is that of QUERY; mover is its block or its allow, the one that the baseline was prepared for. rect: what keeps movers
 * off, as the collision rectangle of a placement does. It may lie anywhere; one that reaches no centre of the window is accepted and
 * changes nothing. baseline: as long as the window has centres.
 *
 * Refused, in this order, with 2 (here a map of 8,192 by 8,192 pixels stands for the map), 4, 6, 15 where the rectangle is empty or
 * inverted, and 20 where one of these counts is 255. A refusal writes nothing. */
uint32_t hitrovzen_cover(
    int32_t window_left, int32_t window_top, int32_t window_right, int32_t window_bottom,
    uint32_t mover_left, uint32_t mover_top, uint32_t mover_right, uint32_t mover_bottom,
    int32_t rect_left, int32_t rect_top, int32_t rect_right, int32_t rect_bottom,
    uint8_t *baseline, size_t baseline_len);

/* Lifts a building off a mover's baseline: takes 1 from the counts to which hitrovzen_cover adds 1. Nothing else is written.
 *
 * A cover and then its lift leave every count as it was, and so do several covers lifted in any order; each of these lifts is
 * accepted. A count does not tell what raised it: a rectangle that was never covered is lifted too where none of these counts is 0,
 * and centres that prepare marked may come open by it.
 *
 * Refused as hitrovzen_cover is, but with 20 where one of these counts is 0. A refusal writes nothing. */
uint32_t hitrovzen_lift(
    int32_t window_left, int32_t window_top, int32_t window_right, int32_t window_bottom,
    uint32_t mover_left, uint32_t mover_top, uint32_t mover_right, uint32_t mover_bottom,
    int32_t rect_left, int32_t rect_top, int32_t rect_right, int32_t rect_bottom,
    uint8_t *baseline, size_t baseline_len);

/* Begins a search: fills the record and clears the store. Nothing is evaluated yet.
 *
 * record: at least HITROVZEN_RECORD numbers. index: the index of the first placement that is not taken where the answer is 15,
 * otherwise 0; so it is in every function below.
 *
 * Refused, in this order, with 19, 10, 11, 12, 2 (here a map of 8,192 by 8,192 pixels stands for the map), 3, 4, 6; 7, 8, 9 for the
 * blocked mover, then for the allowed one; 14, 15. A refusal leaves record and STORE as they were; 7, 8, 9, 14 and 15 leave WORK zero,
 * the others leave it as it was. */
uint32_t hitrovzen_begin(
    int32_t window_left, int32_t window_top, int32_t window_right, int32_t window_bottom,
    uint32_t start_x, uint32_t start_y, uint32_t end_x, uint32_t end_y,
    uint32_t block_left, uint32_t block_top, uint32_t block_right, uint32_t block_bottom,
    uint32_t allow_given, uint32_t allow_left, uint32_t allow_top, uint32_t allow_right, uint32_t allow_bottom,
    uint32_t states, uint32_t results,
    const uint32_t *groups, size_t groups_len,
    const uint32_t *numbers, size_t numbers_len,
    const int32_t *edges, size_t edges_len,
    const uint8_t *block_base, size_t block_base_len,
    const uint8_t *allow_base, size_t allow_base_len,
    const int32_t *steps, size_t steps_len,
    uint32_t *record, size_t record_len,
    int32_t *counts, size_t counts_len,
    uint8_t *map, size_t map_len,
    uint32_t *queue, size_t queue_len,
    uint32_t *predecessors, size_t predecessors_len,
    uint32_t *route, size_t route_len,
    uint16_t *lists, size_t lists_len,
    uint16_t *visited, size_t visited_len,
    uint16_t *layouts, size_t layouts_len,
    uint32_t *points, size_t points_len,
    uint32_t *index);

/* Evaluates n sets more, or stops: Exhausted, StateLimit or ResultLimit. A search that has stopped stays as it is. A step by a and
 * then one by b leave what a step by a + b leaves.
 *
 * Refused, in this order, with 19, 10, 11, 12, 2, 3, 4, 6, 14, 15, 16. A refusal writes nothing but index. */
uint32_t hitrovzen_step(
    int32_t window_left, int32_t window_top, int32_t window_right, int32_t window_bottom,
    uint32_t start_x, uint32_t start_y, uint32_t end_x, uint32_t end_y,
    uint32_t block_left, uint32_t block_top, uint32_t block_right, uint32_t block_bottom,
    uint32_t allow_given, uint32_t allow_left, uint32_t allow_top, uint32_t allow_right, uint32_t allow_bottom,
    uint32_t states, uint32_t results,
    const uint32_t *groups, size_t groups_len,
    const uint32_t *numbers, size_t numbers_len,
    const int32_t *edges, size_t edges_len,
    const uint8_t *block_base, size_t block_base_len,
    const uint8_t *allow_base, size_t allow_base_len,
    const int32_t *steps, size_t steps_len,
    uint32_t *record, size_t record_len,
    uint32_t n,
    int32_t *counts, size_t counts_len,
    uint8_t *map, size_t map_len,
    uint32_t *queue, size_t queue_len,
    uint32_t *predecessors, size_t predecessors_len,
    uint32_t *route, size_t route_len,
    uint16_t *lists, size_t lists_len,
    uint16_t *visited, size_t visited_len,
    uint16_t *layouts, size_t layouts_len,
    uint32_t *points, size_t points_len,
    uint32_t *index);

/* Tells where the allowed mover's route past layout k stands: point i of it, for i from first to first + count - 1, is
 * points[2 * i], points[2 * i + 1]. count is 0 where there is no mover to let pass. Reading takes no table of steps.
 *
 * Refused, in this order, with 10, 11, 12, 2, 3, 4, 6, 14, 15, 16, and 17 where no layout has the number k; first and count are
 * then 0. */
uint32_t hitrovzen_read(
    int32_t window_left, int32_t window_top, int32_t window_right, int32_t window_bottom,
    uint32_t start_x, uint32_t start_y, uint32_t end_x, uint32_t end_y,
    uint32_t block_left, uint32_t block_top, uint32_t block_right, uint32_t block_bottom,
    uint32_t allow_given, uint32_t allow_left, uint32_t allow_top, uint32_t allow_right, uint32_t allow_bottom,
    uint32_t states, uint32_t results,
    const uint32_t *groups, size_t groups_len,
    const uint32_t *numbers, size_t numbers_len,
    const int32_t *edges, size_t edges_len,
    const uint8_t *block_base, size_t block_base_len,
    const uint8_t *allow_base, size_t allow_base_len,
    const uint32_t *record, size_t record_len,
    uint32_t k,
    const uint16_t *lists, size_t lists_len,
    const uint16_t *visited, size_t visited_len,
    const uint16_t *layouts, size_t layouts_len,
    const uint32_t *points, size_t points_len,
    uint32_t *index, uint32_t *first, uint32_t *count);

/* Tells what a selection of placements comes to (enum hitrovzen_verdict), and the ground left: to how many centres the blocked
 * mover has a route from the start past the selection, the start among them. The ground is counted with every verdict; it is 0
 * where the start is closed to the blocked mover, by its baseline or by a member.
 * selection: at most 6 indexes of placements, strictly ascending.
 *
 * Refused, in this order, with 19, 10, 2, 3, 4, 6, 14, 15, and 17 for what is no selection; verdict and ground are then 0. A refusal
 * leaves WORK as it was. */
uint32_t hitrovzen_judge(
    int32_t window_left, int32_t window_top, int32_t window_right, int32_t window_bottom,
    uint32_t start_x, uint32_t start_y, uint32_t end_x, uint32_t end_y,
    uint32_t block_left, uint32_t block_top, uint32_t block_right, uint32_t block_bottom,
    uint32_t allow_given, uint32_t allow_left, uint32_t allow_top, uint32_t allow_right, uint32_t allow_bottom,
    const uint32_t *groups, size_t groups_len,
    const uint32_t *numbers, size_t numbers_len,
    const int32_t *edges, size_t edges_len,
    const uint8_t *block_base, size_t block_base_len,
    const uint8_t *allow_base, size_t allow_base_len,
    const int32_t *steps, size_t steps_len,
    const uint16_t *selection, size_t selection_len,
    int32_t *counts, size_t counts_len,
    uint8_t *map, size_t map_len,
    uint32_t *queue, size_t queue_len,
    uint32_t *predecessors, size_t predecessors_len,
    uint32_t *route, size_t route_len,
    uint32_t *index, uint32_t *verdict, uint32_t *ground);

/* Tells how far a footprint lies from an entrance: the squared distance in pixels, from the footprint's centre to the nearest point
 * of the line from first to second, is quotient + remainder / divisor. The remainder is below the divisor. The divisor is 4 where the
 * nearest point is an end of the entrance, otherwise 4 times the squared length of the entrance: at least 4, and at most 2^29.
 *
 * A footprint that lies farther from the entrance than the radius has no rank: it is accepted, and all three numbers are 0. One that
 * lies exactly as far has one. hitrovzen_closer takes such zeros too, as farther than every rank.
 *
 * across, down: as for hitrovzen_prepare. first, second: the ends of the entrance, in map pixels; they may lie on the map's right and
 * lower edge, x up to 8 * across and y up to 8 * down. radius: in pixels, 0 to 1,024. footprint: inside the map, not empty.
 *
 * Refused, in this order, with 1 (the map's size alone is looked at), 22, 15. All three numbers are then 0. */
uint32_t hitrovzen_rank(
    uint32_t across, uint32_t down,
    uint32_t first_x, uint32_t first_y, uint32_t second_x, uint32_t second_y, uint32_t radius,
    int32_t footprint_left, int32_t footprint_top, int32_t footprint_right, int32_t footprint_bottom,
    uint64_t *quotient, uint64_t *remainder, uint64_t *divisor);

/* Tells whether the first of two ranks is closer: 1 if it is, that is, if quotient + remainder / divisor is below
 * other_quotient + other_remainder / other_divisor, else 0.
 *
 * Three numbers are a rank where the remainder is below the divisor and the divisor is at most 2^29; any others count as farther than
 * every rank, and none of these is closer than another. So this is a strict weak order of all numbers, to sort by: none is closer
 * than itself; what is closer than a second that is closer than a third is closer than the third; and where neither of two is closer,
 * they stand alike to every other. Ranks with equal fractions are such, also where their divisors differ. */
uint32_t hitrovzen_closer(
    uint64_t quotient, uint64_t remainder, uint64_t divisor,
    uint64_t other_quotient, uint64_t other_remainder, uint64_t other_divisor);

#ifdef __cplusplus
}
#endif

#endif
