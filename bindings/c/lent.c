/* What walls.h says of lent areas, tried: how long each must be, that nothing past that is written, and what refusals leave; and what
 * it says of the ground left, of tables of steps and of ranks. The case is that of example.c, but for ranks. Prints how many
 * statements held, and each that did not. */
#include <inttypes.h>
#include <stdio.h>
#include <string.h>

#include "walls.h"

#define WINDOW 0, 0, 7, 6
#define END 5, 2
#define ENDS 1, 2, END
#define BLOCK 1, 1, 1, 1
#define ALLOW 0, 0, 0, 0
#define QUERY WINDOW, ENDS, BLOCK, 1, ALLOW
#define RESULTS 5
#define PLACES HITROVZEN_ARRAY(groups), HITROVZEN_ARRAY(numbers), HITROVZEN_ARRAY(edges)

static const uint8_t cells[] = {1};
static const int32_t obstacles[] = {0};
static const uint32_t groups[] = {2};
static uint32_t numbers[4 * HITROVZEN_NUMBERS];
static const int32_t edges[] = {
    3, 0, 4, 5, 3, 0, 4, 5,
    3, 1, 4, 6, 3, 1, 4, 6,
    3, 0, 4, 2, 3, 0, 4, 2,
    3, 3, 4, 6, 3, 3, 4, 6,
};

/* The areas, each with SPARE elements more than are needed. */
enum { SPARE = 3, CENTRES = 42, STATES = 20 };
static uint8_t block_base[CENTRES + SPARE], allow_base[CENTRES + SPARE], map[CENTRES + SPARE];
static int32_t counts[8 * 7 + SPARE];
static uint32_t queue[CENTRES + SPARE], predecessors[CENTRES + SPARE], route[CENTRES + SPARE];
static uint32_t record[HITROVZEN_RECORD + SPARE], points[2 * RESULTS * CENTRES + SPARE];
static uint16_t lists[6 * 4 + SPARE], visited[7 * STATES + SPARE], layouts[7 * RESULTS + SPARE];

enum { BLOCK_BASE, ALLOW_BASE, RECORD, COUNTS, MAP, QUEUE, PREDECESSORS, ROUTE, LISTS, VISITED, LAYOUTS, POINTS, AREAS };
enum { PREPARE = 1, BEGIN = 2, STEP = 4, READ = 8, JUDGE = 16, COVER = 32, LIFT = 64 };

/* Which calls take an area, and whether it is a working area. */
static const struct {
    const char *name;
    void *start;
    size_t element, length;
    int taken, working;
} areas[AREAS] = {
    {"block_base", block_base, sizeof *block_base, sizeof block_base / sizeof *block_base,
     PREPARE | BEGIN | STEP | READ | JUDGE | COVER | LIFT, 0},
    {"allow_base", allow_base, sizeof *allow_base, sizeof allow_base / sizeof *allow_base, BEGIN | STEP | READ | JUDGE, 0},
    {"record", record, sizeof *record, sizeof record / sizeof *record, BEGIN | STEP | READ, 0},
    {"counts", counts, sizeof *counts, sizeof counts / sizeof *counts, PREPARE | BEGIN | STEP | JUDGE, 1},
    {"map", map, sizeof *map, sizeof map / sizeof *map, PREPARE | BEGIN | STEP | JUDGE, 1},
    {"queue", queue, sizeof *queue, sizeof queue / sizeof *queue, PREPARE | BEGIN | STEP | JUDGE, 1},
    {"predecessors", predecessors, sizeof *predecessors, sizeof predecessors / sizeof *predecessors, PREPARE | BEGIN | STEP | JUDGE, 1},
    {"route", route, sizeof *route, sizeof route / sizeof *route, PREPARE | BEGIN | STEP | JUDGE, 1},
    {"lists", lists, sizeof *lists, sizeof lists / sizeof *lists, BEGIN | STEP | READ, 0},
    {"visited", visited, sizeof *visited, sizeof visited / sizeof *visited, BEGIN | STEP | READ, 0},
    {"layouts", layouts, sizeof *layouts, sizeof layouts / sizeof *layouts, BEGIN | STEP | READ, 0},
    {"points", points, sizeof *points, sizeof points / sizeof *points, BEGIN | STEP | READ, 0},
};

/* The lengths that the next calls are told. */
static size_t told[AREAS];
static uint32_t states = STATES, index_, first, count, verdict, ground;
static uint16_t selection[] = {0};

/* The table that the next calls are lent, with a pair to spare, and how many of its numbers they are told. */
static const int32_t original[HITROVZEN_STEPS + 2] = HITROVZEN_ORIGINAL_STEPS;
static int32_t steps[HITROVZEN_STEPS + 2] = HITROVZEN_ORIGINAL_STEPS;
static size_t steps_told = HITROVZEN_STEPS;

#define STEPS steps, steps_told
#define BASES block_base, told[BLOCK_BASE], allow_base, told[ALLOW_BASE]
#define WORK counts, told[COUNTS], map, told[MAP], queue, told[QUEUE], predecessors, told[PREDECESSORS], route, told[ROUTE]
#define STORE lists, told[LISTS], visited, told[VISITED], layouts, told[LAYOUTS], points, told[POINTS]

static uint32_t prepare(void) {
    return hitrovzen_prepare(1, 1, HITROVZEN_ARRAY(cells), obstacles, 0, WINDOW, ENDS, BLOCK, STEPS, block_base, told[BLOCK_BASE], WORK);
}

static uint32_t prepare_allow(void) {
    return hitrovzen_prepare(1, 1, HITROVZEN_ARRAY(cells), obstacles, 0, WINDOW, ENDS, ALLOW, STEPS, allow_base, told[ALLOW_BASE], WORK);
}

static uint32_t begin(void) {
    return hitrovzen_begin(QUERY, states, RESULTS, PLACES, BASES, STEPS, record, told[RECORD], WORK, STORE, &index_);
}

static uint32_t step(uint32_t n) {
    return hitrovzen_step(QUERY, states, RESULTS, PLACES, BASES, STEPS, record, told[RECORD], n, WORK, STORE, &index_);
}

static uint32_t read(uint32_t k) {
    first = count = 99;
    return hitrovzen_read(QUERY, states, RESULTS, PLACES, BASES, record, told[RECORD], k, STORE, &index_, &first, &count);
}

static uint32_t judge_from(uint32_t x, uint32_t y) {
    verdict = ground = 99;
    return hitrovzen_judge(
        WINDOW, x, y, END, BLOCK, 1, ALLOW, PLACES, BASES, STEPS, HITROVZEN_ARRAY(selection), WORK, &index_, &verdict, &ground);
}

static uint32_t judge(void) { return judge_from(1, 2); }

/* A mover that reaches differently far to each side, and a post that keeps it off eight centres: columns 1 to 4 of rows 1 and 2. */
#define MOVER 1, 0, 2, 1
#define POST 3, 2, 4, 3

static uint32_t cover(void) { return hitrovzen_cover(WINDOW, MOVER, POST, block_base, told[BLOCK_BASE]); }

static uint32_t lift(void) { return hitrovzen_lift(WINDOW, MOVER, POST, block_base, told[BLOCK_BASE]); }

static uint32_t call(int which) {
    switch (which) {
    case PREPARE: return prepare();
    case BEGIN: return begin();
    case STEP: return step(1);
    case READ: return read(0);
    case COVER: return cover();
    case LIFT: return lift();
    default: return judge();
    }
}

static unsigned held, failed;

static void holds(int truth, const char *statement, const char *name) {
    if (truth) {
        held++;
    } else {
        failed++;
        printf("not so: %s (%s)\n", statement, name);
    }
}

static void whole(void) {
    for (int a = 0; a < AREAS; a++) told[a] = areas[a].length;
}

static unsigned char kept[AREAS][2048];

static void keep(void) {
    for (int a = 0; a < AREAS; a++) memcpy(kept[a], areas[a].start, areas[a].length * areas[a].element);
}

static int as_kept(int a) { return memcmp(kept[a], areas[a].start, areas[a].length * areas[a].element) == 0; }

static void all_as_kept(const char *statement) {
    for (int a = 0; a < AREAS; a++) holds(as_kept(a), statement, areas[a].name);
}

static void all_but_work_as_kept(const char *statement) {
    for (int a = 0; a < AREAS; a++)
        if (!areas[a].working) holds(as_kept(a), statement, areas[a].name);
}

/* Whether the bytes of an area, the spare ones or those before, are all equal to one. */
static int filled(int a, int spare, unsigned char byte) {
    const unsigned char *bytes = areas[a].start;
    size_t end = areas[a].length * areas[a].element, middle = (areas[a].length - SPARE) * areas[a].element;
    for (size_t i = spare ? middle : 0; i < (spare ? end : middle); i++)
        if (bytes[i] != byte) return 0;
    return 1;
}

static void work_is_zero(const char *statement) {
    for (int a = 0; a < AREAS; a++)
        if (areas[a].working) holds(filled(a, 0, 0), statement, areas[a].name);
}

static void soil(int working) {
    for (int a = 0; a < AREAS; a++)
        if (areas[a].working == working) memset(areas[a].start, 0xA5, areas[a].length * areas[a].element);
}

static void lengths(void) {
    size_t centres = hitrovzen_centres(WINDOW);
    size_t needed[AREAS] = {centres, centres, HITROVZEN_RECORD, hitrovzen_counts(WINDOW), centres, centres, centres, centres,
                            hitrovzen_lists(4), hitrovzen_visited(STATES), hitrovzen_layouts(RESULTS), hitrovzen_points(RESULTS, centres)};
    for (int a = 0; a < AREAS; a++) holds(needed[a] + SPARE == areas[a].length, "the header tells the length", areas[a].name);
    holds(hitrovzen_centres(0, 0, 1024, 1024) == HITROVZEN_MOST_CENTRES, "1,024 by 1,024 centres are taken", "centres");
    holds(hitrovzen_centres(0, 0, 1024, 1025) == 0, "1,024 by 1,025 centres are not", "centres");
    holds(hitrovzen_centres(INT32_MIN, 0, INT32_MAX, 1) == 0 && hitrovzen_centres(0, 0, INT32_MAX, INT32_MAX) == 0, "nor wide ones", "centres");
    holds(hitrovzen_points(32, HITROVZEN_MOST_CENTRES) == 2 * HITROVZEN_MOST_POINTS, "1,000,000 points at most", "points");
    holds(hitrovzen_visited(100001) == 0 && hitrovzen_layouts(33) == 0, "no rows for limits that are refused", "limits");
}

/* A search on soiled areas: what is past the needed lengths stays, working areas are zero. */
static void search(void) {
    soil(0);
    soil(1);
    holds(prepare() == 0 && prepare_allow() == 0, "prepare is accepted", "prepare");
    work_is_zero("working areas are zero after prepare");
    soil(1);
    holds(begin() == 0 && record[HITROVZEN_REASON] == HITROVZEN_RUNNING && index_ == 0, "begin is accepted", "begin");
    work_is_zero("working areas are zero after begin");
    soil(1);
    holds(step(2) == 0 && record[HITROVZEN_EVALUATIONS] == 2, "a step by two evaluates two sets", "step");
    work_is_zero("working areas are zero after step");
    holds(step(STATES) == 0 && record[HITROVZEN_REASON] == HITROVZEN_EXHAUSTED, "the search is exhausted", "step");
    holds(record[HITROVZEN_LAYOUTS] == 3 && layouts[0] == 1 && layouts[1] == 0, "three walls, the first of placement 0", "layouts");
    soil(1);
    holds(judge() == 0 && verdict == HITROVZEN_WALL && ground == 5, "placement 0 is a wall", "judge");
    work_is_zero("working areas are zero after judging");
    for (int a = 0; a < AREAS; a++) holds(filled(a, 1, 0xA5), "nothing past the needed length is written", areas[a].name);
    for (int a = 0; a < AREAS; a++) told[a] = areas[a].length - SPARE;
    keep();
    holds(step(1) == 0 && read(0) == 0 && judge() == 0, "areas of the needed lengths are long enough", "all");
    holds(read(1) == 0 && first == record[HITROVZEN_ROUTE_LENGTHS] && count == record[HITROVZEN_ROUTE_LENGTHS + 1], "routes follow each other", "read");
    holds(points[2 * first] == 1 && points[2 * first + 1] == 2, "a route begins at the start", "read");
    holds(points[2 * (first + count) - 2] == 5 && points[2 * (first + count) - 1] == 2, "and ends at the end", "read");
    all_as_kept("a stopped search stays as it is");
    whole();
}

/* The map's edge closes column 0 and row 0 and placement 0 columns 2 to 4: five centres are left before it, ten behind it. */
static void ground_left(void) {
    holds(judge() == 0 && verdict == HITROVZEN_WALL && ground == 5, "the ground is counted up to the wall", "judge");
    holds(judge_from(6, 5) == 0 && verdict == HITROVZEN_OPEN && ground == 10, "and from a start behind it the ground behind it", "judge");
    holds(judge_from(3, 2) == 0 && verdict == HITROVZEN_END_COVERED && ground == 0, "a start under a member leaves none", "judge");
    holds(cover() == 0 && judge() == 0 && verdict == HITROVZEN_END_COVERED && ground == 0, "nor does one that is covered", "judge");
    holds(lift() == 0 && judge() == 0 && verdict == HITROVZEN_WALL && ground == 5, "and a lift brings it back", "judge");
    work_is_zero("working areas are zero after each of these");
}

/* Each area one element too short, in turn: 6 from the calls that take it, which write nothing. */
static void too_short(void) {
    for (int a = 0; a < AREAS; a++) {
        for (int which = PREPARE; which <= LIFT; which *= 2) {
            if (!(areas[a].taken & which)) continue;
            soil(1);
            keep();
            told[a] = areas[a].length - SPARE - 1;
            holds(call(which) == HITROVZEN_AREA_TOO_SHORT, "an area that is too short is refused", areas[a].name);
            told[a] = 0;
            holds(call(which) == HITROVZEN_AREA_TOO_SHORT, "an empty area is refused", areas[a].name);
            whole();
            all_as_kept("6 writes nothing");
        }
    }
}

static void refusals(void) {
    soil(1);
    keep();
    states = 0;
    holds(begin() == HITROVZEN_STATE_LIMIT_INVALID && step(1) == HITROVZEN_STATE_LIMIT_INVALID, "no states are refused", "limits");
    states = STATES;
    holds(read(3) == HITROVZEN_SELECTION_INVALID && first == 0 && count == 0, "no layout has the number 3", "read");
    selection[0] = 4;
    holds(judge() == HITROVZEN_SELECTION_INVALID && verdict == 0 && ground == 0, "placement 4 is not there", "judge");
    selection[0] = 0;
    all_as_kept("11 and 17 write nothing");

    record[HITROVZEN_PENDING] = 2;
    keep();
    holds(step(1) == HITROVZEN_RECORD_INVALID && read(0) == HITROVZEN_RECORD_INVALID, "pending is 0 or 1", "record");
    all_as_kept("16 writes nothing");
    record[HITROVZEN_PENDING] = 0;

    numbers[2 * HITROVZEN_NUMBERS] = 6;
    keep();
    holds(step(1) == HITROVZEN_PLACEMENT_INVALID && index_ == 2, "a refused placement is named", "step");
    holds(read(0) == HITROVZEN_PLACEMENT_INVALID && index_ == 2 && first == 0 && count == 0, "a refused placement is named", "read");
    holds(judge() == HITROVZEN_PLACEMENT_INVALID && index_ == 2 && verdict == 0 && ground == 0, "a refused placement is named", "judge");
    all_as_kept("15 writes nothing in step, read and judge");
    holds(begin() == HITROVZEN_PLACEMENT_INVALID && index_ == 2, "a refused placement is named", "begin");
    work_is_zero("15 leaves working areas zero in begin");
    all_but_work_as_kept("15 leaves record and store as they were in begin");
    numbers[2 * HITROVZEN_NUMBERS] = 0;
    holds(step(1) == 0 && index_ == 0, "the search goes on after refusals", "step");
}

/* A table of so many numbers, which does not fit, is handed to the four calls that take one. */
static void refused_table(size_t length, const char *name) {
    steps_told = length;
    for (int which = PREPARE; which <= JUDGE; which *= 2) {
        if (which == READ) continue;
        soil(1);
        keep();
        index_ = 99;
        holds(call(which) == HITROVZEN_STEPS_INVALID, "a table that does not fit is refused", name);
        holds(which == PREPARE || index_ == 0, "19 names no placement", name);
        holds(which != JUDGE || (verdict == 0 && ground == 0), "nor a verdict", name);
        all_as_kept("19 writes nothing");
    }
    holds(read(0) == 0, "reading takes no table", name);
    steps_told = HITROVZEN_STEPS;
}

static void refused_pair(int at, int32_t x, int32_t y, const char *name) {
    steps[2 * at] = x;
    steps[2 * at + 1] = y;
    refused_table(HITROVZEN_STEPS, name);
    memcpy(steps, original, sizeof steps);
}

static void tables(void) {
    refused_table(0, "no numbers");
    refused_table(HITROVZEN_STEPS - 2, "seven pairs");
    refused_table(HITROVZEN_STEPS - 1, "a number too few");
    refused_table(HITROVZEN_STEPS + 1, "a number too many");
    steps[HITROVZEN_STEPS] = 1;
    refused_table(HITROVZEN_STEPS + 2, "a ninth pair, which is a step");
    memcpy(steps, original, sizeof steps);
    refused_pair(7, 1, 0, "a step twice, another not at all");
    refused_pair(0, 1, -1, "a step twice, another not at all");
    refused_pair(0, 2, 0, "(2, 0) for (1, 0)");
    refused_pair(5, -1, 2, "(-1, 2) for (-1, 1)");
    refused_pair(3, 0, 0, "no step at all");
    refused_pair(6, INT32_MIN, INT32_MAX, "numbers at their ends");
    holds(step(1) == 0, "the search goes on after refusals", "step");
}

/* A call in which everything is wrong but perhaps the table. */
static uint32_t all_wrong(int which) {
#define WRONG_WINDOW -1, 0, 8193, 0
#define WRONG_QUERY WRONG_WINDOW, 9999, 9999, 9999, 9999, 257, 257, 257, 257, 1, 257, 257, 257, 257
#define WRONG_PLACES HITROVZEN_ARRAY(no_slots), numbers, 3, edges, 7
    static const uint32_t no_slots[] = {0};
    static const uint16_t no_selection[] = {1, 0};
    switch (which) {
    case PREPARE:
        return hitrovzen_prepare(
            0, 1025, cells, 0, obstacles, 1, WRONG_WINDOW, 9999, 9999, 9999, 9999, 257, 257, 257, 257, STEPS, block_base, 0, WORK);
    case BEGIN: return hitrovzen_begin(WRONG_QUERY, 0, 0, WRONG_PLACES, BASES, STEPS, record, 0, WORK, STORE, &index_);
    case STEP: return hitrovzen_step(WRONG_QUERY, 0, 0, WRONG_PLACES, BASES, STEPS, record, 0, 1, WORK, STORE, &index_);
    default:
        return hitrovzen_judge(WRONG_QUERY, WRONG_PLACES, BASES, STEPS, HITROVZEN_ARRAY(no_selection), WORK, &index_, &verdict, &ground);
    }
}

/* 19 comes before all else. The next is 1 in prepare, 10 in the others. */
static void table_first(void) {
    static const int which[] = {PREPARE, BEGIN, STEP, JUDGE};
    static const uint32_t next[] = {HITROVZEN_MAP_INVALID, HITROVZEN_GROUPS_INVALID, HITROVZEN_GROUPS_INVALID, HITROVZEN_GROUPS_INVALID};
    static const char *const name[] = {"prepare", "begin", "step", "judge"};
    soil(1);
    keep();
    memset(told, 0, sizeof told);
    for (int i = 0; i < 4; i++) {
        steps[0] = 2;
        holds(all_wrong(which[i]) == HITROVZEN_STEPS_INVALID, "19 is looked at first", name[i]);
        steps[0] = 1;
        holds(all_wrong(which[i]) == next[i], "then 1 or 10", name[i]);
    }
    whole();
    all_as_kept("none of these writes anything");
}

/* Any order of the eight is taken. The walls, the verdict and the ground are the same, and the way past the first wall is another. */
static void another_order(void) {
    static const int32_t diagonals[HITROVZEN_STEPS] = {1, 1, -1, 1, -1, -1, 1, -1, 1, 0, 0, 1, -1, 0, 0, -1};
    memcpy(steps, diagonals, sizeof diagonals);
    keep();
    soil(1);
    holds(prepare() == 0 && prepare_allow() == 0, "prepare takes another order", "prepare");
    holds(as_kept(BLOCK_BASE) && as_kept(ALLOW_BASE), "and marks the same", "prepare");
    holds(begin() == 0 && step(STATES) == 0 && record[HITROVZEN_REASON] == HITROVZEN_EXHAUSTED, "the search is exhausted", "step");
    holds(as_kept(LAYOUTS), "the walls are the same", "layouts");
    holds(!as_kept(POINTS), "the ways past them are not", "points");
    holds(points[2] == 2 && points[3] == 3, "the first of them begins with a diagonal step", "points");
    holds(judge() == 0 && verdict == HITROVZEN_WALL && ground == 5, "nor is a selection judged otherwise", "judge");
    work_is_zero("working areas are zero after each of these");
    memcpy(steps, original, sizeof steps);
    holds(begin() == 0 && step(STATES) == 0, "the search is exhausted", "step");
    all_but_work_as_kept("the original's order leaves what it left before");
}

/* The baseline is the one that was kept, but for this much more at the centres off which POST keeps the mover. */
static int raised_by(int much) {
    for (int c = 0; c < CENTRES; c++) {
        int x = c % 7, y = c / 7, off = 1 <= x && x <= 4 && 1 <= y && y <= 2;
        if (block_base[c] != kept[BLOCK_BASE][c] + (off ? much : 0)) return 0;
    }
    return 1;
}

static void others_as_kept(const char *statement) {
    for (int a = 0; a < AREAS; a++)
        if (a != BLOCK_BASE) holds(as_kept(a), statement, areas[a].name);
}

static void counted(void) {
    keep();
    holds(cover() == 0 && raised_by(1), "a cover adds 1 at the centres that the rectangle reaches", "cover");
    holds(cover() == 0 && raised_by(2), "and 1 again", "cover");
    others_as_kept("cover writes a baseline alone");
    holds(lift() == 0 && raised_by(1), "a lift takes 1 away", "lift");
    others_as_kept("lift writes a baseline alone");
    holds(filled(BLOCK_BASE, 1, 0xA5), "cover and lift write nothing past the centres", "block_base");
    told[BLOCK_BASE] = CENTRES;
    holds(cover() == 0 && lift() == 0 && lift() == 0, "as many bytes as centres are long enough", "block_base");
    whole();
    all_as_kept("lifts undo covers");
    holds(hitrovzen_cover(WINDOW, MOVER, 9, 0, 10, 6, block_base, told[BLOCK_BASE]) == 0, "a rectangle out of reach is covered", "cover");
    holds(hitrovzen_lift(WINDOW, MOVER, 9, 0, 10, 6, block_base, told[BLOCK_BASE]) == 0, "and lifted", "lift");
    all_as_kept("but reaches no centre");
}

/* The last centre that POST reaches is the one that cannot change, so every other one would be written before it. */
static void out_of_range(void) {
    uint8_t *last = block_base + 2 * 7 + 4, before = *last;
    keep();
    holds(lift() == HITROVZEN_COUNT_OUT_OF_RANGE, "a lift of nothing is refused", "lift");
    all_as_kept("20 writes nothing");
    *last = 255;
    keep();
    holds(cover() == HITROVZEN_COUNT_OUT_OF_RANGE, "a cover past 255 is refused", "cover");
    all_as_kept("20 writes nothing");
    *last = before;
    holds(cover() == 0, "a cover is accepted", "cover");
    *last = 0;
    keep();
    holds(lift() == HITROVZEN_COUNT_OUT_OF_RANGE, "a lift past zero is refused", "lift");
    all_as_kept("20 writes nothing");
    *last = before + 1;
    holds(lift() == 0, "a lift is accepted", "lift");
}

typedef uint32_t change(
    int32_t, int32_t, int32_t, int32_t, uint32_t, uint32_t, uint32_t, uint32_t, int32_t, int32_t, int32_t, int32_t, uint8_t *, size_t);

/* Everything wrong at first, then one thing less each time. The whole baseline at 0 or 255 is the last of them. */
static void in_order(change *made, uint8_t bound, const char *name) {
    uint8_t before[CENTRES];
    memcpy(before, block_base, CENTRES);
    memset(block_base, bound, CENTRES);
    keep();
    holds(made(0, 0, 8193, 6, 257, 0, 0, 0, 3, 2, 3, 2, block_base, CENTRES - 1) == HITROVZEN_WINDOW_INVALID, "2 is looked at first", name);
    holds(made(WINDOW, 257, 0, 0, 0, 3, 2, 3, 2, block_base, CENTRES - 1) == HITROVZEN_BOUND_TOO_LARGE, "then 4", name);
    holds(made(WINDOW, MOVER, 3, 2, 3, 2, block_base, CENTRES - 1) == HITROVZEN_AREA_TOO_SHORT, "then 6", name);
    holds(made(WINDOW, MOVER, 3, 2, 3, 3, block_base, CENTRES) == HITROVZEN_PLACEMENT_INVALID, "then 15, for no columns", name);
    holds(made(WINDOW, MOVER, 3, 2, 4, 2, block_base, CENTRES) == HITROVZEN_PLACEMENT_INVALID, "and for no rows", name);
    holds(made(WINDOW, MOVER, 4, 2, 3, 3, block_base, CENTRES) == HITROVZEN_PLACEMENT_INVALID, "and for columns inverted", name);
    holds(made(WINDOW, MOVER, 3, 3, 4, 2, block_base, CENTRES) == HITROVZEN_PLACEMENT_INVALID, "and for rows inverted", name);
    holds(made(WINDOW, MOVER, POST, block_base, CENTRES) == HITROVZEN_COUNT_OUT_OF_RANGE, "then 20", name);
    all_as_kept("no refusal writes anything");
    memcpy(block_base, before, CENTRES);
}

/* The search over counts of any size is the one over 0 and 1. The column on the right gives the allowed mover's baseline counts too. */
static void any_counts(void) {
    holds(hitrovzen_cover(WINDOW, ALLOW, 6, 0, 7, 6, allow_base, told[ALLOW_BASE]) == 0, "a column is covered", "cover");
    soil(1);
    holds(begin() == 0 && step(STATES) == 0 && judge() == 0, "the search is exhausted", "step");
    keep();
    uint32_t verdict_before = verdict, ground_before = ground;
    for (int c = 0; c < CENTRES; c++) {
        block_base[c] = block_base[c] ? (uint8_t)(255 - c) : 0;
        allow_base[c] = allow_base[c] ? (uint8_t)(2 + c) : 0;
    }
    holds(begin() == 0 && step(STATES) == 0 && read(2) == 0 && judge() == 0, "counts of any size are taken", "counts");
    holds(verdict == verdict_before && ground == ground_before, "and judged as 1", "judge");
    for (int a = RECORD; a < AREAS; a++) holds(as_kept(a), "and searched as 1", areas[a].name);
}

/* For ranks: a map of 24 by 16 pixels, and an entrance that leads four pixels across and three down, so that it is five long and the
 * divisor between its ends is 100. Then the largest map, with its diagonal. */
#define MAP 3, 2
#define ENTRANCE 8, 8, 12, 11
#define LARGEST 1024, 1024
#define DIAGONAL 0, 0, 8192, 8192
#define INSIDE 9, 9, 11, 10
#define NO_RANK HITROVZEN_ACCEPTED, 0, 0, 0
#define REFUSED(number) number, 0, 0, 0

static const struct ranking {
    const char *name;
    uint32_t across, down, first_x, first_y, second_x, second_y, radius;
    int32_t left, top, right, bottom;
    uint32_t answer;
    uint64_t quotient, remainder, divisor;
} rankings[] = {
    {"on the entrance", MAP, ENTRANCE, 5, INSIDE, 0, 0, 0, 100},
    {"on its first end", MAP, ENTRANCE, 5, 7, 7, 9, 9, 0, 0, 0, 4},
    {"on its second end", MAP, ENTRANCE, 5, 11, 10, 13, 12, 0, 0, 0, 4},
    {"before the first end", MAP, ENTRANCE, 5, 7, 8, 8, 9, 0, 0, 2, 4},
    {"straight beside the first end", MAP, ENTRANCE, 5, 9, 5, 10, 7, 0, 6, 1, 4},
    {"a little behind it", MAP, ENTRANCE, 5, 8, 7, 9, 8, 0, 0, 49, 100},
    {"a little before the second end", MAP, ENTRANCE, 5, 12, 9, 14, 10, 0, 3, 24, 100},
    {"straight beside the second end", MAP, ENTRANCE, 5, 13, 8, 14, 10, 0, 6, 1, 4},
    {"behind the second end", MAP, ENTRANCE, 5, 13, 8, 15, 9, 0, 10, 1, 4},
    {"the radius away from the first end", MAP, ENTRANCE, 5, 3, 4, 5, 6, 0, 25, 0, 4},
    {"25 + 1/4 away from it", MAP, ENTRANCE, 5, 2, 7, 4, 8, NO_RANK},
    {"the radius away from the second end", MAP, ENTRANCE, 5, 16, 10, 18, 12, 0, 25, 0, 4},
    {"25 + 1/4 away from it", MAP, ENTRANCE, 5, 16, 11, 18, 12, NO_RANK},
    {"the radius away between the ends", MAP, ENTRANCE, 5, 12, 5, 14, 6, 0, 25, 0, 100},
    {"26 + 1/100 away between the ends", MAP, ENTRANCE, 5, 12, 4, 13, 6, NO_RANK},
    {"no radius, on the entrance", MAP, ENTRANCE, 0, INSIDE, 0, 0, 0, 100},
    {"no radius, 49/100 away", MAP, ENTRANCE, 0, 8, 7, 9, 8, NO_RANK},
    {"no radius, on an end", MAP, ENTRANCE, 0, 7, 7, 9, 9, 0, 0, 0, 4},
    {"no radius, 2/4 away from an end", MAP, ENTRANCE, 0, 7, 8, 8, 9, NO_RANK},
    {"the largest divisor", LARGEST, DIAGONAL, 1024, 0, 0, 1, 3, 0, 0, 268435456, 536870912},
    {"just within the largest radius", LARGEST, DIAGONAL, 1024, 1448, 0, 1450, 2, 0, 1048352, 0, 536870912},
    {"and beyond it", LARGEST, DIAGONAL, 1024, 1448, 0, 1451, 2, NO_RANK},
    {"the farthest corner", LARGEST, DIAGONAL, 1024, 8191, 0, 8192, 1, NO_RANK},
    {"an entrance of one pixel", MAP, 8, 8, 9, 8, 5, 8, 0, 9, 16, 0, 0, 0, 4},

    {"no cells across", 0, 2, ENTRANCE, 5, INSIDE, REFUSED(HITROVZEN_MAP_INVALID)},
    {"no cells down", 3, 0, ENTRANCE, 5, INSIDE, REFUSED(HITROVZEN_MAP_INVALID)},
    {"one cell", 1, 1, 0, 0, 8, 8, 8, 0, 0, 8, 8, 0, 0, 0, 512},
    {"1,024 cells across", 1024, 2, ENTRANCE, 5, INSIDE, 0, 0, 0, 100},
    {"1,024 cells down", 3, 1024, ENTRANCE, 5, INSIDE, 0, 0, 0, 100},
    {"1,025 cells across", 1025, 2, ENTRANCE, 5, INSIDE, REFUSED(HITROVZEN_MAP_INVALID)},
    {"1,025 cells down", 3, 1025, ENTRANCE, 5, INSIDE, REFUSED(HITROVZEN_MAP_INVALID)},
    {"cells that wrap to three", 536870915, 2, ENTRANCE, 5, INSIDE, REFUSED(HITROVZEN_MAP_INVALID)},
    {"the most cells", UINT32_MAX, UINT32_MAX, ENTRANCE, 5, INSIDE, REFUSED(HITROVZEN_MAP_INVALID)},

    {"a radius of 1,024", MAP, ENTRANCE, 1024, INSIDE, 0, 0, 0, 100},
    {"a radius of 1,025", MAP, ENTRANCE, 1025, INSIDE, REFUSED(HITROVZEN_SITE_INVALID)},
    {"the largest radius of all", MAP, ENTRANCE, UINT32_MAX, INSIDE, REFUSED(HITROVZEN_SITE_INVALID)},
    {"a point on the map's right edge", MAP, 24, 8, 8, 8, 5, 15, 7, 17, 9, 0, 0, 0, 1024},
    {"a point beyond it", MAP, 25, 8, 8, 8, 5, 15, 7, 17, 9, REFUSED(HITROVZEN_SITE_INVALID)},
    {"a point on the map's lower edge", MAP, 8, 16, 8, 8, 5, 7, 11, 9, 13, 0, 0, 0, 256},
    {"a point beyond it", MAP, 8, 17, 8, 8, 5, 7, 11, 9, 13, REFUSED(HITROVZEN_SITE_INVALID)},
    {"a point far away", MAP, UINT32_MAX, UINT32_MAX, 8, 8, 5, INSIDE, REFUSED(HITROVZEN_SITE_INVALID)},
    {"two equal points", MAP, 8, 8, 8, 8, 5, INSIDE, REFUSED(HITROVZEN_SITE_INVALID)},
    {"points in one row", MAP, 8, 8, 12, 8, 5, 9, 7, 11, 9, 0, 0, 0, 64},
    {"points in one column", MAP, 8, 8, 8, 12, 5, 7, 9, 9, 11, 0, 0, 0, 64},

    {"the whole map", MAP, ENTRANCE, 5, 0, 0, 24, 16, 0, 5, 76, 100},
    {"left of the map", MAP, ENTRANCE, 5, -1, 0, 24, 16, REFUSED(HITROVZEN_PLACEMENT_INVALID)},
    {"above the map", MAP, ENTRANCE, 5, 0, -1, 24, 16, REFUSED(HITROVZEN_PLACEMENT_INVALID)},
    {"right of the map", MAP, ENTRANCE, 5, 0, 0, 25, 16, REFUSED(HITROVZEN_PLACEMENT_INVALID)},
    {"below the map", MAP, ENTRANCE, 5, 0, 0, 24, 17, REFUSED(HITROVZEN_PLACEMENT_INVALID)},
    {"no columns", MAP, ENTRANCE, 5, 9, 9, 9, 10, REFUSED(HITROVZEN_PLACEMENT_INVALID)},
    {"no rows", MAP, ENTRANCE, 5, 9, 9, 11, 9, REFUSED(HITROVZEN_PLACEMENT_INVALID)},
    {"columns inverted", MAP, ENTRANCE, 5, 11, 9, 9, 10, REFUSED(HITROVZEN_PLACEMENT_INVALID)},
    {"rows inverted", MAP, ENTRANCE, 5, 9, 10, 11, 9, REFUSED(HITROVZEN_PLACEMENT_INVALID)},
    {"edges at their ends", MAP, ENTRANCE, 5, INT32_MIN, INT32_MIN, INT32_MAX, INT32_MAX, REFUSED(HITROVZEN_PLACEMENT_INVALID)},
    {"edges at their other ends", MAP, ENTRANCE, 5, INT32_MAX, INT32_MAX, INT32_MIN, INT32_MIN, REFUSED(HITROVZEN_PLACEMENT_INVALID)},
    {"a footprint beyond the radius, and the map", MAP, ENTRANCE, 0, 23, 15, 25, 16, REFUSED(HITROVZEN_PLACEMENT_INVALID)},

    {"all of it wrong: 1 is looked at first", 0, 1025, 25, 17, 25, 17, 1025, 9, 9, 9, 9, REFUSED(HITROVZEN_MAP_INVALID)},
    {"then 22, for the radius", MAP, ENTRANCE, 1025, 9, 9, 9, 9, REFUSED(HITROVZEN_SITE_INVALID)},
    {"and for a point", MAP, 25, 8, 12, 11, 5, 9, 9, 9, 9, REFUSED(HITROVZEN_SITE_INVALID)},
    {"and for equal points", MAP, 8, 8, 8, 8, 5, 9, 9, 9, 9, REFUSED(HITROVZEN_SITE_INVALID)},
    {"then 15", MAP, ENTRANCE, 5, 9, 9, 9, 9, REFUSED(HITROVZEN_PLACEMENT_INVALID)},
};

/* The three numbers are lent apart, with one before, between and behind them that is not. */
static void rank(const struct ranking *r, int exchanged) {
    uint64_t lent[7];
    memset(lent, 0xA5, sizeof lent);
    uint32_t first_x = exchanged ? r->second_x : r->first_x, first_y = exchanged ? r->second_y : r->first_y;
    uint32_t second_x = exchanged ? r->first_x : r->second_x, second_y = exchanged ? r->first_y : r->second_y;
    uint32_t answer = hitrovzen_rank(r->across, r->down, first_x, first_y, second_x, second_y, r->radius,
                                     r->left, r->top, r->right, r->bottom, lent + 1, lent + 3, lent + 5);
    holds(answer == r->answer, "a footprint is ranked, or refused with its number", r->name);
    holds(lent[1] == r->quotient, "the quotient is that of the squared distance, 0 without a rank", r->name);
    holds(lent[3] == r->remainder, "so is the remainder", r->name);
    holds(lent[5] == r->divisor, "so is the divisor", r->name);
    for (int i = 0; i < 7; i += 2) holds(lent[i] == UINT64_C(0xA5A5A5A5A5A5A5A5), "rank writes nothing else", r->name);
}

/* Which end of the entrance is the first changes no answer. */
static void ranks(void) {
    keep();
    for (size_t i = 0; i < sizeof rankings / sizeof *rankings; i++) {
        rank(rankings + i, 0);
        rank(rankings + i, 1);
    }
    all_as_kept("rank writes no area");
}

/* Groups of three numbers, from the closest on: those of one group are equally far, and what is no rank is farthest. */
static void order(void) {
    enum { MOST = 536870912 };
    static const struct {
        int group;
        uint64_t quotient, remainder, divisor;
    } given[] = {
        {0, 0, 0, 1}, {0, 0, 0, 4}, {0, 0, 0, 100}, {0, 0, 0, MOST},
        {1, 0, 1, MOST}, {2, 0, 1, MOST - 1},
        {3, 0, 25, 104}, {4, 0, 1, 4}, {4, 0, 25, 100}, {4, 0, MOST / 4, MOST}, {5, 0, 26, 100},
        {6, 0, MOST - 3, MOST - 2}, {7, 0, MOST - 2, MOST - 1}, {8, 0, MOST - 1, MOST},
        {9, 1, 0, 100}, {9, 1, 0, MOST}, {10, 1, 3, 4}, {10, 1, 75, 100}, {11, 2, 0, 4}, {12, 2, 1, 4},
        {13, UINT64_C(1) << 32, 0, 4}, {14, UINT64_MAX, 0, 4}, {15, UINT64_MAX, MOST - 2, MOST - 1}, {16, UINT64_MAX, MOST - 1, MOST},
        {17, 0, 0, 0}, {17, 7, 0, 0}, {17, 0, 4, 4}, {17, 0, 5, 4}, {17, 0, 0, MOST + 1}, {17, 3, MOST, MOST + UINT64_C(1)},
        {17, 0, MOST, MOST}, {17, 0, 0, UINT64_C(1) << 32}, {17, 0, UINT64_MAX, UINT64_MAX}, {17, 0, UINT64_MAX - 1, UINT64_MAX},
        {17, UINT64_MAX, UINT64_MAX, 0},
    };
    enum { GIVEN = sizeof given / sizeof *given };
    for (int a = 0; a < GIVEN; a++)
        for (int b = 0; b < GIVEN; b++) {
            uint32_t is = hitrovzen_closer(given[a].quotient, given[a].remainder, given[a].divisor,
                                           given[b].quotient, given[b].remainder, given[b].divisor);
            holds(is == (given[a].group < given[b].group), "the closer of two is told, as 1 or 0", "closer");
        }
}

int main(void) {
    whole();
    lengths();
    search();
    ground_left();
    too_short();
    refusals();
    tables();
    table_first();
    another_order();
    counted();
    out_of_range();
    in_order(hitrovzen_cover, 255, "cover");
    in_order(hitrovzen_lift, 0, "lift");
    any_counts();
    ranks();
    order();
    printf("%u statements held, %u did not\n", held, failed);
    return failed != 0;
}
