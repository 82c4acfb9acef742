/* A gap of six pixels in which posts may stand. They are printed by their distance from an entrance, nearest first. The planner looks
 * for the sets of posts that keep a mover of three pixels out and let one of a single pixel pass, and prints each with the way past
 * it. Then a rock is put down in the gap, dragged to its other end and taken away, and the walls are listed each time; at last with
 * ways that prefer diagonal steps.
 *
 *     cc -std=c11 -I bindings bindings/c/example.c target/staticlib/libwalls_c.a -o example && ./example
 */
#include <inttypes.h>
#include <stdio.h>
#include <stdlib.h>

#include "walls.h"

/* The parameter blocks of walls.h, written once. */
#define WINDOW 0, 0, 7, 6
#define ENDS 1, 2, 5, 2
#define BLOCK 1, 1, 1, 1
#define ALLOW 0, 0, 0, 0
#define QUERY WINDOW, ENDS, BLOCK, 1, ALLOW
#define STATES 100
#define RESULTS 32
#define LIMITS STATES, RESULTS
#define PLACES HITROVZEN_ARRAY(groups), HITROVZEN_ARRAY(numbers), HITROVZEN_ARRAY(edges)
#define BASES block_base, centres, allow_base, centres
#define STEPS steps, HITROVZEN_STEPS
#define WORK counts, counts_len, map, centres, queue, centres, predecessors, centres, route, centres
#define STORE lists, lists_len, visited, visited_len, layouts, layouts_len, points, points_len

/* One walkable cell and no obstacles. */
static const uint8_t cells[] = {1};
static const int32_t obstacles[] = {0};

/* Four posts of one group, of which two may stand. Footprint and collision rectangle of each are the same. */
static const uint32_t groups[] = {2};
static const uint32_t numbers[4 * HITROVZEN_NUMBERS];
static const int32_t edges[] = {
    3, 0, 4, 5, 3, 0, 4, 5,
    3, 1, 4, 6, 3, 1, 4, 6,
    3, 0, 4, 2, 3, 0, 4, 2,
    3, 3, 4, 6, 3, 3, 4, 6,
};

/* The ends of the entrance, and how far from it a post may stand. */
#define ENTRANCE 1, 1, 3, 4
#define RADIUS 2

/* The order in which a way tries the eight steps: the original's, and one in which the diagonal steps come first. */
static const int32_t original[HITROVZEN_STEPS] = HITROVZEN_ORIGINAL_STEPS;
static const int32_t diagonals[HITROVZEN_STEPS] = {
    1, 1, -1, 1, -1, -1, 1, -1,
    1, 0, 0, 1, -1, 0, 0, -1,
};
static const int32_t *steps = original;

/* A rock at the upper end of the gap, and at the lower end. */
#define UPPER 3, 0, 4, 1
#define LOWER 3, 5, 4, 6

static size_t centres, counts_len, lists_len, visited_len, layouts_len, points_len;
static uint8_t *block_base, *allow_base, *map;
static int32_t *counts;
static uint32_t *queue, *predecessors, *route, *points;
static uint16_t *lists, *visited, *layouts;
static uint32_t record[HITROVZEN_RECORD], index_;

static void *zeros(size_t length, size_t size) {
    void *area = calloc(length, size);
    if (area == NULL) {
        fprintf(stderr, "no memory\n");
        exit(1);
    }
    return area;
}

/* Ends the program where a call was refused. */
static void accepted(const char *call, uint32_t answer) {
    if (answer == HITROVZEN_ACCEPTED) return;
    fprintf(stderr, "%s: refused with %" PRIu32 "\n", call, answer);
    exit(1);
}

/* A post and its rank. The three numbers are 0 where it has none, which hitrovzen_closer takes as farther than every rank. */
struct ranked {
    unsigned post;
    uint64_t quotient, remainder, divisor;
};

static int closer(const struct ranked *a, const struct ranked *b) {
    return hitrovzen_closer(a->quotient, a->remainder, a->divisor, b->quotient, b->remainder, b->divisor) == 1;
}

/* Nearest first. qsort may exchange what a comparison finds equal: posts that are equally near come by their numbers. */
static int by_rank(const void *a, const void *b) {
    const struct ranked *p = a, *q = b;
    int order = closer(q, p) - closer(p, q);
    return order != 0 ? order : (p->post > q->post) - (p->post < q->post);
}

static void print_ranks(void) {
    struct ranked posts[4];
    for (unsigned i = 0; i < 4; i++) {
        const int32_t *footprint = edges + HITROVZEN_EDGES * i;
        struct ranked *p = posts + i;
        p->post = i;
        accepted("rank", hitrovzen_rank(1, 1, ENTRANCE, RADIUS, footprint[0], footprint[1], footprint[2], footprint[3],
                                        &p->quotient, &p->remainder, &p->divisor));
    }
    qsort(posts, 4, sizeof *posts, by_rank);
    for (unsigned i = 0; i < 4; i++) {
        const struct ranked *p = posts + i;
        if (p->divisor == 0) printf("post %u: beyond the radius\n", p->post);
        else printf("post %u: squared distance %" PRIu64 " + %" PRIu64 "/%" PRIu64 "\n", p->post, p->quotient, p->remainder, p->divisor);
    }
}

static void lend(void) {
    centres = hitrovzen_centres(WINDOW);
    counts_len = hitrovzen_counts(WINDOW);
    lists_len = hitrovzen_lists(4);
    visited_len = hitrovzen_visited(STATES);
    layouts_len = hitrovzen_layouts(RESULTS);
    points_len = hitrovzen_points(RESULTS, centres);

    block_base = zeros(centres, sizeof *block_base);
    allow_base = zeros(centres, sizeof *allow_base);
    counts = zeros(counts_len, sizeof *counts);
    map = zeros(centres, sizeof *map);
    queue = zeros(centres, sizeof *queue);
    predecessors = zeros(centres, sizeof *predecessors);
    route = zeros(centres, sizeof *route);
    lists = zeros(lists_len, sizeof *lists);
    visited = zeros(visited_len, sizeof *visited);
    layouts = zeros(layouts_len, sizeof *layouts);
    points = zeros(points_len, sizeof *points);
}

static void give_back(void) {
    void *areas[] = {block_base, allow_base, counts, map, queue, predecessors, route, lists, visited, layouts, points};
    for (size_t i = 0; i < sizeof areas / sizeof *areas; i++) free(areas[i]);
}

static void prepare(void) {
    accepted("prepare block",
             hitrovzen_prepare(1, 1, HITROVZEN_ARRAY(cells), obstacles, 0, WINDOW, ENDS, BLOCK, STEPS, block_base, centres, WORK));
    accepted("prepare allow",
             hitrovzen_prepare(1, 1, HITROVZEN_ARRAY(cells), obstacles, 0, WINDOW, ENDS, ALLOW, STEPS, allow_base, centres, WORK));
}

static void print_wall(uint32_t k) {
    const uint16_t *row = layouts + HITROVZEN_ROW * k;
    printf("wall %" PRIu32 ": posts", k);
    for (uint16_t i = 1; i <= row[0]; i++) printf(" %u", (unsigned)row[i]);

    uint32_t first, count;
    accepted("read", hitrovzen_read(QUERY, LIMITS, PLACES, BASES, HITROVZEN_ARRAY(record), k, STORE, &index_, &first, &count));
    printf("; the way past:");
    for (uint32_t i = first; i < first + count; i++) printf(" (%" PRIu32 " %" PRIu32 ")", points[2 * i], points[2 * i + 1]);
    printf("\n");
}

static void print_walls(void) {
    accepted("begin", hitrovzen_begin(QUERY, LIMITS, PLACES, BASES, STEPS, HITROVZEN_ARRAY(record), WORK, STORE, &index_));
    while (record[HITROVZEN_REASON] == HITROVZEN_RUNNING)
        accepted("step", hitrovzen_step(QUERY, LIMITS, PLACES, BASES, STEPS, HITROVZEN_ARRAY(record), 2, WORK, STORE, &index_));

    printf("reason %" PRIu32 ", %" PRIu32 " sets evaluated\n", record[HITROVZEN_REASON], record[HITROVZEN_EVALUATIONS]);
    for (uint32_t k = 0; k < record[HITROVZEN_LAYOUTS]; k++) print_wall(k);
}

static void judge(void) {
    uint16_t selection[] = {0};
    uint32_t verdict, ground;
    accepted("judge", hitrovzen_judge(QUERY, PLACES, BASES, STEPS, HITROVZEN_ARRAY(selection), WORK, &index_, &verdict, &ground));
    printf("post 0 alone: %s, ground left %" PRIu32 "\n", verdict == HITROVZEN_WALL ? "a wall" : "no wall", ground);
}

static void cover(int32_t left, int32_t top, int32_t right, int32_t bottom) {
    accepted("cover block", hitrovzen_cover(WINDOW, BLOCK, left, top, right, bottom, block_base, centres));
    accepted("cover allow", hitrovzen_cover(WINDOW, ALLOW, left, top, right, bottom, allow_base, centres));
}

static void lift(int32_t left, int32_t top, int32_t right, int32_t bottom) {
    accepted("lift block", hitrovzen_lift(WINDOW, BLOCK, left, top, right, bottom, block_base, centres));
    accepted("lift allow", hitrovzen_lift(WINDOW, ALLOW, left, top, right, bottom, allow_base, centres));
}

/* The baselines change between searches alone: each search has stopped, and its walls are read, before the next change. */
static void drag(void) {
    cover(UPPER);
    printf("a rock at the upper end: ");
    print_walls();

    lift(UPPER);
    cover(LOWER);
    printf("the rock at the lower end: ");
    print_walls();

    lift(LOWER);
    printf("no rock: ");
    print_walls();
}

/* Other ways past the same walls. The baselines are good for every order. */
static void prefer_diagonals(void) {
    steps = diagonals;
    printf("diagonal steps first: ");
    print_walls();
}

int main(void) {
    print_ranks();
    lend();
    prepare();
    print_walls();
    judge();
    drag();
    prefer_diagonals();
    give_back();
    return 0;
}
