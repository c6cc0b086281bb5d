/* A display in small. Hour by hour it refines a mesh of the icosahedron where there is ice, coarsens it where the ice
 * has gone, and lists each leaf with ice: which of its quarters has it, what lies across its sides (the level of that,
 * less the leaf's own, and one code or two), and over which of them the ice goes on.
 *
 *     cc -Iinclude host/display.c target/staticlib/liburdinhosa.a
 *
 * It is C11 and C++17. What it prints is kept in display.expected.
 */
#include "urdinhosa.h"

#include <inttypes.h>
#include <stdio.h>
#include <stdlib.h>

#define HOURS 3
#define FLOES 4
#define QUARTERS 4
#define SIXTEENTH (URDINHOSA_WHOLE / 16)

/* A floe: its place, by a face and the weights at the face's tip, left and right corner in sixteenths; and the depth of
 * the leaf by which it is drawn, the deeper the smaller the floe.
 */
struct floe {
    uint64_t face, tip, left, right, depth;
};

/* Three floes drift from face 0 over the seam to face 1; one lies still at the pole where faces 15 to 19 meet. */
static const struct floe ice[HOURS][FLOES] = {
    {{0, 7, 3, 6, 3}, {0, 6, 3, 7, 4}, {0, 7, 1, 8, 2}, {15, 14, 1, 1, 3}},
    {{0, 7, 1, 8, 3}, {1, 6, 9, 1, 4}, {1, 7, 7, 2, 2}, {15, 14, 1, 1, 3}},
    {{1, 7, 7, 2, 3}, {1, 6, 7, 3, 4}, {1, 6, 4, 6, 2}, {15, 14, 1, 1, 3}},
};

static void stop(const char *call, uint64_t number)
{
    /* in the order of enum urdinhosa_refusal */
    static const char *const names[] = {"DONE", "SOLID", "FACE",   "DEPTH", "TAIL",     "DIRECTION", "DIGIT",   "DEEP",
                                        "ROOT", "POINT", "BUFFER", "MESH",  "NOT LEAF", "NOT FOUR",  "BLOCKED", "ROOM"};
    const char *const name = number < sizeof names / sizeof *names ? names[number] : "by no known number";
    fprintf(stderr, "display: %s is refused: %s\n", call, name);
    exit(EXIT_FAILURE);
}

/* For a call that answers DONE or else a refusal. */
static void want_done(const char *call, uint64_t number)
{
    if (number != URDINHOSA_DONE) {
        stop(call, number);
    }
}

/* For a call that answers a code or else a refusal. */
static uint64_t want_code(const char *call, uint64_t answer)
{
    if (answer < URDINHOSA_LEAST_CODE) {
        stop(call, answer);
    }
    return answer;
}

static uint64_t depth_of(uint64_t cell)
{
    enum { SOLID, FACE, PATH, DEPTH, FIELDS };
    uint64_t fields[FIELDS];
    want_done("unpack", urdinhosa_unpack(cell, fields));
    return fields[DEPTH];
}

static uint64_t cell_of(const struct floe *floe, uint64_t depth)
{
    return want_code("locate", urdinhosa_locate(URDINHOSA_ICOSAHEDRON, floe->face, floe->tip * SIXTEENTH,
                                                floe->left * SIXTEENTH, floe->right * SIXTEENTH, depth));
}

/* The depth to which a cell has to be refined for the floes in it; 0 when there is none. */
static uint64_t depth_of_ice(uint64_t cell, const struct floe *floes)
{
    uint64_t deepest = 0;
    for (int i = 0; i < FLOES; i++) {
        if (floes[i].depth > deepest && cell_of(&floes[i], depth_of(cell)) == cell) {
            deepest = floes[i].depth;
        }
    }
    return deepest;
}

/* The leaves inside a cell cover it, so one alone is the cell itself. */
static bool is_leaf(const uint64_t *mesh, uint64_t cell)
{
    size_t start, count;
    want_done("run", urdinhosa_run(mesh, URDINHOSA_MOST_SLOTS, cell, &start, &count));
    return count == 1;
}

/* Refines a leaf. What blocks it is refined before: that is always larger, so at the faces it ends. */
static void refine(uint64_t *mesh, uint64_t leaf)
{
    uint64_t blocker;
    uint64_t number = urdinhosa_refine(mesh, URDINHOSA_MOST_SLOTS, leaf, &blocker);
    while (number == URDINHOSA_BLOCKED) {
        refine(mesh, blocker);
        number = urdinhosa_refine(mesh, URDINHOSA_MOST_SLOTS, leaf, &blocker);
    }
    want_done("refine", number);
}

static void refine_at(uint64_t *mesh, const struct floe *floe)
{
    for (uint64_t depth = 0; depth < floe->depth; depth++) {
        const uint64_t cell = cell_of(floe, depth);
        if (is_leaf(mesh, cell)) {
            refine(mesh, cell);
        }
    }
}

/* Coarsens the first cell whose leaves are smaller than its ice wants. One that is blocked has to wait: either for the
 * smaller leaves beside it to be coarsened, or for the ice in them to go.
 */
static bool coarsen_one(uint64_t *mesh, const struct floe *floes)
{
    for (size_t i = 0; i < URDINHOSA_MOST_SLOTS && mesh[i] != 0; i++) {
        uint64_t blocker;
        const uint64_t parent = urdinhosa_parent(mesh[i]);
        if (parent == URDINHOSA_ROOT || depth_of_ice(parent, floes) > depth_of(parent)) {
            continue;
        }
        const uint64_t number = urdinhosa_coarsen(mesh, URDINHOSA_MOST_SLOTS, parent, &blocker);
        if (number != URDINHOSA_NOT_FOUR && number != URDINHOSA_BLOCKED) {
            want_done("coarsen", number);
            return true;
        }
    }
    return false;
}

static void list_side(const uint64_t *mesh, const struct floe *floes, uint64_t leaf, uint64_t direction)
{
    static const char *const names[] = {"left", "right", "vertical"};
    int64_t level;
    uint64_t first, second;
    want_done("across", urdinhosa_across(mesh, URDINHOSA_MOST_SLOTS, leaf, direction, &level, &first, &second));
    printf("  %-8s %2" PRId64 " %016" PRIx64, names[direction], level, first);
    if (level > 0) {
        printf(" %016" PRIx64, second);
    }
    const uint64_t beside = want_code("step", urdinhosa_step(leaf, direction));
    printf(depth_of_ice(beside, floes) > 0 ? " ice\n" : "\n");
}

static void list_leaf(const uint64_t *mesh, const struct floe *floes, uint64_t leaf)
{
    printf("%016" PRIx64 " ice in", leaf);
    for (uint64_t digit = 0; digit < QUARTERS; digit++) {
        const uint64_t quarter = want_code("child", urdinhosa_child(leaf, digit));
        if (depth_of_ice(quarter, floes) > 0) {
            printf(" %016" PRIx64, quarter);
        }
    }
    printf("\n");
    for (uint64_t direction = URDINHOSA_LEFT; direction <= URDINHOSA_VERTICAL; direction++) {
        list_side(mesh, floes, leaf, direction);
    }
}

/* Lists the leaves with ice, and answers how many leaves there are in all. */
static size_t list_ice(const uint64_t *mesh, const struct floe *floes)
{
    size_t leaves = 0;
    for (; leaves < URDINHOSA_MOST_SLOTS && mesh[leaves] != 0; leaves++) {
        if (depth_of_ice(mesh[leaves], floes) > 0) {
            list_leaf(mesh, floes, mesh[leaves]);
        }
    }
    return leaves;
}

static void show_hour(uint64_t *mesh, const struct floe *floes)
{
    for (int i = 0; i < FLOES; i++) {
        refine_at(mesh, &floes[i]);
    }
    while (coarsen_one(mesh, floes)) {
    }
    const size_t leaves = list_ice(mesh, floes);
    printf("%zu leaves, %s\n", leaves, urdinhosa_sound(mesh, URDINHOSA_MOST_SLOTS) ? "sound" : "NOT sound");
}

int main(void)
{
    uint64_t *const mesh = (uint64_t *)malloc(URDINHOSA_MOST_SLOTS * sizeof *mesh);
    if (mesh == NULL) {
        fprintf(stderr, "display: no memory for a mesh\n");
        return EXIT_FAILURE;
    }
    want_done("fresh", urdinhosa_fresh(mesh, URDINHOSA_MOST_SLOTS, URDINHOSA_ICOSAHEDRON));
    for (int hour = 0; hour < HOURS; hour++) {
        printf("hour %d\n", hour);
        show_hour(mesh, ice[hour]);
    }
    free(mesh);
    return EXIT_SUCCESS;
}
