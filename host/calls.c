/* Calls every function of the interface, accepted and refused, from C and, compiled so, from C++. The expected numbers
 * stand here as the rules give them (the bench cases are named) or are worked out by hand; none is taken from the
 * header. One line a check, and a last line with the counts; the exit status is 0 when every check passed.
 *
 * What is lent to a call is a block of the heap of exactly its length: so valgrind sees any byte that is read or
 * written outside it, though the library itself is not compiled to be watched.
 */
#include "urdinhosa.h"

#include <inttypes.h>
#include <stdio.h>
#include <stdlib.h>
#include <string.h>

#define FACE_0_OF_TETRAHEDRON UINT64_C(0x4000000000000000)
#define DEEPEST_CELL UINT64_C(0x400000000000001a)
#define UNKNOWN_SOLID UINT64_C(0x3e00000000000000)
#define BIT_AFTER_LAST_DIGIT UINT64_C(0x4000000000000020)
#define WHOLE (UINT64_C(1) << 26)
#define HALF (UINT64_C(1) << 25)
#define FACE_1_OF_TETRAHEDRON UINT64_C(0x4200000000000000)
#define FACE_2_OF_TETRAHEDRON UINT64_C(0x4400000000000000)
#define FACE_3_OF_TETRAHEDRON UINT64_C(0x4600000000000000)
#define CHILD_00_OF_FACE_0 UINT64_C(0x4000000000000001)
#define CHILD_01_OF_FACE_0 UINT64_C(0x4080000000000001)
#define CHILD_10_OF_FACE_0 UINT64_C(0x4100000000000001)
#define CHILD_11_OF_FACE_0 UINT64_C(0x4180000000000001)
#define OTHER UINT64_C(99)
#define SLOTS 19
#define MOST_SLOTS 8192

static unsigned passed;
static unsigned failed;

static void count(int is_right)
{
    if (is_right) {
        passed++;
    } else {
        failed++;
    }
    printf(is_right ? "ok: " : "FAILED: ");
}

static void check(const char *what, uint64_t answer, uint64_t expected)
{
    count(answer == expected);
    printf("%s is 0x%" PRIx64, what, answer);
    if (answer != expected) {
        printf(", expected 0x%" PRIx64, expected);
    }
    printf("\n");
}

static void check_constants(void)
{
    check("the number of the tetrahedron", URDINHOSA_TETRAHEDRON, 1);
    check("the number of the octahedron", URDINHOSA_OCTAHEDRON, 2);
    check("the number of the icosahedron", URDINHOSA_ICOSAHEDRON, 3);
    check("the direction left", URDINHOSA_LEFT, 0);
    check("the direction right", URDINHOSA_RIGHT, 1);
    check("the direction vertical", URDINHOSA_VERTICAL, 2);
    check("the least code", URDINHOSA_LEAST_CODE, FACE_0_OF_TETRAHEDRON);
    check("the whole weight", URDINHOSA_WHOLE, WHOLE);
    check("the most slots", URDINHOSA_MOST_SLOTS, MOST_SLOTS);
}

static void check_numbers_of_refusals(void)
{
    check("the number of DONE", URDINHOSA_DONE, 0);
    check("the number of SOLID", URDINHOSA_SOLID, 1);
    check("the number of FACE", URDINHOSA_FACE, 2);
    check("the number of DEPTH", URDINHOSA_DEPTH, 3);
    check("the number of TAIL", URDINHOSA_TAIL, 4);
    check("the number of DIRECTION", URDINHOSA_DIRECTION, 5);
    check("the number of DIGIT", URDINHOSA_DIGIT, 6);
    check("the number of DEEP", URDINHOSA_DEEP, 7);
    check("the number of ROOT", URDINHOSA_ROOT, 8);
    check("the number of POINT", URDINHOSA_POINT, 9);
    check("the number of BUFFER", URDINHOSA_BUFFER, 10);
    check("the number of MESH", URDINHOSA_MESH, 11);
    check("the number of NOT_LEAF", URDINHOSA_NOT_LEAF, 12);
    check("the number of NOT_FOUR", URDINHOSA_NOT_FOUR, 13);
    check("the number of BLOCKED", URDINHOSA_BLOCKED, 14);
    check("the number of ROOM", URDINHOSA_ROOM, 15);
}

static void check_pack(void)
{
    /* 11 00111 01001011..: digits 01, 00, 10, 11, 00, 00 */
    check("pack: icosahedron face 7, six digits", urdinhosa_pack(3, 7, UINT64_C(0x4b) << 44, 6),
          UINT64_C(0xce96000000000006));
    check("pack: octahedron face 7 (case 7)", urdinhosa_pack(2, 7, 0, 0), UINT64_C(0x8e00000000000000));
    check("pack: octahedron face 8 (case 7)", urdinhosa_pack(2, 8, 0, 0), 2);
    check("pack: depth 26 (case 8)", urdinhosa_pack(1, 0, 0, 26), DEEPEST_CELL);
    check("pack: depth 27 (case 8)", urdinhosa_pack(1, 0, 0, 27), 3);
    check("pack: solid 0", urdinhosa_pack(0, 0, 0, 0), 1);
    check("pack: solid 257", urdinhosa_pack(257, 0, 0, 0), 1);
    check("pack: a bit after the last digit (case 8)", urdinhosa_pack(1, 0, 1, 0), 4);
    check("pack: a bit above the path", urdinhosa_pack(1, 3, UINT64_C(1) << 52, 26), 4);
}

/* A block of other numbers, for the caller to free. */
static uint64_t *lend(size_t length)
{
    uint64_t *const block = (uint64_t *)malloc(length * sizeof *block);
    if (block == NULL) {
        fprintf(stderr, "no memory for %zu numbers\n", length);
        exit(2);
    }
    for (size_t i = 0; i < length; i++) {
        block[i] = OTHER;
    }
    return block;
}

static int same_numbers(const uint64_t *a, const uint64_t *b, size_t length)
{
    return memcmp(a, b, length * sizeof *a) == 0;
}

static void check_unpack(const char *what, uint64_t code, uint64_t number, uint64_t solid, uint64_t face, uint64_t path,
                         uint64_t depth)
{
    const uint64_t expected[4] = {solid, face, path, depth};
    uint64_t *const fields = lend(4);
    const uint64_t answer = urdinhosa_unpack(code, fields);

    const int is_right = answer == number && same_numbers(fields, expected, 4);
    count(is_right);
    printf("unpack: %s is %" PRIu64 " with solid %" PRIu64 ", face %" PRIu64 ", path 0x%" PRIx64 ", depth %" PRIu64,
           what, answer, fields[0], fields[1], fields[2], fields[3]);
    if (!is_right) {
        printf(", expected %" PRIu64 " with %" PRIu64 ", %" PRIu64 ", 0x%" PRIx64 ", %" PRIu64, number, solid, face,
               path, depth);
    }
    printf("\n");
    free(fields);
}

static void check_unpacks(void)
{
    check_unpack("six digits", UINT64_C(0xce96000000000006), 0, 3, 7, UINT64_C(0x4b) << 44, 6);
    check_unpack("octahedron face 7 (case 7)", UINT64_C(0x8e00000000000000), 0, 2, 7, 0, 0);
    check_unpack("depth 26 (case 8)", DEEPEST_CELL, 0, 1, 0, 0, 26);
    check_unpack("code 0 (case 7)", 0, 1, 0, 0, 0, 0);
    check_unpack("solid 0 and face 31", UNKNOWN_SOLID, 1, 0, 0, 0, 0);
    check_unpack("octahedron face 8 (case 7)", UINT64_C(0x9000000000000000), 2, 0, 0, 0, 0);
    check_unpack("depth 27 (case 8)", UINT64_C(0x400000000000001b), 3, 0, 0, 0, 0);
    check_unpack("a bit after the last digit (case 8)", BIT_AFTER_LAST_DIGIT, 4, 0, 0, 0, 0);
}

static void check_parent(void)
{
    check("parent: of child 11 of a face", urdinhosa_parent(UINT64_C(0x4180000000000001)), FACE_0_OF_TETRAHEDRON);
    check("parent: of a cell of depth 26", urdinhosa_parent(DEEPEST_CELL), UINT64_C(0x4000000000000019));
    check("parent: of a face", urdinhosa_parent(FACE_0_OF_TETRAHEDRON), 8);
    check("parent: of solid 0", urdinhosa_parent(UNKNOWN_SOLID), 1);
    check("parent: of a code with a tail", urdinhosa_parent(BIT_AFTER_LAST_DIGIT), 4);
}

static void check_child(void)
{
    check("child: 00 of a face", urdinhosa_child(FACE_0_OF_TETRAHEDRON, 0), UINT64_C(0x4000000000000001));
    check("child: 01 of a face", urdinhosa_child(FACE_0_OF_TETRAHEDRON, 1), UINT64_C(0x4080000000000001));
    check("child: 10 of a face", urdinhosa_child(FACE_0_OF_TETRAHEDRON, 2), UINT64_C(0x4100000000000001));
    check("child: 11 of a face", urdinhosa_child(FACE_0_OF_TETRAHEDRON, 3), UINT64_C(0x4180000000000001));
    check("child: 11 of depth 25", urdinhosa_child(UINT64_C(0x4000000000000019), 3), UINT64_C(0x400000000000007a));
    check("child: digit 4", urdinhosa_child(FACE_0_OF_TETRAHEDRON, 4), 6);
    check("child: digit 256", urdinhosa_child(FACE_0_OF_TETRAHEDRON, 256), 6);
    check("child: of depth 26", urdinhosa_child(DEEPEST_CELL, 3), 7);
    check("child: digit 4 of depth 26", urdinhosa_child(DEEPEST_CELL, 4), 6);
    check("child: of solid 0, digit 4", urdinhosa_child(UNKNOWN_SOLID, 4), 1);
}

/* Step and walk, which answer alike. */
static void check_step(const char *what, uint64_t code, uint64_t direction, uint64_t expected)
{
    char call[80];
    snprintf(call, sizeof call, "step: %s", what);
    check(call, urdinhosa_step(code, direction), expected);
    snprintf(call, sizeof call, "walk: %s", what);
    check(call, urdinhosa_walk(code, direction), expected);
}

static void check_steps(void)
{
    check_step("right within a face (case 1)", UINT64_C(0xce96000000000006), 1, UINT64_C(0xce98a00000000006));
    check_step("left, back again", UINT64_C(0xce98a00000000006), 0, UINT64_C(0xce96000000000006));
    check_step("vertical over a seam (case 4)", UINT64_C(0x4080000000000001), 2, UINT64_C(0x4580000000000001));
    check_step("right over a seam (case 5)", UINT64_C(0x4780000000000001), 1, UINT64_C(0x4000000000000001));
    check_step("right from a face (case 6)", UINT64_C(0x8600000000000000), 1, UINT64_C(0x8000000000000000));
    check_step("left over a seam at depth 26", DEEPEST_CELL, 0, UINT64_C(0x47fffffffffffffa));
    check_step("direction 3", FACE_0_OF_TETRAHEDRON, 3, 5);
    check_step("direction 256", FACE_0_OF_TETRAHEDRON, 256, 5);
    check_step("code 0 (case 7)", 0, 0, 1);
    check_step("of solid 0, direction 3", UNKNOWN_SOLID, 3, 1);
    check_step("octahedron face 8, direction 3", UINT64_C(0x9000000000000000), 3, 2);
    check_step("depth 27, direction 3", UINT64_C(0x400000000000001b), 3, 3);
    check_step("of a code with a tail, direction 3", BIT_AFTER_LAST_DIGIT, 3, 4);
}

static void check_locate(void)
{
    check("locate: digit 00 (case 13)", urdinhosa_locate(1, 0, HALF, HALF, 0, 1), UINT64_C(0x4000000000000001));
    check("locate: digit 01 (case 13)", urdinhosa_locate(1, 0, 0, HALF, HALF, 1), UINT64_C(0x4080000000000001));
    check("locate: digit 10 (case 13)", urdinhosa_locate(1, 0, HALF - 1, 1, HALF, 1), UINT64_C(0x4100000000000001));
    check("locate: digit 11", urdinhosa_locate(1, 0, HALF - 1, 0, HALF + 1, 1), UINT64_C(0x4180000000000001));
    check("locate: a right corner at depth 26", urdinhosa_locate(1, 0, 0, 0, WHOLE, 26), UINT64_C(0x41fffffffffffffa));
    check("locate: solid 4", urdinhosa_locate(4, 0, WHOLE, 0, 0, 0), 1);
    check("locate: icosahedron face 20", urdinhosa_locate(3, 20, WHOLE, 0, 0, 0), 2);
    check("locate: depth 27", urdinhosa_locate(1, 0, WHOLE, 0, 0, 27), 3);
    check("locate: depth 27 with a wrong sum", urdinhosa_locate(1, 0, WHOLE, 0, 1, 27), 3);
    check("locate: a sum one too great", urdinhosa_locate(1, 0, WHOLE, 0, 1, 0), 9);
    check("locate: a sum that wraps around", urdinhosa_locate(1, 0, UINT64_MAX, 1, WHOLE, 0), 9);
}

static const uint64_t faces[4] = {FACE_0_OF_TETRAHEDRON, FACE_1_OF_TETRAHEDRON, FACE_2_OF_TETRAHEDRON,
                                  FACE_3_OF_TETRAHEDRON};

/* The mesh that the rules list, called M there. */
static const uint64_t listed[7] = {CHILD_00_OF_FACE_0,    CHILD_01_OF_FACE_0,    CHILD_10_OF_FACE_0,
                                   CHILD_11_OF_FACE_0,    FACE_1_OF_TETRAHEDRON, FACE_2_OF_TETRAHEDRON,
                                   FACE_3_OF_TETRAHEDRON};

static uint64_t *lend_mesh(const uint64_t *leaves, size_t count_of_leaves, size_t length)
{
    uint64_t *const slots = lend(length);
    memcpy(slots, leaves, count_of_leaves * sizeof *slots);
    memset(slots + count_of_leaves, 0, (length - count_of_leaves) * sizeof *slots);
    return slots;
}

/* Frees the expected slots. */
static void check_slots(const char *what, const uint64_t *slots, uint64_t *expected, size_t length)
{
    count(same_numbers(slots, expected, length));
    printf("the slots after %s\n", what);
    free(expected);
}

typedef uint64_t change(uint64_t *slots, size_t length, uint64_t code, uint64_t *blocker);

static void check_change(const char *what, change *call, uint64_t *slots, size_t length, uint64_t code, uint64_t number,
                         uint64_t blocker)
{
    uint64_t *const blocker_answered = lend(1);
    const uint64_t answer = call(slots, length, code, blocker_answered);

    const int is_right = answer == number && *blocker_answered == blocker;
    count(is_right);
    printf("%s is %" PRIu64 " with blocker 0x%" PRIx64, what, answer, *blocker_answered);
    if (!is_right) {
        printf(", expected %" PRIu64 " with 0x%" PRIx64, number, blocker);
    }
    printf("\n");
    free(blocker_answered);
}

static void check_across(const char *what, const uint64_t *slots, size_t length, uint64_t leaf, uint64_t direction,
                         uint64_t number, int64_t level, uint64_t first, uint64_t second)
{
    int64_t *const level_answered = (int64_t *)lend(1);
    uint64_t *const first_answered = lend(1);
    uint64_t *const second_answered = lend(1);
    const uint64_t answer =
        urdinhosa_across(slots, length, leaf, direction, level_answered, first_answered, second_answered);

    const int is_right =
        answer == number && *level_answered == level && *first_answered == first && *second_answered == second;
    count(is_right);
    printf("across: %s is %" PRIu64 " with level %" PRId64 ", 0x%" PRIx64 ", 0x%" PRIx64, what, answer, *level_answered,
           *first_answered, *second_answered);
    if (!is_right) {
        printf(", expected %" PRIu64 " with %" PRId64 ", 0x%" PRIx64 ", 0x%" PRIx64, number, level, first, second);
    }
    printf("\n");
    free(level_answered);
    free(first_answered);
    free(second_answered);
}

static void check_run(const char *what, const uint64_t *slots, size_t length, uint64_t cell, uint64_t number,
                      size_t start, size_t count_of_leaves)
{
    size_t *const start_answered = (size_t *)lend(1);
    size_t *const count_answered = (size_t *)lend(1);
    const uint64_t answer = urdinhosa_run(slots, length, cell, start_answered, count_answered);

    const int is_right = answer == number && *start_answered == start && *count_answered == count_of_leaves;
    count(is_right);
    printf("run: %s is %" PRIu64 " with start %zu, count %zu", what, answer, *start_answered, *count_answered);
    if (!is_right) {
        printf(", expected %" PRIu64 " with %zu, %zu", number, start, count_of_leaves);
    }
    printf("\n");
    free(start_answered);
    free(count_answered);
}

static void check_fresh(const char *what, uint64_t solid, size_t length, uint64_t number)
{
    uint64_t *const slots = lend(length);
    check(what, urdinhosa_fresh(slots, length, solid), number);
    check_slots(what, slots, number == 0 ? lend_mesh(faces, 4, length) : lend(length), length);
    free(slots);
}

static void check_freshes(void)
{
    check_fresh("fresh: solid 4", 4, SLOTS, 1);
    check_fresh("fresh: octahedron in 7 slots", 2, 7, 15);
    check_fresh("fresh: tetrahedron in 3 slots", 1, 3, 15);
    check_fresh("fresh: tetrahedron in 4 slots", 1, 4, 0);
    check_fresh("fresh: tetrahedron in 10 slots", 1, 10, 0);
    check_fresh("fresh: tetrahedron in no slots", 1, 0, 15);
}

/* Frees the slots. */
static void check_sound(const char *what, uint64_t *slots, size_t length, int expected)
{
    check(what, urdinhosa_sound(slots, length), expected);
    free(slots);
}

static void check_sounds(void)
{
    check_sound("sound: the faces", lend_mesh(faces, 4, 4), 4, 1);
    check_sound("sound: the mesh listed", lend_mesh(listed, 7, 10), 10, 1);
    check_sound("sound: a face missing", lend_mesh(faces, 3, 10), 10, 0);
    check_sound("sound: other numbers", lend(SLOTS), SLOTS, 0);
    check_sound("sound: no slots", lend(0), 0, 0);
    uint64_t *const doubled = lend_mesh(listed, 7, 10);
    doubled[1] = doubled[0];
    check_change("refine: a leaf doubled", urdinhosa_refine, doubled, 10, 0, 11, 0);
    check_sound("sound: a leaf doubled", doubled, 10, 0);
}

static void check_changes_of_mesh(void)
{
    uint64_t *slots = lend_mesh(faces, 4, 10);
    check_change("refine: face 0", urdinhosa_refine, slots, 10, FACE_0_OF_TETRAHEDRON, 0, 0);
    check_slots("refine", slots, lend_mesh(listed, 7, 10), 10);
    check_change("refine: blocked by a face (case 9)", urdinhosa_refine, slots, 10, CHILD_00_OF_FACE_0, 14,
                 FACE_1_OF_TETRAHEDRON);
    check_change("refine: no leaf", urdinhosa_refine, slots, 10, FACE_0_OF_TETRAHEDRON, 12, 0);
    check_change("refine: code 0", urdinhosa_refine, slots, 10, 0, 1, 0);
    check_change("coarsen: a cell of depth 26", urdinhosa_coarsen, slots, 10, DEEPEST_CELL, 7, 0);
    check_slots("the refused calls", slots, lend_mesh(listed, 7, 10), 10);

    check_change("refine: just enough slots (case 10)", urdinhosa_refine, slots, 10, CHILD_10_OF_FACE_0, 0, 0);
    check_change("coarsen: not four (case 11)", urdinhosa_coarsen, slots, 10, FACE_0_OF_TETRAHEDRON, 13, 0);
    check_change("coarsen: back to the mesh listed", urdinhosa_coarsen, slots, 10, CHILD_10_OF_FACE_0, 0, 0);
    check_slots("coarsen", slots, lend_mesh(listed, 7, 10), 10);
    free(slots);

    slots = lend_mesh(listed, 7, 9);
    check_change("refine: too few slots (case 10)", urdinhosa_refine, slots, 9, CHILD_10_OF_FACE_0, 15, 0);
    check_slots("too few slots", slots, lend_mesh(listed, 7, 9), 9);
    free(slots);

    slots = lend_mesh(faces, 4, SLOTS);
    for (int i = 0; i < 4; i++) {
        check_change("refine: a face", urdinhosa_refine, slots, SLOTS, faces[i], 0, 0);
    }
    check_change("refine: a child of face 0", urdinhosa_refine, slots, SLOTS, CHILD_00_OF_FACE_0, 0, 0);
    check_change("coarsen: blocked by a smaller leaf (case 12)", urdinhosa_coarsen, slots, SLOTS, FACE_1_OF_TETRAHEDRON,
                 14, UINT64_C(0x4000000000000002));
    free(slots);
}

static void check_questions_to_mesh(void)
{
    uint64_t *const slots = lend_mesh(listed, 7, 7);
    check_across("two smaller leaves", slots, 7, FACE_1_OF_TETRAHEDRON, 0, 0, 1, CHILD_00_OF_FACE_0,
                 CHILD_11_OF_FACE_0);
    check_across("a leaf as large", slots, 7, FACE_1_OF_TETRAHEDRON, 1, 0, 0, FACE_2_OF_TETRAHEDRON, 0);
    check_across("a larger leaf", slots, 7, CHILD_00_OF_FACE_0, 1, 0, -1, FACE_1_OF_TETRAHEDRON, 0);
    check_across("direction 3 of no leaf", slots, 7, FACE_0_OF_TETRAHEDRON, 3, 5, 0, 0, 0);
    check_across("no leaf", slots, 7, FACE_0_OF_TETRAHEDRON, 2, 12, 0, 0, 0);

    check_run("under face 0", slots, 7, FACE_0_OF_TETRAHEDRON, 0, 0, 4);
    check_run("under face 2, a leaf", slots, 7, FACE_2_OF_TETRAHEDRON, 0, 5, 1);
    check_run("under a cell in a larger leaf", slots, 7, UINT64_C(0x4400000000000001), 0, 0, 0);
    check_run("under a face of the octahedron", slots, 7, UINT64_C(0x8000000000000000), 0, 0, 0);
    check_run("under a code with a tail", slots, 7, BIT_AFTER_LAST_DIGIT, 4, 0, 0);
    free(slots);
}

static void check_longest_slice(void)
{
    check_fresh("fresh: 8192 slots", 1, MOST_SLOTS, 0);
    check_fresh("fresh: 8193 slots", 0, MOST_SLOTS + 1, 10);
    check_sound("sound: 8192 slots", lend_mesh(listed, 7, MOST_SLOTS), MOST_SLOTS, 1);
    check_sound("sound: 8193 slots", lend_mesh(listed, 7, MOST_SLOTS + 1), MOST_SLOTS + 1, 0);
    uint64_t *const slots = lend_mesh(listed, 7, MOST_SLOTS + 1);
    check_change("refine: 8193 slots", urdinhosa_refine, slots, MOST_SLOTS + 1, CHILD_10_OF_FACE_0, 10, 0);
    check_slots("8193 slots", slots, lend_mesh(listed, 7, MOST_SLOTS + 1), MOST_SLOTS + 1);
    free(slots);
}

int main(void)
{
    check_constants();
    check_numbers_of_refusals();
    check_pack();
    check_unpacks();
    check_parent();
    check_child();
    check_steps();
    check_locate();
    check_freshes();
    check_sounds();
    check_changes_of_mesh();
    check_questions_to_mesh();
    check_longest_slice();
    printf("%u passed, %u failed\n", passed, failed);
    return failed == 0 ? 0 : 1;
}
