/* Urdinhosa: location codes of triangles on the tetrahedron, the octahedron and the icosahedron, and balanced meshes.
 *
 * A code is one 64-bit number. From the top: 2 bits solid (1 tetrahedron, 2 octahedron, 3 icosahedron), 5 bits face,
 * 52 bits path (one two-bit digit a level, the first on top, zeros after the last), 5 bits depth (0 to 26). Pictures of
 * the solids, of their faces and vertices and of a cell's digits are in docs/SOLIDS.md.
 *
 * Every function answers every input. A bad input is refused by its number, one of the constants below; the first cause
 * in a function's list wins. No code is below 2^62, so a code is never taken for the number of a refusal.
 *
 * A mesh is a slice of at most 8192 slots that the caller lends: leaves first, then only zeros. It is sound when there
 * is at least one leaf, every leaf is the code of a cell of one solid, codes ascend strictly, the leaves cover the
 * whole solid and no two overlap, and leaves that share a stretch of a side differ by at most one level. Every function
 * that is given a mesh looks at the whole slice before it does anything else.
 *
 * Of the pointers the caller promises:
 *   - `slots` is not null, is aligned as uint64_t is, and is good for `length` numbers;
 *   - each out-parameter is not null, is aligned, and is good for one number of its type;
 *   - the slots and the out-parameters of a call do not overlap one another, and no other thread writes any of them
 *     during the call, nor reads what the call writes.
 *
 * No function keeps anything between calls, and each may be called from any thread.
 */
#ifndef URDINHOSA_H
#define URDINHOSA_H

#include <stdbool.h>
#include <stddef.h>
#include <stdint.h>

#ifdef __cplusplus
extern "C" {
#endif

enum urdinhosa_solid {
    URDINHOSA_TETRAHEDRON = 1, /* 4 faces */
    URDINHOSA_OCTAHEDRON = 2,  /* 8 faces */
    URDINHOSA_ICOSAHEDRON = 3  /* 20 faces */
};

/* The sides of a triangle, each by the direction in which it is crossed. */
enum urdinhosa_direction {
    URDINHOSA_LEFT = 0,    /* between tip and left corner */
    URDINHOSA_RIGHT = 1,   /* between tip and right corner */
    URDINHOSA_VERTICAL = 2 /* between left and right corner */
};

/* An answer below this is the number of a refusal, any other is a code. */
#define URDINHOSA_LEAST_CODE (UINT64_C(1) << 62)

/* What the weights of a point sum to. */
#define URDINHOSA_WHOLE (UINT64_C(1) << 26)

/* The most slots that a mesh has. */
#define URDINHOSA_MOST_SLOTS 8192

enum urdinhosa_refusal {
    URDINHOSA_DONE = 0,  /* not refused */
    URDINHOSA_SOLID = 1, /* the solid is not 1, 2 or 3 */
    URDINHOSA_FACE = 2,  /* the face is not on the solid */
    URDINHOSA_DEPTH = 3, /* the depth is above 26 */
    URDINHOSA_TAIL = 4,  /* a path bit is set after the last digit or, when packing, above the 52 path bits */
    URDINHOSA_DIRECTION = 5, /* the direction is not 0, 1 or 2 */
    URDINHOSA_DIGIT = 6, /* the child's digit is above 3 */
    URDINHOSA_DEEP = 7,  /* a child is wanted of a cell of depth 26 */
    URDINHOSA_ROOT = 8,  /* the parent is wanted of a cell of depth 0 */
    URDINHOSA_POINT = 9, /* the weights do not sum to 2^26 */
    URDINHOSA_BUFFER = 10, /* the slice is longer than 8192 */
    URDINHOSA_MESH = 11, /* the slice is no sound mesh */
    URDINHOSA_NOT_LEAF = 12, /* the code of a cell that is no leaf of this mesh */
    URDINHOSA_NOT_FOUR = 13, /* some child of the cell is no leaf of this mesh */
    URDINHOSA_BLOCKED = 14, /* a leaf across a side is in the way */
    URDINHOSA_ROOM = 15  /* too few slots: fresh needs one for each face, refine three that are free */
};

/* The code of a cell, from its parts.
 *
 * solid  in: 1, 2 or 3
 * face   in: from 0, below the solid's number of faces (4, 8, 20)
 * path   in: 52 bits, the first digit on top (bits 51 and 50), zeros after the last digit
 * depth  in: 0 to 26
 *
 * Returns the code, or else SOLID, FACE, DEPTH or TAIL.
 */
uint64_t urdinhosa_pack(uint64_t solid, uint64_t face, uint64_t path, uint64_t depth);

/* The parts of a code.
 *
 * code    in: any number
 * fields  out: solid, face, path and depth, each as urdinhosa_pack takes it; four zeros when refused. It points to room
 *         for four numbers, which is all that is written.
 *
 * Returns DONE, or else SOLID, FACE, DEPTH or TAIL.
 */
uint64_t urdinhosa_unpack(uint64_t code, uint64_t fields[4]);

/* The cell that a cell is a child of.
 *
 * code  in: any number
 *
 * Returns the parent's code, or else SOLID, FACE, DEPTH, TAIL or ROOT.
 */
uint64_t urdinhosa_parent(uint64_t code);

/* A child of a cell: by digit 0 the one at the tip, 1 at the left corner, 3 at the right corner, 2 in the middle, turned over.
 *
 * code   in: any number
 * digit  in: 0 to 3
 *
 * Returns the child's code, or else SOLID, FACE, DEPTH, TAIL, DIGIT or DEEP.
 */
uint64_t urdinhosa_child(uint64_t code, uint64_t digit);

/* The triangle across a side: the one other cell of the same solid and depth that has both end corners of that side,
 * within the face or over a seam. Worked out on the whole path at once.
 *
 * code       in: any number
 * direction  in: 0 left, 1 right, 2 vertical
 *
 * Returns the neighbour's code, or else SOLID, FACE, DEPTH, TAIL or DIRECTION.
 */
uint64_t urdinhosa_step(uint64_t code, uint64_t direction);

/* The same triangle, worked out digit by digit: parameters and answer are those of urdinhosa_step, for every input.
 *
 * code       in: any number
 * direction  in: 0 left, 1 right, 2 vertical
 *
 * Returns the neighbour's code, or else SOLID, FACE, DEPTH, TAIL or DIRECTION.
 */
uint64_t urdinhosa_walk(uint64_t code, uint64_t direction);

/* The cell of a depth in which a point is located: the least code of the point's face and that depth whose closed
 * triangle holds the point.
 *
 * solid, face  in: as for urdinhosa_pack
 * t, l, r      in: the point's weights at the face's tip, left and right corner, which sum to 2^26
 * depth        in: 0 to 26
 *
 * Returns the code, or else SOLID, FACE, DEPTH or POINT. The weights are summed as true numbers: a sum that wraps around
 * to 2^26 is refused.
 */
uint64_t urdinhosa_locate(uint64_t solid, uint64_t face, uint64_t t, uint64_t l, uint64_t r, uint64_t depth);

/* Whether a slice is a sound mesh.
 *
 * slots   in: any numbers
 * length  in: how many they are
 *
 * Returns true or false; false for a slice longer than 8192 slots.
 */
bool urdinhosa_sound(const uint64_t *slots, size_t length);

/* Makes the mesh whose leaves are the faces of a solid.
 *
 * slots   out: the faces in order, then zeros to the end, whatever stood there; nothing is written when refused
 * length  in: how many slots there are
 * solid   in: 1, 2 or 3
 *
 * Returns DONE, or else BUFFER, SOLID or ROOM.
 */
uint64_t urdinhosa_fresh(uint64_t *slots, size_t length, uint64_t solid);

/* Puts the four children of a leaf in its place.
 *
 * slots    in and out: the mesh. The leaves after the refined one move up three slots, and the slots past the new count
 *          stay as they are; nothing is written when refused.
 * length   in: how many slots there are
 * leaf     in: any number
 * blocker  out: the least leaf that is in the way when BLOCKED is returned, else 0. In the way are the larger leaves
 *          across the leaf's sides.
 *
 * Returns DONE, or else BUFFER, MESH, SOLID, FACE, DEPTH, TAIL, NOT_LEAF, DEEP, BLOCKED or ROOM.
 */
uint64_t urdinhosa_refine(uint64_t *slots, size_t length, uint64_t leaf, uint64_t *blocker);

/* Puts a cell in the place of its four children, which are leaves.
 *
 * slots    in and out: the mesh. The leaves after the four move down three slots, and the freed slots become zero;
 *          nothing is written when refused.
 * length   in: how many slots there are
 * cell     in: any number
 * blocker  out: the least leaf that is in the way when BLOCKED is returned, else 0. In the way are the smaller leaves
 *          across the children's sides.
 *
 * Returns DONE, or else BUFFER, MESH, SOLID, FACE, DEPTH, TAIL, DEEP, NOT_FOUR or BLOCKED.
 */
uint64_t urdinhosa_coarsen(uint64_t *slots, size_t length, uint64_t cell, uint64_t *blocker);

/* What lies across a side of a leaf: one leaf that is larger or as large, or two smaller ones.
 *
 * slots      in: the mesh
 * length     in: how many slots there are
 * leaf       in: any number
 * direction  in: 0 left, 1 right, 2 vertical
 * level      out: the level of what lies across minus the leaf's own, -1, 0 or 1; 0 when refused
 * first      out: the leaf across, the lesser code when there are two; 0 when refused
 * second     out: the greater code when level is 1; else 0
 *
 * Returns DONE, or else BUFFER, MESH, SOLID, FACE, DEPTH, TAIL, DIRECTION or NOT_LEAF.
 */
uint64_t urdinhosa_across(const uint64_t *slots, size_t length, uint64_t leaf, uint64_t direction, int64_t *level,
                          uint64_t *first, uint64_t *second);

/* The run under a cell: the slots that hold the leaves equal to the cell or inside it. There are none when the cell is
 * inside a larger leaf or on another solid.
 *
 * slots   in: the mesh
 * length  in: how many slots there are
 * cell    in: any number
 * start   out: the place of the first of these slots, counted from 0; 0 when there are none or when refused
 * count   out: how many they are; 0 when refused
 *
 * Returns DONE, or else BUFFER, MESH, SOLID, FACE, DEPTH or TAIL.
 */
uint64_t urdinhosa_run(const uint64_t *slots, size_t length, uint64_t cell, size_t *start, size_t *count);

#ifdef __cplusplus
}
#endif

#endif
