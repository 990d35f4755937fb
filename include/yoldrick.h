/* Voxel grids on lent memory: eight grids, the seats 0 to 7, share one pool of n cells, with n from 1 to 65535. C99 and C++; freestanding.

   THE CALLER PROMISES what no call can test. Where it is not kept, nothing is promised in return:

       - each count is true: so many elements are there (NULL with the count 0 is allowed)
       - the three arrays of a pool are apart: no two overlap
       - each is aligned as its type asks, the masks to 8 bytes on a 32-bit machine too
       - while a call that changes a pool runs, nobody else reads or writes its arrays; while another call runs, nobody writes them. There is no lock
       - subnormal numbers count: no flush-to-zero, no denormals-are-zero while a call runs
       - YOLDRICK_STACK bytes of stack are left

   All else is tested: no other input, and no word in the arrays, makes a call trap, leave the arrays or run on without an end.

   MEMORY. A pool is three arrays that the caller owns and lends to each call, whole:

       slots   uint32_t   YOLDRICK_SLOTS(n)   4096 + 64 n
       masks   uint64_t   YOLDRICK_MASKS(n)    128 +  2 n
       book    uint32_t   YOLDRICK_BOOK(n)       9 +  2 n

   An array is passed as a pointer and its count of elements (not of bytes). The counts above are known to the compiler; yoldrick_sizes tells the same of an n that it does
   not know. What the arrays hold before yoldrick_prepare does not matter. The library keeps no memory of its own and no pointer after a call: a copy of the three arrays is
   a copy of the pool, and may be lent in its place.

   NUMBERS. Values are IEEE 754 binary32, and are compared with the machine's own instructions for it. With a mode that takes a subnormal for 0, an insert under a tile, a cut
   and a combination may take one for equal to 0.

   POINTS. A grid is 128 voxels a side. Coordinates are masked to their low 7 bits: -1 is 127, and 128 is 0. So every point is in the grid.

   REFUSALS. Each call tests in the order of these numbers; one that is refused has changed no lent word. Each has a name below, and yoldrick_text has a text for it.

       1   the counts are not those of one n from 1 to 65535
       2   a seat number is above 7
       3   a copy of a seat onto itself, or a combination of it with itself
       4   a given value or bound is NaN or infinite
       5   calls on one voxel: the path to it, or a free cell that is needed, is damaged; other calls but prepare: the pool is not sound
       6   the sign or a combination is asked of a seat that is not filled with signs
       7   a fill with signs or a combination of a seat in which a branch is empty: prune it first, and for a combination fill it again
       8   a copy onto a seat that is not empty
       9   fewer free cells than needed

   AFTER A 5 something else has written to the arrays, or they were never prepared. The way back is yoldrick_prepare, which accepts every memory and loses all eight grids, or a
   copy of the three arrays from before the damage, put back. Until then:

       - a lookup or a sign is answered where its own path is whole: with what the memory holds, which need not be what was stored
       - an insert or remove may be accepted, and then promises only to end, to stay inside the arrays and to store no value that is not finite: make none
       - every other call is refused with 5, whichever seat the damage is in

   A 5 is given for what breaks a pool. A finite value that was changed into another is not seen: firmware that must find that, too, keeps a sum of the arrays.

   SIGNS. A slot that is neither active nor a branch is hidden: no lookup shows its value, but it has one, and so a sign. An accepted yoldrick_fill_signs gives every hidden
   slot its sign and fills the seat with signs; yoldrick_sign and the combinations are answered then. The seat is filled until the next accepted insert, remove, fill, clear,
   prune or cut on it, copy onto it, combination of another seat with it, or prepare, even one that finds nothing to change. A flip leaves it filled, and so does its
   combination with another seat; a copy of it is not filled.

   COST. 'A walk' is at most three slots, whatever n is. 'The whole pool' is each cell and slot once: the test that it is sound.

   STACK. No call uses more of it for a larger pool or a fuller seat: what calls itself goes down the three levels of a grid and no further. YOLDRICK_STACK bounds what
   tools/library measures on x86_64, call by call.

   MACHINES. tools/library makes the archive for the machine that it runs on, x86_64 or aarch64. Further names after it make it for i686 and for thumbv7em too, which is a
   Cortex-M4 or M7 with its floating-point unit, called with hard floats; another name is refused. Counts are size_t. Inside they have 64 bits on every machine: on a 32-bit one
   library/narrow.c widens them, and nothing else differs.

   What each call answers, and every lent word after it but for docs/EXCEPTIONS.md, is proved (crates/calls); the costs and the stack are not. */

#ifndef YOLDRICK_H
#define YOLDRICK_H

#include <stddef.h>
#include <stdint.h>

#ifdef __cplusplus
extern "C" {
#endif

#define YOLDRICK_SLOTS(n) (4096u + 64u * (n))
#define YOLDRICK_MASKS(n) (128u + 2u * (n))
#define YOLDRICK_BOOK(n) (9u + 2u * (n))

/* Bytes of stack: no call was measured to use more. */
#define YOLDRICK_STACK 2048u

/* Accepted; the nine refusals; and the one code that is neither: a lookup that finds nothing. */
#define YOLDRICK_DONE 0u
#define YOLDRICK_REFUSED_LENGTHS 1u
#define YOLDRICK_REFUSED_SEAT 2u
#define YOLDRICK_REFUSED_SAME_SEAT 3u
#define YOLDRICK_REFUSED_VALUE 4u
#define YOLDRICK_REFUSED_DAMAGED 5u
#define YOLDRICK_REFUSED_UNFILLED 6u
#define YOLDRICK_REFUSED_EMPTY_BRANCH 7u
#define YOLDRICK_REFUSED_OCCUPIED 8u
#define YOLDRICK_REFUSED_NO_CELLS 9u
#define YOLDRICK_NOTHING 10u

/* A short text for a code, for logs. */
static inline const char *yoldrick_text(uint32_t code) {
    switch (code) {
    case YOLDRICK_DONE: return "accepted";
    case YOLDRICK_REFUSED_LENGTHS: return "the lengths of the three arrays do not belong together";
    case YOLDRICK_REFUSED_SEAT: return "a seat number is above 7";
    case YOLDRICK_REFUSED_SAME_SEAT: return "the two seats are the same";
    case YOLDRICK_REFUSED_VALUE: return "a value or bound is not finite";
    case YOLDRICK_REFUSED_DAMAGED: return "the memory is damaged or was never prepared";
    case YOLDRICK_REFUSED_UNFILLED: return "a seat is not filled with signs";
    case YOLDRICK_REFUSED_EMPTY_BRANCH: return "a seat has an empty branch";
    case YOLDRICK_REFUSED_OCCUPIED: return "the seat to copy onto is not empty";
    case YOLDRICK_REFUSED_NO_CELLS: return "too few free cells";
    case YOLDRICK_NOTHING: return "nothing there";
    default: return "no such code";
    }
}

/* code 0: value was found. 1 to 9: refused. 10: nothing there. The value is +0 where the code is not 0. */
typedef struct {
    uint32_t code;
    float value;
} yoldrick_answer;

/* code 0: number is the answer. 1 to 9: refused, and number is 0. */
typedef struct {
    uint32_t code;
    uint32_t number;
} yoldrick_number;

/* code 0: the counts of the three arrays. 1: there is no pool of so many cells, and the counts are 0. */
typedef struct {
    uint32_t code;
    uint32_t slots;
    uint32_t masks;
    uint32_t book;
} yoldrick_lengths;

/* The counts for a pool of so many cells: what YOLDRICK_SLOTS, YOLDRICK_MASKS and YOLDRICK_BOOK say, for cells from 1 to 65535.
   Refusals: 1. Cost: none to speak of. */
yoldrick_lengths yoldrick_sizes(uint32_t cells);

/* Frees every cell and empties every seat. Must come first; may come again at any time.
   Refusals: 1. Cost: eight tops and the book; what a cell holds is not touched. */
uint32_t yoldrick_prepare(uint32_t *slots, size_t slots_count, uint64_t *masks, size_t masks_count, uint32_t *book, size_t book_count);

/* The number of free cells.
   Refusals: 1, 5. Cost: the whole pool. */
yoldrick_number yoldrick_free_cells(const uint32_t *slots, size_t slots_count, const uint64_t *masks, size_t masks_count, const uint32_t *book, size_t book_count);

/* 1 if the seat has neither a branch nor an active tile, else 0.
   Refusals: 1, 2, 5. Cost: the whole pool. */
yoldrick_number yoldrick_is_empty(const uint32_t *slots, size_t slots_count, const uint64_t *masks, size_t masks_count, const uint32_t *book, size_t book_count, uint32_t seat);

/* The value of the active tile or voxel at (x, y, z), or code 10.
   Refusals: 1, 2, 5. Cost: a walk. */
yoldrick_answer yoldrick_lookup(const uint32_t *slots, size_t slots_count, const uint64_t *masks, size_t masks_count, const uint32_t *book, size_t book_count, uint32_t seat, int32_t x, int32_t y, int32_t z);

/* 1 if the value at (x, y, z), active or hidden, has its sign bit set (-0 has), else 0. The seat must be filled with signs: yoldrick_fill_signs.
   Refusals: 1, 2, 5, 6. Cost: a walk. */
yoldrick_number yoldrick_sign(const uint32_t *slots, size_t slots_count, const uint64_t *masks, size_t masks_count, const uint32_t *book, size_t book_count, uint32_t seat, int32_t x, int32_t y, int32_t z);

/* The bits of a float, for yoldrick_insert and yoldrick_fill. A value is passed as bits so that a NaN, too, reaches the test of it as the very bits that the caller had. */
static inline uint32_t yoldrick_bits(float value) {
#ifdef __cplusplus
    uint32_t bits;
    const unsigned char *from = reinterpret_cast<const unsigned char *>(&value);
    unsigned char *to = reinterpret_cast<unsigned char *>(&bits);
    for (size_t i = 0; i < sizeof bits; i++)
        to[i] = from[i];
    return bits;
#else
    union {
        float value;
        uint32_t bits;
    } both;
    both.value = value;
    return both.bits;
#endif
}

/* The voxel at (x, y, z) becomes active with the value of these bits: yoldrick_bits(value). Under an active tile of an equal value no slot changes (the two zeros are
   equal). Needs at most 2 free cells. The seat is no longer filled with signs. On a pool that is not sound an accepted insert promises only to end, to
   stay inside the arrays, and to store no value that is not finite.
   Refusals: 1, 2, 4, 5, 9. Cost: a walk, and the writing of the cells that it takes, at most 2. */
uint32_t yoldrick_insert(uint32_t *slots, size_t slots_count, uint64_t *masks, size_t masks_count, uint32_t *book, size_t book_count, uint32_t seat, int32_t x, int32_t y, int32_t z, uint32_t bits);

/* The voxel at (x, y, z) is no longer active. A branch that this leaves empty is released. Under an active tile the tile is first split, which needs at most 2 free
   cells. Removing what is not there is accepted. The seat is no longer filled with signs. On a pool that is not sound as with an insert.
   Refusals: 1, 2, 5, 9. Cost: a walk, and the writing of the cells that it takes, at most 2. */
uint32_t yoldrick_remove(uint32_t *slots, size_t slots_count, uint64_t *masks, size_t masks_count, uint32_t *book, size_t book_count, uint32_t seat, int32_t x, int32_t y, int32_t z);

/* Every voxel of the seat becomes active with the value of these bits: yoldrick_bits(value). All its cells are free then. The seat is no longer filled with signs.
   Refusals: 1, 2, 4, 5. Cost: the whole pool, and the writing of the seat's top and of every cell that it gives back. */
uint32_t yoldrick_fill(uint32_t *slots, size_t slots_count, uint64_t *masks, size_t masks_count, uint32_t *book, size_t book_count, uint32_t seat, uint32_t bits);

/* The seat becomes empty, every slot of its top hidden with the largest finite value. All its cells are free then. The seat is no longer filled with signs.
   Refusals: 1, 2, 5. Cost: as of a fill. */
uint32_t yoldrick_clear(uint32_t *slots, size_t slots_count, uint64_t *masks, size_t masks_count, uint32_t *book, size_t book_count, uint32_t seat);

/* Every branch of the seat in which nothing is active is released. No lookup changes. The seat is no longer filled with signs.
   Refusals: 1, 2, 5. Cost: the whole pool, and a walk over the seat's top and cells. */
uint32_t yoldrick_prune(uint32_t *slots, size_t slots_count, uint64_t *masks, size_t masks_count, uint32_t *book, size_t book_count, uint32_t seat);

/* A cut: every active voxel or tile of the seat whose value is strictly below high is no longer active. Values are compared as numbers: the two zeros are equal. A tile
   goes as a whole or stays. Every branch that is empty then is released, one that was empty before too. The seat is no longer filled with signs. A bound is passed as a
   float: one that is not finite is refused, whichever bits it has.
   Refusals: 1, 2, 4, 5. Cost: as of a prune. */
uint32_t yoldrick_cut_below(uint32_t *slots, size_t slots_count, uint64_t *masks, size_t masks_count, uint32_t *book, size_t book_count, uint32_t seat, float high);

/* A cut of what is strictly above low.
   Refusals: 1, 2, 4, 5. Cost: as of a prune. */
uint32_t yoldrick_cut_above(uint32_t *slots, size_t slots_count, uint64_t *masks, size_t masks_count, uint32_t *book, size_t book_count, uint32_t seat, float low);

/* A cut of what is from low to high, both included: nothing if low is above high.
   Refusals: 1, 2, 4, 5. Cost: as of a prune. */
uint32_t yoldrick_cut_between(uint32_t *slots, size_t slots_count, uint64_t *masks, size_t masks_count, uint32_t *book, size_t book_count, uint32_t seat, float low, float high);

/* Every value of the seat, active or hidden, has the other sign (a zero too). A seat that was filled with signs still is.
   Refusals: 1, 2, 5. Cost: as of a prune. */
uint32_t yoldrick_flip(uint32_t *slots, size_t slots_count, uint64_t *masks, size_t masks_count, uint32_t *book, size_t book_count, uint32_t seat);

/* The seat is filled with signs: every hidden slot gets the largest finite value with a sign. Active values stay. In an empty seat all signs are positive.
   The nodes are filled one by one, a branch before the node that it is in. The sign of a hidden slot is that of the nearest slot before it in its row along z that is
   not hidden. Where there is none it is the sign that its row starts with, which comes in the same way along y from the starts of the rows before, and at y = 0
   along x. All begins with the sign of the node's first slot that is not hidden: of a branch, that of its slot 0. On the way a branch hands on its last sign, that of
   its slot 63. Where slot 0 or slot 63 of a middle node is a leaf, the sign is in both cases that of the leaf's slot 0, as in the source.
   Refusals: 1, 2, 5, 7. Cost: as of a prune. */
uint32_t yoldrick_fill_signs(uint32_t *slots, size_t slots_count, uint64_t *masks, size_t masks_count, uint32_t *book, size_t book_count, uint32_t seat);

/* The empty seat `to` becomes a copy of the seat `from`, hidden values too, but is not filled with signs. Needs as many free cells as `from` holds. `from` stays as it is.
   Refusals: 1, 2, 3, 5, 8, 9. Cost: the whole pool, and the writing of a top and of every cell that it takes. */
uint32_t yoldrick_copy(uint32_t *slots, size_t slots_count, uint64_t *masks, size_t masks_count, uint32_t *book, size_t book_count, uint32_t from, uint32_t to);

/* Combinations: the seat a becomes what is in a or in b, and b ends as after yoldrick_clear. A voxel is inside if its sign is negative: afterwards it is exactly if it was
   in a or in b. Node by node, for each slot:
       a is no branch and inside     it stays as it is
       b is no branch and inside     it becomes an active tile with minus the largest finite value
       b is no branch and outside    it stays as it is
       a is no branch and outside    it becomes the branch of b
       both are branches             their slots are combined; a voxel is active if it was active in a or in b, with the smaller of its two values (-0 is below +0)
   The seat a stays filled with signs, and can be combined again. Needs no free cell; the cells of b that a does not take over are free then.
   Refusals: 1, 2, 3, 5, 6, 7. Cost: the whole pool, and a walk over the tops and cells of both seats. */
uint32_t yoldrick_union(uint32_t *slots, size_t slots_count, uint64_t *masks, size_t masks_count, uint32_t *book, size_t book_count, uint32_t a, uint32_t b);

/* The seat a becomes what is in a and not in b; all else is as with a union. But a branch may be left empty: it stays, with its signs, and until a prune and another fill
   with signs the seat is refused with 7 in a combination. For each slot:
       a is no branch and outside    it stays as it is
       b is no branch and inside     it becomes hidden, outside, with the largest finite value
       b is no branch and outside    it stays as it is
       a is no branch and inside     it becomes the branch of b, flipped
       both are branches             their slots are combined; a voxel is active if it was active in a or in b, with the larger of a's value and minus b's
   Refusals: 1, 2, 3, 5, 6, 7. Cost: as of a union. */
uint32_t yoldrick_subtract(uint32_t *slots, size_t slots_count, uint64_t *masks, size_t masks_count, uint32_t *book, size_t book_count, uint32_t a, uint32_t b);

/* The seat a becomes what is in both a and b; all else is as with a subtraction. For each slot:
       a is no branch and outside    it stays as it is
       b is no branch and outside    it becomes hidden, outside, with the largest finite value
       b is no branch and inside     it stays as it is
       a is no branch and inside     it becomes the branch of b
       both are branches             their slots are combined; a voxel is active if it was active in a or in b, with the larger of its two values
   Refusals: 1, 2, 3, 5, 6, 7. Cost: as of a union. */
uint32_t yoldrick_intersect(uint32_t *slots, size_t slots_count, uint64_t *masks, size_t masks_count, uint32_t *book, size_t book_count, uint32_t a, uint32_t b);

#ifdef __cplusplus
}
#endif

#endif
