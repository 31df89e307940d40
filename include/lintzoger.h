/*
 * The index of calibration cells in lent memory: insertion, removal, clearing
 * and the four queries.
 *
 * A cell is a pair (x, y), each from 0 to 65535. An entry is a cell and a tag,
 * which is any 32-bit number; a cell has at most one entry. A window has a lower
 * left corner (llx, lly) and an upper right corner (urx, ury); it contains a cell
 * exactly if llx <= x < urx and lly <= y < ury. So ll < ur in both dimensions,
 * and ur is at most 65536.
 *
 * An index is a list of 32-bit numbers: 64, then 128 for each of N parts, N from
 * 1 to 256. All zeros is the fresh, empty index. docs/LAYOUT.md says what each
 * number holds. The lengths count numbers.
 *
 * Each call returns 0 where it accepts, or the number of its refusal:
 *   LINTZOGER_WRONG_LENGTH    index_len is not 64 + 128 * N for an N from 1 to 256;
 *   LINTZOGER_WORK_LENGTH     work_len differs from index_len (insertion);
 *   LINTZOGER_INVALID         a coordinate over 65535, or a window with ll >= ur in
 *                             a dimension or ur over 65536;
 *   LINTZOGER_NO_SOUND_TREE   the index reads as no sound tree;
 *   LINTZOGER_HELD            the cell already has an entry (insertion);
 *   LINTZOGER_NOT_HELD        the cell has no entry (removal);
 *   LINTZOGER_OVER_LIMIT      a polygon would be over its limit: over 256 pieces on
 *                             the way, or over 16 rectangles (insertion);
 *   LINTZOGER_TOO_MANY_NODES  the tree after would have more than N nodes
 *                             (insertion);
 *   LINTZOGER_SHORT_LIST      list_len is less than 3 * matches (window query);
 *   LINTZOGER_NOTHING_HELD    the index has no entry (nearest query).
 * They are tested in the order of their numbers, and the first that applies is
 * returned.
 *
 * What is not named as written or stored stays as it was. So after a refusal all
 * that is lent is as it was, with two exceptions: *matches after
 * LINTZOGER_SHORT_LIST, and the work area, which is all zeros after
 * LINTZOGER_OVER_LIMIT and LINTZOGER_TOO_MANY_NODES.
 *
 * Two indexes that hold the same entries answer each query alike, in whatever
 * order the entries came and whatever N each has. Only the visits may differ, and
 * the order in which a window query writes the entries.
 *
 * No pointer is null, and what a call writes to shares no memory with anything
 * else that is lent to it.
 */
#ifndef LINTZOGER_H
#define LINTZOGER_H

#include <stddef.h>
#include <stdint.h>

#define LINTZOGER_WRONG_LENGTH 1
#define LINTZOGER_WORK_LENGTH 2
#define LINTZOGER_INVALID 3
#define LINTZOGER_NO_SOUND_TREE 4
#define LINTZOGER_HELD 5
#define LINTZOGER_NOT_HELD 6
#define LINTZOGER_OVER_LIMIT 7
#define LINTZOGER_TOO_MANY_NODES 8
#define LINTZOGER_SHORT_LIST 9
#define LINTZOGER_NOTHING_HELD 10

/* The most parts of an index, and the length of an index of n parts. */
#define LINTZOGER_PART_LIMIT 256
#define LINTZOGER_INDEX_LEN(n) (64 + 128 * (n))

#ifdef __cplusplus
extern "C" {
#endif

/* Puts an entry into the index. Stores the entries held after the call to *held,
   and to *removed the number of cells removed by siblings, which tells how hard the
   points crowd. Where no branch of a node has the cell, a rectangle of one branch
   grows to it, and the cells of the grown rectangle that the node's other branches
   have are cut away again. These cells count, each once at a level, summed over all
   levels. The sum is 0 where nothing grew. The growth of the root's own rectangle
   does not count, nor do cells that are cut away because they lie outside of the
   parent's polygon.
   The work area is as long as the index and may hold anything before the call;
   afterwards it is all zeros. Refuses with
     1 to 5: index, work, *held and *removed are as they were;
     7, 8:   index, *held and *removed are as they were, work is all zeros. In
             another order the same entries may be accepted. */
uint32_t lintzoger_insert(uint32_t *index, size_t index_len,
                          uint32_t *work, size_t work_len,
                          uint32_t x, uint32_t y, uint32_t tag,
                          uint32_t *held, uint64_t *removed);

/* Takes the cell's entry out of the index. Stores the entries held after the call
   to *held. After the last removal the index is all zeros. Refuses with 1, 3, 4
   and 6: index and *held are as they were. */
uint32_t lintzoger_remove(uint32_t *index, size_t index_len,
                          uint32_t x, uint32_t y,
                          uint32_t *held);

/* Empties the index, whatever it holds: all its numbers become zero, and *held,
   the entries held after the call, 0. Refuses only a wrong length, with 1: index
   and *held are as they were. */
uint32_t lintzoger_clear(uint32_t *index, size_t index_len, uint32_t *held);

/* Looks the cell up. Stores 1 to *held if the cell has an entry, else 0; to
   *visits the number of nodes whose polygon has the cell; and to *tag the
   entry's tag, only if it is held. Refuses with 1, 3 and 4: nothing is stored. */
uint32_t lintzoger_point(const uint32_t *index, size_t index_len,
                         uint32_t x, uint32_t y,
                         uint32_t *held, uint32_t *visits, uint32_t *tag);

/* Writes x, y, tag of each entry in the window to list, in the tree's order.
   Stores the number of these entries to *matches, and to *visits the number of
   nodes whose polygon shares a cell with the window. The list past 3 * *matches
   stays as it was. The tree's order depends on the order in which the entries
   came. So two indexes with the same entries may list them in different orders,
   with different visits: sort the lists before comparing them. Refuses with 1, 3
   and 4, where nothing is written or stored, and with 9, where *matches alone is
   stored. */
uint32_t lintzoger_window(const uint32_t *index, size_t index_len,
                          uint32_t llx, uint32_t lly, uint32_t urx, uint32_t ury,
                          uint32_t *list, size_t list_len,
                          uint32_t *matches, uint32_t *visits);

/* Finds the entry nearest the cell: the one with the least squared distance,
   (x - *near_x)^2 + (y - *near_y)^2; of several with that distance the one with
   the least x, then the least y. Stores its cell to *near_x and *near_y, its tag
   to *tag, the squared distance to *distance (it may be over 32 bits), and to
   *visits the number of nodes that the search enters: the root, and each child
   that it comes to before it met an entry, or whose polygon is at most as far as
   the nearest entry met so far. Refuses with 1, 3, 4 and 10: nothing is stored. */
uint32_t lintzoger_nearest(const uint32_t *index, size_t index_len,
                           uint32_t x, uint32_t y,
                           uint32_t *near_x, uint32_t *near_y, uint32_t *tag,
                           uint64_t *distance, uint32_t *visits);

/* Finds out whether the window is empty. Stores 1 to *empty if no entry is in the
   window, else 0; and to *visits the number of nodes that the search enters: of
   those whose polygon shares a cell with the window, in the tree's order, up to
   the leaf with the first entry in the window. Refuses with 1, 3 and 4: nothing is
   stored. */
uint32_t lintzoger_is_empty(const uint32_t *index, size_t index_len,
                            uint32_t llx, uint32_t lly, uint32_t urx, uint32_t ury,
                            uint32_t *empty, uint32_t *visits);

#ifdef __cplusplus
}
#endif

#endif
