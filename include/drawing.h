/*
 * The drawing exercise: the rectangle rules called without the index.
 *
 * A cell is a pair (x, y), each from 0 to 65535. A rectangle has a lower left
 * corner (llx, lly) and an upper right corner (urx, ury); it contains a cell
 * exactly if llx <= x < urx and lly <= y < ury. So ll < ur in both dimensions,
 * and ur is at most 65536.
 *
 * A list is four numbers a rectangle: llx, lly, urx, ury. The lengths count
 * numbers, not rectangles. A list has 1 to 256 rectangles, so list_len is a
 * multiple of 4 from 4 to 1024; a polygon has 1 to 16, so polygon_len is a
 * multiple of 4 from 4 to 64; result_len is exactly 1024. (out_len and *length
 * count bytes.)
 *
 * Each call returns 0 where it accepts, or the number of its refusal:
 *   LINTZOGER_INVALID       an invalid rectangle, cell, count or list length;
 *   LINTZOGER_OVER_LIMIT    the list has over 256 rectangles after a cut by one
 *                           rectangle, also where a later cut would leave fewer;
 *   LINTZOGER_SHORT_OUTPUT  out_len is less than the number of bytes to write.
 * The first is tested before anything is cut, and before out_len.
 *
 * Where a call accepts, the first 4 * *written numbers of result are the
 * rectangles of the answer; the other numbers of result stay as they were. Of
 * out the first *length bytes are written, and the other bytes stay as they
 * were. After a refusal result, out, *written, *removed, *extra, *has, *compared
 * and *length are as they were.
 *
 * No pointer is null, and result, out, written, removed, extra, has, compared and
 * length share no memory with each other or with the lists read.
 */
#ifndef LINTZOGER_DRAWING_H
#define LINTZOGER_DRAWING_H

#include <stddef.h>
#include <stdint.h>

#define LINTZOGER_INVALID 3
#define LINTZOGER_OVER_LIMIT 7
#define LINTZOGER_SHORT_OUTPUT 11

/* The most rectangles of a list and of a polygon, and the length of result. */
#define LINTZOGER_LIST_LIMIT 256
#define LINTZOGER_POLYGON_LIMIT 16
#define LINTZOGER_RESULT_LEN (4 * LINTZOGER_LIST_LIMIT)

/* The bytes of a polygon of so many rectangles as Well-Known Binary. */
#define LINTZOGER_WKB_LEN(rectangles) (9 + 93 * (rectangles))

#ifdef __cplusplus
extern "C" {
#endif

/* The common part of each rectangle of the list with the one rectangle, in
   order; empty ones are left out. */
uint32_t lintzoger_common(const uint32_t *list, size_t list_len,
                          uint32_t llx, uint32_t lly, uint32_t urx, uint32_t ury,
                          uint32_t *result, size_t result_len, uint32_t *written);

/* Each rectangle of the list grown to the cell: the smallest one with both. */
uint32_t lintzoger_grow(const uint32_t *list, size_t list_len,
                        uint32_t x, uint32_t y,
                        uint32_t *result, size_t result_len, uint32_t *written);

/* The extra area of the rectangle grown to the cell: new area minus old. (In the
   index a rectangle is one of a polygon, and its extra area is the number of cells
   of the grown rectangle that the whole polygon lacks.) */
uint32_t lintzoger_extra_area(uint32_t llx, uint32_t lly, uint32_t urx, uint32_t ury,
                              uint32_t x, uint32_t y, uint64_t *extra);

/* The list cut by the rectangle: what is left of each rectangle, in order. */
uint32_t lintzoger_cut(const uint32_t *list, size_t list_len,
                       uint32_t llx, uint32_t lly, uint32_t urx, uint32_t ury,
                       uint32_t *result, size_t result_len, uint32_t *written);

/* The list cut by the polygon's rectangles, one after another. Stores the number of
   cells that this removes to *removed: those that a rectangle of the list and a
   rectangle of the polygon have. A cell counts once, also where rectangles of the
   list, or of the polygon, overlap each other. It is at most 2^32, which is the
   whole grid. */
uint32_t lintzoger_cut_polygon(const uint32_t *list, size_t list_len,
                               const uint32_t *polygon, size_t polygon_len,
                               uint32_t *result, size_t result_len, uint32_t *written,
                               uint64_t *removed);

/* The list refined: the same cells, with contained rectangles dropped and
   fitting pairs joined until neither applies. */
uint32_t lintzoger_refine(const uint32_t *list, size_t list_len,
                          uint32_t *result, size_t result_len, uint32_t *written);

/* Whether a rectangle of the polygon has the cell (*has is 1 or 0), and how many
   rectangles were compared: up to and with the first that has the cell, or all if
   none has it. */
uint32_t lintzoger_contains(const uint32_t *polygon, size_t polygon_len,
                            uint32_t x, uint32_t y,
                            uint32_t *has, uint32_t *compared);

/* The polygon as Well-Known Binary (WKB), little-endian, for map tools: a
   GeometryCollection with a Polygon for each rectangle, in their order. A ring
   starts at ll, runs counterclockwise and closes: ll, (urx, lly), ur, (llx, ury),
   ll, as doubles. Stores the number of bytes to *length, which is
   LINTZOGER_WKB_LEN(rectangles), 1497 at most; out_len may be more. */
uint32_t lintzoger_wkb(const uint32_t *polygon, size_t polygon_len,
                       uint8_t *out, size_t out_len, uint32_t *length);

#ifdef __cplusplus
}
#endif

#endif
