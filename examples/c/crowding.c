/* The theory lesson: groups are compared by how hard their points crowd. When a rectangle grows to
   take a point in, its siblings remove the cells that they have already; each insertion reports how
   many cells these were. */

#include "lintzoger.h"

#include <inttypes.h>
#include <stdbool.h>
#include <stdio.h>

#define PARTS 16
#define COUNT 20

/* Wheel speed and line pressure. The first group raised both together; the second group began with
   the highest and came down. */
static const uint32_t points[COUNT][2] = {
    {10, 20}, {30, 20}, {20, 25}, {40, 25}, {50, 20},
    {60, 25}, {12, 35}, {32, 35}, {52, 35}, {70, 20},
    {72, 35}, {22, 40}, {42, 40}, {62, 40}, {15, 50},
    {35, 50}, {55, 50}, {25, 55}, {45, 55}, {65, 55},
};

static uint32_t work[LINTZOGER_INDEX_LEN(PARTS)];
static const size_t len = LINTZOGER_INDEX_LEN(PARTS);

/* Enters the points into a fresh index and prints the cells removed in all, and the point for which
   most were. True if every point was accepted. */
static bool enter(const char *group, bool from_the_last) {
    uint32_t index[LINTZOGER_INDEX_LEN(PARTS)] = {0}, held = 0;
    uint64_t total = 0, most = 0; /* 64 bits: many points may remove more than 2^32 cells */
    const uint32_t *hardest = points[0];
    for (uint32_t i = 0; i < COUNT; i++) {
        const uint32_t *point = points[from_the_last ? COUNT - 1 - i : i];
        uint64_t removed;
        uint32_t answer = lintzoger_insert(index, len, work, len, point[0], point[1], i,
                                           &held, &removed);
        if (answer != 0) { /* nothing was stored to removed */
            printf("%s: (%" PRIu32 ",%" PRIu32 ") refused with %" PRIu32 "\n",
                   group, point[0], point[1], answer);
            return false;
        }
        total += removed;
        if (removed > most) {
            most = removed;
            hardest = point;
        }
    }
    printf("%s: points %" PRIu32 ", cells removed %" PRIu64 ", most for (%" PRIu32 ",%" PRIu32
           "): %" PRIu64 "\n", group, held, total, hardest[0], hardest[1], most);
    return true;
}

int main(void) {
    bool are_accepted = enter("first group", false) && enter("second group", true);
    return are_accepted ? 0 : 1;
}
