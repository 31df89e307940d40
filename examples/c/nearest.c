/* A wheel seldom stops on a calibrated cell: the point nearest to where it stopped. */

#include "lintzoger.h"

#include <inttypes.h>
#include <stdio.h>

#define PARTS 3

static uint32_t points[LINTZOGER_INDEX_LEN(PARTS)]; /* zeros: a fresh, empty index */
static uint32_t work[LINTZOGER_INDEX_LEN(PARTS)];
static const size_t len = LINTZOGER_INDEX_LEN(PARTS);

/* Prints the calibrated point nearest the cell where the wheel stopped. */
static void stopped_at(uint32_t x, uint32_t y) {
    uint32_t near_x, near_y, tag, visits;
    uint64_t distance; /* squared, and up to 8589672450: 32 bits would not do */
    uint32_t answer = lintzoger_nearest(points, len, x, y,
                                        &near_x, &near_y, &tag, &distance, &visits);
    printf("stopped at (%" PRIu32 ",%" PRIu32 "): ", x, y);
    if (answer == LINTZOGER_NOTHING_HELD) {
        printf("nothing is calibrated yet\n");
    } else if (answer != 0) {
        printf("refused %" PRIu32 "\n", answer);
    } else {
        printf("point (%" PRIu32 ",%" PRIu32 ") %" PRIu32 ", ", near_x, near_y, tag);
        printf("squared distance %" PRIu64 ", nodes entered %" PRIu32 "\n", distance, visits);
    }
}

int main(void) {
    stopped_at(3, 9);

    /* Nine points in a row. The ninth splits the leaf: points up to (4,5) on the left, the others
       on the right. */
    for (uint32_t x = 0; x < 9; x++) {
        uint32_t held;
        uint64_t removed;
        if (lintzoger_insert(points, len, work, len, x, 5, 100 + x, &held, &removed) != 0) {
            return 1;
        }
    }

    stopped_at(3, 9);         /* the right leaf is too far away, and is passed over */
    stopped_at(6, 5);         /* on a calibrated cell */
    stopped_at(100, 5);       /* the left leaf comes first, so both are entered */
    stopped_at(65535, 65535); /* the far corner of the grid */
    stopped_at(65536, 0);     /* off the grid */

    /* Between two points that are equally near, the smaller x counts, then the smaller y. */
    uint32_t held;
    if (lintzoger_remove(points, len, 3, 5, &held) != 0) {
        return 1;
    }
    stopped_at(3, 5);
    return 0;
}
