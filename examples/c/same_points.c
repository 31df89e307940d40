/* Two groups enter the same points in different orders: what the marker may compare. */

#include "lintzoger.h"

#include <inttypes.h>
#include <stdbool.h>
#include <stdio.h>
#include <stdlib.h>
#include <string.h>

#define COUNT 10
#define SIDE 8 /* all cells are below it */

/* x, y, tag in the first group's order, and the places of these in the second group's. */
static const uint32_t entries[COUNT][3] = {
    {3, 5, 100}, {7, 3, 101}, {0, 6, 102}, {6, 1, 103}, {7, 2, 104},
    {5, 6, 105}, {4, 7, 106}, {4, 4, 107}, {0, 5, 108}, {1, 0, 109},
};
static const size_t second_order[COUNT] = {9, 4, 1, 8, 7, 3, 6, 0, 2, 5};

/* Fresh indexes of 3 and of 64 parts. */
static uint32_t small[LINTZOGER_INDEX_LEN(3)], large[LINTZOGER_INDEX_LEN(64)];
static uint32_t *const indexes[2] = {small, large};
static const size_t lens[2] = {LINTZOGER_INDEX_LEN(3), LINTZOGER_INDEX_LEN(64)};
static uint32_t work[LINTZOGER_INDEX_LEN(64)];

/* By x, then by y. A cell has at most one entry, so this settles the order. */
static int by_cell(const void *a, const void *b) {
    const uint32_t *p = a, *q = b;
    int by_x = (p[0] > q[0]) - (p[0] < q[0]);
    return by_x != 0 ? by_x : (p[1] > q[1]) - (p[1] < q[1]);
}

/* Asks both groups for the window and prints what they list. True if these are the same entries. */
static bool same_window(const uint32_t *w) {
    uint32_t lists[2][3 * COUNT], matches[2], visits[2];
    printf("window (%" PRIu32 ",%" PRIu32 ")-(%" PRIu32 ",%" PRIu32 ")\n", w[0], w[1], w[2], w[3]);
    for (int group = 0; group < 2; group++) {
        if (lintzoger_window(indexes[group], lens[group], w[0], w[1], w[2], w[3], lists[group],
                             3 * COUNT, &matches[group], &visits[group]) != 0) {
            return false;
        }
        printf("  group %d, visits %" PRIu32 ":", group + 1, visits[group]);
        for (uint32_t i = 0; i < matches[group]; i++) {
            const uint32_t *e = &lists[group][3 * i];
            printf(" (%" PRIu32 ",%" PRIu32 ") %" PRIu32, e[0], e[1], e[2]);
        }
        printf("\n");
        /* The order written is the tree's own: sort before comparing. */
        qsort(lists[group], matches[group], 3 * sizeof(uint32_t), by_cell);
    }
    return matches[0] == matches[1] &&
           memcmp(lists[0], lists[1], matches[0] * 3 * sizeof(uint32_t)) == 0;
}

/* Looks the cell up in both. True if both hold it, with one tag, or both do not. */
static bool same_point(uint32_t x, uint32_t y) {
    uint32_t held[2], visits, tag[2] = {0, 0};
    for (int group = 0; group < 2; group++) {
        if (lintzoger_point(indexes[group], lens[group], x, y,
                            &held[group], &visits, &tag[group]) != 0) {
            return false;
        }
    }
    return held[0] == held[1] && tag[0] == tag[1];
}

int main(void) {
    for (int group = 0; group < 2; group++) {
        for (size_t i = 0; i < COUNT; i++) {
            const uint32_t *e = entries[group == 0 ? i : second_order[i]];
            uint32_t held;
            uint64_t removed;
            if (lintzoger_insert(indexes[group], lens[group], work, lens[group],
                                 e[0], e[1], e[2], &held, &removed) != 0) {
                return 1; /* 7 and 8 may come in one order and not in another */
            }
        }
    }
    const uint32_t windows[3][4] = {{0, 0, SIDE, SIDE}, {4, 1, SIDE, 5}, {5, 0, 6, 1}};
    for (int i = 0; i < 3; i++) {
        printf("  %s\n", same_window(windows[i]) ? "the same entries" : "other entries");
    }
    int same = 0;
    for (uint32_t cell = 0; cell < SIDE * SIDE; cell++) {
        same += same_point(cell % SIDE, cell / SIDE);
    }
    printf("%d of %d cells: the same held or not held, the same tag\n", same, SIDE * SIDE);
    return 0;
}
