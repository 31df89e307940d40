/* The queries and clearing on a small index that is written out here. */

#include "lintzoger.h"

#include <inttypes.h>
#include <stdio.h>

/* The first number of a part, and the parts of this index. */
#define PART(k) (64 + 128 * (k))
#define PARTS 4

/* Two leaves and a root above them. Part 2 is not in use. */
static uint32_t index_numbers[LINTZOGER_INDEX_LEN(PARTS)] = {
    [0] = 1 << 0 | 1 << 1 | 1 << 3, /* the parts in use */
    [8] = 2,                        /* the height */
    [9] = 3,                        /* the part of the root */

    /* A leaf: one rectangle, two entries. */
    [PART(0)] = 1, 2,
    [PART(0) + 2] = 10, 10, 21, 13,
    [PART(0) + 66] = 10, 10, 7, 20, 12, 9,

    /* A leaf whose polygon has two rectangles, with three entries. */
    [PART(1)] = 2, 3,
    [PART(1) + 2] = 21, 10, 40, 20, 30, 20, 40, 30,
    [PART(1) + 66] = 21, 10, 100, 39, 19, 200, 30, 29, 300,

    /* The root: one rectangle, two branches. */
    [PART(3)] = 1, 2,
    [PART(3) + 2] = 10, 10, 40, 30,
    [PART(3) + 66] = 0, 1,
};

static const size_t index_len = LINTZOGER_INDEX_LEN(PARTS);

/* Prints what a point query answers. */
static void print_point(uint32_t x, uint32_t y) {
    uint32_t held, visits, tag;
    uint32_t answer = lintzoger_point(index_numbers, index_len, x, y, &held, &visits, &tag);
    printf("cell (%" PRIu32 ",%" PRIu32 "): ", x, y);
    if (answer != 0) {
        printf("refused %" PRIu32 "\n", answer);
    } else if (held == 1) {
        printf("held, tag %" PRIu32 ", visits %" PRIu32 "\n", tag, visits);
    } else {
        printf("not held, visits %" PRIu32 "\n", visits);
    }
}

/* Prints what a window query answers, with a list of that many numbers, 15 at most. */
static void print_window(uint32_t llx, uint32_t lly, uint32_t urx, uint32_t ury, size_t list_len) {
    uint32_t list[15], matches, visits;
    uint32_t answer = lintzoger_window(index_numbers, index_len, llx, lly, urx, ury,
                                       list, list_len, &matches, &visits);
    printf("window (%" PRIu32 ",%" PRIu32 ")-(%" PRIu32 ",%" PRIu32 "): ", llx, lly, urx, ury);
    if (answer == LINTZOGER_SHORT_LIST) {
        printf("%" PRIu32 " matches, the list is too short\n", matches);
        return;
    }
    if (answer != 0) {
        printf("refused %" PRIu32 "\n", answer);
        return;
    }
    printf("matches %" PRIu32 ", visits %" PRIu32 ":", matches, visits);
    for (uint32_t i = 0; i < matches; i++) {
        const uint32_t *e = &list[3 * i];
        printf(" (%" PRIu32 ",%" PRIu32 ") %" PRIu32, e[0], e[1], e[2]);
    }
    printf("\n");
}

/* Prints what a nearest query answers. */
static void print_nearest(uint32_t x, uint32_t y) {
    uint32_t near_x, near_y, tag, visits;
    uint64_t distance;
    uint32_t answer = lintzoger_nearest(index_numbers, index_len, x, y,
                                        &near_x, &near_y, &tag, &distance, &visits);
    printf("nearest (%" PRIu32 ",%" PRIu32 "): ", x, y);
    if (answer != 0) {
        printf("refused %" PRIu32 "\n", answer);
    } else {
        printf("(%" PRIu32 ",%" PRIu32 ") %" PRIu32 ", ", near_x, near_y, tag);
        printf("squared distance %" PRIu64 ", visits %" PRIu32 "\n", distance, visits);
    }
}

/* Prints what an emptiness query answers. */
static void print_is_empty(uint32_t llx, uint32_t lly, uint32_t urx, uint32_t ury) {
    uint32_t empty, visits;
    uint32_t answer = lintzoger_is_empty(index_numbers, index_len, llx, lly, urx, ury,
                                         &empty, &visits);
    printf("empty (%" PRIu32 ",%" PRIu32 ")-(%" PRIu32 ",%" PRIu32 "): ", llx, lly, urx, ury);
    if (answer != 0) {
        printf("refused %" PRIu32 "\n", answer);
    } else {
        printf("%s, visits %" PRIu32 "\n", empty == 1 ? "yes" : "no", visits);
    }
}

int main(void) {
    print_point(20, 12);
    print_point(15, 11);
    print_point(12, 25);
    print_point(5, 5);
    print_point(65536, 0);

    print_window(10, 10, 20, 13, 15);
    print_window(20, 10, 22, 13, 15);
    print_window(0, 0, 65536, 65536, 15);
    print_window(0, 0, 65536, 65536, 14);
    print_window(10, 10, 10, 13, 15);

    /* Two entries are equally near (15,11): the smaller x wins, and the other leaf is passed over. */
    print_nearest(15, 11);
    print_nearest(22, 25);
    print_nearest(20, 12);
    print_nearest(65536, 0);

    /* The first leaf has an entry in the window (20,10)-(22,13), so the second is not entered. Both
       are entered for (11,10)-(30,12), as the first has none there. */
    print_is_empty(20, 10, 22, 13);
    print_is_empty(11, 10, 30, 12);
    print_is_empty(11, 10, 20, 13);
    print_is_empty(10, 20, 30, 30);
    print_is_empty(40, 0, 65536, 65536);
    print_is_empty(10, 10, 10, 13);

    /* A number that nothing uses must be zero. */
    index_numbers[63] = 1;
    print_point(20, 12);
    print_nearest(20, 12);
    print_is_empty(20, 10, 22, 13);

    uint32_t held;
    uint32_t answer = lintzoger_clear(index_numbers, index_len, &held);
    if (answer == 0) {
        printf("cleared: %" PRIu32 " entries held\n", held);
    } else {
        printf("not cleared: refused %" PRIu32 "\n", answer);
    }
    print_point(20, 12);
    print_nearest(20, 12);
    print_is_empty(0, 0, 65536, 65536);
    return 0;
}
