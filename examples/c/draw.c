/* Each call of the drawing exercise on small data, but for lintzoger_wkb, which wkb.c has. */

#include "drawing.h"

#include <inttypes.h>
#include <stdio.h>

static uint32_t result[LINTZOGER_RESULT_LEN];
static uint32_t written;

/* The count of numbers in an array. */
#define LENGTH(numbers) (sizeof(numbers) / sizeof((numbers)[0]))

/* Prints the rectangles written by a call, or the number of its refusal. */
static void print_list(const char *name, uint32_t answer) {
    if (answer != 0) {
        printf("%s: refused %" PRIu32 "\n", name, answer);
        return;
    }
    printf("%s:", name);
    for (uint32_t i = 0; i < written; i++) {
        const uint32_t *r = &result[4 * i];
        printf(" (%" PRIu32 ",%" PRIu32 ")-(%" PRIu32 ",%" PRIu32 ")", r[0], r[1], r[2], r[3]);
    }
    printf("\n");
}

/* Prints whether the polygon has the cell, and how many rectangles were compared. */
static void print_containment(const char *name, const uint32_t *polygon, size_t polygon_len,
                              uint32_t x, uint32_t y) {
    uint32_t has, compared;
    uint32_t answer = lintzoger_contains(polygon, polygon_len, x, y, &has, &compared);
    printf("%s and the cell (%" PRIu32 ",%" PRIu32 "): ", name, x, y);
    if (answer == 0) {
        printf("%s, %" PRIu32 " compared\n", has ? "has it" : "lacks it", compared);
    } else {
        printf("refused %" PRIu32 "\n", answer);
    }
}

int main(void) {
    const uint32_t square[] = {0, 0, 10, 10};
    const uint32_t small[] = {2, 2, 4, 4};
    const uint32_t three[] = {0, 0, 2, 4, 2, 0, 5, 4, 1, 1, 2, 2};
    const uint32_t cross[] = {4, 0, 6, 10, 0, 4, 10, 6};
    const uint32_t empty[] = {4, 4, 4, 8};

    print_list("common parts with (1,1)-(3,3)",
               lintzoger_common(three, LENGTH(three), 1, 1, 3, 3,
                                result, LENGTH(result), &written));

    print_list("(2,2)-(4,4) grown to the cell (4,3)",
               lintzoger_grow(small, LENGTH(small), 4, 3, result, LENGTH(result), &written));

    uint64_t extra;
    uint32_t answer = lintzoger_extra_area(2, 2, 4, 4, 4, 3, &extra);
    if (answer == 0) {
        printf("its extra area: %" PRIu64 "\n", extra);
    } else {
        printf("its extra area: refused %" PRIu32 "\n", answer);
    }

    print_list("(0,0)-(10,10) cut by (4,4)-(6,12)",
               lintzoger_cut(square, LENGTH(square), 4, 4, 6, 12,
                             result, LENGTH(result), &written));

    uint64_t removed;
    answer = lintzoger_cut_polygon(square, LENGTH(square), cross, LENGTH(cross),
                                   result, LENGTH(result), &written, &removed);
    print_list("(0,0)-(10,10) cut by a cross", answer);
    if (answer == 0) {
        printf("the cross removed %" PRIu64 " cells\n", removed);
    }

    print_list("three rectangles refined",
               lintzoger_refine(three, LENGTH(three), result, LENGTH(result), &written));

    print_list("a rectangle without cells refined",
               lintzoger_refine(empty, LENGTH(empty), result, LENGTH(result), &written));

    print_containment("the cross", cross, LENGTH(cross), 5, 5);
    print_containment("the cross", cross, LENGTH(cross), 9, 5);
    print_containment("the cross", cross, LENGTH(cross), 9, 9);
    print_containment("the cross", cross, LENGTH(cross), 65536, 5);

    return 0;
}
