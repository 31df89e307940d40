/* A bench's session: points are entered, corrected, looked up and listed, and the
   memory is handed back as zeros. */

#include "lintzoger.h"

#include <inttypes.h>
#include <stdbool.h>
#include <stdio.h>

/* An index of three parts: a root above two leaves, so at most 16 entries. */
#define PARTS 3

static uint32_t points[LINTZOGER_INDEX_LEN(PARTS)];
static uint32_t work[LINTZOGER_INDEX_LEN(PARTS)];
static const size_t len = LINTZOGER_INDEX_LEN(PARTS);

/* What a refusal means to the person at the bench. */
static const char *meaning(uint32_t refusal) {
    switch (refusal) {
    case LINTZOGER_WRONG_LENGTH:
        return "the memory has a wrong length";
    case LINTZOGER_WORK_LENGTH:
        return "the work area is not as long as the memory";
    case LINTZOGER_INVALID:
        return "off the grid, or a window without cells";
    case LINTZOGER_NO_SOUND_TREE:
        return "the memory holds no sound index";
    case LINTZOGER_HELD:
        return "the cell has a point already";
    case LINTZOGER_NOT_HELD:
        return "the cell has no point";
    case LINTZOGER_OVER_LIMIT:
        return "a polygon would be over its limit";
    case LINTZOGER_TOO_MANY_NODES:
        return "the memory has no room for another node";
    case LINTZOGER_SHORT_LIST:
        return "the list is too short";
    case LINTZOGER_NOTHING_HELD:
        return "the memory holds no point";
    default:
        return "unknown";
    }
}

/* Prints a refusal; true if it is one. */
static bool refused(uint32_t answer) {
    if (answer != 0) {
        printf("refused %" PRIu32 ": %s\n", answer, meaning(answer));
    }
    return answer != 0;
}

static void insert(uint32_t x, uint32_t y, uint32_t tag) {
    uint32_t held;
    uint64_t removed; /* how hard the points crowd: crowding.c uses it */
    printf("enter (%" PRIu32 ",%" PRIu32 ") %" PRIu32 ": ", x, y, tag);
    if (!refused(lintzoger_insert(points, len, work, len, x, y, tag, &held, &removed))) {
        printf("%" PRIu32 " held\n", held);
    }
}

static void take_out(uint32_t x, uint32_t y) {
    uint32_t held;
    printf("remove (%" PRIu32 ",%" PRIu32 "): ", x, y);
    if (!refused(lintzoger_remove(points, len, x, y, &held))) {
        printf("%" PRIu32 " held\n", held);
    }
}

static void look_up(uint32_t x, uint32_t y) {
    uint32_t held, visits, tag;
    printf("look up (%" PRIu32 ",%" PRIu32 "): ", x, y);
    if (refused(lintzoger_point(points, len, x, y, &held, &visits, &tag))) {
        return;
    }
    if (held == 1) {
        printf("%" PRIu32 ", visits %" PRIu32 "\n", tag, visits);
    } else {
        printf("no point, visits %" PRIu32 "\n", visits);
    }
}

/* Prints the points of a window, with a list of that many numbers, 48 at most. */
static void list_window(uint32_t llx, uint32_t lly, uint32_t urx, uint32_t ury, size_t list_len) {
    uint32_t list[48], matches, visits;
    printf("window (%" PRIu32 ",%" PRIu32 ")-(%" PRIu32 ",%" PRIu32 "): ", llx, lly, urx, ury);
    uint32_t answer = lintzoger_window(points, len, llx, lly, urx, ury,
                                       list, list_len, &matches, &visits);
    if (answer == LINTZOGER_SHORT_LIST) {
        printf("points %" PRIu32 ", ", matches);
    }
    if (refused(answer)) {
        return;
    }
    printf("points %" PRIu32 ", visits %" PRIu32 ":", matches, visits);
    for (uint32_t i = 0; i < matches; i++) {
        const uint32_t *e = &list[3 * i];
        printf(" (%" PRIu32 ",%" PRIu32 ") %" PRIu32, e[0], e[1], e[2]);
    }
    printf("\n");
}

static bool is_zero(const uint32_t *numbers) {
    for (size_t i = 0; i < len; i++) {
        if (numbers[i] != 0) {
            return false;
        }
    }
    return true;
}

int main(void) {
    /* The server lends memory that another bench has used. */
    points[100] = 1;
    look_up(10, 10);
    uint32_t held;
    if (refused(lintzoger_clear(points, len, &held))) {
        return 1;
    }

    /* Enter points; a work area may hold anything before the call. */
    work[7] = 7;
    insert(10, 10, 7);
    insert(20, 12, 9);
    insert(10, 10, 8);
    insert(70000, 10, 8);

    /* Correct a point: take it out, and enter it anew. */
    take_out(10, 10);
    insert(10, 10, 8);
    take_out(11, 10);

    look_up(10, 10);
    look_up(15, 11);
    list_window(10, 10, 20, 13, 48);
    list_window(0, 0, 65536, 65536, 3);
    list_window(20, 10, 20, 13, 48);

    /* The ninth point splits the leaf; then a third leaf would be a fourth node. */
    for (uint32_t x = 30; x < 37; x++) {
        insert(x, 10, x);
    }
    list_window(0, 0, 65536, 65536, 48);
    insert(37, 10, 37);
    insert(38, 10, 38);
    printf("work area all zeros: %s\n", is_zero(work) ? "yes" : "no");

    /* Hand the memory back. */
    if (refused(lintzoger_clear(points, len, &held))) {
        return 1;
    }
    printf("cleared: %" PRIu32 " held, all zeros: %s\n", held, is_zero(points) ? "yes" : "no");

    /* The last removal leaves zeros, too. */
    insert(10, 10, 7);
    take_out(10, 10);
    printf("all zeros: %s\n", is_zero(points) ? "yes" : "no");
    return 0;
}
