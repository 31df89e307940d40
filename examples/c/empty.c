/* The bench's map of a calibration: a grey square where nothing is calibrated. */

#include "lintzoger.h"

#include <inttypes.h>
#include <stdio.h>

#define PARTS 3
#define SQUARES 10 /* squares of wheel speed in a row of the map */
#define ROWS 3     /* rows of line pressure */
#define WIDTH 100  /* counts of wheel speed in a square */
#define HEIGHT 40  /* counts of line pressure in a square */

static uint32_t points[LINTZOGER_INDEX_LEN(PARTS)]; /* zeros: a fresh, empty index */
static uint32_t work[LINTZOGER_INDEX_LEN(PARTS)];
static const size_t len = LINTZOGER_INDEX_LEN(PARTS);

/* Prints one square: '.' for grey, '#' where a point is calibrated. Adds the nodes that the search
   entered; answers 0, or the number of the refusal. */
static uint32_t paint(uint32_t x, uint32_t y, uint32_t *entered) {
    uint32_t empty, visits;
    uint32_t answer =
        lintzoger_is_empty(points, len, x, y, x + WIDTH, y + HEIGHT, &empty, &visits);
    if (answer != 0) {
        return answer;
    }
    putchar(empty == 1 ? '.' : '#');
    *entered += visits;
    return 0;
}

/* Prints the map, the highest pressure first, and the nodes entered for all its squares. */
static uint32_t paint_map(const char *title) {
    uint32_t entered = 0;
    printf("%s\n", title);
    for (uint32_t row = ROWS; row > 0; row--) {
        printf("pressure from %3" PRIu32 "  ", (row - 1) * HEIGHT);
        for (uint32_t square = 0; square < SQUARES; square++) {
            uint32_t answer = paint(square * WIDTH, (row - 1) * HEIGHT, &entered);
            if (answer != 0) {
                return answer;
            }
        }
        printf("\n");
    }
    printf("nodes entered: %" PRIu32 "\n", entered);
    return 0;
}

int main(void) {
    uint32_t held, entered = 0;
    uint64_t removed;

    if (paint_map("fresh index") != 0) {
        return 1;
    }

    /* Nine points at one pressure. The ninth splits the leaf. */
    for (uint32_t speed = 50; speed <= 850; speed += 100) {
        if (lintzoger_insert(points, len, work, len, speed, 60, 1000 + speed,
                             &held, &removed) != 0) {
            return 1;
        }
    }
    if (paint_map("nine points") != 0) {
        return 1;
    }

    /* The leaf keeps its cells: its square is searched, and is grey. */
    if (lintzoger_remove(points, len, 450, 60, &held) != 0) {
        return 1;
    }
    if (paint_map("one removed") != 0) {
        return 1;
    }

    printf("beside the grid: refused %" PRIu32 "\n", paint(65500, 0, &entered));
    return 0;
}
