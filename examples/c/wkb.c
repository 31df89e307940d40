/* A polygon for a map tool: wkb NAME LLX LLY URX URY ... writes the polygon of these rectangles to
   NAME.wkb, as Well-Known Binary, and to NAME.csv, as a table with the same bytes in hex. */

#include "drawing.h"

#include <inttypes.h>
#include <stdbool.h>
#include <stdio.h>
#include <stdlib.h>

/* The bytes of a polygon, and how many they are. */
static uint8_t out[LINTZOGER_WKB_LEN(LINTZOGER_POLYGON_LIMIT)];
static uint32_t length;

static const char *meaning(uint32_t refusal) {
    switch (refusal) {
    case LINTZOGER_INVALID:
        return "an invalid rectangle, or not 1 to 16 of them";
    case LINTZOGER_SHORT_OUTPUT:
        return "the output is too short";
    default:
        return "unknown";
    }
}

/* Reads a text of decimal digits; false if it is none, or over 4294967295. */
static bool read_number(const char *text, uint32_t *number) {
    uint64_t value = 0;
    const char *digit = text;
    for (; *digit >= '0' && *digit <= '9' && value <= UINT32_MAX; digit++) {
        value = 10 * value + (uint64_t)(*digit - '0');
    }
    *number = (uint32_t)value;
    return digit != text && *digit == '\0' && value <= UINT32_MAX;
}

static bool write_bytes(FILE *file) {
    return fwrite(out, 1, length, file) == length;
}

static bool write_hex(FILE *file) {
    for (uint32_t i = 0; i < length; i++) {
        if (fprintf(file, "%02X", out[i]) < 0) {
            return false;
        }
    }
    return fputc('\n', file) != EOF;
}

static bool write_table(FILE *file) {
    return fputs("id,geometry\n1,", file) != EOF && write_hex(file);
}

/* Writes the file NAME.ENDING by the function; says why where that fails. */
static bool write_file(const char *name, const char *ending, bool (*write)(FILE *)) {
    char path[FILENAME_MAX];
    int count = snprintf(path, sizeof(path), "%s.%s", name, ending);
    if (count < 0 || (size_t)count >= sizeof(path)) {
        fprintf(stderr, "the name is too long\n");
        return false;
    }
    FILE *file = fopen(path, "wb");
    bool written = file != NULL && write(file);
    /* What is buffered is written when the file is closed, so that can fail, too. */
    written = file != NULL && fclose(file) == 0 && written;
    if (!written) {
        perror(path);
    }
    return written;
}

/* Draws the polygon to both files; the program's exit status. */
static int draw(const char *name, const uint32_t *polygon, size_t polygon_len) {
    uint32_t answer = lintzoger_wkb(polygon, polygon_len, out, sizeof(out), &length);
    if (answer != 0) {
        fprintf(stderr, "refused %" PRIu32 ": %s\n", answer, meaning(answer));
        return 1;
    }
    if (!write_file(name, "wkb", write_bytes) || !write_file(name, "csv", write_table)) {
        return 1;
    }
    printf("%s.wkb: %" PRIu32 " bytes\n", name, length);
    return write_hex(stdout) && fflush(stdout) == 0 ? 0 : 1;
}

static int usage(void) {
    fprintf(stderr, "usage: wkb NAME LLX LLY URX URY ...\n");
    return 2;
}

int main(int argc, char **argv) {
    if (argc < 2) {
        return usage();
    }
    /* How many numbers make a polygon is for the library to say. */
    size_t count = (size_t)argc - 2;
    uint32_t *polygon = malloc((count + 1) * sizeof(*polygon));
    if (polygon == NULL) {
        perror("wkb");
        return 1;
    }
    size_t read = 0;
    while (read < count && read_number(argv[read + 2], &polygon[read])) {
        read++;
    }
    int status = read == count ? draw(argv[1], polygon, count) : usage();
    free(polygon);
    return status;
}
