/* Reads a cabin's battery voltage, moves the warning voltage, and prints the kept list: obarsivel from C.
 *
 *     scripts/archive
 *     cc -Iinclude example/cabin.c target/staticlib/libffi.a -o cabin
 *     ./cabin example/cabin.a2l example/cabin.bin
 */
#include <stdio.h>
#include <stdlib.h>
#include <string.h>

#include "obarsivel.h"

static uint8_t text[1 << 15], image[1 << 14], out[1 << 16];
static uint64_t tables[OBARSIVEL_TABLE_CELLS], work[OBARSIVEL_WORK_CELLS];
static int64_t raw[OBARSIVEL_MOST_ELEMENTS], first[OBARSIVEL_MOST_ELEMENTS], second[OBARSIVEL_MOST_ELEMENTS];
static uint8_t state[OBARSIVEL_MOST_ELEMENTS];
static size_t text_len, image_len;

static const uint32_t BASE = 0x1000;

/* The description, the image and the tables, as most calls begin; the list's four columns. */
#define LOADED text, text_len, image, image_len, BASE, tables, OBARSIVEL_TABLE_CELLS
#define COLUMNS raw, lines, state, lines, first, lines, second, lines

static size_t read_file(const char *path, uint8_t *buffer, size_t most) {
    FILE *f = fopen(path, "rb");
    if (!f) {
        perror(path);
        exit(2);
    }
    size_t n = fread(buffer, 1, most, f);
    fclose(f);
    return n;
}

static int64_t object(const char *name) {
    int64_t number = obarsivel_find(LOADED, (const uint8_t *)name, strlen(name));
    if (number < 0) {
        fprintf(stderr, "no object has the name %s\n", name);
        exit(2);
    }
    return number;
}

int main(int argc, char **argv) {
    if (argc != 3) {
        fprintf(stderr, "usage: cabin DESC IMAGE\n");
        return 2;
    }
    if (obarsivel_version() != OBARSIVEL_VERSION) {
        fprintf(stderr, "obarsivel.h and libffi.a are of two versions\n");
        return 2;
    }
    text_len = read_file(argv[1], text, sizeof text);
    image_len = read_file(argv[2], image, sizeof image);

    uint64_t loaded = obarsivel_load(text, text_len, image, image_len, BASE, OBARSIVEL_EDITION_1, tables, OBARSIVEL_TABLE_CELLS, work, OBARSIVEL_WORK_CELLS);
    if (loaded != 0) {
        printf("refused %u at %u\n", OBARSIVEL_LOAD_NUMBER(loaded), OBARSIVEL_LOAD_PLACE(loaded));
        return 1;
    }

    int64_t reading[5];
    double shown[1];
    if (obarsivel_read(LOADED, object("U_BATT"), OBARSIVEL_PART_V, 0, reading, 5, shown, 1) == 0 && reading[4] == 1)
        printf("battery: %lld/%lld = %g V\n", (long long)reading[2], (long long)reading[3], shown[0]);

    size_t lines = OBARSIVEL_MOST_ELEMENTS;
    uint32_t answer = obarsivel_make_list(LOADED, COLUMNS);
    if (answer == 0)
        answer = obarsivel_write_physical(LOADED, COLUMNS, object("U_LOW"), OBARSIVEL_PART_V, 0, (const uint8_t *)"12.25", 5);
    printf("warn below 12.25 V: %s\n", answer == 0 ? "ok" : "refused");
    answer = obarsivel_write_physical(LOADED, COLUMNS, object("U_LOW"), OBARSIVEL_PART_V, 0, (const uint8_t *)"9", 1);
    if (answer != OBARSIVEL_REFUSED_LIMITS)
        return 1;
    printf("warn below 9 V: refused %u\n", answer);

    int64_t n = obarsivel_listing(LOADED, COLUMNS, out, sizeof out);
    if (n < 0)
        return 1;
    fwrite(out, 1, n, stdout);
    return 0;
}
