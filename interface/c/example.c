/* The worked example of the scope text: opens a books file, carries out a calls file, prints each call's answer, and
 * writes the closing books.
 *
 *     example OPENING CALLS CLOSING
 */
#include <inttypes.h>
#include <stdio.h>

#include "solarbasil.h"

/* Room for 256 records in each table; books with larger limits are refused, 3. */
enum { LIMIT = 256, FILE_BYTES = SOLARBASIL_FILE_BYTES(LIMIT, LIMIT, LIMIT, LIMIT) };

static uint64_t settings[SOLARBASIL_SETTINGS];
static uint64_t scalars[SOLARBASIL_SCALARS];
static uint8_t identities[80 * LIMIT];
static uint64_t validators[7 * LIMIT];
static uint64_t deposits[2 * LIMIT];
static uint64_t partials[3 * LIMIT];
static uint64_t consolidations[2 * LIMIT];

/* One byte more than a file has, so that a longer one is answered 60. */
static uint8_t file[FILE_BYTES + 1];
static uint64_t results[3 * SOLARBASIL_CALLS];

/* The bytes of a file, as many as have room; none where it cannot be opened, which is answered 60 too. */
static size_t read_file(const char *name) {
    FILE *stream = fopen(name, "rb");
    if (stream == NULL) {
        return 0;
    }
    size_t length = fread(file, 1, sizeof file, stream);
    fclose(stream);
    return length;
}

static bool write_file(const char *name, size_t length) {
    FILE *stream = fopen(name, "wb");
    if (stream == NULL) {
        return false;
    }
    bool whole = fwrite(file, 1, length, stream) == length;
    return (fclose(stream) == 0) && whole;
}

static uint8_t open_books(const char *name) {
    return solarbasil_read_books(settings, SOLARBASIL_SETTINGS, scalars, SOLARBASIL_SCALARS, identities, 80 * LIMIT,
                                 validators, 7 * LIMIT, deposits, 2 * LIMIT, partials, 3 * LIMIT, consolidations,
                                 2 * LIMIT, file, read_file(name));
}

static uint8_t carry_out(const char *name, uint64_t *count) {
    return solarbasil_carry_out(settings, SOLARBASIL_SETTINGS, scalars, SOLARBASIL_SCALARS, identities, 80 * LIMIT,
                                validators, 7 * LIMIT, deposits, 2 * LIMIT, partials, 3 * LIMIT, consolidations,
                                2 * LIMIT, file, read_file(name), results, 3 * SOLARBASIL_CALLS, count);
}

static uint8_t close_books(uint64_t *written) {
    return solarbasil_write_books(settings, SOLARBASIL_SETTINGS, scalars, SOLARBASIL_SCALARS, identities, 80 * LIMIT,
                                  validators, 7 * LIMIT, deposits, 2 * LIMIT, partials, 3 * LIMIT, consolidations,
                                  2 * LIMIT, file, sizeof file, written);
}

static int refused(uint8_t answer) {
    printf("refused %02d\n", answer);
    return 1;
}

int main(int argc, char **argv) {
    if (argc != 4) {
        fprintf(stderr, "example OPENING CALLS CLOSING\n");
        return 2;
    }
    uint64_t count = 0;
    uint64_t written = 0;
    uint8_t answer = open_books(argv[1]);
    if (answer == 0) {
        answer = carry_out(argv[2], &count);
    }
    if (answer != 0) {
        return refused(answer);
    }
    printf("call code answer total\n");
    for (uint64_t i = 0; i < count; i++) {
        const uint64_t *line = results + 3 * i;
        printf("%04" PRIu64 " %02" PRIu64 " %02" PRIu64 " %020" PRIu64 "\n", i + 1, line[0], line[1], line[2]);
    }
    answer = close_books(&written);
    if (answer != 0) {
        return refused(answer);
    }
    return write_file(argv[3], written) ? 0 : 1;
}
