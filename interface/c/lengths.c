/* Buffers that are long enough, and some that are one item too short or too long: what is answered, and that a refusal
 * leaves all as it was. */
#include <stdio.h>
#include <string.h>

#include "solarbasil.h"

enum { LIMIT = 4 };

static const uint64_t G = 1000000000;

static const uint64_t settings[SOLARBASIL_SETTINGS + 1] = {
    32000000000, 2048000000000, 1000000000, 128000000000, 256000000000, 65536, 256, 256, 4, 4, 1, 5, 8, 16, 16384,
    LIMIT, LIMIT, LIMIT, LIMIT, 7};

/* The books, and a copy of them as they were opened. */
struct books {
    uint64_t scalars[SOLARBASIL_SCALARS + 1];
    uint8_t identities[80 * LIMIT];
    uint64_t validators[7 * LIMIT];
    uint64_t deposits[2 * LIMIT];
    uint64_t partials[3 * LIMIT];
    uint64_t consolidations[2 * LIMIT];
};

static struct books b, opened;

static int failures;

static void open_books(void) {
    memset(&b, 0, sizeof b);
    b.scalars[0] = 1000;
    b.scalars[9] = 1;
    b.scalars[SOLARBASIL_SCALARS] = 99;
    b.identities[48 * LIMIT] = 1;
    b.validators[1 * LIMIT] = 32 * G;
    b.validators[4 * LIMIT] = SOLARBASIL_FAR;
    b.validators[5 * LIMIT] = SOLARBASIL_FAR;
    b.validators[6 * LIMIT] = 40 * G;
    opened = b;
}

/* Puts other numbers and bytes in the place of all that a books file holds. */
static void spoil_books(void) {
    memset(b.scalars, 7, SOLARBASIL_SCALARS * sizeof b.scalars[0]);
    memset(b.identities, 7, 48);
    memset(b.identities + 48 * LIMIT, 7, 32);
    for (size_t column = 0; column < 7; column++) {
        b.validators[column * LIMIT] = 7;
    }
}

static void expect(const char *what, uint8_t answer, uint8_t wanted) {
    bool same = memcmp(&b, &opened, sizeof b) == 0;
    if (answer != wanted || (wanted != 0 && !same)) {
        printf("%s: answered %d, wanted %d%s\n", what, answer, wanted, same ? "" : ", books changed");
        failures++;
    }
    open_books();
}

static uint8_t reward(size_t settings_len, size_t scalars_len, size_t deposits_len) {
    return solarbasil_reward(settings, settings_len, b.scalars, scalars_len, b.identities, sizeof b.identities,
                             b.validators, 7 * LIMIT, b.deposits, deposits_len, b.partials, 3 * LIMIT,
                             b.consolidations, 2 * LIMIT, 0, 5);
}

static uint8_t receipt(size_t settings_len, size_t key_len, size_t credentials_len) {
    static const uint8_t bytes[64] = {1};
    return solarbasil_process_deposit_receipt(settings, settings_len, b.scalars, SOLARBASIL_SCALARS, b.identities,
                                              sizeof b.identities, b.validators, 7 * LIMIT, b.deposits, 2 * LIMIT,
                                              b.partials, 3 * LIMIT, b.consolidations, 2 * LIMIT, bytes, key_len,
                                              bytes, credentials_len, G, 0, true);
}

static uint8_t request(size_t address_len, size_t key_len) {
    static const uint8_t bytes[64] = {0};
    return solarbasil_process_execution_layer_withdrawal_request(
        settings, SOLARBASIL_SETTINGS, b.scalars, SOLARBASIL_SCALARS, b.identities, sizeof b.identities, b.validators,
        7 * LIMIT, b.deposits, 2 * LIMIT, b.partials, 3 * LIMIT, b.consolidations, 2 * LIMIT, bytes, address_len,
        bytes, key_len, G);
}

static uint8_t payments(size_t records_len, size_t addresses_len, uint64_t count) {
    static const uint64_t records[3 * 17];
    static const uint8_t addresses[20 * 17];
    return solarbasil_process_withdrawals(settings, SOLARBASIL_SETTINGS, b.scalars, SOLARBASIL_SCALARS, b.identities,
                                          sizeof b.identities, b.validators, 7 * LIMIT, b.deposits, 2 * LIMIT,
                                          b.partials, 3 * LIMIT, b.consolidations, 2 * LIMIT, records, records_len,
                                          addresses, addresses_len, count);
}

/* The results of the expected list past which nothing is stored. */
static uint64_t records[SOLARBASIL_RECORDS + 1];
static uint8_t addresses[SOLARBASIL_ADDRESSES + 1];
static uint64_t count, partial_count;

static uint8_t expected(size_t records_len, size_t addresses_len) {
    memset(records, 0xee, sizeof records);
    memset(addresses, 0xee, sizeof addresses);
    count = partial_count = 77;
    return solarbasil_get_expected_withdrawals(settings, SOLARBASIL_SETTINGS, b.scalars, SOLARBASIL_SCALARS,
                                               b.identities, sizeof b.identities, b.validators, 7 * LIMIT, b.deposits,
                                               2 * LIMIT, b.partials, 3 * LIMIT, b.consolidations, 2 * LIMIT, records,
                                               records_len, addresses, addresses_len, &count, &partial_count);
}

/* The file of the opened books, with one byte past it, and what is lent to read, write and carry out. */
enum { FILE_BYTES = SOLARBASIL_FILE_BYTES(1, 0, 0, 0) };

static uint8_t file[FILE_BYTES + 1];
static uint64_t chain[SOLARBASIL_SETTINGS + 1];
static uint64_t written;

static uint8_t write_books(size_t settings_len, size_t scalars_len, size_t file_len) {
    memset(file, 0xee, sizeof file);
    written = 77;
    return solarbasil_write_books(settings, settings_len, b.scalars, scalars_len, b.identities, sizeof b.identities,
                                  b.validators, 7 * LIMIT, b.deposits, 2 * LIMIT, b.partials, 3 * LIMIT,
                                  b.consolidations, 2 * LIMIT, file, file_len, &written);
}

static uint8_t read_books(size_t settings_len, size_t scalars_len, size_t partials_len, size_t file_len) {
    memset(chain, 0xee, sizeof chain);
    return solarbasil_read_books(chain, settings_len, b.scalars, scalars_len, b.identities, sizeof b.identities,
                                 b.validators, 7 * LIMIT, b.deposits, 2 * LIMIT, b.partials, partials_len,
                                 b.consolidations, 2 * LIMIT, file, file_len);
}

/* A calls file of one turn. */
static const uint32_t calls[] = {0x10000002, 0x20000001, 0x90000007, 0x8000000a};

static uint64_t results[4];

static uint8_t carry_out(size_t scalars_len, size_t file_len, size_t results_len) {
    memset(results, 0xee, sizeof results);
    count = 77;
    return solarbasil_carry_out(settings, SOLARBASIL_SETTINGS, b.scalars, scalars_len, b.identities,
                                sizeof b.identities, b.validators, 7 * LIMIT, b.deposits, 2 * LIMIT, b.partials,
                                3 * LIMIT, b.consolidations, 2 * LIMIT, (const uint8_t *)calls, file_len, results,
                                results_len, &count);
}

static void expect_that(const char *what, bool holds) {
    if (!holds) {
        printf("%s\n", what);
        failures++;
    }
}

static void files(void) {
    expect("a writer's scalars one short", write_books(19, 12, FILE_BYTES), 3);
    expect("a writer's settings one short", write_books(18, 13, FILE_BYTES), 1);
    expect("room for all but one byte", write_books(19, 13, FILE_BYTES - 1), 61);
    expect_that("a refused writer stored something", written == 77 && file[0] == 0xee);
    expect("write", write_books(19, 13, FILE_BYTES + 1), 0);
    expect_that("written", written == FILE_BYTES && file[0] == 1 && file[FILE_BYTES] == 0xee);
    expect("a reader's settings one short", read_books(18, 13, 3 * LIMIT, FILE_BYTES), 3);
    expect("a reader's scalars one short", read_books(19, 12, 3 * LIMIT, FILE_BYTES), 3);
    expect("a reader's short table", read_books(19, 13, 3 * LIMIT - 1, FILE_BYTES), 3);
    expect("a byte past the file", read_books(19, 12, 3 * LIMIT, FILE_BYTES + 1), 60);
    expect("no file", read_books(19, 13, 3 * LIMIT, 0), 60);
    expect_that("a refused reader stored settings", chain[0] == chain[SOLARBASIL_SETTINGS]);
    spoil_books();
    uint8_t answer = read_books(20, 14, 3 * LIMIT, FILE_BYTES);
    expect_that("the books that were read", memcmp(&b, &opened, sizeof b) == 0);
    expect("read", answer, 0);
    expect_that("the settings that were read", memcmp(chain, settings, SOLARBASIL_SETTINGS * sizeof chain[0]) == 0);
    expect_that("stored past the settings", chain[SOLARBASIL_SETTINGS] == 0xeeeeeeeeeeeeeeee);
    expect("a calls file's scalars one short", carry_out(12, sizeof calls, 4), 3);
    expect("a short calls file", carry_out(13, sizeof calls - 4, 4), 60);
    expect("short results", carry_out(13, sizeof calls, 2), 61);
    expect_that("a refused calls file stored something", count == 77 && results[0] == results[3]);
    expect("carry out", carry_out(13, sizeof calls, 4), 0);
    expect_that("carried out", count == 1 && results[0] == 7 && results[1] == 0 && results[2] == 40 * G);
    expect_that("stored past the results", results[3] == 0xeeeeeeeeeeeeeeee);
}

int main(void) {
    open_books();
    expect("reward", reward(19, 13, 2 * LIMIT), 0);
    expect("one setting more", reward(20, 13, 2 * LIMIT), 0);
    expect("one setting less", reward(18, 13, 2 * LIMIT), 1);
    expect("no settings", reward(0, 13, 2 * LIMIT), 1);
    expect("one scalar less", reward(19, 12, 2 * LIMIT), 3);
    expect("one scalar and one setting less", reward(18, 12, 2 * LIMIT), 1);
    expect("a short table", reward(19, 13, 2 * LIMIT - 1), 3);
    reward(19, 14, 2 * LIMIT);
    expect_that("the number past the scalars changed", b.scalars[SOLARBASIL_SCALARS] == 99);
    open_books();
    expect("receipt", receipt(19, 48, 32), 0);
    expect("a short key", receipt(19, 47, 32), 3);
    expect("a long key", receipt(19, 49, 32), 3);
    expect("short credentials", receipt(19, 48, 31), 3);
    expect("a short key and one setting less", receipt(18, 47, 32), 1);
    expect("request", request(20, 48), 0);
    expect("a short address", request(19, 48), 3);
    expect("a request's short key", request(20, 47), 3);
    expect("no withdrawals", payments(0, 0, 0), 30);
    expect("short records", payments(2, 20, 1), 3);
    expect("short addresses", payments(3, 19, 1), 3);
    expect("seventeen withdrawals", payments(3 * 17, 20 * 17, 17), 30);
    expect("a count past every slice", payments(3 * 17, 20 * 17, UINT64_MAX), 3);
    expect("short expected records", expected(47, 320), 3);
    expect_that("a refusal stored a count", count == 77 && partial_count == 77 && records[0] == records[48]);
    expect("short expected addresses", expected(48, 319), 3);
    expect("expected list", expected(49, 321), 0);
    expect_that("expected list", count == 1 && partial_count == 0 && records[2] == 8 * G && records[3] == 0);
    expect_that("stored past the list", records[48] == 0xeeeeeeeeeeeeeeee && addresses[320] == 0xee);
    files();
    return failures != 0;
}
