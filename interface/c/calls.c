/* Each call on books, a calls file, the total and the bare epoch assignment: its answer, and every number and byte that
 * it leaves. */
#include <stdio.h>
#include <string.h>

#include "solarbasil.h"

enum { LIMIT = 4 };

/* Columns of the table of validators. */
enum { SLASHED, EFFECTIVE, ELIGIBILITY, ACTIVATION, EXIT, WITHDRAWABLE, BALANCE, COLUMNS };

/* Places of the scalars. */
enum {
    EPOCH,
    NEXT_INDEX,
    NEXT_VALIDATOR,
    RECEIPTS_START,
    CARRY,
    EXIT_LEFT,
    EARLIEST_EXIT,
    CONSOLIDATION_LEFT,
    EARLIEST_CONSOLIDATION,
    VALIDATORS,
    DEPOSITS,
    PARTIALS,
    CONSOLIDATIONS
};

static const uint64_t G = 1000000000;

/* Mainnet with an activation-exit churn limit of 64 G, so that there is churn for consolidations. */
static const uint64_t settings[SOLARBASIL_SETTINGS] = {
    32000000000, 2048000000000, 1000000000, 128000000000, 64000000000, 65536, 256, 256, 4, 4, 1, 5, 8, 16, 16384,
    LIMIT, LIMIT, LIMIT, LIMIT};

struct books {
    uint64_t scalars[SOLARBASIL_SCALARS];
    uint8_t identities[80 * LIMIT];
    uint64_t validators[COLUMNS * LIMIT];
    uint64_t deposits[2 * LIMIT];
    uint64_t partials[3 * LIMIT];
    uint64_t consolidations[2 * LIMIT];
};

/* The books that are lent, and those that the call is to leave. */
static struct books b, wanted;

#define BOOKS \
    settings, SOLARBASIL_SETTINGS, b.scalars, SOLARBASIL_SCALARS, b.identities, sizeof b.identities, b.validators, \
        COLUMNS * LIMIT, b.deposits, 2 * LIMIT, b.partials, 3 * LIMIT, b.consolidations, 2 * LIMIT

static int failures;

static void expect(const char *what, uint8_t answer, bool holds) {
    if (answer != 0 || !holds) {
        printf("%s: answered %d%s\n", what, answer, holds ? "" : ", with another result");
        failures++;
    }
}

static void expect_books(const char *what, uint8_t answer) {
    expect(what, answer, memcmp(&b, &wanted, sizeof b) == 0);
}

static uint8_t *key(struct books *of, size_t i) { return of->identities + 48 * i; }

static uint8_t *credentials(struct books *of, size_t i) { return of->identities + 48 * LIMIT + 32 * i; }

static void set(struct books *of, size_t column, size_t i, uint64_t number) {
    of->validators[column * LIMIT + i] = number;
}

/* A validator that has been active since epoch 0, with 40 G. All of them have the same address. */
static void set_validator(size_t i, uint8_t prefix) {
    memset(key(&b, i), 100 + (int)i, 48);
    memset(credentials(&b, i), 5, 32);
    credentials(&b, i)[0] = prefix;
    set(&b, SLASHED, i, 0);
    set(&b, EFFECTIVE, i, 32 * G);
    set(&b, ELIGIBILITY, i, 0);
    set(&b, ACTIVATION, i, 0);
    set(&b, EXIT, i, SOLARBASIL_FAR);
    set(&b, WITHDRAWABLE, i, SOLARBASIL_FAR);
    set(&b, BALANCE, i, 40 * G);
}

/* Two validators, of prefix 01 and 02, and nothing that waits; what stands past them is not 0. */
static void open_books(void) {
    memset(&b, 0xee, sizeof b);
    memset(b.scalars, 0, sizeof b.scalars);
    b.scalars[EPOCH] = 1000;
    b.scalars[RECEIPTS_START] = SOLARBASIL_FAR;
    b.scalars[VALIDATORS] = 2;
    set_validator(0, 1);
    set_validator(1, 2);
    wanted = b;
}

/* The same, and 1 G that waits to be credited to validator 1. */
static void open_with_deposit(void) {
    open_books();
    b.scalars[DEPOSITS] = 1;
    b.deposits[0] = 1;
    b.deposits[1] = G;
    wanted = b;
}

static void reward(void) {
    open_books();
    set(&wanted, BALANCE, 1, 40 * G + 5);
    expect_books("reward", solarbasil_reward(BOOKS, 1, 5));
}

static void penalty(void) {
    open_books();
    set(&wanted, BALANCE, 1, 40 * G - 5);
    expect_books("penalty", solarbasil_penalty(BOOKS, 1, 5));
}

/* An unknown key becomes validator 2. */
static void receipt(void) {
    static const uint8_t new_key[48] = {9}, new_credentials[32] = {1};
    open_books();
    wanted.scalars[RECEIPTS_START] = 77;
    wanted.scalars[VALIDATORS] = 3;
    wanted.scalars[DEPOSITS] = 1;
    memcpy(key(&wanted, 2), new_key, 48);
    memcpy(credentials(&wanted, 2), new_credentials, 32);
    set(&wanted, SLASHED, 2, 0);
    set(&wanted, EFFECTIVE, 2, 0);
    set(&wanted, ELIGIBILITY, 2, SOLARBASIL_FAR);
    set(&wanted, ACTIVATION, 2, SOLARBASIL_FAR);
    set(&wanted, EXIT, 2, SOLARBASIL_FAR);
    set(&wanted, WITHDRAWABLE, 2, SOLARBASIL_FAR);
    set(&wanted, BALANCE, 2, 0);
    wanted.deposits[0] = 2;
    wanted.deposits[1] = 3 * G;
    expect_books("receipt",
                 solarbasil_process_deposit_receipt(BOOKS, new_key, 48, new_credentials, 32, 3 * G, 77, true));
}

/* A known key with a bad signature: queued, and no switch to 02. */
static void receipt_badly_signed(void) {
    static const uint8_t new_credentials[32] = {2};
    open_books();
    wanted.scalars[RECEIPTS_START] = 77;
    wanted.scalars[DEPOSITS] = 1;
    wanted.deposits[0] = 0;
    wanted.deposits[1] = 3 * G;
    uint8_t known_key[48];
    memcpy(known_key, key(&b, 0), 48);
    expect_books("badly signed receipt",
                 solarbasil_process_deposit_receipt(BOOKS, known_key, 48, new_credentials, 32, 3 * G, 77, false));
}

static void voluntary_exit(void) {
    open_books();
    wanted.scalars[EXIT_LEFT] = 32 * G;
    wanted.scalars[EARLIEST_EXIT] = 1005;
    set(&wanted, EXIT, 0, 1005);
    set(&wanted, WITHDRAWABLE, 0, 1261);
    expect_books("exit", solarbasil_process_voluntary_exit(BOOKS, 0, 1000, true));
}

static void request(void) {
    uint8_t address[20], known_key[48];
    open_books();
    memset(address, 5, sizeof address);
    memcpy(known_key, key(&b, 1), sizeof known_key);
    wanted.scalars[EXIT_LEFT] = 61 * G;
    wanted.scalars[EARLIEST_EXIT] = 1005;
    wanted.scalars[PARTIALS] = 1;
    wanted.partials[0] = 1;
    wanted.partials[1] = 3 * G;
    wanted.partials[2] = 1261;
    expect_books("request", solarbasil_process_execution_layer_withdrawal_request(BOOKS, address, 20, known_key, 48,
                                                                                  3 * G));
}

static void consolidation(void) {
    open_books();
    wanted.scalars[CONSOLIDATION_LEFT] = 32 * G;
    wanted.scalars[EARLIEST_CONSOLIDATION] = 1005;
    wanted.scalars[CONSOLIDATIONS] = 1;
    set(&wanted, EXIT, 1, 1005);
    set(&wanted, WITHDRAWABLE, 1, 1261);
    wanted.consolidations[0] = 1;
    wanted.consolidations[1] = 0;
    expect_books("consolidation", solarbasil_process_consolidation(BOOKS, 1, 0, 1000, true));
}

/* What validator 0 has above 32 G. */
static void withdrawals(void) {
    static const uint64_t records[3] = {0, 0, 8000000000};
    uint8_t addresses[20];
    open_books();
    memset(addresses, 5, sizeof addresses);
    wanted.scalars[NEXT_INDEX] = 1;
    set(&wanted, BALANCE, 0, 32 * G);
    expect_books("withdrawals", solarbasil_process_withdrawals(BOOKS, records, 3, addresses, 20, 1));
}

/* The deposit is credited, and its words stay in the queue's buffer; validator 1 may have more than 32 G effective. */
static void turn(void) {
    open_with_deposit();
    wanted.scalars[EPOCH] = 1001;
    wanted.scalars[DEPOSITS] = 0;
    set(&wanted, BALANCE, 1, 41 * G);
    set(&wanted, EFFECTIVE, 1, 41 * G);
    expect_books("turn", solarbasil_turn(BOOKS));
}

static void deposit_step(void) {
    open_with_deposit();
    wanted.scalars[DEPOSITS] = 0;
    set(&wanted, BALANCE, 1, 41 * G);
    expect_books("deposit step", solarbasil_process_pending_balance_deposits(BOOKS));
}

/* Validator 1, which has left, goes into validator 0, which switches to 02: what it has above 32 G is queued. */
static void consolidation_step(void) {
    open_books();
    set(&b, EXIT, 1, 900);
    set(&b, WITHDRAWABLE, 1, 1000);
    b.scalars[CONSOLIDATIONS] = 1;
    b.consolidations[0] = 1;
    b.consolidations[1] = 0;
    wanted = b;
    wanted.scalars[CONSOLIDATIONS] = 0;
    wanted.scalars[DEPOSITS] = 1;
    wanted.deposits[0] = 0;
    wanted.deposits[1] = 8 * G;
    credentials(&wanted, 0)[0] = 2;
    set(&wanted, BALANCE, 0, 72 * G);
    set(&wanted, BALANCE, 1, 0);
    expect_books("consolidation step", solarbasil_process_pending_consolidations(BOOKS));
}

static void effective_balance_step(void) {
    open_books();
    set(&wanted, EFFECTIVE, 1, 40 * G);
    expect_books("effective balance step", solarbasil_process_effective_balance_updates(BOOKS));
}

/* A calls file of a receipt of 1 G for validator 0, and a turn. */
static uint32_t file[39];
static size_t words;

static void put(uint32_t word, size_t times) {
    for (size_t i = 0; i < times; i++) {
        file[words++] = word;
    }
}

static void put_number(uint64_t number) {
    put(0x30000000 | (number & 0xfffffff), 1);
    put(0x40000000 | (number >> 28 & 0xfffffff), 1);
    put(0x50000000 | (uint32_t)(number >> 56), 1);
}

static void write_calls(void) {
    put(0x10000002, 1);
    put(0x20000002, 1);
    put(0x90000003, 1);
    put(0x60646464, 16);
    put(0x60010505, 1);
    put(0x60050505, 9);
    put(0x60050500, 1);
    put_number(G);
    put_number(77);
    put(0x70000001, 1);
    put(0x90000007, 1);
    uint32_t sum = 0;
    for (size_t i = 0; i < words; i++) {
        sum += file[i];
    }
    put(0x80000000 | (sum & 0xfffffff), 1);
}

/* The receipt queues a deposit which the turn credits: no longer counted, it still stands in the buffer. */
static void calls_file(void) {
    uint64_t results[6], count = 0;
    open_books();
    write_calls();
    wanted.scalars[EPOCH] = 1001;
    wanted.scalars[RECEIPTS_START] = 77;
    wanted.deposits[0] = 0;
    wanted.deposits[1] = G;
    set(&wanted, BALANCE, 0, 41 * G);
    set(&wanted, EFFECTIVE, 1, 40 * G);
    uint8_t answer = solarbasil_carry_out(BOOKS, (const uint8_t *)file, sizeof file, results, 6, &count);
    expect_books("calls file", answer);
    const uint64_t lines[6] = {3, 0, 81 * G, 7, 0, 81 * G};
    expect("results of a calls file", answer, count == 2 && memcmp(results, lines, sizeof lines) == 0);
}

static void total(void) {
    uint64_t held = 0;
    open_with_deposit();
    uint8_t answer = solarbasil_total(BOOKS, &held);
    expect("total", answer, held == 81 * G && memcmp(&b, &wanted, sizeof b) == 0);
}

static void assignment(void) {
    uint64_t left = 0, epoch = 0;
    uint8_t answer = solarbasil_epoch_assignment(32 * G, 1005, 1005, 128 * G, 32 * G + 1, &left, &epoch);
    expect("epoch assignment", answer, left == 128 * G - 1 && epoch == 1006);
}

int main(void) {
    reward();
    penalty();
    receipt();
    receipt_badly_signed();
    voluntary_exit();
    request();
    consolidation();
    withdrawals();
    turn();
    deposit_step();
    consolidation_step();
    effective_balance_step();
    calls_file();
    total();
    assignment();
    return failures != 0;
}
