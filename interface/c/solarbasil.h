/* Solarbasil: proved balance books for Ethereum validators (Electra), as a static library for x86-64 Linux.
 *
 * `rt lib` in crates/solarbasil writes out/libsolarbasil.a there. It needs memset and memcpy of the C library.
 *
 * Stack. The turn, the consolidation step and a calls file take less than 530,000 bytes, every other call less than
 * 8,000, as counted on the library that the older kit built. A thread with a stack of 1 MiB had enough for all.
 *
 * Buffers. Each is a pointer and a length, which counts items and not bytes. A function may be lent any numbers and any
 * lengths: what it answers and leaves is proved for all of them. The caller owes what C cannot check: each pointer is
 * aligned, not null (not even for a length of 0) and points to as many items as its length says; during the call
 * nothing else writes them, nor reads those that may change; and no buffer that may change overlaps another. The same
 * is owed for the pointers without a length, to one number each: `total`, `count`, `partial_count`, `written`,
 * `left_after`, `epoch`. What is const is only read.
 *
 *   settings        19 numbers: min_activation_balance, max_effective_balance_electra, effective_balance_increment,
 *                   min_per_epoch_churn_limit_electra, max_per_epoch_activation_exit_churn_limit, churn_limit_quotient,
 *                   shard_committee_period, min_validator_withdrawability_delay, the seed lookahead,
 *                   hysteresis_quotient, hysteresis_downward_multiplier, hysteresis_upward_multiplier,
 *                   max_pending_partials_per_withdrawals_sweep, max_withdrawals_per_payload,
 *                   max_validators_per_withdrawals_sweep, then the limits of registry, deposits, partials and
 *                   consolidations. A number that is missing counts as 0; what stands past them is not looked at.
 *   scalars         13 numbers: epoch, next_withdrawal_index, next_withdrawal_validator_index,
 *                   deposit_receipts_start_index, deposit_balance_to_consume, exit_balance_to_consume,
 *                   earliest_exit_epoch, consolidation_balance_to_consume, earliest_consolidation_epoch, then how many
 *                   validators, deposits, partials and consolidations there are. Fewer than 13 are answered 3; what
 *                   stands past them stays as it is.
 *   identities      80 bytes a validator, in two columns: the public keys of the F validators that fit (F is the length
 *                   divided by 80), 48 bytes each, then their withdrawal credentials, 32 bytes each. The key of
 *                   validator i begins at byte 48 i, its credentials at byte 48 F + 32 i.
 *   validators      7 numbers a validator, in seven columns of F numbers (F is the length divided by 7): slashed (0 or
 *                   1), effective balance, activation eligibility epoch, activation epoch, exit epoch, withdrawable
 *                   epoch, balance. Number k of validator i, from 0 on, stands at k F + i.
 *   deposits        2 numbers an entry: validator, amount
 *   partials        3 numbers an entry: validator, amount, withdrawable epoch
 *   consolidations  2 numbers an entry: source, target
 *
 * Where the columns of identities and validators stand depends on the length: lend the same length in every call.
 *
 * A table that has room for fewer records than its limit in the settings is answered 3. Past the records that the
 * scalars count after a call, each table holds what it held before that call. This is true of each call of a calls
 * file, and not of the file as a whole: an entry that one call queued and a later one took out may still stand there.
 *
 * Answers. 0 is done. Every other number is a refusal, and leaves all that was lent as it was:
 *    1 unsound settings           2 unsound books             3 buffer shorter than its limit, or of a wrong length
 *   10 no such validator         11 not active               12 exit begun             13 stated epoch ahead
 *   14 active too short          15 partials waiting         16 bad signature
 *   20 consolidation queue full  21 consolidation churn at most the minimum balance    22 source is target
 *   23 no 01 or 02 credential    24 addresses differ         30 withdrawals not the expected list
 *   40 result's registry or deposit queue over its limit     41 result's sums over 2^62
 *   42 result's epoch or withdrawal index over 2^62          50 epoch assignment with churn 0
 *   60 broken books or calls file                            61 buffer shorter than what is to be written
 * The first that applies is given. Every call on books is tested for 1, 3 and 2 first, in this order. Below stand the
 * other answers that each call can give, in the order in which they are tested.
 *
 * Amounts are in Gwei.
 */
#ifndef SOLARBASIL_H
#define SOLARBASIL_H

#include <stdbool.h>
#include <stddef.h>
#include <stdint.h>

#ifdef __cplusplus
extern "C" {
#endif

#define SOLARBASIL_SETTINGS 19
#define SOLARBASIL_SCALARS 13

/* Records of a list of withdrawals: at most 16, three numbers and twenty bytes each. */
#define SOLARBASIL_WITHDRAWALS 16
#define SOLARBASIL_RECORDS (3 * SOLARBASIL_WITHDRAWALS)
#define SOLARBASIL_ADDRESSES (20 * SOLARBASIL_WITHDRAWALS)

/* Bytes of a books file with so many records. */
#define SOLARBASIL_FILE_BYTES(validators, deposits, partials, consolidations) \
    (4 * (90 + 46 * (validators) + 6 * (deposits) + 9 * (partials) + 6 * (consolidations)))

/* The most calls that a calls file holds. */
#define SOLARBASIL_CALLS 9999

/* An epoch that never comes; also the receipt start that is not set. */
#define SOLARBASIL_FAR UINT64_MAX

/* Adds an amount to the balance of a validator. 10, 41. */
uint8_t solarbasil_reward(
    const uint64_t *settings, size_t settings_len, uint64_t *scalars, size_t scalars_len,
    const uint8_t *identities, size_t identities_len, uint64_t *validators, size_t validators_len,
    const uint64_t *deposits, size_t deposits_len, const uint64_t *partials, size_t partials_len,
    const uint64_t *consolidations, size_t consolidations_len, uint64_t validator, uint64_t amount);

/* Takes an amount from the balance of a validator, which stops at 0. 10. */
uint8_t solarbasil_penalty(
    const uint64_t *settings, size_t settings_len, uint64_t *scalars, size_t scalars_len,
    const uint8_t *identities, size_t identities_len, uint64_t *validators, size_t validators_len,
    const uint64_t *deposits, size_t deposits_len, const uint64_t *partials, size_t partials_len,
    const uint64_t *consolidations, size_t consolidations_len, uint64_t validator, uint64_t amount);

/* A deposit receipt. The key has 48 bytes and the credentials 32: another length is answered 3. `index` is the number
 * of the receipt: where deposit_receipts_start_index is SOLARBASIL_FAR, it is stored there. `valid` says whether the
 * signature is good.
 * An unknown key is added as a validator and its amount queued as a deposit; with a bad signature neither is done, and
 * the answer is 0. A known key's amount is queued with a good and with a bad signature. If the signature is good, the
 * credentials begin with 02 and those of the validator with 01, the validator switches: its credentials then begin with
 * 02, and its balance above min_activation_balance moves to the queue, behind the amount. 40, 41. */
uint8_t solarbasil_process_deposit_receipt(
    const uint64_t *settings, size_t settings_len, uint64_t *scalars, size_t scalars_len,
    uint8_t *identities, size_t identities_len, uint64_t *validators, size_t validators_len,
    uint64_t *deposits, size_t deposits_len, const uint64_t *partials, size_t partials_len,
    const uint64_t *consolidations, size_t consolidations_len, const uint8_t *public_key, size_t public_key_len,
    const uint8_t *withdrawal_credentials, size_t withdrawal_credentials_len, uint64_t amount, uint64_t index,
    bool valid);

/* A voluntary exit. `valid` says whether the signature is good. 10, 11, 12, 13, 14, 15, 16, 42. */
uint8_t solarbasil_process_voluntary_exit(
    const uint64_t *settings, size_t settings_len, uint64_t *scalars, size_t scalars_len,
    const uint8_t *identities, size_t identities_len, uint64_t *validators, size_t validators_len,
    const uint64_t *deposits, size_t deposits_len, const uint64_t *partials, size_t partials_len,
    const uint64_t *consolidations, size_t consolidations_len, uint64_t validator, uint64_t epoch, bool valid);

/* A withdrawal request of the execution layer. The address has 20 bytes and the key 48: another length is answered 3.
 * An amount of 0 asks for a full exit. A request that the rules set aside is answered 0. 41, 42. */
uint8_t solarbasil_process_execution_layer_withdrawal_request(
    const uint64_t *settings, size_t settings_len, uint64_t *scalars, size_t scalars_len,
    const uint8_t *identities, size_t identities_len, uint64_t *validators, size_t validators_len,
    const uint64_t *deposits, size_t deposits_len, uint64_t *partials, size_t partials_len,
    const uint64_t *consolidations, size_t consolidations_len,
    const uint8_t *source_address, size_t source_address_len, const uint8_t *public_key, size_t public_key_len,
    uint64_t amount);

/* A consolidation of one validator into another. `valid` says whether the signature is good. 20, 21, 22, 10, 11, 12,
 * 13, 23, 24, 16, 42; of these 10, 11, 12 and 23 can be for the source or for the target. */
uint8_t solarbasil_process_consolidation(
    const uint64_t *settings, size_t settings_len, uint64_t *scalars, size_t scalars_len,
    const uint8_t *identities, size_t identities_len, uint64_t *validators, size_t validators_len,
    const uint64_t *deposits, size_t deposits_len, const uint64_t *partials, size_t partials_len,
    uint64_t *consolidations, size_t consolidations_len, uint64_t source, uint64_t target, uint64_t epoch,
    bool valid);

/* A block's withdrawals, `count` of them: three numbers each (index, validator, amount) in `records`, twenty bytes each
 * in `addresses`; what stands past them is not looked at. Where one of the two is shorter, the answer is 3. More than
 * sixteen are never the expected list. 30, 42. */
uint8_t solarbasil_process_withdrawals(
    const uint64_t *settings, size_t settings_len, uint64_t *scalars, size_t scalars_len,
    const uint8_t *identities, size_t identities_len, uint64_t *validators, size_t validators_len,
    const uint64_t *deposits, size_t deposits_len, uint64_t *partials, size_t partials_len,
    const uint64_t *consolidations, size_t consolidations_len, const uint64_t *records, size_t records_len,
    const uint8_t *addresses, size_t addresses_len, uint64_t count);

/* The turn of an epoch: the three steps below, then the next epoch. 40, 42. */
uint8_t solarbasil_turn(
    const uint64_t *settings, size_t settings_len, uint64_t *scalars, size_t scalars_len,
    uint8_t *identities, size_t identities_len, uint64_t *validators, size_t validators_len,
    uint64_t *deposits, size_t deposits_len, const uint64_t *partials, size_t partials_len,
    uint64_t *consolidations, size_t consolidations_len);

/* The deposit step alone. */
uint8_t solarbasil_process_pending_balance_deposits(
    const uint64_t *settings, size_t settings_len, uint64_t *scalars, size_t scalars_len,
    const uint8_t *identities, size_t identities_len, uint64_t *validators, size_t validators_len,
    uint64_t *deposits, size_t deposits_len, const uint64_t *partials, size_t partials_len,
    const uint64_t *consolidations, size_t consolidations_len);

/* The consolidation step alone. 40. */
uint8_t solarbasil_process_pending_consolidations(
    const uint64_t *settings, size_t settings_len, uint64_t *scalars, size_t scalars_len,
    uint8_t *identities, size_t identities_len, uint64_t *validators, size_t validators_len,
    uint64_t *deposits, size_t deposits_len, const uint64_t *partials, size_t partials_len,
    uint64_t *consolidations, size_t consolidations_len);

/* The effective balance step alone. */
uint8_t solarbasil_process_effective_balance_updates(
    const uint64_t *settings, size_t settings_len, uint64_t *scalars, size_t scalars_len,
    const uint8_t *identities, size_t identities_len, uint64_t *validators, size_t validators_len,
    const uint64_t *deposits, size_t deposits_len, const uint64_t *partials, size_t partials_len,
    const uint64_t *consolidations, size_t consolidations_len);

/* Balances plus waiting deposits, into `total`. Alters no books. */
uint8_t solarbasil_total(
    const uint64_t *settings, size_t settings_len, const uint64_t *scalars, size_t scalars_len,
    const uint8_t *identities, size_t identities_len, const uint64_t *validators, size_t validators_len,
    const uint64_t *deposits, size_t deposits_len, const uint64_t *partials, size_t partials_len,
    const uint64_t *consolidations, size_t consolidations_len, uint64_t *total);

/* The withdrawals that the next list must name. `records` has room for 48 numbers and `addresses` for 320 bytes, else
 * the answer is 3. All sixteen records are stored, zeros past `count`; the first `partial_count` are partial
 * withdrawals. Alters no books. */
uint8_t solarbasil_get_expected_withdrawals(
    const uint64_t *settings, size_t settings_len, const uint64_t *scalars, size_t scalars_len,
    const uint8_t *identities, size_t identities_len, const uint64_t *validators, size_t validators_len,
    const uint64_t *deposits, size_t deposits_len, const uint64_t *partials, size_t partials_len,
    const uint64_t *consolidations, size_t consolidations_len, uint64_t *records, size_t records_len,
    uint8_t *addresses, size_t addresses_len, uint64_t *count, uint64_t *partial_count);

/* Opens a books file (docs/FORMAT.md) into the settings, the scalars and the tables. `settings` has room for 19
 * numbers, `scalars` for 13, and each table for as many records as its limit in the file, else the answer is 3. What
 * stands past what was read stays as it is. Here the order is 60, 1, 3, 2. */
uint8_t solarbasil_read_books(
    uint64_t *settings, size_t settings_len, uint64_t *scalars, size_t scalars_len,
    uint8_t *identities, size_t identities_len, uint64_t *validators, size_t validators_len,
    uint64_t *deposits, size_t deposits_len, uint64_t *partials, size_t partials_len,
    uint64_t *consolidations, size_t consolidations_len, const uint8_t *file, size_t file_len);

/* Writes the books as a file to the start of `out`, and its length in bytes to `written`: SOLARBASIL_FILE_BYTES of the
 * four counts. What stands past it stays as it is. Alters no books. 61 where `out` is shorter than the file. */
uint8_t solarbasil_write_books(
    const uint64_t *settings, size_t settings_len, const uint64_t *scalars, size_t scalars_len,
    const uint8_t *identities, size_t identities_len, const uint64_t *validators, size_t validators_len,
    const uint64_t *deposits, size_t deposits_len, const uint64_t *partials, size_t partials_len,
    const uint64_t *consolidations, size_t consolidations_len, uint8_t *out, size_t out_len, uint64_t *written);

/* Carries out the calls of a calls file one after another. `results` takes three numbers of each: its code (1 reward,
 * 2 penalty, 3 receipt, 4 exit, 5 request, 6 consolidation, 7 turn, 8 withdrawals), its answer, and balances plus
 * waiting deposits after it; what stands past them stays as it is. `count` takes how many calls there were, at most
 * SOLARBASIL_CALLS. A call of the file that is refused has its answer in the results, and the next one goes on. 60 for
 * the file, then 61 where `results` has room for fewer than three numbers a call. */
uint8_t solarbasil_carry_out(
    const uint64_t *settings, size_t settings_len, uint64_t *scalars, size_t scalars_len,
    uint8_t *identities, size_t identities_len, uint64_t *validators, size_t validators_len,
    uint64_t *deposits, size_t deposits_len, uint64_t *partials, size_t partials_len,
    uint64_t *consolidations, size_t consolidations_len, const uint8_t *file, size_t file_len,
    uint64_t *results, size_t results_len, uint64_t *count);

/* The bare epoch assignment, of any five numbers: the epoch that an amount gets, and what is left of its churn. 50,
 * 42. */
uint8_t solarbasil_epoch_assignment(
    uint64_t left, uint64_t earliest, uint64_t activation_exit, uint64_t churn, uint64_t amount,
    uint64_t *left_after, uint64_t *epoch);

#ifdef __cplusplus
}
#endif

#endif
