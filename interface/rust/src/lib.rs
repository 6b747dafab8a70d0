//! Proved balance books for Ethereum validators: a safe wrapper over the static library of Solarbasil.
//!
//! `Books` owns settings, scalars and tables, and lends them to the library for each call. What each call answers and
//! leaves is proved in the library; nothing here computes a balance. `interface/c/solarbasil.h` says what each call
//! does, and with which numbers it can be refused. Amounts are in Gwei.
//!
//! `turn`, `process_pending_consolidations` and `carry_out` take some 530,000 bytes of stack, every other call less
//! than 16 KiB. A thread with a stack of 1 MiB has enough for all of them; Rust's own threads have 2 MiB. A stack that
//! is too small ends the program, as in any Rust function.

mod ffi;

use std::fmt;

/// An epoch that never comes; also the receipt start that is not set.
pub const FAR: u64 = u64::MAX;

/// The most records that a limit can ask room for.
const MOST: u64 = 65_536;

/// The most calls that a calls file holds.
const CALLS: usize = 9_999;

/// A call that was refused, with the number of its cause. It left the books as they were.
#[derive(Clone, Copy, Debug, PartialEq, Eq)]
pub struct Refused(pub u8);

impl fmt::Display for Refused {
    fn fmt(&self, f: &mut fmt::Formatter<'_>) -> fmt::Result {
        let cause = match self.0 {
            1 => "unsound settings",
            2 => "unsound books",
            3 => "buffer shorter than its limit",
            10 => "no such validator",
            11 => "not active",
            12 => "exit begun",
            13 => "stated epoch ahead",
            14 => "active too short",
            15 => "partials waiting",
            16 => "bad signature",
            20 => "consolidation queue full",
            21 => "consolidation churn at most the minimum balance",
            22 => "source is target",
            23 => "no 01 or 02 credential",
            24 => "addresses differ",
            30 => "withdrawals not the expected list",
            40 => "result's registry or deposit queue over its limit",
            41 => "result's sums over 2^62",
            42 => "result's epoch or withdrawal index over 2^62",
            50 => "epoch assignment with churn 0",
            60 => "broken books or calls file",
            61 => "buffer shorter than what is to be written",
            _ => "unknown cause",
        };
        write!(f, "refused {:02}: {cause}", self.0)
    }
}

impl std::error::Error for Refused {}

fn answered(number: u8) -> Result<(), Refused> {
    match number {
        0 => Ok(()),
        _ => Err(Refused(number)),
    }
}

/// The limits of the registry and of the three queues.
#[derive(Clone, Copy, Debug, PartialEq, Eq)]
pub struct Limits {
    pub registry: u64,
    pub deposits: u64,
    pub partials: u64,
    pub consolidations: u64,
}

/// The fifteen chain values, and the limits.
#[derive(Clone, Copy, Debug, PartialEq, Eq)]
pub struct Settings {
    pub min_activation_balance: u64,
    pub max_effective_balance_electra: u64,
    pub effective_balance_increment: u64,
    pub min_per_epoch_churn_limit_electra: u64,
    pub max_per_epoch_activation_exit_churn_limit: u64,
    pub churn_limit_quotient: u64,
    pub shard_committee_period: u64,
    pub min_validator_withdrawability_delay: u64,
    pub max_seed_lookahead: u64,
    pub hysteresis_quotient: u64,
    pub hysteresis_downward_multiplier: u64,
    pub hysteresis_upward_multiplier: u64,
    pub max_pending_partials_per_withdrawals_sweep: u64,
    pub max_withdrawals_per_payload: u64,
    pub max_validators_per_withdrawals_sweep: u64,
    pub limits: Limits,
}

impl Settings {
    /// The chain values of mainnet.
    pub fn mainnet(limits: Limits) -> Settings {
        Settings {
            min_activation_balance: 32_000_000_000,
            max_effective_balance_electra: 2_048_000_000_000,
            effective_balance_increment: 1_000_000_000,
            min_per_epoch_churn_limit_electra: 128_000_000_000,
            max_per_epoch_activation_exit_churn_limit: 256_000_000_000,
            churn_limit_quotient: 65_536,
            shard_committee_period: 256,
            min_validator_withdrawability_delay: 256,
            max_seed_lookahead: 4,
            hysteresis_quotient: 4,
            hysteresis_downward_multiplier: 1,
            hysteresis_upward_multiplier: 5,
            max_pending_partials_per_withdrawals_sweep: 8,
            max_withdrawals_per_payload: 16,
            max_validators_per_withdrawals_sweep: 16_384,
            limits,
        }
    }

    /// The settings with these nineteen numbers, in the order of the library.
    fn of(n: &[u64; 19]) -> Settings {
        Settings {
            min_activation_balance: n[0],
            max_effective_balance_electra: n[1],
            effective_balance_increment: n[2],
            min_per_epoch_churn_limit_electra: n[3],
            max_per_epoch_activation_exit_churn_limit: n[4],
            churn_limit_quotient: n[5],
            shard_committee_period: n[6],
            min_validator_withdrawability_delay: n[7],
            max_seed_lookahead: n[8],
            hysteresis_quotient: n[9],
            hysteresis_downward_multiplier: n[10],
            hysteresis_upward_multiplier: n[11],
            max_pending_partials_per_withdrawals_sweep: n[12],
            max_withdrawals_per_payload: n[13],
            max_validators_per_withdrawals_sweep: n[14],
            limits: Limits { registry: n[15], deposits: n[16], partials: n[17], consolidations: n[18] },
        }
    }

    /// The nineteen numbers, in the order of the library.
    fn numbers(&self) -> [u64; 19] {
        [
            self.min_activation_balance,
            self.max_effective_balance_electra,
            self.effective_balance_increment,
            self.min_per_epoch_churn_limit_electra,
            self.max_per_epoch_activation_exit_churn_limit,
            self.churn_limit_quotient,
            self.shard_committee_period,
            self.min_validator_withdrawability_delay,
            self.max_seed_lookahead,
            self.hysteresis_quotient,
            self.hysteresis_downward_multiplier,
            self.hysteresis_upward_multiplier,
            self.max_pending_partials_per_withdrawals_sweep,
            self.max_withdrawals_per_payload,
            self.max_validators_per_withdrawals_sweep,
            self.limits.registry,
            self.limits.deposits,
            self.limits.partials,
            self.limits.consolidations,
        ]
    }
}

/// The numbers of the books that stand in no table.
#[derive(Clone, Copy, Debug, Default, PartialEq, Eq)]
pub struct Scalars {
    pub epoch: u64,
    pub next_withdrawal_index: u64,
    pub next_withdrawal_validator_index: u64,
    pub deposit_receipts_start_index: u64,
    pub deposit_balance_to_consume: u64,
    pub exit_balance_to_consume: u64,
    pub earliest_exit_epoch: u64,
    pub consolidation_balance_to_consume: u64,
    pub earliest_consolidation_epoch: u64,
}

#[derive(Clone, Copy, Debug, PartialEq, Eq)]
pub struct Validator {
    pub public_key: [u8; 48],
    pub withdrawal_credentials: [u8; 32],
    pub slashed: bool,
    pub effective_balance: u64,
    pub activation_eligibility_epoch: u64,
    pub activation_epoch: u64,
    pub exit_epoch: u64,
    pub withdrawable_epoch: u64,
    pub balance: u64,
}

#[derive(Clone, Copy, Debug, PartialEq, Eq)]
pub struct PendingBalanceDeposit {
    pub index: u64,
    pub amount: u64,
}

#[derive(Clone, Copy, Debug, PartialEq, Eq)]
pub struct PendingPartialWithdrawal {
    pub index: u64,
    pub amount: u64,
    pub withdrawable_epoch: u64,
}

#[derive(Clone, Copy, Debug, PartialEq, Eq)]
pub struct PendingConsolidation {
    pub source_index: u64,
    pub target_index: u64,
}

#[derive(Clone, Copy, Debug, PartialEq, Eq)]
pub struct Withdrawal {
    pub index: u64,
    pub validator_index: u64,
    pub address: [u8; 20],
    pub amount: u64,
}

/// The withdrawals that the next list must name; the first `partials` of them are partial withdrawals.
#[derive(Clone, Debug, PartialEq, Eq)]
pub struct ExpectedWithdrawals {
    pub list: Vec<Withdrawal>,
    pub partials: usize,
}

/// A call of a calls file: its code (1 reward, 2 penalty, 3 receipt, 4 exit, 5 request, 6 consolidation, 7 turn,
/// 8 withdrawals), its answer (0, or the number of a `Refused`), and balances plus waiting deposits after it.
#[derive(Clone, Copy, Debug, PartialEq, Eq)]
pub struct Line {
    pub code: u64,
    pub answer: u8,
    pub total: u64,
}

/// An epoch, and what is left of its churn.
#[derive(Clone, Copy, Debug, PartialEq, Eq)]
pub struct Assignment {
    pub left: u64,
    pub epoch: u64,
}

/// There is no room for another record.
#[derive(Clone, Copy, Debug, PartialEq, Eq)]
pub struct Full;

impl fmt::Display for Full {
    fn fmt(&self, f: &mut fmt::Formatter<'_>) -> fmt::Result {
        f.write_str("no room for another record")
    }
}

impl std::error::Error for Full {}

// Where the scalars hold how many records each table has.
const VALIDATORS: usize = 9;
const DEPOSITS: usize = 10;
const PARTIALS: usize = 11;
const CONSOLIDATIONS: usize = 12;

/// Settings and books, in the library's layout.
#[derive(Clone, Debug)]
pub struct Books {
    settings: [u64; 19],
    scalars: [u64; 13],
    identities: Vec<u8>,
    validators: Vec<u64>,
    deposits: Vec<u64>,
    partials: Vec<u64>,
    consolidations: Vec<u64>,
}

/// Books are equal where settings, scalars and records are. For how many more records their buffers have room, and what
/// stands there, does not count.
impl PartialEq for Books {
    fn eq(&self, other: &Books) -> bool {
        self.settings == other.settings
            && self.scalars == other.scalars
            && (0..self.count(VALIDATORS)).all(|i| self.validator(i) == other.validator(i))
            && self.queues() == other.queues()
    }
}

impl Eq for Books {}

// A call of the library on the books: their buffers, each lent as it may change, then the call's own arguments.
//
// Safety: each buffer is an array or a vector of its own, borrowed for the call, and is handed over with its length;
// the call's own arguments are numbers, or buffers that are none of the books' and are handed over in the same way.
macro_rules! call {
    ($function:ident, $books:expr $(, $argument:expr)* $(,)?) => {{
        let b = $books;
        answered(unsafe {
            ffi::$function(
                b.settings.as_ptr(),
                b.settings.len(),
                b.scalars.as_mut_ptr(),
                b.scalars.len(),
                b.identities.as_mut_ptr(),
                b.identities.len(),
                b.validators.as_mut_ptr(),
                b.validators.len(),
                b.deposits.as_mut_ptr(),
                b.deposits.len(),
                b.partials.as_mut_ptr(),
                b.partials.len(),
                b.consolidations.as_mut_ptr(),
                b.consolidations.len(),
                $($argument,)*
            )
        })
    }};
}

// The same for a call that alters no books.
macro_rules! ask {
    ($function:ident, $books:expr $(, $argument:expr)* $(,)?) => {{
        let b = $books;
        answered(unsafe {
            ffi::$function(
                b.settings.as_ptr(),
                b.settings.len(),
                b.scalars.as_ptr(),
                b.scalars.len(),
                b.identities.as_ptr(),
                b.identities.len(),
                b.validators.as_ptr(),
                b.validators.len(),
                b.deposits.as_ptr(),
                b.deposits.len(),
                b.partials.as_ptr(),
                b.partials.len(),
                b.consolidations.as_ptr(),
                b.consolidations.len(),
                $($argument,)*
            )
        })
    }};
}

impl Books {
    /// Books without validators, with room for as many records as the limits say. Settings are judged by each call.
    pub fn new(settings: &Settings, scalars: &Scalars) -> Books {
        Books {
            settings: settings.numbers(),
            scalars: [
                scalars.epoch,
                scalars.next_withdrawal_index,
                scalars.next_withdrawal_validator_index,
                scalars.deposit_receipts_start_index,
                scalars.deposit_balance_to_consume,
                scalars.exit_balance_to_consume,
                scalars.earliest_exit_epoch,
                scalars.consolidation_balance_to_consume,
                scalars.earliest_consolidation_epoch,
                0,
                0,
                0,
                0,
            ],
            ..Books::with_room(settings.limits)
        }
    }

    // ---- the two files

    /// The books of a books file, in buffers with room for its limits. It reads the file twice: first into buffers with
    /// room for the most records, to find the limits. `read` reads it once, into buffers that are there.
    pub fn open(file: &[u8]) -> Result<Books, Refused> {
        let mut most =
            Books::with_room(Limits { registry: MOST, deposits: MOST, partials: MOST, consolidations: MOST });
        most.read(file)?;
        // where a table's columns stand depends on its length, so that a shorter buffer is read anew
        let mut b = Books::with_room(most.settings().limits);
        b.read(file)?;
        Ok(b)
    }

    /// Buffers with room for so many records, all 0; a limit above `MOST` is unsound, and gets room for `MOST`.
    fn with_room(limits: Limits) -> Books {
        let room = |limit: u64| limit.min(MOST) as usize;
        Books {
            settings: [0; 19],
            scalars: [0; 13],
            identities: vec![0; 80 * room(limits.registry)],
            validators: vec![0; 7 * room(limits.registry)],
            deposits: vec![0; 2 * room(limits.deposits)],
            partials: vec![0; 3 * room(limits.partials)],
            consolidations: vec![0; 2 * room(limits.consolidations)],
        }
    }

    /// The books of a books file, in the buffers of these; a file with larger limits is refused, 3.
    pub fn read(&mut self, file: &[u8]) -> Result<(), Refused> {
        // Safety: as for `call!`; here the settings may change too.
        answered(unsafe {
            ffi::solarbasil_read_books(
                self.settings.as_mut_ptr(),
                self.settings.len(),
                self.scalars.as_mut_ptr(),
                self.scalars.len(),
                self.identities.as_mut_ptr(),
                self.identities.len(),
                self.validators.as_mut_ptr(),
                self.validators.len(),
                self.deposits.as_mut_ptr(),
                self.deposits.len(),
                self.partials.as_mut_ptr(),
                self.partials.len(),
                self.consolidations.as_mut_ptr(),
                self.consolidations.len(),
                file.as_ptr(),
                file.len(),
            )
        })
    }

    /// The books as a file.
    pub fn write(&self) -> Result<Vec<u8>, Refused> {
        let counts = [VALIDATORS, DEPOSITS, PARTIALS, CONSOLIDATIONS].map(|table| self.count(table));
        let words: usize = counts.iter().zip([46, 6, 9, 6]).map(|(count, width)| count * width).sum();
        let mut file = vec![0; 4 * (90 + words)];
        let written = self.write_to(&mut file)?;
        file.truncate(written);
        Ok(file)
    }

    /// The books as a file, at the start of a buffer; how many bytes it has.
    pub fn write_to(&self, out: &mut [u8]) -> Result<usize, Refused> {
        let mut written = 0;
        ask!(solarbasil_write_books, self, out.as_mut_ptr(), out.len(), &mut written)?;
        Ok(written as usize)
    }

    /// Carries out the calls of a calls file one after another. A call that is refused has its answer in its line, and
    /// the next one goes on.
    pub fn carry_out(&mut self, file: &[u8]) -> Result<Vec<Line>, Refused> {
        let mut results = vec![0; 3 * CALLS];
        let mut count = 0;
        call!(
            solarbasil_carry_out,
            self,
            file.as_ptr(),
            file.len(),
            results.as_mut_ptr(),
            results.len(),
            &mut count,
        )?;
        // an answer is at most 61
        let line = |w: &[u64]| Line { code: w[0], answer: w[1] as u8, total: w[2] };
        Ok(results.chunks_exact(3).take(count as usize).map(line).collect())
    }

    // ---- the records

    pub fn settings(&self) -> Settings {
        Settings::of(&self.settings)
    }

    pub fn scalars(&self) -> Scalars {
        let s = &self.scalars;
        Scalars {
            epoch: s[0],
            next_withdrawal_index: s[1],
            next_withdrawal_validator_index: s[2],
            deposit_receipts_start_index: s[3],
            deposit_balance_to_consume: s[4],
            exit_balance_to_consume: s[5],
            earliest_exit_epoch: s[6],
            consolidation_balance_to_consume: s[7],
            earliest_consolidation_epoch: s[8],
        }
    }

    fn count(&self, table: usize) -> usize {
        self.scalars[table] as usize
    }

    pub fn validators(&self) -> Vec<Validator> {
        (0..self.count(VALIDATORS)).map(|i| self.validator(i)).collect()
    }

    // The registry's tables are laid out by columns: all keys, then all credentials; and seven columns of words.
    fn validator(&self, i: usize) -> Validator {
        let (keys, credentials) = self.identities.split_at(48 * (self.identities.len() / 80));
        let fit = self.validators.len() / 7;
        let word = |column: usize| self.validators[column * fit + i];
        Validator {
            public_key: keys[48 * i..][..48].try_into().unwrap(),
            withdrawal_credentials: credentials[32 * i..][..32].try_into().unwrap(),
            slashed: word(0) != 0,
            effective_balance: word(1),
            activation_eligibility_epoch: word(2),
            activation_epoch: word(3),
            exit_epoch: word(4),
            withdrawable_epoch: word(5),
            balance: word(6),
        }
    }

    /// The words of the records in the three queues.
    fn queues(&self) -> [&[u64]; 3] {
        [
            &self.deposits[..2 * self.count(DEPOSITS)],
            &self.partials[..3 * self.count(PARTIALS)],
            &self.consolidations[..2 * self.count(CONSOLIDATIONS)],
        ]
    }

    pub fn deposits(&self) -> Vec<PendingBalanceDeposit> {
        let record = |w: &[u64]| PendingBalanceDeposit { index: w[0], amount: w[1] };
        self.deposits.chunks_exact(2).take(self.count(DEPOSITS)).map(record).collect()
    }

    pub fn partials(&self) -> Vec<PendingPartialWithdrawal> {
        let record =
            |w: &[u64]| PendingPartialWithdrawal { index: w[0], amount: w[1], withdrawable_epoch: w[2] };
        self.partials.chunks_exact(3).take(self.count(PARTIALS)).map(record).collect()
    }

    pub fn consolidations(&self) -> Vec<PendingConsolidation> {
        let record = |w: &[u64]| PendingConsolidation { source_index: w[0], target_index: w[1] };
        self.consolidations.chunks_exact(2).take(self.count(CONSOLIDATIONS)).map(record).collect()
    }

    // ---- opening books: records that no call brought

    pub fn push_validator(&mut self, v: &Validator) -> Result<(), Full> {
        let i = self.count(VALIDATORS);
        let fit = self.validators.len() / 7;
        if fit <= i {
            return Err(Full);
        }
        let (keys, credentials) = self.identities.split_at_mut(48 * fit);
        keys[48 * i..][..48].copy_from_slice(&v.public_key);
        credentials[32 * i..][..32].copy_from_slice(&v.withdrawal_credentials);
        let words = [
            v.slashed as u64,
            v.effective_balance,
            v.activation_eligibility_epoch,
            v.activation_epoch,
            v.exit_epoch,
            v.withdrawable_epoch,
            v.balance,
        ];
        words.into_iter().enumerate().for_each(|(column, word)| self.validators[column * fit + i] = word);
        self.scalars[VALIDATORS] += 1;
        Ok(())
    }

    pub fn push_deposit(&mut self, d: &PendingBalanceDeposit) -> Result<(), Full> {
        push(&mut self.deposits, &mut self.scalars[DEPOSITS], &[d.index, d.amount])
    }

    pub fn push_partial(&mut self, p: &PendingPartialWithdrawal) -> Result<(), Full> {
        let words = [p.index, p.amount, p.withdrawable_epoch];
        push(&mut self.partials, &mut self.scalars[PARTIALS], &words)
    }

    pub fn push_consolidation(&mut self, c: &PendingConsolidation) -> Result<(), Full> {
        let words = [c.source_index, c.target_index];
        push(&mut self.consolidations, &mut self.scalars[CONSOLIDATIONS], &words)
    }

    // ---- the calls

    pub fn reward(&mut self, validator: u64, amount: u64) -> Result<(), Refused> {
        call!(solarbasil_reward, self, validator, amount)
    }

    pub fn penalty(&mut self, validator: u64, amount: u64) -> Result<(), Refused> {
        call!(solarbasil_penalty, self, validator, amount)
    }

    /// `index` is the number of the receipt, kept as the receipt start where none is set. `valid` says whether the
    /// signature is good: with a bad one an unknown key is not added, and a known key's amount is queued all the same.
    pub fn process_deposit_receipt(
        &mut self,
        public_key: &[u8; 48],
        withdrawal_credentials: &[u8; 32],
        amount: u64,
        index: u64,
        valid: bool,
    ) -> Result<(), Refused> {
        call!(
            solarbasil_process_deposit_receipt,
            self,
            public_key.as_ptr(),
            public_key.len(),
            withdrawal_credentials.as_ptr(),
            withdrawal_credentials.len(),
            amount,
            index,
            valid,
        )
    }

    /// `valid` says whether the signature is good.
    pub fn process_voluntary_exit(&mut self, validator: u64, epoch: u64, valid: bool) -> Result<(), Refused> {
        call!(solarbasil_process_voluntary_exit, self, validator, epoch, valid)
    }

    /// An amount of 0 asks for a full exit.
    pub fn process_execution_layer_withdrawal_request(
        &mut self,
        source_address: &[u8; 20],
        public_key: &[u8; 48],
        amount: u64,
    ) -> Result<(), Refused> {
        call!(
            solarbasil_process_execution_layer_withdrawal_request,
            self,
            source_address.as_ptr(),
            source_address.len(),
            public_key.as_ptr(),
            public_key.len(),
            amount,
        )
    }

    /// `valid` says whether the signature is good.
    pub fn process_consolidation(
        &mut self,
        source: u64,
        target: u64,
        epoch: u64,
        valid: bool,
    ) -> Result<(), Refused> {
        call!(solarbasil_process_consolidation, self, source, target, epoch, valid)
    }

    pub fn process_withdrawals(&mut self, list: &[Withdrawal]) -> Result<(), Refused> {
        let records: Vec<u64> = list.iter().flat_map(|w| [w.index, w.validator_index, w.amount]).collect();
        let addresses: Vec<u8> = list.iter().flat_map(|w| w.address).collect();
        call!(
            solarbasil_process_withdrawals,
            self,
            records.as_ptr(),
            records.len(),
            addresses.as_ptr(),
            addresses.len(),
            list.len() as u64,
        )
    }

    /// The three steps, then the next epoch.
    pub fn turn(&mut self) -> Result<(), Refused> {
        call!(solarbasil_turn, self)
    }

    pub fn process_pending_balance_deposits(&mut self) -> Result<(), Refused> {
        call!(solarbasil_process_pending_balance_deposits, self)
    }

    pub fn process_pending_consolidations(&mut self) -> Result<(), Refused> {
        call!(solarbasil_process_pending_consolidations, self)
    }

    pub fn process_effective_balance_updates(&mut self) -> Result<(), Refused> {
        call!(solarbasil_process_effective_balance_updates, self)
    }

    /// Balances plus waiting deposits.
    pub fn total(&self) -> Result<u64, Refused> {
        let mut total = 0;
        ask!(solarbasil_total, self, &mut total)?;
        Ok(total)
    }

    pub fn get_expected_withdrawals(&self) -> Result<ExpectedWithdrawals, Refused> {
        let mut records = [0; 48];
        let mut addresses = [0; 320];
        let mut count = 0;
        let mut partials = 0;
        ask!(
            solarbasil_get_expected_withdrawals,
            self,
            records.as_mut_ptr(),
            records.len(),
            addresses.as_mut_ptr(),
            addresses.len(),
            &mut count,
            &mut partials,
        )?;
        let withdrawal = |(w, address): (&[u64], &[u8])| Withdrawal {
            index: w[0],
            validator_index: w[1],
            address: address.try_into().unwrap(),
            amount: w[2],
        };
        let all = records.chunks_exact(3).zip(addresses.chunks_exact(20));
        let list = all.take(count as usize).map(withdrawal).collect();
        Ok(ExpectedWithdrawals { list, partials: partials as usize })
    }
}

/// Another record behind those that `count` counts.
fn push(table: &mut [u64], count: &mut u64, record: &[u64]) -> Result<(), Full> {
    let place = table.chunks_exact_mut(record.len()).nth(*count as usize).ok_or(Full)?;
    place.copy_from_slice(record);
    *count += 1;
    Ok(())
}

/// The bare epoch assignment, of any five numbers.
pub fn epoch_assignment(
    left: u64,
    earliest: u64,
    activation_exit: u64,
    churn: u64,
    amount: u64,
) -> Result<Assignment, Refused> {
    let mut left_after = 0;
    let mut epoch = 0;
    // Safety: two numbers of our own.
    answered(unsafe {
        ffi::solarbasil_epoch_assignment(
            left,
            earliest,
            activation_exit,
            churn,
            amount,
            &mut left_after,
            &mut epoch,
        )
    })?;
    Ok(Assignment { left: left_after, epoch })
}
