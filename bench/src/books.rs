//! The books that are measured, as the library and as the Rust hold them.
use crate::calls::{record, sum};
use oracle::{
    books as held,
    engine::narrow::{context, state_of, State},
};
use rules64::electra::{self as rust, Context};
use solarbasil::{
    Books, Limits, PendingBalanceDeposit, PendingConsolidation, PendingPartialWithdrawal, Scalars, Settings,
    Validator,
};

pub const G: u64 = 1_000_000_000;
pub const EPOCH: u64 = 100_000;

/// Every table has room for so many records.
pub const ROOM: u64 = 65_536;

/// The address of every validator, so that any two may be consolidated.
pub const ADDRESS: [u8; 20] = [0x5A; 20];

#[derive(Clone)]
pub struct Both {
    pub ours: Books,
    pub state: State,
    pub context: Context,
}

impl Both {
    /// A copy of the Rust's state. Its queues have room for more records than a call adds, as the library's tables do,
    /// so that none is moved to a larger place in the midst of a call.
    pub fn fresh_state(&self) -> State {
        const MORE: usize = 1_024;
        let mut state = self.state.clone();
        state.pending_balance_deposits.reserve(MORE);
        state.pending_partial_withdrawals.reserve(MORE);
        state.pending_consolidations.reserve(MORE);
        state
    }

    /// Both sides hold the same books, and have the same expected list and the same total.
    pub fn agree(&self, name: &str) {
        assert!(state_of(&held(&self.ours)) == self.state, "{name}: the books differ");
        let expected = self.ours.get_expected_withdrawals().expect("an expected list");
        let (list, partials) = rust::get_expected_withdrawals(&self.state, &self.context);
        let same = expected.list.iter().map(record).eq(list) && expected.partials == partials;
        assert!(same, "{name}: the expected lists differ");
        assert!(self.ours.total() == Ok(sum(&self.state)), "{name}: the totals differ");
    }
}

pub fn key(number: u64) -> [u8; 48] {
    let mut key = [0x11; 48];
    key[40..].copy_from_slice(&number.to_be_bytes());
    key
}

pub fn credentials(prefix: u8) -> [u8; 32] {
    let mut bytes = [0; 32];
    bytes[0] = prefix;
    bytes[12..].copy_from_slice(&ADDRESS);
    bytes
}

/// Mainnet with an activation-exit churn of 64 G, so that there is churn for consolidations.
fn settings() -> Settings {
    let limits = Limits { registry: ROOM, deposits: ROOM, partials: ROOM, consolidations: ROOM };
    let mut settings = Settings::mainnet(limits);
    settings.max_per_epoch_activation_exit_churn_limit = 64 * G;
    settings
}

/// One in 64 has left with its balance and is withdrawable; one in 128 has an excess over 32 G; half compound, and
/// these hold 40 G. The last two are as any that can exit and consolidate.
fn validator(i: u64, count: u64) -> Validator {
    let last = i + 2 >= count;
    let left = i % 64 == SOURCE;
    let excess = i % 128 == TARGET;
    let compounding = i % 2 == 0 || last;
    Validator {
        public_key: key(i),
        withdrawal_credentials: credentials(if compounding { 2 } else { 1 }),
        slashed: false,
        effective_balance: 32 * G,
        activation_eligibility_epoch: 0,
        activation_epoch: 0,
        exit_epoch: if left { EPOCH - 300 } else { u64::MAX },
        withdrawable_epoch: if left { EPOCH - 10 } else { u64::MAX },
        balance: if compounding { 40 * G } else { 32 * G + u64::from(excess) * G },
    }
}

/// Where in each 64 validators the source of a consolidation stands, and its target: this one or the next.
const SOURCE: u64 = 7;
const TARGET: u64 = 9;

/// The consolidations, one in 64 validators. Each moves the balance of a validator that has left. Every second target
/// is to be switched to compounding, which queues its excess; the others compound already. The middle one is not
/// ready, since its source stays, and those behind it wait.
fn consolidation(i: u64, count: u64) -> PendingConsolidation {
    let ready = i != count / 128;
    let source_index = 64 * i + if ready { SOURCE } else { SOURCE + 1 };
    PendingConsolidation { source_index, target_index: 64 * i + TARGET + i % 2 }
}

/// Deposits of 1 G for one validator in 16, of which the carry pays for half, and the churn of the epoch for 64 more; a
/// partial for one in 16; consolidations, of which half are ready.
pub fn make(count: u64) -> Both {
    let scalars = Scalars {
        epoch: EPOCH,
        deposit_receipts_start_index: 0,
        deposit_balance_to_consume: count / 32 * G,
        ..Scalars::default()
    };
    let mut ours = Books::new(&settings(), &scalars);
    for i in 0..count {
        ours.push_validator(&validator(i, count)).expect("room");
    }
    for i in 0..count / 16 {
        ours.push_deposit(&PendingBalanceDeposit { index: 16 * i + 1, amount: G }).expect("room");
        let partial =
            PendingPartialWithdrawal { index: 16 * i + 2, amount: G, withdrawable_epoch: EPOCH - 1 };
        ours.push_partial(&partial).expect("room");
    }
    for i in 0..count / 64 {
        ours.push_consolidation(&consolidation(i, count)).expect("room");
    }
    let held = held(&ours);
    Both { context: context(&held.settings), state: state_of(&held), ours }
}

/// Books of 65,536 records of each kind.
pub fn full() -> Books {
    let mut books = make(65_536).ours;
    while books.push_deposit(&PendingBalanceDeposit { index: 1, amount: G }).is_ok() {}
    let partial = PendingPartialWithdrawal { index: 2, amount: G, withdrawable_epoch: EPOCH - 1 };
    while books.push_partial(&partial).is_ok() {}
    while books.push_consolidation(&PendingConsolidation { source_index: 8, target_index: 9 }).is_ok() {}
    books
}

/// The same books as the oracle holds them.
pub fn held(ours: &Books) -> held::Books {
    let s = settings();
    let scalars = ours.scalars();
    held::Books {
        settings: [
            s.min_activation_balance,
            s.max_effective_balance_electra,
            s.effective_balance_increment,
            s.min_per_epoch_churn_limit_electra,
            s.max_per_epoch_activation_exit_churn_limit,
            s.churn_limit_quotient,
            s.shard_committee_period,
            s.min_validator_withdrawability_delay,
            s.max_seed_lookahead,
            s.hysteresis_quotient,
            s.hysteresis_downward_multiplier,
            s.hysteresis_upward_multiplier,
            s.max_pending_partials_per_withdrawals_sweep,
            s.max_withdrawals_per_payload,
            s.max_validators_per_withdrawals_sweep,
            s.limits.registry,
            s.limits.deposits,
            s.limits.partials,
            s.limits.consolidations,
        ],
        scalars: [
            scalars.epoch,
            scalars.next_withdrawal_index,
            scalars.next_withdrawal_validator_index,
            scalars.deposit_receipts_start_index,
            scalars.deposit_balance_to_consume,
            scalars.exit_balance_to_consume,
            scalars.earliest_exit_epoch,
            scalars.consolidation_balance_to_consume,
            scalars.earliest_consolidation_epoch,
        ]
        .map(u128::from),
        validators: ours
            .validators()
            .iter()
            .map(|v| held::Validator {
                key: v.public_key,
                credentials: v.withdrawal_credentials,
                slashed: v.slashed,
                effective: v.effective_balance.into(),
                eligibility: v.activation_eligibility_epoch.into(),
                activation: v.activation_epoch.into(),
                exit: v.exit_epoch.into(),
                withdrawable: v.withdrawable_epoch.into(),
                balance: v.balance.into(),
            })
            .collect(),
        deposits: ours
            .deposits()
            .iter()
            .map(|d| held::Deposit { index: d.index.into(), amount: d.amount.into() })
            .collect(),
        partials: ours
            .partials()
            .iter()
            .map(|p| held::Partial {
                index: p.index.into(),
                amount: p.amount.into(),
                epoch: p.withdrawable_epoch.into(),
            })
            .collect(),
        consolidations: ours
            .consolidations()
            .iter()
            .map(|c| held::Consolidation { source: c.source_index.into(), target: c.target_index.into() })
            .collect(),
    }
}
