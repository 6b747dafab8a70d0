//! The books, the calls and the settings of document 01 as the oracle holds them.

pub const FAR: u128 = u64::MAX as u128;
/// 2^62, the bound of sums, epochs and the withdrawal index
pub const BOUND: u128 = 1 << 62;

pub const SETTINGS: usize = 19;
pub const SCALARS: usize = 9;

/// Positions of the settings in a file.
pub mod setting {
    pub const MIN_ACTIVATION_BALANCE: usize = 0;
    pub const MAX_EFFECTIVE_BALANCE: usize = 1;
    pub const EFFECTIVE_BALANCE_INCREMENT: usize = 2;
    pub const MIN_CHURN: usize = 3;
    pub const MAX_ACTIVATION_EXIT_CHURN: usize = 4;
    pub const CHURN_QUOTIENT: usize = 5;
    pub const SHARD_COMMITTEE_PERIOD: usize = 6;
    pub const WITHDRAWABILITY_DELAY: usize = 7;
    pub const SEED_LOOKAHEAD: usize = 8;
    pub const HYSTERESIS_QUOTIENT: usize = 9;
    pub const HYSTERESIS_DOWNWARD: usize = 10;
    pub const HYSTERESIS_UPWARD: usize = 11;
    pub const PARTIALS_PER_SWEEP: usize = 12;
    pub const WITHDRAWALS_PER_PAYLOAD: usize = 13;
    pub const VALIDATORS_PER_SWEEP: usize = 14;
    pub const REGISTRY_LIMIT: usize = 15;
    pub const DEPOSITS_LIMIT: usize = 16;
    pub const PARTIALS_LIMIT: usize = 17;
    pub const CONSOLIDATIONS_LIMIT: usize = 18;
}

/// Positions of the scalars in a file.
pub mod scalar {
    pub const EPOCH: usize = 0;
    pub const NEXT_WITHDRAWAL_INDEX: usize = 1;
    pub const CURSOR: usize = 2;
    pub const RECEIPTS_START: usize = 3;
    pub const CARRY: usize = 4;
    pub const EXIT_LEFT: usize = 5;
    pub const EARLIEST_EXIT_EPOCH: usize = 6;
    pub const CONSOLIDATION_LEFT: usize = 7;
    pub const EARLIEST_CONSOLIDATION_EPOCH: usize = 8;
}

pub type Settings = [u64; SETTINGS];

#[derive(Clone, PartialEq, Debug)]
pub struct Validator {
    pub key: [u8; 48],
    pub credentials: [u8; 32],
    pub slashed: bool,
    pub effective: u128,
    pub eligibility: u128,
    pub activation: u128,
    pub exit: u128,
    pub withdrawable: u128,
    pub balance: u128,
}

#[derive(Clone, PartialEq, Debug)]
pub struct Deposit {
    pub index: u128,
    pub amount: u128,
}

#[derive(Clone, PartialEq, Debug)]
pub struct Partial {
    pub index: u128,
    pub amount: u128,
    pub epoch: u128,
}

#[derive(Clone, PartialEq, Debug)]
pub struct Consolidation {
    pub source: u128,
    pub target: u128,
}

/// Numbers are kept wide, so that a result over its bound can be judged.
#[derive(Clone, PartialEq, Debug)]
pub struct Books {
    pub settings: Settings,
    pub scalars: [u128; SCALARS],
    pub validators: Vec<Validator>,
    pub deposits: Vec<Deposit>,
    pub partials: Vec<Partial>,
    pub consolidations: Vec<Consolidation>,
}

impl Books {
    /// Balances plus waiting deposits.
    pub fn total(&self) -> u128 {
        let balances: u128 = self.validators.iter().map(|validator| validator.balance).sum();
        let waiting: u128 = self.deposits.iter().map(|deposit| deposit.amount).sum();
        balances + waiting
    }

    pub fn partial_sum(&self) -> u128 {
        self.partials.iter().map(|partial| partial.amount).sum()
    }
}

/// One record of a list of withdrawals.
#[derive(Clone, PartialEq, Debug)]
pub struct Withdrawal {
    pub index: u64,
    pub validator: u64,
    pub address: [u8; 20],
    pub amount: u64,
}

#[derive(Clone, PartialEq, Debug)]
pub enum Call {
    Reward { validator: u64, amount: u64 },
    Penalty { validator: u64, amount: u64 },
    Receipt { key: [u8; 48], credentials: [u8; 32], amount: u64, index: u64, good: bool },
    Exit { validator: u64, epoch: u64, good: bool },
    Request { address: [u8; 20], key: [u8; 48], amount: u64 },
    Consolidation { source: u64, target: u64, epoch: u64, good: bool },
    Turn,
    Withdrawals(Vec<Withdrawal>),
    // The steps of a turn alone: no file of document 01 carries them.
    DepositStep,
    ConsolidationStep,
    EffectiveStep,
}

impl Call {
    pub fn code(&self) -> u32 {
        match self {
            Call::Reward { .. } => 1,
            Call::Penalty { .. } => 2,
            Call::Receipt { .. } => 3,
            Call::Exit { .. } => 4,
            Call::Request { .. } => 5,
            Call::Consolidation { .. } => 6,
            Call::Turn => 7,
            Call::Withdrawals(_) => 8,
            Call::DepositStep => 91,
            Call::ConsolidationStep => 92,
            Call::EffectiveStep => 93,
        }
    }
}
