//! Stand-in for the context: the settings of document 01 under the commit's names.
use crate::primitives::{Epoch, Gwei, Slot, Version};

#[derive(Clone, Debug, Default)]
pub struct Context {
    /// 1 here: a slot is an epoch
    pub slots_per_epoch: Slot,
    pub min_activation_balance: Gwei,
    /// read by the tests of capella/helpers.rs alone, which nothing calls
    pub max_effective_balance: Gwei,
    pub max_effective_balance_electra: Gwei,
    pub effective_balance_increment: Gwei,
    pub min_per_epoch_churn_limit_electra: Gwei,
    pub max_per_epoch_activation_exit_churn_limit: Gwei,
    pub churn_limit_quotient: Gwei,
    pub shard_committee_period: Epoch,
    pub min_validator_withdrawability_delay: Epoch,
    pub max_seed_lookahead: Epoch,
    pub hysteresis_quotient: Gwei,
    pub hysteresis_downward_multiplier: Gwei,
    pub hysteresis_upward_multiplier: Gwei,
    pub max_pending_partials_per_withdrawals_sweep: usize,
    pub max_withdrawals_per_payload: usize,
    pub max_validators_per_withdrawals_sweep: usize,
    /// in place of a const generic of the state
    pub pending_partial_withdrawals_limit: usize,
    pub pending_consolidations_limit: usize,
    /// read by process_registry_updates alone
    pub ejection_balance: Gwei,
    pub capella_fork_version: Version,
}
