//! The rules of docs/src, compiled from their own text, and stand-ins for what that text leans on.
//!
//! The text is written to OUT_DIR by build.rs and included below, module by module, under the
//! paths that it has in the commit. Everything else in this folder is a stand-in.
#![allow(dead_code, unused_imports)]

pub mod error;
pub mod given;
pub mod primitives;
pub mod ssz;
pub mod state_transition;
pub mod trace;

pub use error::Error;

/// The names of the mends in this build.
pub const MENDED: &str = env!("RULES_MENDED");

pub mod crypto {
    pub use crate::given::fast_aggregate_verify;
}

pub mod altair {
    pub const PROPOSER_WEIGHT: u64 = 8;
    pub const WEIGHT_DENOMINATOR: u64 = 64;

    #[derive(Clone, Debug, Default, PartialEq, Eq)]
    pub struct SyncCommittee<const N: usize>;
}

pub mod phase0 {
    use crate::primitives::{BlsPublicKey, BlsSignature, Bytes32, Epoch, Gwei, ValidatorIndex};

    pub mod validator {
        include!(concat!(env!("OUT_DIR"), "/phase0_validator.rs"));
    }
    pub use crate::given::{compute_activation_exit_epoch, is_active_validator};
    pub use validator::Validator;

    pub const JUSTIFICATION_BITS_LENGTH: usize = 4;

    #[derive(Clone, Debug, Default, PartialEq, Eq)]
    pub struct BeaconBlockHeader;

    #[derive(Clone, Debug, Default, PartialEq, Eq)]
    pub struct Checkpoint {
        pub epoch: Epoch,
    }

    #[derive(Clone, Debug, Default, PartialEq, Eq)]
    pub struct Eth1Data;

    #[derive(Clone, Debug, Default, PartialEq, Eq)]
    pub struct Fork;

    #[derive(Clone, Debug, Default, PartialEq, Eq)]
    pub struct DepositMessage {
        pub public_key: BlsPublicKey,
        pub withdrawal_credentials: Bytes32,
        pub amount: Gwei,
    }

    #[derive(Clone, Debug, Default, PartialEq, Eq)]
    pub struct VoluntaryExit {
        pub epoch: Epoch,
        pub validator_index: ValidatorIndex,
    }

    #[derive(Clone, Debug, Default, PartialEq, Eq)]
    pub struct SignedVoluntaryExit {
        pub message: VoluntaryExit,
        pub signature: BlsSignature,
    }
}

pub mod capella {
    pub mod helpers {
        include!(concat!(env!("OUT_DIR"), "/capella_helpers.rs"));
    }
    pub mod withdrawal {
        include!(concat!(env!("OUT_DIR"), "/capella_withdrawal.rs"));
    }
    pub use helpers::has_eth1_withdrawal_credential;
    pub use withdrawal::Withdrawal;

    #[derive(Clone, Debug, Default, PartialEq, Eq)]
    pub struct HistoricalSummary;
}

pub mod electra {
    pub mod beacon_state {
        include!(concat!(env!("OUT_DIR"), "/electra_beacon_state.rs"));
    }
    pub mod operations {
        include!(concat!(env!("OUT_DIR"), "/electra_operations.rs"));
    }
    pub mod helpers {
        include!(concat!(env!("OUT_DIR"), "/electra_helpers.rs"));
    }
    pub mod epoch_processing {
        include!(concat!(env!("OUT_DIR"), "/electra_epoch_processing.rs"));
    }
    pub mod block_processing {
        include!(concat!(env!("OUT_DIR"), "/electra_block_processing.rs"));
    }
    pub use beacon_state::*;
    pub use block_processing::*;
    pub use epoch_processing::*;
    pub use helpers::*;
    pub use operations::*;

    // The commit's module file is not in docs/src. The withdrawal tests of two generations carry
    // the same names; as in the Electra text, the ones of electra/helpers.rs serve here.
    pub use crate::capella::{has_eth1_withdrawal_credential, Withdrawal};
    pub use crate::error::*;
    pub use crate::given::*;
    pub use crate::phase0::{DepositMessage, SignedVoluntaryExit, Validator, VoluntaryExit};
    pub use crate::primitives::*;
    pub use crate::state_transition::Context;

    use crate::ssz::prelude::List;

    #[derive(Clone, Debug, Default, PartialEq, Eq)]
    pub struct ExecutionPayloadHeader<const BYTES_PER_LOGS_BLOOM: usize, const MAX_EXTRA_DATA_BYTES: usize>;

    /// A payload is the withdrawals that the call hands in.
    #[derive(Clone, Debug, Default, PartialEq, Eq)]
    pub struct ExecutionPayload<
        const BYTES_PER_LOGS_BLOOM: usize,
        const MAX_EXTRA_DATA_BYTES: usize,
        const MAX_BYTES_PER_TRANSACTION: usize,
        const MAX_TRANSACTIONS_PER_PAYLOAD: usize,
        const MAX_WITHDRAWALS_PER_PAYLOAD: usize,
        const MAX_DEPOSIT_RECEIPTS_PER_PAYLOAD: usize,
        const MAX_WITHDRAWAL_REQUESTS_PER_PAYLOAD: usize,
    > {
        pub withdrawals: List<Withdrawal, MAX_WITHDRAWALS_PER_PAYLOAD>,
    }
}
