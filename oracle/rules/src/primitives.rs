//! Stand-ins for the commit's primitive types and constants.
use std::ops::{Deref, DerefMut};

#[cfg(not(wide))]
pub type Number = u64;
#[cfg(wide)]
pub type Number = u128;

pub type Gwei = Number;
pub type Epoch = Number;
pub type Slot = Number;
// Place 3 of the published text assigns one of these two to the other: one type serves both.
pub type ValidatorIndex = usize;
pub type WithdrawalIndex = usize;
pub type CommitteeIndex = usize;
pub type Root = [u8; 32];
pub type Version = [u8; 4];
pub type Domain = [u8; 32];
pub type ParticipationFlags = u8;

#[derive(Clone, Debug, PartialEq, Eq)]
pub struct ByteVector<const N: usize>(pub [u8; N]);

impl<const N: usize> Default for ByteVector<N> {
    fn default() -> Self {
        Self([0; N])
    }
}

impl<const N: usize> Deref for ByteVector<N> {
    type Target = [u8; N];

    fn deref(&self) -> &[u8; N] {
        &self.0
    }
}

impl<const N: usize> DerefMut for ByteVector<N> {
    fn deref_mut(&mut self) -> &mut [u8; N] {
        &mut self.0
    }
}

pub type Bytes32 = ByteVector<32>;
pub type BlsPublicKey = ByteVector<48>;
pub type ExecutionAddress = ByteVector<20>;

/// The yes or no that is handed in with the call.
#[derive(Clone, Debug, Default, PartialEq, Eq)]
pub struct BlsSignature {
    pub good: bool,
}

pub const FAR_FUTURE_EPOCH: Epoch = u64::MAX as Epoch;
pub const ETH1_ADDRESS_WITHDRAWAL_PREFIX: u8 = 0x01;
pub const COMPOUNDING_WITHDRAWAL_PREFIX: u8 = 0x02;
pub const FULL_EXIT_REQUEST_AMOUNT: Gwei = 0;
pub const UNSET_DEPOSIT_RECEIPTS_START_INDEX: u64 = u64::MAX;

#[derive(Clone, Copy, Debug)]
pub enum DomainType {
    Deposit,
    VoluntaryExit,
    Consolidation,
}
