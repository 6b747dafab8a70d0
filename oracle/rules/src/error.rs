//! Stand-ins for the errors that the text names.
use crate::{
    capella::Withdrawal,
    primitives::{BlsSignature, Epoch, ExecutionAddress, ValidatorIndex},
};

#[derive(Clone, Debug)]
pub enum Error {
    InvalidOperation(InvalidOperation),
    Signature,
    Overflow,
    Underflow,
}

#[derive(Clone, Debug)]
pub enum InvalidOperation {
    Withdrawal(InvalidWithdrawals),
    VoluntaryExit(InvalidVoluntaryExit),
    InvalidConsolidation(InvalidConsolidation),
}

#[derive(Clone, Debug)]
pub enum InvalidWithdrawals {
    IncorrectWithdrawals { provided: Vec<Withdrawal>, expected: Vec<Withdrawal> },
}

#[derive(Clone, Debug)]
pub enum InvalidVoluntaryExit {
    InvalidIndex(ValidatorIndex),
    InactiveValidator(Epoch),
    ValidatorAlreadyExited { index: ValidatorIndex, epoch: Epoch },
    EarlyExit { current_epoch: Epoch, exit_epoch: Epoch },
    ValidatorIsNotActiveForLongEnough { current_epoch: Epoch, minimum_time_active: Epoch },
    NonZeroPendingBalanceToWithdraw,
    InvalidSignature(BlsSignature),
}

#[derive(Clone, Debug)]
pub enum InvalidConsolidation {
    PendingConsolidationsQueueFull,
    InsufficientConsolidationChurnLimit,
    EqualSourceAndTargetIndices(ValidatorIndex),
    InvalidIndex(ValidatorIndex),
    InactiveValidator(ValidatorIndex, Epoch),
    ExitInitiatedForValidator(ValidatorIndex),
    EarlyConsolidation { current_epoch: Epoch, consolidation_epoch: Epoch },
    MissingExecutionWithdrawalCredentials(ValidatorIndex),
    WithdrawalCredentialsMismatch { source_address: ExecutionAddress, target_address: ExecutionAddress },
}

pub fn invalid_operation_error(error: InvalidOperation) -> Error {
    Error::InvalidOperation(error)
}
