// Included twice by engine.rs, with `rules` being the text at one width or the other.
use super::{Assignment, Outcome};
use crate::books::{scalar, setting, Books, Call, Settings};
use rules::{
    electra::*,
    primitives::{ByteVector, Number},
    ssz::prelude::List,
};
use std::{
    any::Any,
    panic::{catch_unwind, AssertUnwindSafe},
};

// The const generics carry nothing here: the lists have no limit, the limits are settings.
pub type State = BeaconState<0, 0, 0, 0, 0, 1, 0, 0, 0, 0, 0, 0, 0>;
type Payload = ExecutionPayload<0, 0, 0, 0, 16, 0, 0>;

fn number(value: u128) -> Number {
    value.try_into().expect("a number of accepted books")
}

fn index(value: u128) -> usize {
    value.try_into().expect("an index of accepted books")
}

pub fn context(settings: &Settings) -> Context {
    let amount = |position: usize| Number::from(settings[position]);
    let count = |position: usize| settings[position] as usize;
    Context {
        slots_per_epoch: 1,
        min_activation_balance: amount(setting::MIN_ACTIVATION_BALANCE),
        max_effective_balance: amount(setting::MIN_ACTIVATION_BALANCE),
        max_effective_balance_electra: amount(setting::MAX_EFFECTIVE_BALANCE),
        effective_balance_increment: amount(setting::EFFECTIVE_BALANCE_INCREMENT),
        min_per_epoch_churn_limit_electra: amount(setting::MIN_CHURN),
        max_per_epoch_activation_exit_churn_limit: amount(setting::MAX_ACTIVATION_EXIT_CHURN),
        churn_limit_quotient: amount(setting::CHURN_QUOTIENT),
        shard_committee_period: amount(setting::SHARD_COMMITTEE_PERIOD),
        min_validator_withdrawability_delay: amount(setting::WITHDRAWABILITY_DELAY),
        max_seed_lookahead: amount(setting::SEED_LOOKAHEAD),
        hysteresis_quotient: amount(setting::HYSTERESIS_QUOTIENT),
        hysteresis_downward_multiplier: amount(setting::HYSTERESIS_DOWNWARD),
        hysteresis_upward_multiplier: amount(setting::HYSTERESIS_UPWARD),
        max_pending_partials_per_withdrawals_sweep: count(setting::PARTIALS_PER_SWEEP),
        max_withdrawals_per_payload: count(setting::WITHDRAWALS_PER_PAYLOAD),
        max_validators_per_withdrawals_sweep: count(setting::VALIDATORS_PER_SWEEP),
        pending_partial_withdrawals_limit: count(setting::PARTIALS_LIMIT),
        pending_consolidations_limit: count(setting::CONSOLIDATIONS_LIMIT),
        ejection_balance: 0,
        capella_fork_version: [0; 4],
    }
}

pub fn state_of(books: &Books) -> State {
    let mut state = State::default();
    state.slot = number(books.scalars[scalar::EPOCH]);
    state.next_withdrawal_index = index(books.scalars[scalar::NEXT_WITHDRAWAL_INDEX]);
    state.next_withdrawal_validator_index = index(books.scalars[scalar::CURSOR]);
    state.deposit_receipts_start_index = books.scalars[scalar::RECEIPTS_START] as u64;
    state.deposit_balance_to_consume = number(books.scalars[scalar::CARRY]);
    state.exit_balance_to_consume = number(books.scalars[scalar::EXIT_LEFT]);
    state.earliest_exit_epoch = number(books.scalars[scalar::EARLIEST_EXIT_EPOCH]);
    state.consolidation_balance_to_consume = number(books.scalars[scalar::CONSOLIDATION_LEFT]);
    state.earliest_consolidation_epoch = number(books.scalars[scalar::EARLIEST_CONSOLIDATION_EPOCH]);
    for validator in &books.validators {
        state.validators.push(Validator {
            public_key: ByteVector(validator.key),
            withdrawal_credentials: ByteVector(validator.credentials),
            effective_balance: number(validator.effective),
            slashed: validator.slashed,
            activation_eligibility_epoch: number(validator.eligibility),
            activation_epoch: number(validator.activation),
            exit_epoch: number(validator.exit),
            withdrawable_epoch: number(validator.withdrawable),
        });
        state.balances.push(number(validator.balance));
    }
    for deposit in &books.deposits {
        state
            .pending_balance_deposits
            .push(PendingBalanceDeposit { index: index(deposit.index), amount: number(deposit.amount) });
    }
    for partial in &books.partials {
        state.pending_partial_withdrawals.push(PendingPartialWithdrawal {
            index: index(partial.index),
            amount: number(partial.amount),
            withdrawable_epoch: number(partial.epoch),
        });
    }
    for entry in &books.consolidations {
        state.pending_consolidations.push(PendingConsolidation {
            source_index: index(entry.source),
            target_index: index(entry.target),
        });
    }
    state
}

fn books_of(settings: &Settings, state: &State) -> Books {
    assert_eq!(state.validators.len(), state.balances.len());
    let validators = state.validators.iter().zip(state.balances.iter());
    Books {
        settings: *settings,
        scalars: [
            state.slot.into(),
            state.next_withdrawal_index as u128,
            state.next_withdrawal_validator_index as u128,
            state.deposit_receipts_start_index.into(),
            state.deposit_balance_to_consume.into(),
            state.exit_balance_to_consume.into(),
            state.earliest_exit_epoch.into(),
            state.consolidation_balance_to_consume.into(),
            state.earliest_consolidation_epoch.into(),
        ],
        validators: validators
            .map(|(validator, balance)| crate::books::Validator {
                key: validator.public_key.0,
                credentials: validator.withdrawal_credentials.0,
                slashed: validator.slashed,
                effective: validator.effective_balance.into(),
                eligibility: validator.activation_eligibility_epoch.into(),
                activation: validator.activation_epoch.into(),
                exit: validator.exit_epoch.into(),
                withdrawable: validator.withdrawable_epoch.into(),
                balance: (*balance).into(),
            })
            .collect(),
        deposits: state
            .pending_balance_deposits
            .iter()
            .map(|deposit| crate::books::Deposit {
                index: deposit.index as u128,
                amount: deposit.amount.into(),
            })
            .collect(),
        partials: state
            .pending_partial_withdrawals
            .iter()
            .map(|partial| crate::books::Partial {
                index: partial.index as u128,
                amount: partial.amount.into(),
                epoch: partial.withdrawable_epoch.into(),
            })
            .collect(),
        consolidations: state
            .pending_consolidations
            .iter()
            .map(|entry| crate::books::Consolidation {
                source: entry.source_index as u128,
                target: entry.target_index as u128,
            })
            .collect(),
    }
}

/// The number of document 01 for an error of the text, if it has one.
fn number_of(error: &Error, call: &Call) -> Option<u32> {
    match error {
        Error::InvalidOperation(InvalidOperation::Withdrawal(_)) => Some(30),
        Error::InvalidOperation(InvalidOperation::VoluntaryExit(error)) => Some(exit_number(error)),
        Error::InvalidOperation(InvalidOperation::InvalidConsolidation(error)) => {
            Some(consolidation_number(error))
        }
        Error::Signature if matches!(call, Call::Consolidation { .. }) => Some(16),
        _ => None,
    }
}

fn exit_number(error: &InvalidVoluntaryExit) -> u32 {
    match error {
        InvalidVoluntaryExit::InvalidIndex(_) => 10,
        InvalidVoluntaryExit::InactiveValidator(_) => 11,
        InvalidVoluntaryExit::ValidatorAlreadyExited { .. } => 12,
        InvalidVoluntaryExit::EarlyExit { .. } => 13,
        InvalidVoluntaryExit::ValidatorIsNotActiveForLongEnough { .. } => 14,
        InvalidVoluntaryExit::NonZeroPendingBalanceToWithdraw => 15,
        InvalidVoluntaryExit::InvalidSignature(_) => 16,
    }
}

fn consolidation_number(error: &InvalidConsolidation) -> u32 {
    match error {
        InvalidConsolidation::InvalidIndex(_) => 10,
        InvalidConsolidation::InactiveValidator(..) => 11,
        InvalidConsolidation::ExitInitiatedForValidator(_) => 12,
        InvalidConsolidation::EarlyConsolidation { .. } => 13,
        InvalidConsolidation::PendingConsolidationsQueueFull => 20,
        InvalidConsolidation::InsufficientConsolidationChurnLimit => 21,
        InvalidConsolidation::EqualSourceAndTargetIndices(_) => 22,
        InvalidConsolidation::MissingExecutionWithdrawalCredentials(_) => 23,
        InvalidConsolidation::WithdrawalCredentialsMismatch { .. } => 24,
    }
}

pub fn run(books: &Books, call: &Call) -> Outcome {
    // Reward and penalty are no functions of the text: their one test stands here.
    if let Call::Reward { validator, .. } | Call::Penalty { validator, .. } = call {
        if *validator >= books.validators.len() as u64 {
            return Outcome::Refused(10);
        }
    }
    let context = context(&books.settings);
    let mut state = state_of(books);
    match catch_unwind(AssertUnwindSafe(|| apply(&mut state, call, &context))) {
        Ok(Ok(())) => Outcome::Done(books_of(&books.settings, &state)),
        Ok(Err(error)) => match number_of(&error, call) {
            Some(number) => Outcome::Refused(number),
            None => Outcome::Unnumbered(format!("{error:?}"), books_of(&books.settings, &state)),
        },
        Err(payload) => Outcome::Panicked(message_of(&payload), books_of(&books.settings, &state)),
    }
}

/// What a panic says.
fn message_of(payload: &Box<dyn Any + Send>) -> String {
    let owned = payload.downcast_ref::<String>().cloned();
    owned.or_else(|| payload.downcast_ref::<&str>().map(|text| text.to_string())).unwrap_or_default()
}

/// One call of the text on its own state.
pub fn apply(state: &mut State, call: &Call, context: &Context) -> Result<(), Error> {
    match call {
        Call::Reward { validator, amount } => {
            increase_balance(state, *validator as usize, Number::from(*amount));
            Ok(())
        }
        Call::Penalty { validator, amount } => {
            decrease_balance(state, *validator as usize, Number::from(*amount));
            Ok(())
        }
        Call::Receipt { key, credentials, amount, index, good } => {
            let receipt = DepositReceipt {
                public_key: ByteVector(*key),
                withdrawal_credentials: ByteVector(*credentials),
                amount: Number::from(*amount),
                signature: BlsSignature { good: *good },
                index: *index,
            };
            process_deposit_receipt(state, &receipt, context)
        }
        Call::Exit { validator, epoch, good } => {
            let message = VoluntaryExit { epoch: Number::from(*epoch), validator_index: *validator as usize };
            let exit = SignedVoluntaryExit { message, signature: BlsSignature { good: *good } };
            process_voluntary_exit(state, &exit, context)
        }
        Call::Request { address, key, amount } => {
            let request = ExecutionLayerWithdrawalRequest {
                source_address: ByteVector(*address),
                validator_public_key: ByteVector(*key),
                amount: Number::from(*amount),
            };
            process_execution_layer_withdrawal_request(state, &request, context)
        }
        Call::Consolidation { source, target, epoch, good } => {
            let message = Consolidation {
                source_index: *source as usize,
                target_index: *target as usize,
                epoch: Number::from(*epoch),
            };
            let consolidation = SignedConsolidation { message, signature: BlsSignature { good: *good } };
            process_consolidation(state, &consolidation, context)
        }
        Call::Turn => turn(state, context),
        Call::Withdrawals(list) => {
            let withdrawals = list
                .iter()
                .map(|record| Withdrawal {
                    index: record.index as usize,
                    validator_index: record.validator as usize,
                    address: ByteVector(record.address),
                    amount: Number::from(record.amount),
                })
                .collect();
            process_withdrawals(state, &Payload { withdrawals: List(withdrawals) }, context)
        }
        Call::DepositStep => process_pending_balance_deposits(state, context),
        Call::ConsolidationStep => process_pending_consolidations(state, context),
        Call::EffectiveStep => {
            process_effective_balance_updates(state, context);
            Ok(())
        }
    }
}

/// The turn of document 01: three steps of the text, then the next epoch.
fn turn(state: &mut State, context: &Context) -> Result<(), Error> {
    process_pending_balance_deposits(state, context)?;
    process_pending_consolidations(state, context)?;
    process_effective_balance_updates(state, context);
    state.slot += 1;
    Ok(())
}

/// The expected list, and how many of it are partial withdrawals.
pub fn expected(books: &Books) -> (Vec<crate::books::Withdrawal>, usize) {
    let (list, partials) = get_expected_withdrawals(&state_of(books), &context(&books.settings));
    let record = |record: Withdrawal| crate::books::Withdrawal {
        index: record.index as u64,
        validator: record.validator_index as u64,
        address: record.address.0,
        amount: record.amount as u64,
    };
    (list.into_iter().map(record).collect(), partials)
}

/// Left and epoch of the assignment for exits and of the one for consolidations, over states
/// made so that churn and activation-exit epoch are the given ones. None where the text panics.
/// The text's activation-exit epoch is at least 1. As it only compares epochs and adds to them,
/// 0 is reached by running one epoch later.
pub fn assign(given: &Assignment) -> Option<[(u128, u128); 2]> {
    catch_unwind(AssertUnwindSafe(|| {
        let later: Number = if given.activation_exit == 0 { 1 } else { 0 };
        let churn = Number::from(given.churn);
        let mut state = State::default();
        state.slot = Number::from(given.activation_exit) + later - 1;

        // Total active is one increment, so the minimum churn decides: the whole for exits.
        let mut context = Context { slots_per_epoch: 1, ..Context::default() };
        context.effective_balance_increment = 1;
        context.churn_limit_quotient = 2;
        context.min_per_epoch_churn_limit_electra = churn;
        context.max_per_epoch_activation_exit_churn_limit = churn;
        state.exit_balance_to_consume = Number::from(given.left);
        state.earliest_exit_epoch = Number::from(given.earliest) + later;
        let amount = Number::from(given.amount);
        let exit = compute_exit_epoch_and_update_churn(&mut state, amount, &context)
            .expect("an assignment makes no error");

        // One Gwei of churn for exits, the rest for consolidations.
        context.min_per_epoch_churn_limit_electra = churn + 1;
        context.max_per_epoch_activation_exit_churn_limit = 1;
        state.consolidation_balance_to_consume = Number::from(given.left);
        state.earliest_consolidation_epoch = Number::from(given.earliest) + later;
        let consolidation = compute_consolidation_epoch_and_update_churn(&mut state, amount, &context)
            .expect("an assignment makes no error");

        [
            (state.exit_balance_to_consume.into(), (exit - later).into()),
            (state.consolidation_balance_to_consume.into(), (consolidation - later).into()),
        ]
    }))
    .ok()
}
