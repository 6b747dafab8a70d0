//! The functions that the text calls and that docs/src does not hold, as document 01 gives them.
use crate::{
    electra::BeaconState,
    phase0::Validator,
    primitives::{
        BlsPublicKey, BlsSignature, Domain, DomainType, Epoch, Gwei, Root, ValidatorIndex, Version,
        FAR_FUTURE_EPOCH,
    },
    state_transition::Context,
    trace::{self, Choice},
    Error,
};

/// The branches counted in this file.
pub const BRANCHES: &[&str] = &[
    "given::is_active_validator:1a",
    "given::is_active_validator:1b",
    "given::get_total_active_balance:1",
    "given::decrease_balance:1",
];

/// activation <= epoch < exit
pub fn is_active_validator(validator: &Validator, epoch: Epoch) -> bool {
    trace::test("given::is_active_validator:1a", validator.activation_epoch <= epoch)
        && trace::test("given::is_active_validator:1b", epoch < validator.exit_epoch)
}

/// epoch + 1 + the seed lookahead
pub fn compute_activation_exit_epoch(epoch: Epoch, context: &Context) -> Epoch {
    epoch + 1 + context.max_seed_lookahead
}

/// A good signature is the flag handed in with the call.
fn verify(signature: &BlsSignature) -> Result<(), Error> {
    if signature.good {
        Ok(())
    } else {
        Err(Error::Signature)
    }
}

pub fn verify_signed_data<T>(
    _data: &T,
    signature: &BlsSignature,
    _public_key: &BlsPublicKey,
    _domain: Domain,
) -> Result<(), Error> {
    verify(signature)
}

pub fn fast_aggregate_verify(
    _public_keys: &[&BlsPublicKey],
    _root: &[u8],
    signature: &BlsSignature,
) -> Result<(), Error> {
    verify(signature)
}

pub fn compute_domain(
    _domain_type: DomainType,
    _fork_version: Option<Version>,
    _genesis_validators_root: Option<Root>,
    _context: &Context,
) -> Result<Domain, Error> {
    Ok([0; 32])
}

pub fn compute_signing_root<T>(_data: &T, _domain: Domain) -> Result<Root, Error> {
    Ok([0; 32])
}

/// Declares a function over a state with any of its thirteen const generics.
macro_rules! over_state {
    ($(
        $(#[$attribute:meta])*
        fn $name:ident($state:ident: [$($reference:tt)+], $($parameter:ident: $kind:ty),*) -> $result:ty $body:block
    )+) => {$(
        $(#[$attribute])*
        pub fn $name<
            const A: usize, const B: usize, const C: usize, const D: usize, const E: usize,
            const F: usize, const G: usize, const H: usize, const I: usize, const J: usize,
            const K: usize, const L: usize, const M: usize,
        >(
            $state: $($reference)+ BeaconState<A, B, C, D, E, F, G, H, I, J, K, L, M>,
            $($parameter: $kind),*
        ) -> $result $body
    )+};
}

over_state! {
    fn get_current_epoch(state: [&], context: &Context) -> Epoch {
        state.slot / context.slots_per_epoch
    }

    /// the sum of active effective balances, at least one increment
    fn get_total_active_balance(state: [&], context: &Context) -> Result<Gwei, Error> {
        let epoch = get_current_epoch(state, context);
        let mut total: Gwei = 0;
        for validator in state.validators.iter().filter(|v| is_active_validator(v, epoch)) {
            total = total.checked_add(validator.effective_balance).ok_or(Error::Overflow)?;
        }
        Ok(total.traced_max("given::get_total_active_balance:1", context.effective_balance_increment))
    }

    /// increase adds
    fn increase_balance(state: [&mut], index: ValidatorIndex, delta: Gwei) -> () {
        state.balances[index] += delta;
    }

    /// decrease stops at 0
    fn decrease_balance(state: [&mut], index: ValidatorIndex, delta: Gwei) -> () {
        let taken = delta.traced_min("given::decrease_balance:1", state.balances[index]);
        state.balances[index] -= taken;
    }

    fn is_eligible_for_activation(state: [&], validator: &Validator) -> bool {
        validator.activation_eligibility_epoch <= state.finalized_checkpoint.epoch
            && validator.activation_epoch == FAR_FUTURE_EPOCH
    }
}
