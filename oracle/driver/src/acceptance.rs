//! What document 01 accepts, written as lists of faults: settings and books are sound where the
//! list is empty. The names of the faults serve the coverage table.
use crate::books::{scalar, setting, Books, Settings, BOUND, FAR};

/// The names whose fault is present.
fn present(faults: &[(&'static str, bool)]) -> Vec<&'static str> {
    faults.iter().filter(|(_, is_present)| *is_present).map(|(name, _)| *name).collect()
}

/// Answer 1 where there is one.
pub fn settings_faults(settings: &Settings) -> Vec<&'static str> {
    let value = |position: usize| settings[position];
    let zero = |position: usize| settings[position] == 0;
    let limits = &settings[setting::REGISTRY_LIMIT..=setting::CONSOLIDATIONS_LIMIT];
    present(&[
        ("one of the first five above 2^44", settings[0..5].iter().any(|&v| v > 1 << 44)),
        ("one of the next ten above 2^16", settings[5..15].iter().any(|&v| v > 1 << 16)),
        ("increment 0", zero(setting::EFFECTIVE_BALANCE_INCREMENT)),
        ("minimum churn 0", zero(setting::MIN_CHURN)),
        ("greatest activation-exit churn 0", zero(setting::MAX_ACTIVATION_EXIT_CHURN)),
        ("churn quotient 0", zero(setting::CHURN_QUOTIENT)),
        ("hysteresis quotient 0", zero(setting::HYSTERESIS_QUOTIENT)),
        ("payload 0", zero(setting::WITHDRAWALS_PER_PAYLOAD)),
        ("sweep 0", zero(setting::VALIDATORS_PER_SWEEP)),
        (
            "increment above minimum churn",
            value(setting::EFFECTIVE_BALANCE_INCREMENT) > value(setting::MIN_CHURN),
        ),
        (
            "first setting above second",
            value(setting::MIN_ACTIVATION_BALANCE) > value(setting::MAX_EFFECTIVE_BALANCE),
        ),
        (
            "partials not below payload",
            value(setting::PARTIALS_PER_SWEEP) >= value(setting::WITHDRAWALS_PER_PAYLOAD),
        ),
        ("payload above 16", value(setting::WITHDRAWALS_PER_PAYLOAD) > 16),
        ("a limit 0", limits.contains(&0)),
        ("a limit above 65,536", limits.iter().any(|&limit| limit > 65_536)),
    ])
}

/// Answer 3 where it is true.
pub fn buffers_short(settings: &Settings, buffers: u64) -> bool {
    settings[setting::REGISTRY_LIMIT..=setting::CONSOLIDATIONS_LIMIT].iter().any(|&limit| limit > buffers)
}

/// Answer 2 where there is one.
pub fn books_faults(books: &Books) -> Vec<&'static str> {
    let count = books.validators.len() as u128;
    let above = |length: usize, limit: usize| length as u64 > books.settings[limit];
    let over_epoch = |epoch: u128| epoch > BOUND && epoch != FAR;
    let over_scalar = |position: usize| books.scalars[position] > BOUND;
    let any_validator = |fault: &dyn Fn(&crate::books::Validator) -> bool| books.validators.iter().any(fault);
    present(&[
        ("no validator", books.validators.is_empty()),
        ("validators above the limit", above(books.validators.len(), setting::REGISTRY_LIMIT)),
        ("deposits above the limit", above(books.deposits.len(), setting::DEPOSITS_LIMIT)),
        ("partials above the limit", above(books.partials.len(), setting::PARTIALS_LIMIT)),
        ("consolidations above the limit", above(books.consolidations.len(), setting::CONSOLIDATIONS_LIMIT)),
        ("cursor not below the count", count > 0 && books.scalars[scalar::CURSOR] >= count),
        (
            "a deposit's index not below the count",
            books.deposits.iter().any(|deposit| deposit.index >= count),
        ),
        (
            "a partial's index not below the count",
            books.partials.iter().any(|partial| partial.index >= count),
        ),
        ("a source not below the count", books.consolidations.iter().any(|entry| entry.source >= count)),
        ("a target not below the count", books.consolidations.iter().any(|entry| entry.target >= count)),
        (
            "an effective balance above the second setting",
            any_validator(&|v| v.effective > books.settings[setting::MAX_EFFECTIVE_BALANCE] as u128),
        ),
        ("epoch above 2^62", over_scalar(scalar::EPOCH)),
        ("withdrawal index above 2^62", over_scalar(scalar::NEXT_WITHDRAWAL_INDEX)),
        ("carry above 2^62", over_scalar(scalar::CARRY)),
        ("exit rest above 2^62", over_scalar(scalar::EXIT_LEFT)),
        ("earliest exit epoch above 2^62", over_scalar(scalar::EARLIEST_EXIT_EPOCH)),
        ("consolidation rest above 2^62", over_scalar(scalar::CONSOLIDATION_LEFT)),
        ("earliest consolidation epoch above 2^62", over_scalar(scalar::EARLIEST_CONSOLIDATION_EPOCH)),
        ("an eligibility epoch above 2^62", any_validator(&|v| over_epoch(v.eligibility))),
        ("an activation epoch above 2^62", any_validator(&|v| over_epoch(v.activation))),
        ("an exit epoch above 2^62", any_validator(&|v| over_epoch(v.exit))),
        ("a withdrawable epoch above 2^62", any_validator(&|v| over_epoch(v.withdrawable))),
        ("a partial's epoch above 2^62", books.partials.iter().any(|partial| over_epoch(partial.epoch))),
        ("balances plus waiting deposits above 2^62", books.total() > BOUND),
        ("partial amounts above 2^62", books.partial_sum() > BOUND),
    ])
}

/// The tests before a call's own: 1, 3, 2, or 0.
pub fn judge(books: &Books, buffers: u64) -> u32 {
    if !settings_faults(&books.settings).is_empty() {
        1
    } else if buffers_short(&books.settings, buffers) {
        3
    } else if !books_faults(books).is_empty() {
        2
    } else {
        0
    }
}

/// The bounds that a result breaks, in the order of their answers; the first one decides.
pub fn result_faults(books: &Books) -> Vec<(u32, &'static str)> {
    let over_epoch = |epoch: u128| epoch > BOUND && epoch != FAR;
    let any_validator = |fault: &dyn Fn(&crate::books::Validator) -> bool| books.validators.iter().any(fault);
    let faults = [
        (
            40,
            "registry over its limit",
            books.validators.len() as u64 > books.settings[setting::REGISTRY_LIMIT],
        ),
        (
            40,
            "deposit queue over its limit",
            books.deposits.len() as u64 > books.settings[setting::DEPOSITS_LIMIT],
        ),
        (41, "balances plus waiting deposits over 2^62", books.total() > BOUND),
        (41, "partial amounts over 2^62", books.partial_sum() > BOUND),
        (42, "epoch over 2^62", over_epoch(books.scalars[scalar::EPOCH])),
        (42, "earliest exit epoch over 2^62", over_epoch(books.scalars[scalar::EARLIEST_EXIT_EPOCH])),
        (
            42,
            "earliest consolidation epoch over 2^62",
            over_epoch(books.scalars[scalar::EARLIEST_CONSOLIDATION_EPOCH]),
        ),
        (42, "a validator's exit epoch over 2^62", any_validator(&|v| over_epoch(v.exit))),
        (42, "a validator's withdrawable epoch over 2^62", any_validator(&|v| over_epoch(v.withdrawable))),
        (42, "a partial's epoch over 2^62", books.partials.iter().any(|partial| over_epoch(partial.epoch))),
        (
            42,
            "a validator's eligibility or activation epoch over 2^62",
            any_validator(&|v| over_epoch(v.eligibility) || over_epoch(v.activation)),
        ),
        (42, "withdrawal index over 2^62", books.scalars[scalar::NEXT_WITHDRAWAL_INDEX] > BOUND),
    ];
    faults.into_iter().filter(|(_, _, is_present)| *is_present).map(|(no, name, _)| (no, name)).collect()
}
