//! The places where the text of the commit is mended, one entry a place. An entry may need more
//! than one step. A request that changes the rules adds an entry here, or changes one.

pub struct Step {
    /// path below ethereum-consensus/src, without `.rs`
    pub file: &'static str,
    pub old: &'static str,
    pub new: &'static str,
    /// how often `old` must stand in the text
    pub count: usize,
}

pub struct Mend {
    pub name: &'static str,
    pub steps: &'static [Step],
}

const BLOCK: &str = "electra/block_processing";
const HELPERS: &str = "electra/helpers";

pub const MENDS: &[Mend] = &[
    // A partial withdrawal needs an effective balance of at least the minimum.
    Mend {
        name: "place-1",
        steps: &[Step {
            file: BLOCK,
            old: "validator.effective_balance > context.min_activation_balance;",
            new: "validator.effective_balance >= context.min_activation_balance;",
            count: 1,
        }],
    },
    // The record of a partial withdrawal names the entry's validator.
    Mend {
        name: "place-2",
        steps: &[Step {
            file: BLOCK,
            old: "                validator_index,\n                address: withdrawal_address,\n                \
                  amount: withdrawable_balance,",
            new: "                validator_index: withdrawal.index,\n                \
                  address: withdrawal_address,\n                amount: withdrawable_balance,",
            count: 1,
        }],
    },
    // After a full list the cursor follows the last record's validator.
    Mend {
        name: "place-3",
        steps: &[Step {
            file: BLOCK,
            old: "(latest.index + 1) % state.validators.len()",
            new: "(latest.validator_index + 1) % state.validators.len()",
            count: 1,
        }],
    },
    // Consolidation epochs use the consolidation churn.
    Mend {
        name: "place-4",
        steps: &[Step {
            file: HELPERS,
            old: "get_activation_exit_churn_limit(state, context)?;\n    \
                  let mut consolidation_balance_to_consume =",
            new: "get_consolidation_churn_limit(state, context)?;\n    \
                  let mut consolidation_balance_to_consume =",
            count: 1,
        }],
    },
    // A consolidated source is withdrawable the delay after its new exit epoch.
    Mend {
        name: "place-5",
        steps: &[Step {
            file: BLOCK,
            old: "source_validator.exit_epoch + context.min_validator_withdrawability_delay;",
            new: "state.validators[consolidation.source_index].exit_epoch +\n            \
                  context.min_validator_withdrawability_delay;",
            count: 1,
        }],
    },
    // A voluntary exit counts from the activation epoch.
    Mend {
        name: "place-6",
        steps: &[Step {
            file: BLOCK,
            old: "validator.activation_eligibility_epoch + context.shard_committee_period;",
            new: "validator.activation_epoch + context.shard_committee_period;",
            count: 1,
        }],
    },
    // A deposit with a bad signature is set aside: no error. The check stands twice.
    Mend {
        name: "place-7",
        steps: &[
            Step {
                file: BLOCK,
                old: "\n        is_valid_deposit_signature(\n            public_key,\n            \
                      withdrawal_credentials.clone(),\n            amount,\n            signature,\n            \
                      context,\n        )?;\n",
                new: "\n        if is_valid_deposit_signature(\n            public_key,\n            \
                      withdrawal_credentials.clone(),\n            amount,\n            signature,\n            \
                      context,\n        )\n        .is_err()\n        {\n            return Ok(());\n        }\n",
                count: 1,
            },
            Step {
                file: BLOCK,
                old: "\n    is_valid_deposit_signature(\n        public_key,\n        \
                      withdrawal_credentials.clone(),\n        amount,\n        signature,\n        \
                      context,\n    )?;\n",
                new: "\n    if is_valid_deposit_signature(\n        public_key,\n        \
                      withdrawal_credentials.clone(),\n        amount,\n        signature,\n        \
                      context,\n    )\n    .is_err()\n    {\n        return Ok(());\n    }\n",
                count: 1,
            },
        ],
    },
];

/// The mends to apply: all but those named in `unmended` (comma-separated, or `all`).
pub fn chosen(unmended: &str) -> Vec<&'static Mend> {
    if unmended == "all" {
        return vec![];
    }
    let left: Vec<&str> = unmended.split(',').filter(|name| !name.is_empty()).collect();
    for name in &left {
        assert!(MENDS.iter().any(|mend| mend.name == *name), "UNMENDED: no mend is named {name}");
    }
    MENDS.iter().filter(|mend| !left.contains(&mend.name)).collect()
}
