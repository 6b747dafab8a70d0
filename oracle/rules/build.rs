//! Reads the files of docs/src, cuts what the rules do not need, applies the chosen mends and
//! writes the texts to OUT_DIR, where src/lib.rs includes them.
//!
//! DOCS_SRC: where docs/src is; a relative path counts from the repository's root.
//! UNMENDED: the mends left out, comma-separated, or `all`; empty: every place is mended.
//! TRACED: `1` wraps the branches of the wide text in counters.
use std::{
    env, fs,
    path::{Path, PathBuf},
};

#[path = "build/mends.rs"]
mod mends;
#[path = "build/text.rs"]
mod text;
#[path = "build/trace.rs"]
mod trace;

use text::{cut_function, cut_struct, drop_imports, drop_serialisation, replace};

const DEFAULT_DOCS_SRC: &str = "../shared/docs/src";

fn main() {
    for name in ["DOCS_SRC", "UNMENDED", "TRACED"] {
        println!("cargo:rerun-if-env-changed={name}");
    }
    let wide = env::var("CARGO_PKG_NAME").expect("package name") == "rules_wide";
    let traced = wide && env::var("TRACED").is_ok_and(|value| value == "1");
    set_cfg("wide", wide);
    set_cfg("traced", traced);

    let mends = mends::chosen(&env::var("UNMENDED").unwrap_or_default());
    let names: Vec<&str> = mends.iter().map(|mend| mend.name).collect();
    println!("cargo:rustc-env=RULES_MENDED={}", names.join(" "));

    let out = PathBuf::from(env::var("OUT_DIR").expect("OUT_DIR"));
    let mut branches = vec![];
    for (file, edit) in FILES {
        let mut text = mended(file, &edit(&source_text(file)), wide, &mends);
        if traced {
            let generation = file.split('/').next().expect("a folder");
            text = trace::wrap_functions(&text, generation);
            branches.extend(trace::names(&text));
        }
        fs::write(out.join(file.replace('/', "_")).with_extension("rs"), text).expect("write text");
    }
    fs::write(out.join("branches.txt"), branches.join("\n")).expect("write branches");
}

fn set_cfg(name: &str, on: bool) {
    println!("cargo:rustc-check-cfg=cfg({name})");
    if on {
        println!("cargo:rustc-cfg={name}");
    }
}

fn source_text(file: &str) -> String {
    let path = docs_src().join("ethereum-consensus/src").join(file).with_extension("rs");
    println!("cargo:rerun-if-changed={}", path.display());
    fs::read_to_string(&path).unwrap_or_else(|e| panic!("{}: {e}", path.display()))
}

fn mended(file: &str, text: &str, wide: bool, mends: &[&mends::Mend]) -> String {
    let mut text = if wide { widen(file, text) } else { text.to_string() };
    for mend in mends {
        for step in mend.steps {
            assert!(FILES.iter().any(|(name, _)| *name == step.file), "{}: no such file", mend.name);
            if step.file == file {
                text = replace(&text, step.old, step.new, step.count, mend.name);
            }
        }
    }
    text
}

fn docs_src() -> PathBuf {
    let root = Path::new(env!("CARGO_MANIFEST_DIR")).join("../..");
    root.join(env::var("DOCS_SRC").unwrap_or_else(|_| DEFAULT_DOCS_SRC.into()))
}

/// In whole numbers `Gwei` is no longer `u64`: the two calls of `u64::min` follow it.
fn widen(file: &str, text: &str) -> String {
    match file {
        "electra/block_processing" => replace(text, "u64::min(", "Gwei::min(", 2, "wide minimum"),
        _ => text.to_string(),
    }
}

/// Each file of docs/src that is compiled, and what is cut from it.
const FILES: &[(&str, fn(&str) -> String)] = &[
    ("capella/helpers", str::to_string),
    ("capella/withdrawal", |text| drop_serialisation(text, 1, 3, "withdrawal")),
    ("phase0/validator", edit_validator),
    ("electra/beacon_state", |text| drop_serialisation(text, 6, 28, "beacon state")),
    ("electra/operations", edit_operations),
    ("electra/helpers", edit_helpers),
    ("electra/epoch_processing", edit_epoch_processing),
    ("electra/block_processing", edit_block_processing),
];

fn edit_validator(text: &str) -> String {
    let mut text = text.to_string();
    for name in ["Eth1Block", "AggregateAndProof", "SignedAggregateAndProof"] {
        text = cut_struct(&text, name);
    }
    let text = replace(&text, "    phase0::operations::Attestation,\n", "", 1, "validator import");
    drop_serialisation(&text, 1, 6, "validator")
}

fn edit_operations(text: &str) -> String {
    let mut text = text.to_string();
    for name in ["AttesterSlashing", "IndexedAttestation", "Attestation"] {
        text = cut_struct(&text, name);
    }
    let text = replace(&text, "    phase0::AttestationData,\n", "", 1, "operations import");
    drop_serialisation(&text, 2, 3, "operations")
}

/// Left out: committees and slashing.
fn edit_helpers(text: &str) -> String {
    let functions =
        ["get_committee_indices", "get_attesting_indices", "get_indexed_attestation", "slash_validator"];
    let text = functions.iter().fold(text.to_string(), |text, name| cut_function(&text, name));
    let imports = ["get_beacon_committee", "get_beacon_proposer_index", "Attestation", "IndexedAttestation"];
    drop_imports(&text, &imports)
}

/// Left out: the whole epoch, whose other steps are not in docs/src.
fn edit_epoch_processing(text: &str) -> String {
    let imports = [
        "process_eth1_data_reset",
        "process_historical_summaries_update",
        "process_inactivity_updates",
        "process_justification_and_finalization",
        "process_participation_flag_updates",
        "process_randao_mixes_reset",
        "process_rewards_and_penalties",
        "process_slashings",
        "process_slashings_reset",
        "process_sync_committee_updates",
    ];
    drop_imports(&cut_function(text, "process_epoch"), &imports)
}

/// Left out: payloads, attestations and the list of operations. The limit of the partial queue,
/// a const generic of the state, becomes a number of the context.
fn edit_block_processing(text: &str) -> String {
    let functions = ["process_execution_payload", "process_operations", "process_attestation"];
    let text = functions.iter().fold(text.to_string(), |text, name| cut_function(&text, name));
    let imports = [
        "add_flag",
        "compute_epoch_at_slot",
        "compute_timestamp_at_slot",
        "get_attestation_participation_flag_indices",
        "get_attesting_indices",
        "get_base_reward",
        "get_beacon_committee",
        "get_beacon_proposer_index",
        "get_committee_count_per_slot",
        "get_committee_indices",
        "get_indexed_attestation",
        "get_previous_epoch",
        "get_randao_mix",
        "has_flag",
        "is_valid_indexed_attestation",
        "kzg_commitment_to_versioned_hash",
        "process_attester_slashing",
        "process_bls_to_execution_change",
        "process_deposit",
        "process_proposer_slashing",
        "Attestation",
        "BeaconBlockBody",
        "ExecutionPayloadHeader",
        "InvalidAttestation",
        "InvalidDeposit",
        "InvalidExecutionPayload",
        "NewPayloadRequest",
        "PARTICIPATION_FLAG_WEIGHTS",
        "PROPOSER_WEIGHT",
        "WEIGHT_DENOMINATOR",
    ];
    let text = drop_imports(&text, &imports);
    let text = replace(
        &text,
        "    execution_engine::ExecutionEngine,\n    ssz::prelude::HashTreeRoot,\n",
        "",
        1,
        "block imports",
    );
    replace(
        &text,
        "== PENDING_PARTIAL_WITHDRAWALS_LIMIT &&",
        "== context.pending_partial_withdrawals_limit &&",
        1,
        "limit of the partial queue",
    )
}
