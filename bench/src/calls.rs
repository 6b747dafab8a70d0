//! Each public call, as the library's function and as the commit's.
use crate::books::{credentials, key, ADDRESS, EPOCH, G, ROOM};
use oracle::engine::narrow::State;
use rules64::{
    electra::{self as rust, Context},
    primitives::{BlsSignature, ByteVector},
    ssz::prelude::List,
};
use solarbasil::{Books, Refused, Withdrawal};
use std::hint::black_box;

pub type Payload = rust::ExecutionPayload<0, 0, 0, 0, 16, 0, 0>;

/// A call's name, the library's call and the commit's; each says whether it was done.
pub struct Pair {
    pub name: &'static str,
    pub ours: Box<dyn Fn(&mut Books) -> bool>,
    pub rust: Box<dyn Fn(&mut State, &Context) -> bool>,
}

fn pair(
    name: &'static str,
    ours: impl Fn(&mut Books) -> bool + 'static,
    rust: impl Fn(&mut State, &Context) -> bool + 'static,
) -> Pair {
    Pair { name, ours: Box::new(ours), rust: Box::new(rust) }
}

const GOOD: BlsSignature = BlsSignature { good: true };

/// The calls on books of so many validators; `list` is the expected list.
pub fn pairs(count: u64, list: Vec<Withdrawal>) -> Vec<Pair> {
    let last = count - 1;
    let payload = Payload { withdrawals: List(list.iter().map(record).collect()) };
    let receipt = rust::DepositReceipt {
        public_key: ByteVector(key(last)),
        withdrawal_credentials: ByteVector(credentials(1)),
        amount: G,
        signature: GOOD,
        index: 7,
    };
    let message = rust::VoluntaryExit { epoch: EPOCH, validator_index: last as usize };
    let exit = rust::SignedVoluntaryExit { message, signature: GOOD };
    let request = rust::ExecutionLayerWithdrawalRequest {
        source_address: ByteVector(ADDRESS),
        validator_public_key: ByteVector(key(last)),
        amount: G,
    };
    let message =
        rust::Consolidation { source_index: last as usize, target_index: last as usize - 1, epoch: EPOCH };
    let consolidation = rust::SignedConsolidation { message, signature: GOOD };
    vec![
        pair(
            "reward",
            move |b| b.reward(last, G).is_ok(),
            move |s, _| {
                rust::increase_balance(s, last as usize, G);
                true
            },
        ),
        pair(
            "penalty",
            move |b| b.penalty(last, G).is_ok(),
            move |s, _| {
                rust::decrease_balance(s, last as usize, G);
                true
            },
        ),
        pair(
            "process_deposit_receipt",
            move |b| b.process_deposit_receipt(&key(last), &credentials(1), G, 7, true).is_ok(),
            move |s, c| rust::process_deposit_receipt(s, &receipt, c).is_ok(),
        ),
        pair(
            "process_voluntary_exit",
            move |b| b.process_voluntary_exit(last, EPOCH, true).is_ok(),
            move |s, c| rust::process_voluntary_exit(s, &exit, c).is_ok(),
        ),
        pair(
            "process_execution_layer_withdrawal_request",
            move |b| b.process_execution_layer_withdrawal_request(&ADDRESS, &key(last), G).is_ok(),
            move |s, c| rust::process_execution_layer_withdrawal_request(s, &request, c).is_ok(),
        ),
        pair(
            "process_consolidation",
            move |b| b.process_consolidation(last, last - 1, EPOCH, true).is_ok(),
            move |s, c| rust::process_consolidation(s, &consolidation, c).is_ok(),
        ),
        pair(
            "get_expected_withdrawals",
            |b| black_box(b.get_expected_withdrawals()).is_ok(),
            |s, c| !black_box(rust::get_expected_withdrawals(s, c)).0.is_empty(),
        ),
        pair(
            "process_withdrawals",
            move |b| b.process_withdrawals(&list).is_ok(),
            move |s, c| rust::process_withdrawals(s, &payload, c).is_ok(),
        ),
        pair(
            "process_pending_balance_deposits",
            |b| b.process_pending_balance_deposits().is_ok(),
            |s, c| rust::process_pending_balance_deposits(s, c).is_ok(),
        ),
        pair(
            "process_pending_consolidations",
            |b| b.process_pending_consolidations().is_ok(),
            |s, c| rust::process_pending_consolidations(s, c).is_ok(),
        ),
        pair(
            "process_effective_balance_updates",
            |b| b.process_effective_balance_updates().is_ok(),
            |s, c| {
                rust::process_effective_balance_updates(s, c);
                true
            },
        ),
        pair("turn", |b| b.turn().is_ok(), turn),
        pair("total", |b| black_box(b.total()).is_ok(), |s, _| black_box(sum(s)) > 0),
    ]
}

/// The tests of what is handed in alone: a penalty of a validator that no books have is refused right after them.
pub fn refused(books: &mut Books) {
    assert!(books.penalty(ROOM, 1) == Err(Refused(10)), "a penalty of no validator was not refused");
}

/// A withdrawal as the commit holds it.
pub fn record(w: &Withdrawal) -> rust::Withdrawal {
    rust::Withdrawal {
        index: w.index as usize,
        validator_index: w.validator_index as usize,
        address: ByteVector(w.address),
        amount: w.amount,
    }
}

/// Document 01's turn, of the commit's three steps.
fn turn(state: &mut State, context: &Context) -> bool {
    let done = rust::process_pending_balance_deposits(state, context).is_ok()
        && rust::process_pending_consolidations(state, context).is_ok();
    rust::process_effective_balance_updates(state, context);
    state.slot += 1;
    done
}

/// The commit has no total: a plain sum stands beside the library's.
pub fn sum(state: &State) -> u64 {
    let waiting: u64 = state.pending_balance_deposits.iter().map(|deposit| deposit.amount).sum();
    state.balances.iter().sum::<u64>() + waiting
}
