//! The two files: a books file read and written beside a plain copy and a plain sum of its bytes, and a calls file
//! carried out beside the commit's functions in a loop.
use crate::{
    books::{credentials, full, key, make, Both, ADDRESS, EPOCH, G},
    calls::sum,
    times::{rounds, short, timed, timed_on, Times},
    VALIDATORS,
};
use oracle::{
    books::{Call, Withdrawal},
    engine::narrow::{apply, State},
    file::write_calls,
};
use rules64::electra::Context;
use solarbasil::{Books, Line};
use std::hint::black_box;

/// Reading and writing, beside a plain copy of the file's bytes and a plain sum of them.
pub fn books_files(count: usize) {
    println!("\n## Books files\n");
    println!(
        "| call | books | bytes | library, ms | copy, ms | plain read, ms | library / copy | library / plain read |"
    );
    println!("|---|---|---:|---:|---:|---:|---:|---:|");
    for (name, books) in [("65536 validators", make(65_536).ours), ("65536 records of each kind", full())] {
        let file = books.write().expect("a books file");
        let mut opened = Books::open(&file).expect("books");
        assert!(opened == books, "{name}: the file reads to other books");
        // not of zeros, so that the pages are there
        let [mut out, mut written] = [vec![1; file.len()], vec![1; file.len()]];
        let mut copy = || timed(|| out.copy_from_slice(black_box(&file)));
        let mut add = || timed(|| sum_of_words(black_box(&file)));
        let mut read = || timed(|| opened.read(black_box(&file)).expect("books"));
        print("read_books", name, file.len(), &rounds(count, [&mut read, &mut copy, &mut add]));
        let mut write = || timed(|| black_box(&books).write_to(&mut written).expect("a books file"));
        print("write_books", name, file.len(), &rounds(count, [&mut write, &mut copy, &mut add]));
        assert!(written == file, "{name}: the file differs");
    }
    println!("\n{BOOKS_LEGEND}");
}

const BOOKS_LEGEND: &str = "\
copy: the file's bytes into another buffer. plain read: its bytes added up, eight at once as a number. Tables, file and
buffers are there before the first round, so that no page of memory is new.";

/// The bytes added up, eight at once as a number; what is left over behind the last eight is left out.
fn sum_of_words(bytes: &[u8]) -> u64 {
    let word = |eight: &[u8]| u64::from_ne_bytes(eight.try_into().expect("eight bytes"));
    bytes.chunks_exact(8).map(word).fold(0, u64::wrapping_add)
}

fn print(call: &str, books: &str, bytes: usize, times: &Times) {
    let [ours, copy, read] = times.medians().map(|time| short(time / 1000.0));
    let [of_copy, of_read] = [1, 2].map(|other| times.ratio(0, other));
    println!("| `{call}` | {books} | {bytes} | {ours} | {copy} | {read} | {of_copy} | {of_read} |");
}

/// How many calls the measured files have.
const CALLS: u64 = 1_000;

/// Such a file takes a thousand times as long as a call.
const MOST_ROUNDS: usize = 15;

/// A file of 1,000 calls beside the commit's functions in a loop.
pub fn calls_files(count: usize) {
    let count = count.min(MOST_ROUNDS);
    println!("\n## Calls files\n");
    println!(
        "| calls | validators | library, ms | Rust with sums, ms | Rust alone, ms | library / Rust with sums | \
         library / Rust alone |"
    );
    println!("|---|---:|---:|---:|---:|---:|---:|");
    for validators in VALIDATORS {
        let both = make(validators);
        let kinds = mixed(&both.ours, validators);
        for (name, calls) in [("1000 rewards", rewards(validators)), ("1000 of all kinds", kinds)] {
            let times = measure(&both, &calls, count);
            let [ours, sums, alone] = times.medians().map(|time| short(time / 1000.0));
            let [of_sums, of_alone] = [1, 2].map(|other| times.ratio(0, other));
            println!("| {name} | {validators} | {ours} | {sums} | {alone} | {of_sums} | {of_alone} |");
        }
    }
    println!("\n{CALLS_LEGEND}\nMedians of {count} rounds.");
}

const CALLS_LEGEND: &str = "\
library: a calls file carried out. Rust with sums: the commit's functions in a loop, and balances and waiting deposits
added up after each call, since the results of the library hold that sum. Rust alone: the loop without the sums.";

fn measure(both: &Both, calls: &[Call], count: usize) -> Times {
    let file = write_calls(calls);
    check(both, &file, calls);
    let mut ours = || timed_on(both.ours.clone(), |books| books.carry_out(black_box(&file)));
    let mut sums = || timed_on(both.fresh_state(), |state| with_sums(state, &both.context, black_box(calls)));
    let mut alone = || timed_on(both.fresh_state(), |state| in_loop(state, &both.context, black_box(calls)));
    rounds(count, [&mut ours, &mut sums, &mut alone])
}

fn in_loop(state: &mut State, context: &Context, calls: &[Call]) {
    calls.iter().for_each(|call| apply(state, call, context).expect("a call that is done"));
}

fn with_sums(state: &mut State, context: &Context, calls: &[Call]) -> Vec<u64> {
    let one = |call: &Call| {
        apply(state, call, context).expect("a call that is done");
        sum(state)
    };
    calls.iter().map(one).collect()
}

fn done(line: &Line) -> bool {
    line.answer == 0
}

/// Both sides leave the same books and the same sums, and every call is done.
fn check(both: &Both, file: &[u8], calls: &[Call]) {
    let mut after = both.clone();
    let lines = after.ours.carry_out(file).expect("a calls file");
    let sums = with_sums(&mut after.state, &both.context, calls);
    assert!(lines.iter().all(done), "a refused call");
    assert!(lines.iter().map(|line| line.total).eq(sums), "the sums differ");
    after.agree("a calls file");
}

fn rewards(validators: u64) -> Vec<Call> {
    (0..CALLS).map(|i| Call::Reward { validator: i * 7_919 % validators, amount: i }).collect()
}

/// Rewards, penalties, receipts, exits, requests, consolidations and withdrawals in turn, and a turn after every
/// hundred, each done on the books that the calls before it left.
fn mixed(opening: &Books, validators: u64) -> Vec<Call> {
    let mut books = opening.clone();
    let mut calls = vec![];
    while calls.len() < CALLS as usize {
        let call = next(&books, validators, calls.len() as u64);
        let lines = books.carry_out(&write_calls(&[call.clone()])).expect("a calls file");
        // where one cannot be done, a reward takes its place
        let done = done(&lines[0]);
        calls.push(if done { call } else { Call::Reward { validator: 0, amount: G } });
        if !done {
            books.reward(0, G).expect("a reward");
        }
    }
    calls
}

fn next(books: &Books, validators: u64, i: u64) -> Call {
    let validator = i * 7_919 % validators;
    if i % 100 == 99 {
        return Call::Turn;
    }
    match i % 7 {
        0 => Call::Reward { validator, amount: G },
        1 => Call::Penalty { validator, amount: G },
        2 => Call::Receipt {
            key: key(validator),
            credentials: credentials(1),
            amount: G,
            index: i,
            good: true,
        },
        3 => Call::Exit { validator, epoch: EPOCH, good: true },
        4 => Call::Request { address: ADDRESS, key: key(validator), amount: G },
        5 => Call::Consolidation {
            source: validator,
            target: (validator + 1) % validators,
            epoch: EPOCH,
            good: true,
        },
        _ => Call::Withdrawals(expected(books)),
    }
}

fn expected(books: &Books) -> Vec<Withdrawal> {
    let list = books.get_expected_withdrawals().expect("an expected list").list;
    let record = |w: &solarbasil::Withdrawal| Withdrawal {
        index: w.index,
        validator: w.validator_index,
        address: w.address,
        amount: w.amount,
    };
    list.iter().map(record).collect()
}
