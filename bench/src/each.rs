//! Each public call: the library's whole call, its tests alone, and the Rust.
use crate::{
    books::{make, Both},
    calls::{pairs, refused, Pair},
    times::{median, rounds, short, timed, timed_on, Times},
    VALIDATORS,
};
use std::hint::black_box;

// Two of the three sides; the tests are between them.
const WHOLE: usize = 0;
const RUST: usize = 2;

pub fn calls(count: usize) {
    println!("\n## Each call\n");
    println!("| call | validators | library, µs | Rust, µs | library / Rust | tests, µs | core, µs | core / Rust |");
    println!("|---|---:|---:|---:|---:|---:|---:|---:|");
    let subjects = VALIDATORS.map(Subject::new);
    let names = subjects[0].pairs.iter().map(|pair| pair.name);
    let measured: Vec<_> =
        names.enumerate().map(|(i, name)| (name, subjects.each_ref().map(|s| s.row(i, count)))).collect();
    assignment(count);
    println!("\n{LEGEND}");
    growth(&measured);
}

const LEGEND: &str = "\
library: the whole call, with all its tests of settings, buffers and books. Rust: the commit's function, mended, which
has no such tests. tests: a penalty of a validator that is not there, which is refused right after the tests. In each
round each of the three is timed once, right after a fresh copy of the books is made for it; they take turns in all six
orders. core: the median of the library less that of the tests. It works on what the tests have just read, and would
take longer alone on a fresh copy. Where it is below 0 it is lost in the spread of the two medians. The library's tables
have room for 65,536 records whatever the count, so that its copy is 12 MB and pushes part of itself out of the caches;
the Rust's is as long as its records, which favours the Rust on few validators.";

/// Books of so many validators on both sides, and the calls on them.
struct Subject {
    validators: u64,
    both: Both,
    pairs: Vec<Pair>,
}

impl Subject {
    fn new(validators: u64) -> Self {
        let both = make(validators);
        both.agree("the opening books");
        let list = both.ours.get_expected_withdrawals().expect("an expected list").list;
        Subject { validators, pairs: pairs(validators, list), both }
    }

    /// Measures a call and prints its row; gives the medians.
    fn row(&self, position: usize, count: usize) -> [f64; 3] {
        let pair = &self.pairs[position];
        check(&self.both, pair);
        let times = measure(&self.both, pair, count);
        print(pair.name, self.validators, &times);
        times.medians()
    }
}

/// Both sides do the call and leave the same.
fn check(both: &Both, pair: &Pair) {
    let mut after = both.clone();
    let done = (pair.ours)(&mut after.ours) && (pair.rust)(&mut after.state, &after.context);
    assert!(done, "{}: refused", pair.name);
    after.agree(pair.name);
}

fn measure(both: &Both, pair: &Pair, count: usize) -> Times {
    let mut whole = || timed_on(both.ours.clone(), |books| (pair.ours)(books));
    let mut tests = || timed_on(both.ours.clone(), refused);
    let mut rust = || timed_on(both.fresh_state(), |state| (pair.rust)(state, &both.context));
    rounds(count, [&mut whole, &mut tests, &mut rust])
}

fn print(name: &str, validators: u64, times: &Times) {
    let [whole, tests, rust] = times.medians();
    let core = whole - tests;
    let of_rust = short(core / rust);
    let [whole, tests, rust, core] = [whole, tests, rust, core].map(short);
    let ratio = times.ratio(WHOLE, RUST);
    println!("| `{name}` | {validators} | {whole} | {rust} | {ratio} | {tests} | {core} | {of_rust} |");
}

/// The bare assignment looks at no books; the commit computes it in the midst of others.
fn assignment(count: usize) {
    const CALLS: u64 = 10_000;
    let all = || {
        for amount in 0..CALLS {
            let given = solarbasil::epoch_assignment(0, 5, 6, 7, black_box(amount));
            black_box(given).expect("an assignment");
        }
    };
    let times: Vec<f64> = (0..count).map(|_| timed(all) / CALLS as f64).collect();
    println!("| `epoch_assignment` | | {:.4} | | | | | |", median(&times));
}

/// The medians as multiples of those on the fewest validators.
fn growth(measured: &[(&str, [[f64; 3]; 3])]) {
    let [few, more, most] = VALIDATORS;
    println!("\n## How the cost grows\n");
    println!(
        "Times the cost on {few} validators; {more} are {} times as many, {most} are {}.\n",
        more / few,
        most / few
    );
    println!("| call | library, {more} | library, {most} | Rust, {more} | Rust, {most} |");
    println!("|---|---:|---:|---:|---:|");
    for (name, [few, more, most]) in measured {
        let [more, most] = [more, most].map(|medians| [0, 1, 2].map(|side| short(medians[side] / few[side])));
        println!("| `{name}` | {} | {} | {} | {} |", more[WHOLE], most[WHOLE], more[RUST], most[RUST]);
    }
}
