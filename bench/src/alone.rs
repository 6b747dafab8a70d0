//! The tests of what is handed in alone, on a fresh copy of the books and on the same books again and again, beside a
//! plain sum of the words that they read.
use crate::{
    books::{make, ROOM},
    calls::refused,
    times::{median, rounds, short, timed, timed_on},
    VALIDATORS,
};
use solarbasil::Books;
use std::hint::black_box;

/// How often each is done on the same books, one call right after the other.
const CALLS: usize = 2_001;

/// From this balance on the tests go through the validators a second time, one by one.
const LARGE: u64 = 1 << 46;

pub fn tests(count: usize) {
    println!("\n## The tests alone\n");
    println!("| what | validators | bytes of their words | on a fresh copy, µs | on the same books, µs |");
    println!("|---|---:|---:|---:|---:|");
    VALIDATORS.into_iter().for_each(|validators| rows(validators, count));
    println!("\n{LEGEND}");
}

const LEGEND: &str = "\
refused penalty: of a validator that is not there, so that the tests are all that is done. with a large balance: the
last validator has 2^46 Gwei; the tests then go through the validators a second time, one by one. plain sum: all words
of the validators' table added up with no test, its seven columns side by side, as the tests read them. on a fresh copy:
made right before each, as for the calls above. on the same books: the median of 2,001, one right after the other.";

fn rows(validators: u64, count: usize) {
    let mut usual = make(validators).ours;
    let mut large = with_large_balance(&usual, validators - 1);
    let mut tables = Tables::new();
    let mut on_usual = || timed_on(usual.clone(), refused);
    let mut on_large = || timed_on(large.clone(), refused);
    let mut on_tables = || timed_on(tables.clone(), |tables| tables.sum(validators));
    let fresh = rounds(count, [&mut on_usual, &mut on_large, &mut on_tables]).medians().map(short);
    let again = [
        again(|| refused(black_box(&mut usual))),
        again(|| refused(black_box(&mut large))),
        again(|| black_box(&mut tables).sum(validators)),
    ]
    .map(short);
    let names = ["refused penalty", "refused penalty, with a large balance", "plain sum"];
    for (side, name) in names.iter().enumerate() {
        println!("| {name} | {validators} | {} | {} | {} |", 7 * 8 * validators, fresh[side], again[side]);
    }
}

fn with_large_balance(books: &Books, validator: u64) -> Books {
    let mut books = books.clone();
    let balance = books.validators()[validator as usize].balance;
    books.reward(validator, LARGE - balance).expect("a reward");
    books
}

fn again<T>(mut work: impl FnMut() -> T) -> f64 {
    let times: Vec<f64> = (0..CALLS).map(|_| timed(&mut work)).collect();
    median(&times)
}

/// Buffers as long as those of the books and in their order, so that a copy of these leaves the caches as a copy of
/// books does: identities of ten words, validators of seven, deposits, partials and consolidations.
#[derive(Clone)]
struct Tables([Vec<u64>; 5]);

impl Tables {
    fn new() -> Tables {
        Tables([10, 7, 2, 3, 2].map(|width| vec![1; width * ROOM as usize]))
    }

    /// The words of so many validators: that much of each of the seven columns, side by side.
    fn sum(&self, validators: u64) -> u64 {
        let column = |number: usize| &self.0[1][number * ROOM as usize..][..validators as usize];
        let [a, b, c, d, e, f, g] = [0, 1, 2, 3, 4, 5, 6].map(column);
        (0..validators as usize).map(|i| a[i] + b[i] + c[i] + d[i] + e[i] + f[i] + g[i]).sum()
    }
}
