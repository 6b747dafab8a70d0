//! Each public call on the same books, by the static library with all its tests of what is handed in, and by the mended
//! Rust, which has no such tests, in one process; then the tests alone, and the two files. Prints tables and what their
//! columns say.
//!
//!     bench [ROUNDS]
mod alone;
mod books;
mod calls;
mod each;
mod files;
mod times;

use std::env;

const VALIDATORS: [u64; 3] = [1_024, 16_384, 65_536];

/// A multiple of six, so that the sides come equally often in each order.
const ROUNDS: usize = 102;

fn main() {
    let count = env::args().nth(1).map_or(ROUNDS, |text| text.parse().expect("a number of rounds"));
    assert!(count > 0, "no rounds");
    let clock = times::clock();
    println!("Times are medians of {count} rounds where nothing else is said; each includes {clock:.3} µs");
    println!("for reading the clock. A ratio is the median of the rounds' ratios, with their quartiles in brackets.");
    each::calls(count);
    alone::tests(count);
    files::books_files(count);
    files::calls_files(count);
}
