//! Random calls, each carried out by the static library and by the mended Rust in one process. After each the answers,
//! the results and every word of the lent buffers are compared; the call's own buffers must be as they were.
mod both;
mod dice;
#[path = "../../../interface/rust/src/ffi.rs"]
mod ffi;
mod input;
mod lent;
mod maker;
mod options;
mod shrink;
mod step;
mod tally;
mod text;

use both::Position;
use input::Input;
use maker::Maker;
use options::{Mode, Options};
use std::{path::Path, process::exit};
use tally::Tally;

/// After so many differing cases a run ends.
const MOST_DIFFERENCES: u64 = 10;

fn main() {
    both::hush();
    let options = options::read();
    let differences = match &options.mode {
        Mode::Again(folder) => again(folder),
        Mode::Random { count, seed, case } => random(&options, *count, *seed, *case),
    };
    if differences > 0 {
        exit(1);
    }
}

/// So many random calls, or one case.
fn random(options: &Options, count: u64, seed: u64, case: Option<u64>) -> u64 {
    let mut tally = Tally::default();
    if let Some(case) = case {
        run_case(options, (seed, case), u64::MAX, &mut tally);
    } else {
        while tally.calls < count && tally.differences < MOST_DIFFERENCES {
            let left = count - tally.calls;
            run_case(options, (seed, tally.cases), left, &mut tally);
        }
    }
    println!("{tally}");
    tally.differences
}

/// One case, of at most so many calls.
fn run_case(options: &Options, (seed, case): (u64, u64), most: u64, tally: &mut Tally) {
    let (mut maker, books) = Maker::open(seed, case, options.sizes);
    let mut position = Position { lent: maker.lend(&books), books };
    let mut input = Input { books: position.books.clone(), buffers: position.lent.lengths(), steps: vec![] };
    tally.cases += 1;
    for _ in 0..maker.steps().min(most) {
        let step = maker.step(&position.books, &position.lent);
        let validators = position.books.validators.len();
        tally.call(validators);
        input.steps.push(step.clone());
        match position.take(&step) {
            Ok(taken) => tally.answer(validators, &step, &taken),
            Err(difference) => {
                tally.differences += 1;
                println!("DIFFERENCE: seed {seed} case {case} call {}: {difference}", input.steps.len());
                tell(input, &options.out.join(format!("{seed}-{case}")));
                return;
            }
        }
    }
}

/// Prints and writes the smallest input found that shows a difference.
fn tell(input: Input, folder: &Path) {
    let at_first = input.to_string();
    let smallest = shrink::smallest(input, &|input| input.first_difference().map(|(last, _)| last));
    println!("  at first {at_first}");
    println!("  smallest {smallest}");
    println!("  buffers {:?}", smallest.buffers);
    println!("  settings {:?}", smallest.books.settings);
    println!("  opening scalars {:?}", smallest.books.scalars);
    for (number, line) in smallest.lines().iter().enumerate() {
        println!("  {}. {line}", number + 1);
    }
    match smallest.first_difference() {
        Some((_, difference)) => println!("  last call: {difference}"),
        None => println!("  seen only with other words past the records: use --case"),
    }
    match smallest.write(folder) {
        Ok(()) => println!("  written; to run it again: compare --again {}", folder.display()),
        Err(error) => println!("  not written to {}: {error}", folder.display()),
    }
}

/// Makes the calls of a folder again.
fn again(folder: &Path) -> u64 {
    let input = Input::read(folder).unwrap_or_else(|error| {
        eprintln!("{error}");
        exit(2)
    });
    println!("{input}");
    let mut position = input.opening();
    for (line, step) in input.lines().iter().zip(&input.steps) {
        match position.take(step) {
            Ok(taken) => println!("{:02} {line}", taken.number),
            Err(difference) => {
                println!("DIFFERENCE: {line}\n{difference}");
                return 1;
            }
        }
    }
    println!("{} calls, 0 differences", input.steps.len());
    0
}
