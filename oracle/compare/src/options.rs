//! The command line.
use crate::maker::Sizes;
use std::{
    env,
    path::{Path, PathBuf},
    process::exit,
};

const USAGE: &str = "\
compare COUNT SEED [OPTIONS]  that many random calls
  --small                     openings of at most 12 validators alone
  --large                     openings of 4,096 to 65,536 validators alone
  --case N                    that case of the seed alone, whatever COUNT says
  --out FOLDER                where the smallest input of each difference is written, one folder a case
                              (default: oracle/target/differences)
compare --again FOLDER        makes the calls of such a folder again
";

pub enum Mode {
    Random { count: u64, seed: u64, case: Option<u64> },
    Again(PathBuf),
}

pub struct Options {
    pub mode: Mode,
    pub sizes: Sizes,
    pub out: PathBuf,
}

fn usage() -> ! {
    eprint!("{USAGE}");
    exit(2)
}

/// What follows an option.
fn value<T: std::str::FromStr>(arguments: &mut impl Iterator<Item = String>) -> T {
    arguments.next().and_then(|text| text.parse().ok()).unwrap_or_else(|| usage())
}

pub fn read() -> Options {
    let (mut numbers, mut case, mut again) = (vec![], None, None);
    let mut sizes = Sizes::All;
    let mut out = Path::new(env!("CARGO_MANIFEST_DIR")).with_file_name("target").join("differences");
    let mut arguments = env::args().skip(1);
    while let Some(argument) = arguments.next() {
        match argument.as_str() {
            "--small" => sizes = Sizes::Small,
            "--large" => sizes = Sizes::Large,
            "--case" => case = Some(value(&mut arguments)),
            "--out" => out = value(&mut arguments),
            "--again" => again = Some(value(&mut arguments)),
            text => numbers.push(text.parse().unwrap_or_else(|_| usage())),
        }
    }
    let mode = match (again, &numbers[..]) {
        (Some(folder), []) => Mode::Again(folder),
        (None, &[count, seed]) => Mode::Random { count, seed, case },
        _ => usage(),
    };
    Options { mode, sizes, out }
}
