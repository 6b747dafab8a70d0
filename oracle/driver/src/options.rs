//! The command line.
use crate::answer::Engine;
use std::{env, path::PathBuf, process::exit};

const USAGE: &str = "\
oracle [OPTIONS]         reads opening.w and calls.w and prints what the program `books` prints
  --in DIRECTORY         where the two files are (default: here)
  --closing FILE         writes the closing books as a head 1 file
  --expected             prints the list expected on the closing books after the table
  --steps                calls may hold the codes 91, 92, 93: the three steps of a turn alone
  --buffers N            buffers for N records instead of 256
  --lent                 hands the opening to the calls unjudged, as a caller of the library may
  --fill FILE            writes the calls anew, markers replaced by expected lists; prints nothing
  --engine both|wide|64  the width that answers (default both, each checking the other)
  --notes                tells on stderr where the text errs without a number or panics
  --trace FILE           writes what was met, and how often
oracle --assignments     reads lines of five numbers, prints answer, left and epoch of each
oracle --mends           prints the mends of this build
";

pub enum Mode {
    Run,
    Assignments,
    Mends,
}

pub struct Options {
    pub mode: Mode,
    pub directory: PathBuf,
    pub closing: Option<PathBuf>,
    pub expected: bool,
    pub steps: bool,
    pub buffers: u64,
    pub lent: bool,
    pub fill: Option<PathBuf>,
    pub engine: Engine,
    pub notes: bool,
    pub trace: Option<PathBuf>,
}

fn usage() -> ! {
    eprint!("{USAGE}");
    exit(2)
}

pub fn parse() -> Options {
    let mut options = Options {
        mode: Mode::Run,
        directory: PathBuf::from("."),
        closing: None,
        expected: false,
        steps: false,
        buffers: 256,
        lent: false,
        fill: None,
        engine: Engine::Both,
        notes: false,
        trace: None,
    };
    let mut arguments = env::args().skip(1);
    while let Some(argument) = arguments.next() {
        let mut value = || arguments.next().unwrap_or_else(|| usage());
        match argument.as_str() {
            "--in" => options.directory = value().into(),
            "--closing" => options.closing = Some(value().into()),
            "--expected" => options.expected = true,
            "--steps" => options.steps = true,
            "--buffers" => options.buffers = value().parse().unwrap_or_else(|_| usage()),
            "--lent" => options.lent = true,
            "--fill" => options.fill = Some(value().into()),
            "--engine" => options.engine = engine(&value()),
            "--notes" => options.notes = true,
            "--trace" => options.trace = Some(value().into()),
            "--assignments" => options.mode = Mode::Assignments,
            "--mends" => options.mode = Mode::Mends,
            _ => usage(),
        }
    }
    options
}

fn engine(name: &str) -> Engine {
    match name {
        "both" => Engine::Both,
        "wide" => Engine::Wide,
        "64" => Engine::Narrow,
        _ => usage(),
    }
}
