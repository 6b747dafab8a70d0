//! What was met: how often each call was answered with each number, by the validators at the call.
use crate::{
    both::Taken,
    step::{name_of_code, Ask, Step},
};
use std::{collections::BTreeMap, fmt};

/// The fewest validators of each class of sizes, and the heading of its column.
const CLASSES: [(usize, &str); 7] = [
    (1, "1-7"),
    (8, "8-63"),
    (64, "64-511"),
    (512, "512-4095"),
    (4_096, "4096-16383"),
    (16_384, "16384-65535"),
    (65_536, "65536"),
];

type Row = [u64; CLASSES.len()];

#[derive(Default)]
pub struct Tally {
    pub calls: u64,
    pub cases: u64,
    pub differences: u64,
    sizes: Row,
    answers: BTreeMap<(&'static str, u8), Row>,
    of_files: BTreeMap<(&'static str, u8), Row>,
    /// calls files by how many calls they hold: carried out with 1 to 99 calls, with more, with 9,999; refused with
    /// 10,000
    files: [u64; 4],
}

impl Tally {
    /// A call is made on books of so many validators.
    pub fn call(&mut self, validators: usize) {
        self.calls += 1;
        self.sizes[class(validators)] += 1;
    }

    /// It was answered alike.
    pub fn answer(&mut self, validators: usize, step: &Step, taken: &Taken) {
        let class = class(validators);
        self.answers.entry((step.name(), taken.number)).or_default()[class] += 1;
        for &(code, number) in &taken.of_file {
            self.of_files.entry((name_of_code(code), number)).or_default()[class] += 1;
        }
        match (taken.of_file.len(), &step.ask) {
            (0, Ask::CarryOut(file, _)) => self.files[3] += (taken.number == 60 && too_many(&file.0)) as u64,
            (0, _) => {}
            (1..=99, _) => self.files[0] += 1,
            (100..=9_998, _) => self.files[1] += 1,
            _ => self.files[2] += 1,
        }
    }
}

/// The second word of a calls file counts its calls.
fn too_many(file: &[u8]) -> bool {
    file.get(4..8) == Some(&(2 << 28 | 10_000u32).to_le_bytes())
}

fn class(validators: usize) -> usize {
    CLASSES.iter().rposition(|&(fewest, _)| fewest <= validators).unwrap_or(0)
}

/// One line; where nothing was met there is a dot.
fn line(f: &mut fmt::Formatter<'_>, name: &str, row: &Row) -> fmt::Result {
    write!(f, "{name:22}{:>9}", row.iter().sum::<u64>())?;
    for count in row {
        let count = if *count == 0 { ".".into() } else { count.to_string() };
        write!(f, "{count:>12}")?;
    }
    writeln!(f)
}

impl fmt::Display for Tally {
    fn fmt(&self, f: &mut fmt::Formatter<'_>) -> fmt::Result {
        write!(f, "{:22}{:>9}", "validators at the call", "all")?;
        CLASSES.iter().try_for_each(|(_, heading)| write!(f, "{heading:>12}"))?;
        writeln!(f)?;
        line(f, "calls", &self.sizes)?;
        writeln!(f, "answers:")?;
        for ((name, number), row) in &self.answers {
            line(f, &format!("{name} {number}"), row)?;
        }
        writeln!(f, "answers to calls of a calls file (not counted as calls):")?;
        for ((name, number), row) in &self.of_files {
            line(f, &format!("{name} {number}"), row)?;
        }
        let [short, longer, most, too_many] = self.files;
        write!(
            f,
            "calls files carried out: {short} of 1 to 99 calls, {longer} of 100 to 9998, {most} of 9999; "
        )?;
        writeln!(f, "refused: {too_many} of 10000")?;
        writeln!(f, "{} cases", self.cases)?;
        write!(f, "{} calls, {} differences", self.calls, self.differences)
    }
}
