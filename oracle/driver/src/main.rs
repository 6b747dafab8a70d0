//! The oracle: reads opening.w and calls.w as document 01's program `books` does and prints what
//! that prints. The rules are the text of docs/src; the file, what is accepted, the bounds 40, 41
//! and 42 and the total stand here. Status 0, also after a refusal; 3 if a self-check failed.
mod options;

use options::{Mode, Options};
use oracle::{
    acceptance, answer,
    books::{Books, Call, Withdrawal},
    engine::Assignment,
    file, fill, trace,
};
use std::{
    fs,
    io::{self, BufRead, Write},
    path::Path,
    process::exit,
};

const HEADER: &str = "call code answer total\n";

fn main() {
    // The text may panic; what it says is caught and noted.
    std::panic::set_hook(Box::new(|_| {}));
    let options = options::parse();
    let failed = match options.mode {
        Mode::Mends => {
            println!("mended: {}", rules64::MENDED);
            false
        }
        Mode::Assignments => assignments(),
        Mode::Run => run(&options),
    };
    if let Some(path) = &options.trace {
        write(path, trace::report().as_bytes());
    }
    if failed {
        exit(3);
    }
}

fn write(path: &Path, bytes: &[u8]) {
    fs::write(path, bytes).unwrap_or_else(|e| panic!("{}: {e}", path.display()));
}

/// A missing file counts as empty.
fn load(options: &Options, name: &str) -> Vec<u8> {
    fs::read(options.directory.join(name)).unwrap_or_default()
}

fn run(options: &Options) -> bool {
    let (opening, calls) = match open(options) {
        Ok(read) => read,
        Err(number) => {
            println!("refused {number:02}");
            return false;
        }
    };
    if let Some(path) = &options.fill {
        write(path, &file::write_calls(&filled(options, opening, calls)));
        return false;
    }
    let (books, mut table, mut failed) = carry_out(options, opening, &calls);
    if options.expected {
        match answer::expected(&books) {
            Ok((list, _)) => list.iter().for_each(|record| table += &expected_line(record)),
            Err(failure) => {
                eprintln!("self-check failed: {failure}");
                failed = true;
            }
        }
    }
    io::stdout().write_all(table.as_bytes()).expect("write the table");
    if let Some(path) = &options.closing {
        write(path, &file::write_books(&books));
    }
    failed
}

/// The opening is judged whole before the calls are looked at.
fn open(options: &Options) -> Result<(Books, Vec<Call>), u32> {
    let opening = file::read_books(&load(options, "opening.w")).map_err(|cause| {
        trace::hit(format!("opening: 60 {cause}"));
        60u32
    })?;
    trace_acceptance(&opening);
    let number = acceptance::judge(&opening, options.buffers);
    trace::hit(format!("answer: {} {number}", if options.lent { "lent" } else { "opening" }));
    if number != 0 && !options.lent {
        return Err(number);
    }
    let calls = file::read_calls(&load(options, "calls.w"), options.steps).map_err(|cause| {
        trace::hit(format!("calls: 60 {cause}"));
        60u32
    })?;
    Ok((opening, calls))
}

/// Counts a fault that stands alone apart from one among others.
fn trace_acceptance(books: &Books) {
    let settings = acceptance::settings_faults(&books.settings);
    let records = acceptance::books_faults(books);
    let alone = settings.len() + records.len() == 1;
    let how = if alone { "alone" } else { "with others" };
    settings.iter().for_each(|name| trace::hit(format!("settings: {name}, {how}")));
    records.iter().for_each(|name| trace::hit(format!("books: {name}, {how}")));
}

fn carry_out(options: &Options, opening: Books, calls: &[Call]) -> (Books, String, bool) {
    let mut books = opening;
    let mut table = String::from(HEADER);
    let mut failed = false;
    for (position, call) in calls.iter().enumerate() {
        let answer = answer::answer(options.engine, &books, call, options.buffers);
        trace::hit(format!("answer: {} {}", call.code(), answer.number));
        if let Some(failure) = answer.failure {
            eprintln!("call {}: self-check failed: {failure}", position + 1);
            failed = true;
        }
        if let (true, Some(note)) = (options.notes, answer.note) {
            eprintln!("call {}: {note}", position + 1);
        }
        if let Some(after) = answer.after {
            books = after;
        }
        let (code, number, total) = (call.code(), answer.number, books.total());
        table += &format!("{:04} {code:02} {number:02} {total:020}\n", position + 1);
    }
    (books, table, failed)
}

fn filled(options: &Options, opening: Books, mut calls: Vec<Call>) -> Vec<Call> {
    let mut books = opening;
    for call in &mut calls {
        fill::fill_marker(&books, call);
        if let Some(after) = answer::answer(options.engine, &books, call, options.buffers).after {
            books = after;
        }
    }
    calls
}

fn expected_line(record: &Withdrawal) -> String {
    let address: String = record.address.iter().map(|byte| format!("{byte:02x}")).collect();
    format!("expected {} {} {address} {}\n", record.index, record.validator, record.amount)
}

/// The bare epoch assignment, line by line.
fn assignments() -> bool {
    let mut failed = false;
    for line in io::stdin().lock().lines() {
        let line = line.expect("a line");
        let numbers: Vec<u64> =
            line.split_whitespace().map(|word| word.parse().expect("a number of 64 bits")).collect();
        let [left, earliest, activation_exit, churn, amount] = numbers[..] else {
            panic!("five numbers a line: {line}");
        };
        let given = Assignment { left, earliest, activation_exit, churn, amount };
        match answer::assign(&given) {
            Ok((number, left, epoch)) => {
                trace::hit(format!("answer: assignment {number}"));
                println!("{number} {left} {epoch}");
            }
            Err(failure) => {
                eprintln!("{given:?}: self-check failed: {failure}");
                failed = true;
            }
        }
    }
    failed
}
