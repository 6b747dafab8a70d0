//! Everything that a difference depends on, and the folder that keeps it.
//!
//! `opening.w` are the opening books. `steps.txt` has the lengths of the lent buffers in its first line (settings,
//! scalars, identities, validators, deposits, partials, consolidations), then one line a step. Where every step is a
//! call that a calls file can hold, `calls.w` holds them, for the programs that read the two files.
use crate::{
    both::Position,
    lent::{record_counts, BufferLengths, Lent, FILLER},
    step::{Ask, Step},
    text::{self, Words},
};
use oracle::{
    books::{Books, Call},
    file,
};
use std::{fmt, fs, io, path::Path};

#[derive(Clone)]
pub struct Input {
    pub books: Books,
    pub buffers: BufferLengths,
    pub steps: Vec<Step>,
}

impl fmt::Display for Input {
    fn fmt(&self, f: &mut fmt::Formatter<'_>) -> fmt::Result {
        let [validators, deposits, partials, consolidations] = record_counts(&self.books);
        write!(f, "calls {}, validators {validators}, deposits {deposits}, ", self.steps.len())?;
        write!(f, "partials {partials}, consolidations {consolidations}")
    }
}

impl Input {
    /// The opening books in buffers that hold one and the same word past the records.
    pub fn opening(&self) -> Position {
        Position { lent: Lent::of(&self.books, self.buffers, || FILLER), books: self.books.clone() }
    }

    /// The position of the first step that differs, and how it does.
    pub fn first_difference(&self) -> Option<(usize, String)> {
        let mut position = self.opening();
        let mut steps = self.steps.iter().enumerate();
        steps.find_map(|(number, step)| position.take(step).err().map(|difference| (number, difference)))
    }

    /// The calls, where a calls file can hold them all.
    fn plain_calls(&self) -> Option<Vec<Call>> {
        let call = |step: &Step| match &step.ask {
            Ask::Call(call) if call.code() <= 8 && step.is_plain() => Some(call.clone()),
            _ => None,
        };
        let calls: Vec<Call> = self.steps.iter().map(call).collect::<Option<_>>()?;
        file::calls_of(&file::write_calls(&calls), false).is_ok().then_some(calls)
    }

    /// The lines of the steps, each with the file that belongs to it.
    pub fn lines(&self) -> Vec<String> {
        self.steps.iter().enumerate().map(|(at, step)| text::line(step, &file_name(at))).collect()
    }

    pub fn write(&self, folder: &Path) -> io::Result<()> {
        fs::create_dir_all(folder)?;
        fs::write(folder.join("opening.w"), file::write_books(&self.books))?;
        let calls = folder.join("calls.w");
        match self.plain_calls() {
            Some(plain) => fs::write(calls, file::write_calls(&plain))?,
            None if calls.exists() => fs::remove_file(calls)?,
            None => {}
        }
        for (at, step) in self.steps.iter().enumerate() {
            if let Ask::Read(file) | Ask::CarryOut(file, _) = &step.ask {
                fs::write(folder.join(file_name(at)), &file.0)?;
            }
        }
        let buffers = self.buffers.map(|length| length.to_string()).join(" ");
        fs::write(folder.join("steps.txt"), format!("buffers {buffers}\n{}\n", self.lines().join("\n")))
    }

    pub fn read(folder: &Path) -> Result<Input, String> {
        let told = |error: io::Error| format!("{}: {error}", folder.display());
        let books = file::books_of(&fs::read(folder.join("opening.w")).map_err(told)?)?;
        let text = fs::read_to_string(folder.join("steps.txt")).map_err(told)?;
        let mut lines = text.lines();
        let mut words = Words(lines.next().unwrap_or_default().split_whitespace());
        if words.word()? != "buffers" {
            return Err("the first line does not give the lengths of the buffers".into());
        }
        let mut buffers: BufferLengths = [0; 7];
        for length in &mut buffers {
            *length = words.number()?;
        }
        let steps = lines.map(|line| text::step(line, folder)).collect::<Result<_, _>>()?;
        Ok(Input { books, buffers, steps })
    }
}

fn file_name(at: usize) -> String {
    format!("step-{}.w", at + 1)
}
