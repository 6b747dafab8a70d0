//! One step, taken by the library and by the mended Rust, and what differs.
use crate::{
    lent::{self, Given, Lent, BYTE, FILLER, NUMBERS},
    step::{Ask, Step},
};
use oracle::{
    acceptance,
    answer::{answer, assign, expected, Engine},
    books::{setting, Books, Call, Settings, Withdrawal},
    file,
};
use std::cell::Cell;

thread_local! {
    /// The mended Rust is at work: a panic of its 64-bit text is caught and noted there.
    static QUIET: Cell<bool> = const { Cell::new(false) };
}

/// Panics of the text are not printed; all others are.
pub fn hush() {
    let usual = std::panic::take_hook();
    std::panic::set_hook(Box::new(move |information| {
        if !QUIET.get() {
            usual(information);
        }
    }));
}

/// What the mended Rust gives.
#[derive(Default)]
struct Want {
    number: u32,
    after: Option<Books>,
    /// the results, where it is answered 0: numbers, and what the lent words and bytes begin with
    numbers: Option<[u64; 2]>,
    words: Vec<u64>,
    bytes: Vec<u8>,
    failure: Option<String>,
}

impl Want {
    fn refused(number: u32) -> Want {
        Want { number, ..Want::default() }
    }

    fn failed(failure: &str) -> Want {
        Want { failure: Some(failure.into()), ..Want::default() }
    }

    fn numbers(first: u64, second: u64) -> Want {
        Want { numbers: Some([first, second]), ..Want::default() }
    }
}

/// The books in the lent buffers and the same books as the oracle holds them.
#[derive(Clone)]
pub struct Position {
    pub lent: Lent,
    pub books: Books,
}

/// What both sides answered.
pub struct Taken {
    pub number: u8,
    /// code and answer of each call of a file
    pub of_file: Vec<(u64, u8)>,
    /// the books after the step, where it may have changed them
    after: Option<Books>,
}

impl Position {
    /// Takes a step on both sides: the answer, or what differs.
    pub fn take(&mut self, step: &Step) -> Result<Taken, String> {
        let Some(spoil) = step.spoil else {
            let mut taken = take(&mut self.lent, Some(&self.books), step)?;
            if let Some(after) = taken.after.take() {
                self.books = after;
            }
            return Ok(taken);
        };
        let unspoiled = self.lent.clone();
        spoil.apply(&mut self.lent);
        let held = if self.lent.scalars.len() < NUMBERS { None } else { self.lent.books() };
        let mut taken = take(&mut self.lent, held.as_ref(), step)?;
        match taken.after.take().or(held) {
            Some(books) if taken.number == 0 => self.books = books,
            _ => self.lent = unspoiled,
        }
        Ok(taken)
    }
}

/// The step on the lent buffers; `held` are the books in them, None where no books can be read there.
fn take(lent: &mut Lent, held: Option<&Books>, step: &Step) -> Result<Taken, String> {
    QUIET.set(true);
    let want = wanted(lent, held, step);
    QUIET.set(false);
    let before = lent.clone();
    let given = lent::call(lent, step);
    match difference(kept(before, step, want.number), lent, &given, &want) {
        Some(difference) => Err(difference),
        None => Ok(Taken { number: given.number, of_file: answers_of_file(step, &want), after: want.after }),
    }
}

/// The results of a calls file are three numbers a call: its code, its answer, the total after it.
fn answers_of_file(step: &Step, want: &Want) -> Vec<(u64, u8)> {
    match step.ask {
        Ask::CarryOut(..) => want.words.chunks_exact(3).map(|three| (three[0], three[1] as u8)).collect(),
        _ => vec![],
    }
}

/// What stands past the records must be what stood there; past those of a calls file, what its calls leave one by one.
fn kept(before: Lent, step: &Step, number: u32) -> Lent {
    match &step.ask {
        Ask::CarryOut(file, _) if number == 0 => {
            lent::one_by_one(&before, &file::calls_of(&file.0, false).expect("a calls file"))
        }
        _ => before,
    }
}

/// Document 01's order: 1, 3, 2, then the call.
fn wanted(lent: &Lent, held: Option<&Books>, step: &Step) -> Want {
    let settings = lent.settings();
    match &step.ask {
        Ask::Assignment(given) => match assign(given) {
            Ok((0, left, epoch)) => Want::numbers(left as u64, epoch as u64),
            Ok((number, _, _)) => Want::refused(number),
            Err(failure) => Want::failed(failure),
        },
        // 60 over the whole file first
        Ask::Read(file) => match file::books_of(&file.0) {
            Err(_) => Want::refused(60),
            Ok(books) => match handed(lent, &books.settings, Some(&books), step) {
                0 => Want { after: Some(books), ..Want::default() },
                number => Want::refused(number),
            },
        },
        _ => match (handed(lent, &settings, held, step), held) {
            (0, Some(books)) => asked(books, &step.ask),
            (number, _) => Want::refused(number),
        },
    }
}

/// 1, 3, 2 for settings and books that are to stand in these buffers.
fn handed(lent: &Lent, settings: &Settings, books: Option<&Books>, step: &Step) -> u32 {
    let limits = &settings[setting::REGISTRY_LIMIT..];
    let short = || limits.iter().zip(lent.rooms()).any(|(&limit, room)| limit > room as u64);
    if !acceptance::settings_faults(settings).is_empty() {
        return 1;
    }
    if step.unfit(lent) || short() {
        return 3;
    }
    books.map_or(2, |books| acceptance::judge(books, u64::MAX))
}

/// What is asked of accepted books.
fn asked(books: &Books, ask: &Ask) -> Want {
    match ask {
        Ask::Call(call) => {
            let answer = answer(Engine::Both, books, call, u64::MAX);
            Want { number: answer.number, after: answer.after, failure: answer.failure, ..Want::default() }
        }
        Ask::Total => Want::numbers(books.total() as u64, FILLER),
        Ask::Write(room) => {
            let bytes = file::write_books(books);
            match bytes.len() {
                length if length > *room => Want::refused(61),
                length => Want { bytes, ..Want::numbers(length as u64, FILLER) },
            }
        }
        Ask::CarryOut(file, room) => match file::calls_of(&file.0, false) {
            Err(_) => Want::refused(60),
            Ok(calls) if 3 * calls.len() > *room => Want::refused(61),
            Ok(calls) => carried_out(books, &calls),
        },
        Ask::Expected => match expected(books) {
            Ok((list, partials)) => Want {
                words: record_words(&list),
                bytes: address_bytes(&list),
                ..Want::numbers(list.len() as u64, partials as u64)
            },
            Err(failure) => Want::failed(failure),
        },
        Ask::Read(_) | Ask::Assignment(_) => unreachable!("asked of no books"),
    }
}

/// Each call on the books that the last one left, with three numbers of each.
fn carried_out(opening: &Books, calls: &[Call]) -> Want {
    let mut books = opening.clone();
    let mut words = vec![];
    for call in calls {
        let answer = answer(Engine::Both, &books, call, u64::MAX);
        if let Some(failure) = answer.failure {
            return Want::failed(&failure);
        }
        books = answer.after.unwrap_or(books);
        words.extend([call.code().into(), answer.number.into(), books.total() as u64]);
    }
    Want { words, after: Some(books), ..Want::numbers(calls.len() as u64, FILLER) }
}

/// Sixteen records of an expected list, blank past it.
fn record_words(list: &[Withdrawal]) -> Vec<u64> {
    let mut words: Vec<u64> = list.iter().flat_map(|one| [one.index, one.validator, one.amount]).collect();
    words.resize(3 * 16, 0);
    words
}

fn address_bytes(list: &[Withdrawal]) -> Vec<u8> {
    let mut bytes: Vec<u8> = list.iter().flat_map(|one| one.address).collect();
    bytes.resize(20 * 16, 0);
    bytes
}

fn difference(kept: Lent, after: &Lent, given: &Given, want: &Want) -> Option<String> {
    if let Some(failure) = &want.failure {
        return Some(format!("the mended Rust: {failure}"));
    }
    if !given.kept {
        return Some("the library changed one of the call's own buffers".into());
    }
    if u32::from(given.number) != want.number {
        return Some(format!("answers: library {}, Rust {}", given.number, want.number));
    }
    books_difference(kept, after, want.after.as_ref()).or_else(|| results_difference(given, want))
}

/// The library's buffers against what they held, with the books that the Rust left written over it.
fn books_difference(mut kept: Lent, after: &Lent, books: Option<&Books>) -> Option<String> {
    if let Some(books) = books {
        kept.store(books);
    }
    if kept == *after {
        return None;
    }
    let tables = ["validators", "deposits", "partials", "consolidations"];
    let numbers = [("settings", &after.settings, &kept.settings), ("scalars", &after.scalars, &kept.scalars)];
    let of_tables = (0..4).map(|table| (tables[table], &after.tables[table], &kept.tables[table]));
    let mut told = numbers
        .into_iter()
        .chain(of_tables)
        .filter_map(|(name, ours, theirs)| first_differing(name, ours, theirs));
    let told = told.next().or_else(|| first_differing("identities", &after.identities, &kept.identities));
    let refusal = if books.is_none() { " (the Rust changes none)" } else { "" };
    Some(format!("{}{refusal}", told.unwrap_or("a length".into())))
}

/// The first place at which a buffer differs.
fn first_differing<W: PartialEq + std::fmt::Debug>(name: &str, ours: &[W], theirs: &[W]) -> Option<String> {
    let at = ours.iter().zip(theirs).position(|(ours, theirs)| ours != theirs)?;
    Some(format!("{name}[{at}] of {}: library {:?}, Rust {:?}", ours.len(), ours[at], theirs[at]))
}

fn results_difference(given: &Given, want: &Want) -> Option<String> {
    let numbers = want.numbers.unwrap_or([FILLER; 2]);
    if given.numbers != numbers {
        return Some(format!("results: library {:x?}, Rust {numbers:x?}", given.numbers));
    }
    let mut words = want.words.clone();
    words.resize(given.words.len(), FILLER);
    if given.words != words {
        return Some(format!("results: library {:?}, Rust {:?}", given.words, want.words));
    }
    let mut bytes = want.bytes.clone();
    bytes.resize(given.bytes.len(), BYTE);
    if given.bytes != bytes {
        let at = given.bytes.iter().zip(&bytes).position(|(ours, theirs)| ours != theirs);
        return Some(format!("bytes: the first that differs is {at:?}"));
    }
    None
}

#[cfg(test)]
mod tests {
    //! Each part of what the library leaves is really compared.
    use super::*;
    use crate::{
        lent::WIDTHS,
        maker::{Maker, Sizes},
        step::Lengths,
    };

    /// Buffers before and after a done turn, what was given and what is wanted.
    fn turned() -> (Lent, Lent, Given, Want) {
        for case in 0.. {
            let (mut maker, books) = Maker::open(1, case, Sizes::Small);
            let before = maker.lend(&books);
            let step = Step { spoil: None, ask: Ask::Call(Call::Turn), lengths: Lengths::RIGHT };
            let want = wanted(&before, Some(&books), &step);
            let mut after = before.clone();
            let given = lent::call(&mut after, &step);
            let full =
                |table: usize| after.count(table) > 0 && after.tables[table].len() > 8 + past(&after, table);
            let longer = after.scalars.len() > NUMBERS && after.settings.len() > 19;
            if given.number == 0 && longer && (0..4).all(full) {
                return (before, after, given, want);
            }
        }
        unreachable!()
    }

    fn past(lent: &Lent, table: usize) -> usize {
        WIDTHS[table] * lent.count(table) as usize
    }

    #[test]
    fn every_changed_word_is_noticed() {
        let (before, after, given, want) = turned();
        assert_eq!(difference(before.clone(), &after, &given, &want), None);
        let noticed = |change: &dyn Fn(&mut Lent)| {
            let mut changed = after.clone();
            change(&mut changed);
            difference(before.clone(), &changed, &given, &want).is_some()
        };
        assert!((0..after.settings.len()).all(|i| noticed(&|lent| lent.settings[i] ^= 1)));
        assert!((0..after.scalars.len()).all(|i| noticed(&|lent| lent.scalars[i] ^= 1)));
        assert!((0..after.identities.len()).all(|i| noticed(&|lent| lent.identities[i] ^= 1)));
        for table in 0..4 {
            assert!((0..after.tables[table].len()).all(|i| noticed(&|lent| lent.tables[table][i] ^= 1)));
        }
    }

    #[test]
    fn results_and_refusals_are_compared() {
        let (before, after, mut given, want) = turned();
        given.numbers[1] ^= 1;
        assert!(difference(before.clone(), &after, &given, &want).is_some());
        given.numbers[1] ^= 1;
        given.bytes[0] ^= 1;
        assert!(difference(before.clone(), &after, &given, &want).is_some());
        given.bytes[0] ^= 1;
        given.kept = false;
        assert!(difference(before.clone(), &after, &given, &want).is_some());
        given.kept = true;
        given.number = 2;
        let refused = Want::refused(2);
        assert!(difference(before.clone(), &after, &given, &refused).is_some());
        assert_eq!(difference(before.clone(), &before, &given, &refused), None);
    }
}
