//! From an input that shows a difference to a smaller one that still shows one.
//!
//! Where the last call shows a difference on the books that it met, these become the opening. Left out as long as a
//! difference remains: calls, wrong lengths and spoiled words, calls of calls files, queue entries, validators. An
//! index that names a validator behind those left out is lowered with it, in the queues, the cursor and the calls.
use crate::{
    both::Position,
    input::Input,
    lent::{least_lengths, record_counts},
    step::{Ask, File, Step},
};
use oracle::{
    acceptance,
    books::{scalar, Books, Call},
    file,
};
use std::{
    ops::Range,
    time::{Duration, Instant},
};

/// No longer than this is spent on one difference.
const PATIENCE: Duration = Duration::from_secs(90);

/// The smallest input found; `differs` gives the position of the first step that differs.
pub fn smallest(input: Input, differs: &dyn Fn(&Input) -> Option<usize>) -> Input {
    let mut search = Search { input, differs, until: Instant::now() + PATIENCE };
    loop {
        let before = size(&search.input);
        search.round();
        if size(&search.input) == before || search.late() {
            return search.input;
        }
    }
}

/// Calls, calls in files, records.
fn size(input: &Input) -> [usize; 3] {
    let of_files = input.steps.iter().filter_map(file_calls).map(|calls| calls.len()).sum();
    [input.steps.len(), of_files, record_counts(&input.books).iter().sum()]
}

/// The calls of a calls file that can be read.
fn file_calls(step: &Step) -> Option<Vec<Call>> {
    match &step.ask {
        Ask::CarryOut(file, _) => file::calls_of(&file.0, false).ok(),
        _ => None,
    }
}

struct Search<'a> {
    input: Input,
    differs: &'a dyn Fn(&Input) -> Option<usize>,
    until: Instant,
}

impl Search<'_> {
    fn late(&self) -> bool {
        Instant::now() > self.until
    }

    fn round(&mut self) {
        self.open_late();
        self.leave_out(&|input| input.steps.len(), &without_steps);
        self.plain();
        for at in 0..self.input.steps.len() {
            let count =
                move |input: &Input| input.steps.get(at).and_then(file_calls).map_or(0, |calls| calls.len());
            self.leave_out(&count, &move |input, range| without_file_calls(input, at, range));
        }
        for table in 1..4 {
            let count = move |input: &Input| record_counts(&input.books)[table];
            self.leave_out(&count, &move |input, range| without_entries(input, table, range));
        }
        self.leave_out(&|input| input.books.validators.len(), &without_validators);
    }

    /// Takes the candidate if it shows a difference on sound opening books, without the steps behind that.
    fn accept(&mut self, mut candidate: Input) -> bool {
        if acceptance::judge(&candidate.books, u64::MAX) != 0 {
            return false;
        }
        let Some(last) = (self.differs)(&candidate) else { return false };
        candidate.steps.truncate(last + 1);
        self.input = candidate;
        true
    }

    /// The last step alone, on the books that it met; for a calls file the same with its last call.
    fn open_late(&mut self) {
        let calls = self.input.steps.last().and_then(file_calls).unwrap_or_default();
        let mut apart = self.input.clone();
        apart.steps.pop();
        apart.steps.extend(calls.into_iter().map(|call| Step::plain(Ask::Call(call))));
        self.accept(apart);
        let mut position = self.input.opening();
        let Some((last, before)) = self.input.steps.split_last() else { return };
        if before.iter().all(|step| position.take(step).is_ok()) {
            let Position { lent, books } = position;
            self.accept(Input { books, buffers: lent.lengths(), steps: vec![last.clone()] });
        }
    }

    /// Right lengths and nothing spoiled.
    fn plain(&mut self) {
        let buffers = least_lengths(&self.input.books);
        self.accept(Input { buffers, ..self.input.clone() });
        for at in (0..self.input.steps.len()).rev() {
            let mut candidate = self.input.clone();
            if let Some(step) = candidate.steps.get_mut(at) {
                *step = Step::plain(step.ask.clone());
                self.accept(candidate);
            }
        }
    }

    /// Leaves out ranges from the end to the start: all at once, then halves, quarters and so on.
    fn leave_out(
        &mut self,
        count: &dyn Fn(&Input) -> usize,
        without: &dyn Fn(&Input, Range<usize>) -> Option<Input>,
    ) {
        let mut length = count(&self.input);
        while length > 0 {
            let mut end = count(&self.input);
            while end > 0 && !self.late() {
                let start = end.saturating_sub(length);
                if let Some(candidate) = without(&self.input, start..end) {
                    self.accept(candidate);
                }
                end = start.min(count(&self.input));
            }
            length /= 2;
        }
    }
}

fn without_steps(input: &Input, range: Range<usize>) -> Option<Input> {
    let mut input = input.clone();
    input.steps.drain(range);
    Some(input)
}

/// Fewer calls in the file of a step; the room for the results stays.
fn without_file_calls(input: &Input, at: usize, range: Range<usize>) -> Option<Input> {
    let mut calls = file_calls(input.steps.get(at)?)?;
    calls.drain(range);
    let mut input = input.clone();
    if let Ask::CarryOut(file, _) = &mut input.steps[at].ask {
        *file = File(file::write_calls(&calls));
    }
    Some(input)
}

fn without_entries(input: &Input, table: usize, range: Range<usize>) -> Option<Input> {
    let mut input = input.clone();
    match table {
        1 => drop(input.books.deposits.drain(range)),
        2 => drop(input.books.partials.drain(range)),
        _ => drop(input.books.consolidations.drain(range)),
    }
    Some(input)
}

/// None where a queue names one of the validators.
fn without_validators(input: &Input, range: Range<usize>) -> Option<Input> {
    let count = input.books.validators.len() as u64;
    let (start, end) = (range.start as u64, range.end as u64);
    if named(&input.books).any(|index| (start..end).contains(&(index as u64))) {
        return None;
    }
    let lowered = |index: u64| match index {
        _ if index < start || index >= count => index,
        _ if index < end => start,
        _ => index - (end - start),
    };
    let mut input = input.clone();
    input.books.validators.drain(range);
    lower_books(&mut input.books, &lowered);
    input.steps.iter_mut().for_each(|step| lower_step(step, &lowered));
    Some(input)
}

/// The indices in the queues.
fn named(books: &Books) -> impl Iterator<Item = u128> + '_ {
    let deposits = books.deposits.iter().map(|one| one.index);
    let partials = books.partials.iter().map(|one| one.index);
    let consolidations = books.consolidations.iter().flat_map(|one| [one.source, one.target]);
    deposits.chain(partials).chain(consolidations)
}

fn lower_books(books: &mut Books, lowered: &dyn Fn(u64) -> u64) {
    let lower = |index: &mut u128| *index = lowered(*index as u64).into();
    books.deposits.iter_mut().for_each(|one| lower(&mut one.index));
    books.partials.iter_mut().for_each(|one| lower(&mut one.index));
    books.consolidations.iter_mut().for_each(|one| {
        lower(&mut one.source);
        lower(&mut one.target);
    });
    let cursor = &mut books.scalars[scalar::CURSOR];
    lower(cursor);
    *cursor = (*cursor).min((books.validators.len() as u128).saturating_sub(1));
}

fn lower_step(step: &mut Step, lowered: &dyn Fn(u64) -> u64) {
    let calls = file_calls(step);
    match &mut step.ask {
        Ask::Call(call) => lower_call(call, lowered),
        Ask::CarryOut(file, _) => {
            if let Some(mut calls) = calls {
                calls.iter_mut().for_each(|call| lower_call(call, lowered));
                *file = File(file::write_calls(&calls));
            }
        }
        _ => {}
    }
}

fn lower_call(call: &mut Call, lowered: &dyn Fn(u64) -> u64) {
    match call {
        Call::Reward { validator, .. } | Call::Penalty { validator, .. } | Call::Exit { validator, .. } => {
            *validator = lowered(*validator)
        }
        Call::Consolidation { source, target, .. } => {
            *source = lowered(*source);
            *target = lowered(*target);
        }
        Call::Withdrawals(list) => list.iter_mut().for_each(|one| one.validator = lowered(one.validator)),
        _ => {}
    }
}

#[cfg(test)]
mod tests {
    use super::*;
    use crate::{
        dice::Dice,
        lent::random_lengths,
        maker::{Maker, Sizes},
    };

    /// The opening of a case and steps of it, each made on the books reached. (With a place left as published, they
    /// end at the first difference.)
    fn case(number: u64) -> Input {
        let (mut maker, books) = Maker::open(3, number, Sizes::Small);
        let buffers = random_lengths(&books, &mut Dice::new(3, number));
        let mut input = Input { books, buffers, steps: vec![] };
        let mut position = input.opening();
        for _ in 0..30 {
            let step = maker.step(&position.books, &position.lent);
            input.steps.push(step);
            if position.take(&input.steps[input.steps.len() - 1]).is_err() {
                break;
            }
        }
        input
    }

    #[test]
    fn one_call_one_deposit_and_its_validator_are_left() {
        let differs = |input: &Input| {
            let at = input.steps.iter().position(|step| matches!(step.ask, Ask::Call(Call::Turn)));
            at.filter(|_| !input.books.deposits.is_empty())
        };
        let input = (0..).map(case).find(|input| differs(input).is_some()).expect("a turn with a deposit");
        let small = smallest(input, &differs);
        assert_eq!(small.lines(), ["turn"]);
        assert_eq!(record_counts(&small.books), [1, 1, 0, 0]);
        assert_eq!(small.books.deposits[0].index, 0);
        assert_eq!(small.buffers, least_lengths(&small.books));
    }

    #[test]
    fn calls_of_a_file_are_left_out() {
        let is_turn = |call: &Call| matches!(call, Call::Turn);
        let differs = |input: &Input| {
            let has_turn = |step: &Step| file_calls(step).is_some_and(|calls| calls.iter().any(is_turn));
            input.steps.iter().position(has_turn)
        };
        let input = (0..).map(case).find(|input| differs(input).is_some()).expect("a file with a turn");
        let small = smallest(input, &differs);
        assert_eq!(small.steps.len(), 1);
        assert_eq!(file_calls(&small.steps[0]), Some(vec![Call::Turn]));
    }

    #[test]
    fn what_is_written_is_read_again() {
        let folder = std::env::temp_dir().join(format!("compare-{}", std::process::id()));
        for number in 0..40 {
            let input = case(number);
            input.write(&folder).expect("a folder to write to");
            let again = Input::read(&folder).expect("what was written");
            assert!(again.books == input.books && again.buffers == input.buffers);
            assert_eq!(format!("{:?}", again.steps), format!("{:?}", input.steps));
        }
        std::fs::remove_dir_all(&folder).expect("our own folder");
    }
}
