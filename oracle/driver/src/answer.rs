//! The answer to one call: the tests before it, the rules at both widths, the bounds on its result.
use crate::{
    acceptance,
    books::{Books, Call, Withdrawal, BOUND},
    engine::{narrow, wide, Assignment, Outcome},
    trace,
};

/// Which width carries a call out.
#[derive(Clone, Copy, PartialEq)]
pub enum Engine {
    /// whole numbers decide; the 64-bit text must agree
    Both,
    Wide,
    Narrow,
}

/// Answers outside document 01, for the published text: an error without a number, a panic. The
/// books are then as the text left them.
const UNNUMBERED: u32 = 97;
const PANICKED: u32 = 98;

pub struct Answer {
    pub number: u32,
    /// the books after the call; None: as they were
    pub after: Option<Books>,
    /// where the 64-bit text does something that the answer does not show
    pub note: Option<String>,
    /// what must never happen
    pub failure: Option<String>,
}

impl Answer {
    fn of(number: u32, after: Option<Books>, note: Option<String>) -> Self {
        Answer { number, after, note, failure: None }
    }
}

pub fn answer(engine: Engine, books: &Books, call: &Call, buffers: u64) -> Answer {
    let number = acceptance::judge(books, buffers);
    if number != 0 {
        return Answer::of(number, None, None);
    }
    match engine {
        Engine::Narrow => judge_outcome(&narrow::run(books, call)),
        Engine::Wide => judge_outcome(&wide::run(books, call)),
        Engine::Both => compare_widths(books, call, buffers),
    }
}

/// 40, 41 and 42 are judged on the result.
fn judge_outcome(outcome: &Outcome) -> Answer {
    match outcome {
        Outcome::Done(after) => match acceptance::result_faults(after).first() {
            None => Answer::of(0, Some(after.clone()), None),
            Some((number, _)) => Answer::of(*number, None, None),
        },
        Outcome::Refused(number) => Answer::of(*number, None, None),
        Outcome::Unnumbered(error, after) => {
            Answer::of(UNNUMBERED, Some(after.clone()), Some(format!("the text returned Err({error})")))
        }
        Outcome::Panicked(message, after) => {
            Answer::of(PANICKED, Some(after.clone()), Some(format!("the text panicked: {message}")))
        }
    }
}

fn compare_widths(books: &Books, call: &Call, buffers: u64) -> Answer {
    let whole = wide::run(books, call);
    let published = narrow::run(books, call);
    let mut answer = judge_outcome(&whole);
    trace_result(call, &whole);
    if let Outcome::Panicked(message, _) = &whole {
        answer.failure = Some(format!("the text in whole numbers panicked: {message}"));
    } else if let (Outcome::Panicked(message, _), 41 | 42) = (&published, answer.number) {
        trace::hit(format!("64 bits: call {} panics, answered {}", call.code(), answer.number));
        answer.note = Some(format!("the 64-bit text panicked: {message}"));
    } else if published != whole {
        let summary = format!("{} / {}", published.summary(), whole.summary());
        answer.failure = Some(format!("64 bits and whole numbers differ: {summary}"));
    }
    if answer.number == 0 {
        let after = answer.after.as_ref().expect("books after answer 0");
        if acceptance::judge(after, buffers) != 0 {
            answer.failure = Some("books unsound after answer 0".into());
        }
    }
    answer
}

/// The expected list and how many of it are partial withdrawals; both widths must give the same.
pub fn expected(books: &Books) -> Result<(Vec<Withdrawal>, usize), &'static str> {
    let whole = wide::expected(books);
    if narrow::expected(books) == whole {
        Ok(whole)
    } else {
        Err("64 bits and whole numbers differ in the expected list")
    }
}

/// Answer, left and epoch; a refusal returns its number alone. Both assignments of the text must
/// agree, at both widths, but that the 64-bit text may panic.
pub fn assign(given: &Assignment) -> Result<(u32, u128, u128), &'static str> {
    if given.churn == 0 {
        return Ok((50, 0, 0));
    }
    let whole = wide::assign(given).ok_or("the text in whole numbers panicked")?;
    if whole[0] != whole[1] {
        return Err("exits and consolidations differ");
    }
    match narrow::assign(given) {
        None => trace::hit("64 bits: the bare assignment panics"),
        Some(published) if published == whole => {}
        Some(_) => return Err("64 bits and whole numbers differ"),
    }
    let (left, epoch) = whole[0];
    if epoch > BOUND {
        Ok((42, 0, 0))
    } else {
        Ok((0, left, epoch))
    }
}

fn trace_result(call: &Call, outcome: &Outcome) {
    if let Outcome::Done(after) = outcome {
        let faults = acceptance::result_faults(after);
        if let Some((number, name)) = faults.first() {
            trace::hit(format!("result: {number} {name}, call {}", call.code()));
        }
        let mut numbers: Vec<u32> = faults.iter().map(|(number, _)| *number).collect();
        numbers.dedup();
        if numbers.len() > 1 {
            trace::hit(format!("result: {numbers:?} at once, call {}", call.code()));
        }
    }
}
