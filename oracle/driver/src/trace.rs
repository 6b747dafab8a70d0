//! Counts what the driver itself meets: answers, causes of a broken file, faults of settings and
//! books. Together with the counters of the rules they make the coverage table.
use std::{cell::RefCell, collections::BTreeMap};

thread_local! {
    static COUNTS: RefCell<BTreeMap<String, u64>> = const { RefCell::new(BTreeMap::new()) };
}

pub fn hit(name: impl Into<String>) {
    COUNTS.with_borrow_mut(|counts| *counts.entry(name.into()).or_default() += 1);
}

/// One line for each name: the count, a tab and the name.
pub fn report() -> String {
    let mut lines = String::new();
    let own = COUNTS.with_borrow(|counts| counts.clone());
    let rules = rules_wide::trace::counts().into_iter().map(|(name, count)| (format!("rule: {name}"), count));
    for (name, count) in own.into_iter().chain(rules) {
        lines += &format!("{count}\t{name}\n");
    }
    lines
}
