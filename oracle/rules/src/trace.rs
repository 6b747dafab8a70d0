//! Counters of branches. They count in a traced build of the wide text alone; elsewhere every
//! function here is its bare value.
use std::{cell::RefCell, collections::BTreeMap};

/// The counters of the text, one a line; none in an untraced build.
const TEXT_BRANCHES: &str = include_str!(concat!(env!("OUT_DIR"), "/branches.txt"));

thread_local! {
    static COUNTS: RefCell<BTreeMap<String, u64>> = const { RefCell::new(BTreeMap::new()) };
}

/// Both sides of every branch with their counts, those never met included.
pub fn counts() -> BTreeMap<String, u64> {
    let mut all = BTreeMap::new();
    if cfg!(traced) {
        for name in TEXT_BRANCHES.lines().chain(crate::given::BRANCHES.iter().copied()) {
            all.insert(format!("{name} yes"), 0);
            all.insert(format!("{name} no"), 0);
        }
        COUNTS.with_borrow(|counts| all.extend(counts.clone()));
    }
    all
}

fn count(name: &str, side: &str) {
    if cfg!(traced) {
        COUNTS.with_borrow_mut(|counts| *counts.entry(format!("{name} {side}")).or_default() += 1);
    }
}

/// A test: yes or no.
pub fn test(name: &str, value: bool) -> bool {
    count(name, if value { "yes" } else { "no" });
    value
}

/// An option: found or none, as yes or no.
pub fn option<T>(name: &str, value: Option<T>) -> Option<T> {
    test(name, value.is_some());
    value
}

/// Which of two numbers is taken: the first (or both, being equal) is yes, the second no.
pub trait Choice: Ord + Sized {
    fn traced_min(self, name: &str, other: Self) -> Self {
        test(name, self <= other);
        self.min(other)
    }

    fn traced_max(self, name: &str, other: Self) -> Self {
        test(name, self >= other);
        self.max(other)
    }
}

impl<T: Ord> Choice for T {}

pub fn smaller<T: Ord>(name: &str, first: T, second: T) -> T {
    first.traced_min(name, second)
}

/// A loop: yes where it has a first item, no where it has none.
pub fn walk<I: IntoIterator>(name: &str, items: I) -> impl Iterator<Item = I::Item> {
    let mut items = items.into_iter().peekable();
    test(name, items.peek().is_some());
    items
}
