//! For makers of cases: a marker in a list of calls becomes the list expected there, or one that
//! just misses it.
use crate::{
    books::{scalar, Books, Call, Withdrawal},
    engine::wide,
};

/// A marker is a withdrawals call with one record, index 2^64 - 1 and validator 2^64 - 1 - k:
/// the expected list for k = 0, else the k-th near miss.
pub fn fill_marker(books: &Books, call: &mut Call) {
    let Call::Withdrawals(list) = call else { return };
    let [Withdrawal { index: u64::MAX, validator, .. }] = list.as_slice() else { return };
    let miss = u64::MAX - *validator;
    if miss <= 7 {
        *list = near_miss(books, wide::expected(books).0, miss);
    }
}

/// The k-th near miss of the expected list.
pub fn near_miss(books: &Books, mut list: Vec<Withdrawal>, miss: u64) -> Vec<Withdrawal> {
    match miss {
        1 => {
            list.pop();
        }
        2 => list.last_mut().into_iter().for_each(|record| record.amount += 1),
        3 if list.len() < 16 => {
            let index = books.scalars[scalar::NEXT_WITHDRAWAL_INDEX] as u64 + list.len() as u64;
            list.push(Withdrawal { index, validator: 0, address: [0; 20], amount: 1 });
        }
        4 => list.first_mut().into_iter().for_each(|record| record.address[19] ^= 1),
        5 => list.last_mut().into_iter().for_each(|record| record.validator += 1),
        6 => list.first_mut().into_iter().for_each(|record| record.index += 1),
        7 => list.reverse(),
        _ => {}
    }
    list
}
