//! The buffers that are lent to the library, and its calls on them.
use crate::{
    dice::Dice,
    ffi,
    step::{Ask, Lengths, Step},
};
use oracle::{
    books::{
        Books, Call, Consolidation, Deposit, Partial, Settings, Validator, Withdrawal, SCALARS, SETTINGS,
    },
    engine::Assignment,
};

/// The scalars of the books, then the four counts.
pub const NUMBERS: usize = SCALARS + 4;
/// Bytes of a key, of credentials, and of both.
pub const KEY: usize = 48;
const CREDENTIALS: usize = 32;
pub const IDENTITY: usize = KEY + CREDENTIALS;
/// Words of a record in each table: validators, deposits, partials, consolidations.
pub const WIDTHS: [usize; 4] = [7, 2, 3, 2];

/// The lengths of the buffers: settings, scalars, identities, then the four tables.
pub type BufferLengths = [usize; 7];

/// The registry is laid out by columns: all keys, then all credentials, in `identities`; in the first table one column
/// after the other, each with room for every validator. Words behind the last whole column are in no record.
#[derive(Clone, PartialEq)]
pub struct Lent {
    pub settings: Vec<u64>,
    pub scalars: Vec<u64>,
    pub identities: Vec<u8>,
    /// validators, deposits, partials, consolidations
    pub tables: [Vec<u64>; 4],
}

/// What a call of the library gave besides the books.
pub struct Given {
    pub number: u8,
    /// the numbers lent for results: total, or count and partial count, or left and epoch, or a file's length, or the
    /// count of its calls
    pub numbers: [u64; 2],
    /// the records of an expected list, or the results of calls
    pub words: Vec<u64>,
    /// the addresses of an expected list, or a file
    pub bytes: Vec<u8>,
    /// what the library was only to read in the call's own buffers is as it was handed over
    pub kept: bool,
}

/// What stands in lent numbers before a call.
pub const FILLER: u64 = 0xA5A5_0F0F_5A5A_F0F0;
pub const BYTE: u8 = 0xC3;

fn narrow(value: u128) -> u64 {
    value.try_into().expect("books of 64-bit numbers")
}

fn validator_words(one: &Validator) -> [u64; 7] {
    [
        one.slashed as u64,
        narrow(one.effective),
        narrow(one.eligibility),
        narrow(one.activation),
        narrow(one.exit),
        narrow(one.withdrawable),
        narrow(one.balance),
    ]
}

fn scalar_words(books: &Books) -> Vec<u64> {
    let lengths = record_counts(books).map(|length| length as u64);
    books.scalars.iter().map(|&value| narrow(value)).chain(lengths).collect()
}

/// How many validators, deposits, partials and consolidations there are.
pub fn record_counts(books: &Books) -> [usize; 4] {
    [books.validators.len(), books.deposits.len(), books.partials.len(), books.consolidations.len()]
}

/// The least rooms of the tables: the limits, or the counts where they are above.
fn least_rooms(books: &Books) -> [usize; 4] {
    let counts = record_counts(books);
    std::array::from_fn(|table| {
        (books.settings[SETTINGS - 4 + table].min(65_536) as usize).max(counts[table])
    })
}

/// The lengths of buffers with just the room that the limits ask for.
pub fn least_lengths(books: &Books) -> BufferLengths {
    let rooms = least_rooms(books);
    let words: [usize; 4] = std::array::from_fn(|table| WIDTHS[table] * rooms[table]);
    [SETTINGS, NUMBERS, IDENTITY * rooms[0], words[0], words[1], words[2], words[3]]
}

/// The least lengths, at times more: room for a few more records, and a part of a record behind them.
pub fn random_lengths(books: &Books, dice: &mut Dice) -> BufferLengths {
    let rooms = least_rooms(books).map(|room| room + dice.pick(&[0, 0, 1, 3]));
    let settings = SETTINGS + dice.below(3) as usize;
    let scalars = NUMBERS + dice.below(3) as usize;
    let identities = IDENTITY * rooms[0] + dice.below(IDENTITY as u64) as usize;
    let words: [usize; 4] =
        std::array::from_fn(|table| WIDTHS[table] * rooms[table] + dice.below(WIDTHS[table] as u64) as usize);
    [settings, scalars, identities, words[0], words[1], words[2], words[3]]
}

impl Lent {
    /// The books in buffers of these lengths; `past` gives what stands where no record does. No buffer has room behind
    /// its length, so that a tool that watches memory sees every step outside it.
    pub fn of(books: &Books, lengths: BufferLengths, mut past: impl FnMut() -> u64) -> Lent {
        let [settings, scalars, identities, tables @ ..] = lengths;
        let mut words = |length: usize| (0..length).map(|_| past()).collect::<Vec<u64>>();
        let (settings, scalars) = (words(settings), words(scalars));
        let tables = tables.map(&mut words);
        let identities = (0..identities).map(|_| past() as u8).collect();
        let mut lent = Lent { settings, scalars, identities, tables };
        lent.store(books);
        lent
    }

    pub fn lengths(&self) -> BufferLengths {
        let [validators, deposits, partials, consolidations] = self.tables.each_ref().map(Vec::len);
        let (settings, scalars) = (self.settings.len(), self.scalars.len());
        [settings, scalars, self.identities.len(), validators, deposits, partials, consolidations]
    }

    /// Writes the books over what the buffers hold; every word that belongs to no record stays.
    pub fn store(&mut self, books: &Books) {
        self.settings[..SETTINGS].copy_from_slice(&books.settings);
        self.scalars[..NUMBERS].copy_from_slice(&scalar_words(books));
        let keys = KEY * (self.identities.len() / IDENTITY);
        for (i, one) in books.validators.iter().enumerate() {
            self.identities[KEY * i..][..KEY].copy_from_slice(&one.key);
            self.identities[keys + CREDENTIALS * i..][..CREDENTIALS].copy_from_slice(&one.credentials);
        }
        self.store_table(0, &books.validators, validator_words);
        self.store_table(1, &books.deposits, |one| [one.index, one.amount].map(narrow));
        self.store_table(2, &books.partials, |one| [one.index, one.amount, one.epoch].map(narrow));
        self.store_table(3, &books.consolidations, |one| [one.source, one.target].map(narrow));
    }

    fn store_table<T, const N: usize>(
        &mut self,
        table: usize,
        records: &[T],
        words: impl Fn(&T) -> [u64; N],
    ) {
        for (i, record) in records.iter().enumerate() {
            for (k, word) in words(record).into_iter().enumerate() {
                let place = self.place(table, i, k);
                self.tables[table][place] = word;
            }
        }
    }

    /// The settings that the library is to see: a missing one is 0.
    pub fn settings(&self) -> Settings {
        std::array::from_fn(|position| self.settings.get(position).copied().unwrap_or(0))
    }

    pub fn count(&self, table: usize) -> u64 {
        self.scalars[SCALARS + table]
    }

    /// Where word k of a record stands.
    pub fn place(&self, table: usize, record: usize, k: usize) -> usize {
        match table {
            0 => k * (self.tables[0].len() / WIDTHS[0]) + record,
            _ => WIDTHS[table] * record + k,
        }
    }

    /// How many records have room in each table.
    pub fn rooms(&self) -> [usize; 4] {
        let mut rooms: [usize; 4] = std::array::from_fn(|table| self.tables[table].len() / WIDTHS[table]);
        rooms[0] = rooms[0].min(self.identities.len() / IDENTITY);
        rooms
    }

    /// The books in the buffers; None where a count is above its room or a flag neither 0 nor 1.
    pub fn books(&self) -> Option<Books> {
        let rooms = self.rooms();
        if (0..4).any(|table| self.count(table) > rooms[table] as u64) {
            return None;
        }
        let word = |table: usize, i: u64, k: usize| self.tables[table][self.place(table, i as usize, k)];
        let wide = |table: usize, i: u64, k: usize| u128::from(word(table, i, k));
        if (0..self.count(0)).any(|i| word(0, i, 0) > 1) {
            return None;
        }
        Some(Books {
            settings: self.settings(),
            scalars: std::array::from_fn(|position| self.scalars[position].into()),
            validators: (0..self.count(0)).map(|i| self.validator(i as usize)).collect(),
            deposits: (0..self.count(1))
                .map(|i| Deposit { index: wide(1, i, 0), amount: wide(1, i, 1) })
                .collect(),
            partials: (0..self.count(2))
                .map(|i| Partial { index: wide(2, i, 0), amount: wide(2, i, 1), epoch: wide(2, i, 2) })
                .collect(),
            consolidations: (0..self.count(3))
                .map(|i| Consolidation { source: wide(3, i, 0), target: wide(3, i, 1) })
                .collect(),
        })
    }

    fn validator(&self, i: usize) -> Validator {
        let keys = KEY * (self.identities.len() / IDENTITY);
        let word = |k: usize| self.tables[0][self.place(0, i, k)];
        Validator {
            key: self.identities[KEY * i..][..KEY].try_into().expect("a key"),
            credentials: self.identities[keys + CREDENTIALS * i..][..CREDENTIALS]
                .try_into()
                .expect("credentials"),
            slashed: word(0) == 1,
            effective: word(1).into(),
            eligibility: word(2).into(),
            activation: word(3).into(),
            exit: word(4).into(),
            withdrawable: word(5).into(),
            balance: word(6).into(),
        }
    }
}

// A call of the library: the buffers of the books, then the call's own arguments.
//
// Safety: each buffer is a vector of its own, borrowed for the call and handed over with its length, and so are the
// call's own buffers.
macro_rules! call {
    ($function:ident, $lent:expr $(, $argument:expr)* $(,)?) => {{
        let Lent { settings, scalars, identities, tables: [validators, deposits, partials, consolidations] } = $lent;
        unsafe {
            ffi::$function(
                settings.as_ptr(),
                settings.len(),
                scalars.as_mut_ptr(),
                scalars.len(),
                identities.as_mut_ptr(),
                identities.len(),
                validators.as_mut_ptr(),
                validators.len(),
                deposits.as_mut_ptr(),
                deposits.len(),
                partials.as_mut_ptr(),
                partials.len(),
                consolidations.as_mut_ptr(),
                consolidations.len(),
                $($argument,)*
            )
        }
    }};
}

/// A buffer of the call's own that the library is only to read, and what it held before.
struct Own<T> {
    lent: Box<[T]>,
    copy: Box<[T]>,
}

impl<T: Copy + PartialEq> Own<T> {
    /// The first values, or more of them than there are.
    fn new(values: &[T], length: usize, more: T) -> Own<T> {
        let lent: Box<[T]> = values.iter().copied().chain(std::iter::repeat(more)).take(length).collect();
        Own { copy: lent.clone(), lent }
    }

    /// From a pointer that may be written through, so that a change would be seen.
    fn pointer(&mut self) -> *const T {
        self.lent.as_mut_ptr()
    }

    fn len(&self) -> usize {
        self.lent.len()
    }

    fn kept(&self) -> bool {
        self.lent == self.copy
    }
}

fn own_bytes(bytes: &[u8], length: usize) -> Own<u8> {
    Own::new(bytes, length, BYTE)
}

/// One call of the library. The numbers for results are on the heap, each by itself, where a tool that watches memory
/// sees a step past them.
pub fn call(lent: &mut Lent, step: &Step) -> Given {
    let (words, bytes) = match step.ask {
        Ask::Write(room) => (0, room),
        Ask::CarryOut(_, room) => (room, 0),
        _ => (step.lengths.records, step.lengths.addresses),
    };
    let (mut words, mut bytes) = (vec![FILLER; words], vec![BYTE; bytes]);
    let [mut first, mut second] = [Box::new(FILLER), Box::new(FILLER)];
    let (number, kept) = match &step.ask {
        Ask::Call(of_file) => call_of_file(lent, of_file, step.lengths),
        Ask::Total => (call!(solarbasil_total, lent, &mut *first), true),
        Ask::Expected => (expected(lent, &mut words, &mut bytes, &mut first, &mut second), true),
        Ask::Read(file) => read(lent, &file.0),
        Ask::Write(_) => {
            (call!(solarbasil_write_books, lent, bytes.as_mut_ptr(), bytes.len(), &mut *first), true)
        }
        Ask::CarryOut(file, _) => carry_out(lent, &file.0, &mut words, &mut first),
        Ask::Assignment(given) => (assignment(given, &mut first, &mut second), true),
    };
    Given { number, numbers: [*first, *second], words, bytes, kept }
}

fn expected(lent: &mut Lent, words: &mut [u64], bytes: &mut [u8], count: &mut u64, partials: &mut u64) -> u8 {
    call!(
        solarbasil_get_expected_withdrawals,
        lent,
        words.as_mut_ptr(),
        words.len(),
        bytes.as_mut_ptr(),
        bytes.len(),
        count,
        partials,
    )
}

fn carry_out(lent: &mut Lent, file: &[u8], words: &mut [u64], count: &mut u64) -> (u8, bool) {
    let mut file = own_bytes(file, file.len());
    let number = call!(
        solarbasil_carry_out,
        lent,
        file.pointer(),
        file.len(),
        words.as_mut_ptr(),
        words.len(),
        count,
    );
    (number, file.kept())
}

fn assignment(given: &Assignment, left: &mut u64, epoch: &mut u64) -> u8 {
    let Assignment { left: before, earliest, activation_exit, churn, amount } = *given;
    // Safety: two numbers of our own.
    unsafe { ffi::solarbasil_epoch_assignment(before, earliest, activation_exit, churn, amount, left, epoch) }
}

/// The buffers after the calls of a file, each made by itself.
pub fn one_by_one(lent: &Lent, calls: &[Call]) -> Lent {
    let mut lent = lent.clone();
    for call in calls {
        let listed = if let Call::Withdrawals(list) = call { list.len() } else { 0 };
        let lengths = Lengths { records: 3 * listed, addresses: 20 * listed, ..Lengths::RIGHT };
        call_of_file(&mut lent, call, lengths);
    }
    lent
}

/// As `call!`, but that the settings may change too.
fn read(lent: &mut Lent, file: &[u8]) -> (u8, bool) {
    let Lent { settings, scalars, identities, tables: [validators, deposits, partials, consolidations] } =
        lent;
    let mut file = own_bytes(file, file.len());
    let number = unsafe {
        ffi::solarbasil_read_books(
            settings.as_mut_ptr(),
            settings.len(),
            scalars.as_mut_ptr(),
            scalars.len(),
            identities.as_mut_ptr(),
            identities.len(),
            validators.as_mut_ptr(),
            validators.len(),
            deposits.as_mut_ptr(),
            deposits.len(),
            partials.as_mut_ptr(),
            partials.len(),
            consolidations.as_mut_ptr(),
            consolidations.len(),
            file.pointer(),
            file.len(),
        )
    };
    (number, file.kept())
}

/// The answer, and whether the call's own buffers were kept.
fn call_of_file(lent: &mut Lent, call: &Call, lengths: Lengths) -> (u8, bool) {
    let number = match call {
        Call::Receipt { key, credentials, amount, index, good } => {
            return receipt(lent, (key, credentials), (*amount, *index, *good), lengths)
        }
        Call::Request { address, key, amount } => return request(lent, address, key, *amount, lengths),
        Call::Withdrawals(list) => return withdrawals(lent, list, lengths),
        Call::Reward { validator, amount } => call!(solarbasil_reward, lent, *validator, *amount),
        Call::Penalty { validator, amount } => call!(solarbasil_penalty, lent, *validator, *amount),
        Call::Exit { validator, epoch, good } => {
            call!(solarbasil_process_voluntary_exit, lent, *validator, *epoch, *good)
        }
        Call::Consolidation { source, target, epoch, good } => {
            call!(solarbasil_process_consolidation, lent, *source, *target, *epoch, *good)
        }
        Call::Turn => call!(solarbasil_turn, lent),
        Call::DepositStep => call!(solarbasil_process_pending_balance_deposits, lent),
        Call::ConsolidationStep => call!(solarbasil_process_pending_consolidations, lent),
        Call::EffectiveStep => call!(solarbasil_process_effective_balance_updates, lent),
    };
    (number, true)
}

fn receipt(
    lent: &mut Lent,
    (key, credentials): (&[u8; KEY], &[u8; CREDENTIALS]),
    (amount, index, good): (u64, u64, bool),
    lengths: Lengths,
) -> (u8, bool) {
    let (mut key, mut credentials) =
        (own_bytes(key, lengths.key), own_bytes(credentials, lengths.credentials));
    let number = call!(
        solarbasil_process_deposit_receipt,
        lent,
        key.pointer(),
        key.len(),
        credentials.pointer(),
        credentials.len(),
        amount,
        index,
        good,
    );
    (number, key.kept() && credentials.kept())
}

fn request(
    lent: &mut Lent,
    address: &[u8; 20],
    key: &[u8; KEY],
    amount: u64,
    lengths: Lengths,
) -> (u8, bool) {
    let (mut address, mut key) = (own_bytes(address, lengths.address), own_bytes(key, lengths.key));
    let number = call!(
        solarbasil_process_execution_layer_withdrawal_request,
        lent,
        address.pointer(),
        address.len(),
        key.pointer(),
        key.len(),
        amount,
    );
    (number, address.kept() && key.kept())
}

fn withdrawals(lent: &mut Lent, list: &[Withdrawal], lengths: Lengths) -> (u8, bool) {
    let words: Vec<u64> = list.iter().flat_map(|w| [w.index, w.validator, w.amount]).collect();
    let bytes: Vec<u8> = list.iter().flat_map(|w| w.address).collect();
    let mut words = Own::new(&words, lengths.records, FILLER);
    let mut bytes = own_bytes(&bytes, lengths.addresses);
    let number = call!(
        solarbasil_process_withdrawals,
        lent,
        words.pointer(),
        words.len(),
        bytes.pointer(),
        bytes.len(),
        list.len() as u64,
    );
    (number, words.kept() && bytes.kept())
}

#[cfg(test)]
mod tests {
    use super::*;

    #[test]
    fn a_changed_own_buffer_is_noticed() {
        for place in 0..3 {
            let mut own = own_bytes(&[1, 2], 3);
            assert!(own.kept());
            // Safety: a place within the buffer, which is ours.
            unsafe { *own.pointer().cast_mut().add(place) ^= 1 };
            assert!(!own.kept());
        }
    }
}
