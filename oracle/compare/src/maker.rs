//! Random books and random steps. A case depends on its seed and its number alone.
use crate::{
    dice::Dice,
    lent::{random_lengths, record_counts, Lent, NUMBERS, WIDTHS},
    step::{Ask, File, Lengths, Spoil, Step},
};
use oracle::{
    answer::{answer, Engine},
    books::{
        scalar, setting, Books, Call, Consolidation, Deposit, Partial, Settings, Validator, Withdrawal,
        BOUND, FAR,
    },
    engine::{wide, Assignment},
    file,
    fill::near_miss,
};
use std::borrow::Cow;

const G: u64 = 1_000_000_000;
const TOP: u64 = 1 << 62;
const MAINNET: [u64; 15] =
    [32 * G, 2048 * G, G, 128 * G, 256 * G, 65_536, 256, 256, 4, 4, 1, 5, 8, 16, 16_384];

/// Which cases a run has.
#[derive(Clone, Copy, PartialEq)]
pub enum Sizes {
    All,
    /// openings of at most twelve validators
    Small,
    /// openings of 4,096 to 65,536 validators, mostly with long queues
    Large,
}

/// How many validators a case has.
#[derive(Clone, Copy, PartialEq)]
enum Size {
    Few,
    Hundreds,
    Thousands,
    Most,
    /// of a run of large books alone
    Large,
}

/// Calls files at the limit of 9,999 calls are made of these codes.
const LONG_FILES: [&[u32]; 4] = [&[7], &[1, 2], &[1, 2, 7], &[1, 2, 3, 4, 5, 6, 7, 8]];

/// Which steps a case draws from: all of them, or mostly those that consolidate, queue or withdraw, or the files, or
/// the steps of a turn alone.
const MIXES: [&[u32]; 7] = [
    &[1, 2, 3, 3, 4, 4, 5, 5, 6, 6, 7, 7, 8, 8, 91, 92, 93, 94, 95, 96, 97, 98, 99],
    &[97, 97, 98, 99, 99, 3, 5, 7],
    &[6, 6, 6, 6, 92, 92, 7, 3, 1, 4],
    &[3, 3, 3, 5, 6, 92, 7, 91],
    &[5, 5, 5, 7, 8, 8, 8, 94, 1, 4],
    &[4, 4, 4, 5, 6, 6, 6, 7],
    &[91, 92, 93, 93, 94, 95, 96, 1, 2, 3],
];

pub struct Maker {
    dice: Dice,
    size: Size,
    mix: &'static [u32],
    /// the scale of amounts
    unit: u64,
    minimum: u64,
    maximum: u64,
    /// how often a step is spoiled
    spoiled: u64,
}

fn small_chain(dice: &mut Dice) -> [u64; 15] {
    let increment = dice.between(1, 4);
    let minimum = dice.pick(&[0, 8, 10, 32]);
    let maximum = minimum + dice.pick(&[0, 1, 8, 30]);
    let (mut min_churn, mut max_churn) = (dice.between(increment, 45), dice.between(1, 45));
    if dice.chance(60) {
        // room for consolidations
        max_churn = dice.between(1, 12);
        min_churn = max_churn + minimum + dice.between(increment, 20);
    }
    let partials = dice.between(0, 3);
    [
        minimum,
        maximum,
        increment,
        min_churn,
        max_churn,
        dice.between(1, 6),
        dice.between(0, 4),
        dice.between(0, 3),
        dice.between(0, 2),
        dice.between(1, 4),
        dice.between(0, 3),
        dice.between(0, 5),
        partials,
        dice.between(partials + 1, partials + 4),
        dice.between(1, 6),
    ]
}

fn extreme_chain(dice: &mut Dice) -> [u64; 15] {
    let top = 1 << 44;
    let increment = dice.pick(&[1, 3, 1 << 20, top]);
    let minimum = dice.pick(&[0, 1, 1 << 43, top]);
    let partials = dice.between(0, 15);
    [
        minimum,
        dice.pick(&[minimum, top]),
        increment,
        dice.pick(&[increment, top]),
        dice.pick(&[1, increment, top]),
        dice.pick(&[1, 2, 65_536]),
        dice.pick(&[0, 65_536]),
        dice.pick(&[0, 65_536]),
        dice.pick(&[0, 65_536]),
        dice.pick(&[1, 3, 65_536]),
        dice.pick(&[0, 65_536]),
        dice.pick(&[0, 65_536]),
        partials,
        dice.between(partials + 1, 16),
        dice.pick(&[1, 2, 65_536]),
    ]
}

/// The mainnet row, at times with less churn for exits, so that consolidations are done.
fn mainnet_chain(dice: &mut Dice) -> [u64; 15] {
    let mut chain = MAINNET;
    if dice.chance(70) {
        chain[4] = dice.pick(&[64, 40, 95, 96]) * G;
    }
    chain
}

/// The key of a number: the number twice, so that two differ at both ends.
fn key(number: u64) -> [u8; 48] {
    let mut key = [0x11; 48];
    key[..8].copy_from_slice(&number.to_be_bytes());
    key[40..].copy_from_slice(&number.to_be_bytes());
    key
}

fn credentials(prefix: u8, middle: u8, address: u8) -> [u8; 32] {
    let mut bytes = [0; 32];
    bytes[0] = prefix;
    bytes[5] = middle;
    bytes[12] = address;
    bytes[31] = address;
    bytes
}

impl Maker {
    /// The maker of a case, and the case's opening books.
    pub fn open(seed: u64, case: u64, sizes: Sizes) -> (Maker, Books) {
        let mut dice = Dice::new(seed, case);
        let (chain, unit) = match dice.below(10) {
            0..=3 => (small_chain(&mut dice), 1),
            4..=5 => (extreme_chain(&mut dice), dice.pick(&[1, 1 << 40])),
            _ => (mainnet_chain(&mut dice), G),
        };
        let size = match (sizes, dice.below(1000)) {
            (Sizes::Small, _) => Size::Few,
            (Sizes::Large, _) => Size::Large,
            (_, 0..=9) => Size::Most,
            (_, 10..=89) => Size::Thousands,
            (_, 90..=449) => Size::Hundreds,
            _ => Size::Few,
        };
        let mix = dice.pick(&MIXES);
        let spoiled = dice.pick(&[2, 2, 2, 20]);
        let [minimum, maximum, ..] = chain;
        let mut maker = Maker { dice, size, mix, unit, minimum, maximum, spoiled };
        let books = maker.books(chain);
        (maker, books)
    }

    /// How many steps the case has: fewer on larger books.
    pub fn steps(&mut self) -> u64 {
        match self.size {
            Size::Few => self.dice.between(20, 60),
            Size::Hundreds => self.dice.between(30, 80),
            Size::Thousands => self.dice.between(10, 30),
            Size::Most => self.dice.between(6, 14),
            Size::Large => self.dice.between(20, 40),
        }
    }

    /// The books in buffers of random lengths, random words past their records.
    pub fn lend(&mut self, books: &Books) -> Lent {
        let lengths = random_lengths(books, &mut self.dice);
        Lent::of(books, lengths, || self.dice.next())
    }

    // ---- opening books

    fn count(&mut self) -> u64 {
        let dice = &mut self.dice;
        match self.size {
            Size::Few => {
                let most = dice.pick(&[1, 3, 6, 12]);
                dice.between(1, most)
            }
            Size::Hundreds => {
                let most = dice.pick(&[40, 150, 400]);
                dice.between(13, most)
            }
            Size::Thousands => dice.between(401, 8_192),
            Size::Most if dice.chance(40) => 65_536,
            Size::Most => dice.between(8_193, 65_536),
            Size::Large => match dice.below(10) {
                0 => 65_536,
                1..=2 => dice.between(16_384, 65_536),
                3..=5 => dice.between(8_192, 16_384),
                _ => dice.between(4_096, 8_192),
            },
        }
    }

    fn limit(&mut self, least: u64) -> u64 {
        let dice = &mut self.dice;
        let most = match self.size {
            Size::Few => dice.pick(&[3, 8, 16, 256]),
            Size::Hundreds => dice.pick(&[8, 60, 500]),
            Size::Thousands => dice.pick(&[60, 2_000, 9_000]),
            Size::Most => dice.pick(&[100, 20_000, 65_536]),
            Size::Large => dice.pick(&[600, 9_000, 9_000, 65_536]),
        };
        let fewest = if self.size == Size::Large { most / 4 } else { 1 };
        dice.between(fewest, most).max(least)
    }

    /// The length of a queue: empty, short, any, or full.
    fn length(&mut self, limit: u64) -> u64 {
        match self.dice.below(8) {
            0 => 0,
            1..=2 => self.dice.between(0, limit.min(4)),
            3..=5 => self.dice.between(0, limit),
            _ => limit,
        }
    }

    fn books(&mut self, chain: [u64; 15]) -> Books {
        let count = self.count();
        let registry = if self.dice.chance(40) { count } else { self.limit(count).min(65_536) };
        let limits = [registry, self.limit(1), self.limit(1), self.limit(1)];
        let mut settings: Settings = [0; 19];
        settings[..15].copy_from_slice(&chain);
        settings[15..].copy_from_slice(&limits);
        let epoch = match self.dice.below(24) {
            0 => TOP - self.dice.below(300),
            1 => TOP - self.dice.below(3),
            _ => self.dice.pick(&[0, 1, 10, 1000, 100_000]),
        };
        let mut books = Books {
            settings,
            scalars: self.scalars(epoch, count, chain[8]),
            validators: vec![],
            deposits: vec![],
            partials: vec![],
            consolidations: vec![],
        };
        let sound = self.dice.chance(40);
        books.validators = (0..count).map(|position| self.validator(position, count, epoch, sound)).collect();
        self.fill_queues(&mut books, limits);
        keep_bounds(&mut books);
        self.fill_up(&mut books);
        books
    }

    fn scalars(&mut self, epoch: u64, count: u64, lookahead: u64) -> [u128; 9] {
        let first = epoch + 1 + lookahead;
        let dice = &mut self.dice;
        let mut earliest = || {
            let near = (first + dice.below(4)).saturating_sub(1);
            let late = TOP - dice.below(70_000);
            dice.pick(&[0, first, near, near, near, late]).min(TOP)
        };
        let (exit, consolidation) = (earliest(), earliest());
        let withdrawal_index = match dice.below(8) {
            0..=3 => 0,
            4..=5 => dice.below(100),
            _ => TOP - dice.below(20),
        };
        let carry = match dice.below(8) {
            0..=2 => 0,
            3..=6 => dice.below(50 * self.unit + 1),
            _ => TOP,
        };
        [
            epoch.into(),
            withdrawal_index.into(),
            dice.below(count).into(),
            dice.pick(&[0, u64::MAX, u64::MAX, 9]).into(),
            carry.into(),
            self.rest().into(),
            exit.into(),
            self.rest().into(),
            consolidation.into(),
        ]
    }

    fn rest(&mut self) -> u64 {
        match self.dice.below(3) {
            0 => 0,
            1 => self.dice.below(50 * self.unit + 1),
            _ => self.amount(),
        }
    }

    fn epoch(&mut self, now: u64, far_percent: u64) -> u128 {
        let dice = &mut self.dice;
        if dice.chance(far_percent) {
            FAR
        } else if dice.chance(80) {
            (now + dice.below(11)).saturating_sub(5).min(TOP).into()
        } else {
            dice.pick(&[0, BOUND])
        }
    }

    /// An amount of the books, often close to a bound of the rules.
    fn amount(&mut self) -> u64 {
        let (dice, unit) = (&mut self.dice, self.unit);
        match dice.below(10) {
            0 => 0,
            1..=4 => {
                (self.minimum + dice.below(16) * (unit / 4).max(1)).saturating_sub(3 * (unit / 4).max(1))
            }
            5 => (self.minimum + dice.below(3)).saturating_sub(1),
            6 => dice.pick(&[self.maximum, self.maximum + 1, self.maximum + unit]),
            7 => dice.below(unit / 100 + 2),
            _ => dice.below(60 * unit + 1),
        }
    }

    /// A validator; where `sound`, mostly one that can leave and consolidate.
    fn validator(&mut self, position: u64, count: u64, now: u64, sound: bool) -> Validator {
        let activation = if self.dice.chance(60) { 0 } else { self.epoch(now, 20) };
        let some_epoch = self.epoch(now, 40);
        let staying = self.dice.chance(if sound { 85 } else { 65 });
        let (minimum, maximum, unit) = (self.minimum, self.maximum, self.unit);
        let any = self.dice.below(maximum + 1);
        let picks = [minimum, minimum, maximum, minimum.saturating_sub(unit), minimum + unit, any];
        let effective = self.dice.pick(&picks).min(maximum);
        let own = self.dice.chance(92);
        let number = if own { position } else { self.dice.below(count + 1) };
        let prefix = self.dice.pick(if sound { &[1, 1, 2, 2] } else { &[0, 1, 1, 1, 2, 2, 2, 3] });
        let address = self.dice.pick(if sound { &[1, 1, 1, 1, 1, 2] } else { &[1, 1, 1, 2] });
        Validator {
            key: key(number),
            credentials: credentials(prefix, self.dice.pick(&[0, 0, 7]), address),
            slashed: self.dice.chance(if sound && staying { 0 } else { 12 }),
            effective: effective.into(),
            eligibility: self.dice.pick(&[0, activation, some_epoch]),
            activation: if sound { 0 } else { activation },
            exit: if staying { FAR } else { self.epoch(now, 10) },
            withdrawable: if staying && self.dice.chance(90) { FAR } else { self.epoch(now, 10) },
            balance: self.amount().into(),
        }
    }

    fn fill_queues(&mut self, books: &mut Books, limits: [u64; 4]) {
        let count = books.validators.len() as u64;
        let now = books.scalars[scalar::EPOCH];
        let small = self.dice.chance(30);
        for _ in 0..self.length(limits[1]) {
            let amount = if small { self.dice.below(self.unit / 10 + 2) } else { self.amount() };
            books.deposits.push(Deposit { index: self.dice.below(count).into(), amount: amount.into() });
        }
        for _ in 0..self.length(limits[2]) {
            let amount = self.amount();
            let later = self.epoch(now as u64, 10);
            books.partials.push(Partial {
                index: self.dice.below(count).into(),
                amount: self.dice.pick(&[0, 1, amount, amount]).into(),
                epoch: self.dice.pick(&[0, now, now, later]),
            });
        }
        let ready: Vec<u64> = (0..count)
            .filter(|&i| {
                books.validators[i as usize].slashed || books.validators[i as usize].withdrawable <= now
            })
            .collect();
        let room = if self.dice.chance(70) { limits[3] - limits[3] / 3 } else { limits[3] };
        for _ in 0..self.length(room) {
            let source = if ready.is_empty() || self.dice.chance(6) {
                self.dice.below(count)
            } else {
                self.dice.pick(&ready)
            };
            let target = self.dice.below(count).into();
            books.consolidations.push(Consolidation { source: source.into(), target });
        }
    }

    /// At times brings a sum close to its bound.
    fn fill_up(&mut self, books: &mut Books) {
        let near = u128::from(self.dice.below(20 * self.unit + 1));
        if self.dice.chance(8) && books.total() + near < BOUND {
            let one = self.dice.below(books.validators.len() as u64) as usize;
            books.validators[one].balance += BOUND - books.total() - near;
        }
        let near = u128::from(self.dice.below(4));
        if self.dice.chance(12) && !books.partials.is_empty() && books.partial_sum() + near < BOUND {
            books.partials[0].amount += BOUND - books.partial_sum() - near;
        }
    }

    // ---- steps

    pub fn step(&mut self, books: &Books, lent: &Lent) -> Step {
        let code = self.dice.pick(self.mix);
        let ask = match code {
            94 => Ask::Expected,
            95 => Ask::Total,
            96 => Ask::Assignment(self.assignment()),
            97 => Ask::Read(self.books_file(books)),
            98 => Ask::Write(self.room(file::write_books(books).len())),
            99 => self.calls_file(books),
            _ => Ask::Call(self.call(books, code)),
        };
        let Step { ask, mut lengths, .. } = Step::plain(ask);
        lengths.records += self.dice.pick(&[0, 0, 1, 5]);
        lengths.addresses += self.dice.pick(&[0, 0, 1, 5]);
        // The bare assignment looks at no books.
        let looks = !matches!(ask, Ask::Assignment(_));
        let spoil = (looks && self.dice.chance(self.spoiled)).then(|| self.spoil(books, lent));
        if self.dice.chance(self.spoiled.min(4)) {
            self.wrong_length(&mut lengths);
        }
        Step { spoil, ask, lengths }
    }

    fn wrong_length(&mut self, lengths: &mut Lengths) {
        let dice = &mut self.dice;
        match dice.below(5) {
            0 => lengths.key = dice.pick(&[0, 20, 47, 49]),
            1 => lengths.credentials = dice.pick(&[0, 31, 33, 48]),
            2 => lengths.address = dice.pick(&[0, 19, 21, 48]),
            3 => lengths.records = dice.below(lengths.records as u64 + 1) as usize,
            _ => lengths.addresses = dice.below(lengths.addresses as u64 + 1) as usize,
        }
    }

    fn spoil(&mut self, books: &Books, lent: &Lent) -> Spoil {
        let odd = self.odd();
        let dice = &mut self.dice;
        let table = dice.below(4) as usize;
        let records = record_counts(books);
        match dice.below(10) {
            0..=1 => Spoil::Setting(dice.below(19) as usize, odd),
            2 => Spoil::SettingsLength(dice.below(19) as usize),
            3..=4 => Spoil::Scalar(dice.below(NUMBERS as u64) as usize, odd),
            5 => Spoil::ScalarsLength(dice.below(NUMBERS as u64 + 1) as usize),
            6 => Spoil::IdentitiesLength(shorter(dice, lent.identities.len())),
            7 => Spoil::TableLength(table, shorter(dice, lent.tables[table].len())),
            _ if records[table] == 0 => Spoil::Scalar(2, records[0] as u64),
            _ => {
                let record = dice.below(records[table] as u64) as usize;
                let word = dice.below(WIDTHS[table] as u64) as usize;
                Spoil::Word(table, lent.place(table, record, word), odd)
            }
        }
    }

    // ---- files

    /// As much room as is needed, more, or less.
    fn room(&mut self, needed: usize) -> usize {
        let less = shorter(&mut self.dice, needed);
        self.dice.pick(&[needed, needed, needed + 1, needed + 5, less])
    }

    /// A file of these books or of others, at times unsound or damaged.
    fn books_file(&mut self, books: &Books) -> File {
        let mut books = match self.dice.below(3) {
            0 => books.clone(),
            _ => {
                let chain = books.settings[..15].try_into().expect("chain values");
                self.books(chain)
            }
        };
        let odd = self.odd();
        match self.dice.below(20) {
            0 => books.settings[self.dice.below(19) as usize] = odd,
            1 => books.scalars[self.dice.below(9) as usize] = odd.into(),
            2 => books.validators[0].balance = odd.into(),
            3 => books.settings[self.dice.between(15, 18) as usize] = self.dice.between(1, 4),
            _ => {}
        }
        self.damaged(file::write_books(&books))
    }

    fn calls_file(&mut self, books: &Books) -> Ask {
        let (codes, count) = self.codes_of_file(books);
        let calls = self.calls_in_turn(books, codes, count);
        let room = self.room(3 * calls.len());
        Ask::CarryOut(self.damaged(file::write_calls(&calls)), room)
    }

    /// The codes that a calls file draws from, and how many calls it has: at times as many as a file can hold, or one
    /// more, where the books are small.
    fn codes_of_file(&mut self, books: &Books) -> (&'static [u32], u64) {
        let records: usize = record_counts(books).iter().sum();
        if records <= 40 && self.dice.chance(1) {
            return (self.dice.pick(&LONG_FILES), self.dice.pick(&[9_999, 9_999, 10_000]));
        }
        let most = match self.size {
            Size::Few | Size::Hundreds => 12,
            Size::Thousands | Size::Most | Size::Large => 4,
        };
        (&[1, 2, 3, 4, 5, 6, 7, 8], self.dice.below(most + 1))
    }

    /// Calls each of which is drawn for the books that those before it leave.
    fn calls_in_turn(&mut self, books: &Books, codes: &[u32], count: u64) -> Vec<Call> {
        let mut reached = Cow::Borrowed(books);
        let mut calls = vec![];
        for _ in 0..count {
            let code = self.dice.pick(codes);
            let call = self.call(&reached, code);
            if let Some(after) = answer(Engine::Wide, &reached, &call, u64::MAX).after {
                reached = Cow::Owned(after);
            }
            calls.push(call);
        }
        calls
    }

    /// At times cut, longer, or with a bit or a word changed, for some of these with an end word that fits.
    fn damaged(&mut self, mut bytes: Vec<u8>) -> File {
        let dice = &mut self.dice;
        if dice.chance(75) {
            return File(bytes);
        }
        let at = dice.below(bytes.len() as u64) as usize;
        match dice.below(5) {
            0 => bytes.truncate(dice.pick(&[at, at - at % 4, bytes.len() - 4])),
            1 => bytes.extend((0..dice.between(1, 8)).map(|_| dice.next() as u8)),
            2 => bytes[at - at % 4 + 3] ^= 1 << dice.between(4, 7),
            _ => bytes[at] ^= 1 << dice.below(8),
        }
        if dice.chance(60) {
            file::mend_end(&mut bytes);
        }
        File(bytes)
    }

    fn odd(&mut self) -> u64 {
        self.dice.pick(&[0, 1, 2, 65_537, (1 << 44) + 1, TOP, TOP + 1, u64::MAX - 1, u64::MAX])
    }

    /// An index: mostly one of a validator that could leave, at times any, at times none.
    fn index(&mut self, books: &Books) -> u64 {
        let dice = &mut self.dice;
        let count = books.validators.len() as u64;
        if dice.chance(4) {
            return dice.pick(&[u64::MAX, count + 1, 1 << 32, count]);
        }
        let queued = self.queued(books).filter(|_| self.dice.chance(12));
        if let Some(index) = queued {
            return index;
        }
        let dice = &mut self.dice;
        let now = books.scalars[scalar::EPOCH];
        let tries = dice.pick(&[1, 1, 12]);
        let mut index = dice.below(count);
        for _ in 1..tries {
            let one = &books.validators[index as usize];
            if one.exit == FAR && one.activation <= now && one.credentials[0] != 0 {
                break;
            }
            index = dice.below(count);
        }
        index
    }

    /// A validator that a queue names.
    fn queued(&mut self, books: &Books) -> Option<u64> {
        let table = self.dice.between(1, 3) as usize;
        let count = record_counts(books)[table];
        let at = if count == 0 { return None } else { self.dice.below(count as u64) as usize };
        let index = match table {
            1 => books.deposits[at].index,
            2 => books.partials[at].index,
            _ => books.consolidations[at].target,
        };
        Some(index as u64)
    }

    fn call_amount(&mut self) -> u64 {
        let (dice, unit) = (&mut self.dice, self.unit);
        match dice.below(20) {
            0..=9 => dice.below(13) * (unit / 4).max(1),
            10..=13 => dice.pick(&[0, 1, unit, self.minimum, self.maximum]),
            14..=18 => dice.below(60 * unit + 1),
            _ => dice.pick(&[TOP, u64::MAX, 1 << 63, 1 << 61]),
        }
    }

    fn call_epoch(&mut self, books: &Books) -> u64 {
        let now = books.scalars[scalar::EPOCH] as u64;
        self.dice.pick(&[0, 0, now, now, now, now + 1, u64::MAX])
    }

    fn call_key(&mut self, books: &Books) -> [u8; 48] {
        let count = books.validators.len() as u64;
        if self.dice.chance(85) {
            let index = self.index(books).min(count - 1);
            return books.validators[index as usize].key;
        }
        let mut key = key(self.dice.below(count + 7));
        if self.dice.chance(20) {
            key[self.dice.below(48) as usize] ^= 1;
        }
        key
    }

    /// The address of the first validator of a key, or another.
    fn call_address(&mut self, books: &Books, wanted: &[u8; 48]) -> [u8; 20] {
        let found = books.validators.iter().find(|one| one.key == *wanted);
        match found {
            Some(one) if self.dice.chance(88) => one.credentials[12..].try_into().expect("an address"),
            _ => credentials(0, 0, self.dice.pick(&[1, 2, 9]))[12..].try_into().expect("an address"),
        }
    }

    /// A target: at times the source itself, at times one with its address.
    fn target(&mut self, books: &Books, source: u64) -> u64 {
        if self.dice.chance(3) {
            return source;
        }
        let tries = self.dice.pick(&[1, 8, 8]);
        let mut target = self.index(books);
        for _ in 1..tries {
            let address = |index: u64| books.validators.get(index as usize).map(|one| &one.credentials[12..]);
            if target != source && address(target) == address(source) {
                break;
            }
            target = self.index(books);
        }
        target
    }

    fn call(&mut self, books: &Books, code: u32) -> Call {
        match code {
            1 => Call::Reward { validator: self.index(books), amount: self.call_amount() },
            2 => Call::Penalty { validator: self.index(books), amount: self.call_amount() },
            3 => Call::Receipt {
                key: self.call_key(books),
                credentials: credentials(self.dice.pick(&[0, 1, 2, 2, 2, 3]), 0, self.dice.pick(&[1, 2])),
                amount: self.call_amount(),
                index: self.dice.pick(&[0, 7, u64::MAX]),
                good: self.dice.chance(80),
            },
            4 => Call::Exit {
                validator: self.index(books),
                epoch: self.call_epoch(books),
                good: self.dice.chance(85),
            },
            5 => {
                let key = self.call_key(books);
                let amount = if self.dice.chance(30) { 0 } else { self.call_amount() };
                Call::Request { address: self.call_address(books, &key), key, amount }
            }
            6 => {
                let source = self.index(books);
                let epoch = if self.dice.chance(30) { self.call_epoch(books) } else { 0 };
                let target = self.target(books, source);
                Call::Consolidation { source, target, epoch, good: self.dice.chance(88) }
            }
            7 => Call::Turn,
            8 => Call::Withdrawals(self.withdrawals(books)),
            91 => Call::DepositStep,
            92 => Call::ConsolidationStep,
            _ => Call::EffectiveStep,
        }
    }

    /// The expected list, one that just misses it, or one that is too long.
    fn withdrawals(&mut self, books: &Books) -> Vec<Withdrawal> {
        let (list, _) = wide::expected(books);
        let (dice, most) = (&mut self.dice, books.settings[setting::WITHDRAWALS_PER_PAYLOAD]);
        match dice.below(12) {
            0..=6 => list,
            7 => {
                let record = Withdrawal { index: 0, validator: 0, address: [0; 20], amount: 0 };
                let record = list.last().cloned().unwrap_or(record);
                let length = dice.pick(&[most, most + 1, 16, 17, 40]) as usize;
                list.into_iter().chain(std::iter::repeat(record)).take(length).collect()
            }
            _ => near_miss(books, list, dice.between(1, 7)),
        }
    }

    fn assignment(&mut self) -> Assignment {
        let churn = match self.dice.below(6) {
            0 => 0,
            1 => 1,
            2 => self.dice.next(),
            _ => self.dice.below(300 * self.unit) + 1,
        };
        let first = self.dice.pick(&[0, 1, 5, 1000, TOP - 5, TOP, u64::MAX]);
        Assignment {
            left: self.assigned(),
            earliest: self.dice.pick(&[0, first, first.saturating_add(1), first / 2, TOP - 3, TOP]),
            activation_exit: first,
            churn,
            amount: self.assigned(),
        }
    }

    fn assigned(&mut self) -> u64 {
        match self.dice.below(6) {
            0 => self.dice.pick(&[0, 1, TOP, u64::MAX]),
            1 => self.dice.next(),
            _ => self.amount(),
        }
    }
}

/// A length below the one given: just below it, or any.
fn shorter(dice: &mut Dice, length: usize) -> usize {
    let any = dice.below(length as u64 + 1) as usize;
    dice.pick(&[length.saturating_sub(1), any])
}

/// Makes amounts smaller until the sums are within their bound.
fn keep_bounds(books: &mut Books) {
    while books.total() > BOUND {
        books.validators.iter_mut().for_each(|one| one.balance /= 4);
        books.deposits.iter_mut().for_each(|one| one.amount /= 4);
    }
    while books.partial_sum() > BOUND {
        books.partials.iter_mut().for_each(|one| one.amount /= 4);
    }
}
