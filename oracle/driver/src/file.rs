//! The file of document 01: a reader that says why a file is broken, and a writer.
use crate::books::{
    Books, Call, Consolidation, Deposit, Partial, Settings, Validator, Withdrawal, SCALARS, SETTINGS,
};

/// The program reads at most this many bytes.
pub const FILE_BYTES: usize = 65_536;
const MOST_CALLS: u32 = 9_999;
const MOST_WITHDRAWALS: u32 = 16;
const LOW_28: u32 = 0x0fff_ffff;

mod kind {
    pub const HEAD: u32 = 1;
    pub const COUNT: u32 = 2;
    pub const NUMBER_LOW: u32 = 3;
    pub const NUMBER_MIDDLE: u32 = 4;
    pub const NUMBER_TOP: u32 = 5;
    pub const BYTES: u32 = 6;
    pub const FLAG: u32 = 7;
    pub const END: u32 = 8;
    pub const CALL: u32 = 9;
}

const HEAD_BOOKS: u32 = 1;
const HEAD_CALLS: u32 = 2;

/// Why a file is broken; every cause is answer 60.
pub type Broken = String;

struct Reader<'a> {
    words: &'a [u32],
    at: usize,
}

impl Reader<'_> {
    fn word(&mut self, kind: u32) -> Result<u32, Broken> {
        let word = *self.words.get(self.at).ok_or(format!("ends before a word of kind {kind}"))?;
        self.at += 1;
        if word >> 28 == kind {
            Ok(word & LOW_28)
        } else {
            Err(format!("wrong kind where kind {kind} belongs"))
        }
    }

    fn head(&mut self, head: u32) -> Result<(), Broken> {
        match self.word(kind::HEAD)? {
            found if found == head => Ok(()),
            _ => Err("wrong head".into()),
        }
    }

    fn count(&mut self) -> Result<u32, Broken> {
        self.word(kind::COUNT)
    }

    fn number(&mut self) -> Result<u64, Broken> {
        let low = self.word(kind::NUMBER_LOW)? as u64;
        let middle = self.word(kind::NUMBER_MIDDLE)? as u64;
        let top = self.word(kind::NUMBER_TOP)? as u64;
        if top > 255 {
            return Err("a number's third word above 255".into());
        }
        Ok(low | middle << 28 | top << 56)
    }

    fn wide(&mut self) -> Result<u128, Broken> {
        self.number().map(u128::from)
    }

    fn bytes<const N: usize>(&mut self) -> Result<[u8; N], Broken> {
        let mut bytes = [0; N];
        for three in bytes.chunks_mut(3) {
            let word = self.word(kind::BYTES)?;
            if word >> 24 != 0 {
                return Err("bytes with a bit above the low 24".into());
            }
            let [_, read @ ..] = word.to_be_bytes();
            three.copy_from_slice(&read[..three.len()]);
            if read[three.len()..].iter().any(|&byte| byte != 0) {
                return Err("padding not 0".into());
            }
        }
        Ok(bytes)
    }

    fn flag(&mut self) -> Result<bool, Broken> {
        match self.word(kind::FLAG)? {
            0 => Ok(false),
            1 => Ok(true),
            _ => Err("a flag above 1".into()),
        }
    }

    fn end(&mut self) -> Result<(), Broken> {
        let sum = sum_of(&self.words[..self.at]);
        if self.word(kind::END)? != sum {
            return Err("wrong end sum".into());
        }
        if self.at != self.words.len() {
            return Err("words after the end".into());
        }
        Ok(())
    }

    fn validator(&mut self) -> Result<Validator, Broken> {
        Ok(Validator {
            key: self.bytes()?,
            credentials: self.bytes()?,
            slashed: self.flag()?,
            effective: self.wide()?,
            eligibility: self.wide()?,
            activation: self.wide()?,
            exit: self.wide()?,
            withdrawable: self.wide()?,
            balance: self.wide()?,
        })
    }

    fn withdrawals(&mut self) -> Result<Vec<Withdrawal>, Broken> {
        let count = self.count()?;
        if count > MOST_WITHDRAWALS {
            return Err("more than 16 listed withdrawals".into());
        }
        (0..count).map(|_| self.withdrawal()).collect()
    }

    fn withdrawal(&mut self) -> Result<Withdrawal, Broken> {
        Ok(Withdrawal {
            index: self.number()?,
            validator: self.number()?,
            address: self.bytes()?,
            amount: self.number()?,
        })
    }

    fn call(&mut self, steps: bool) -> Result<Call, Broken> {
        Ok(match self.word(kind::CALL)? {
            1 => Call::Reward { validator: self.number()?, amount: self.number()? },
            2 => Call::Penalty { validator: self.number()?, amount: self.number()? },
            3 => Call::Receipt {
                key: self.bytes()?,
                credentials: self.bytes()?,
                amount: self.number()?,
                index: self.number()?,
                good: self.flag()?,
            },
            4 => Call::Exit { validator: self.number()?, epoch: self.number()?, good: self.flag()? },
            5 => Call::Request { address: self.bytes()?, key: self.bytes()?, amount: self.number()? },
            6 => Call::Consolidation {
                source: self.number()?,
                target: self.number()?,
                epoch: self.number()?,
                good: self.flag()?,
            },
            7 => Call::Turn,
            8 => Call::Withdrawals(self.withdrawals()?),
            91 if steps => Call::DepositStep,
            92 if steps => Call::ConsolidationStep,
            93 if steps => Call::EffectiveStep,
            _ => return Err("a code not 1 to 8".into()),
        })
    }
}

/// The low 28 bits of the wrapping sum.
fn sum_of(words: &[u32]) -> u32 {
    words.iter().fold(0u32, |sum, &word| sum.wrapping_add(word)) & LOW_28
}

/// What the program reads.
fn short_enough(bytes: &[u8]) -> Result<&[u8], Broken> {
    if bytes.len() > FILE_BYTES {
        return Err("more than 65,536 bytes".into());
    }
    Ok(bytes)
}

fn words_of(bytes: &[u8]) -> Result<Vec<u32>, Broken> {
    if bytes.is_empty() {
        return Err("empty or missing".into());
    }
    if bytes.len() % 4 != 0 {
        return Err("a length that is no multiple of 4".into());
    }
    Ok(bytes.chunks(4).map(|four| u32::from_le_bytes(four.try_into().expect("four bytes"))).collect())
}

fn bytes_of(words: &[u32]) -> Vec<u8> {
    words.iter().flat_map(|word| word.to_le_bytes()).collect()
}

/// The file with an end word that fits, where it has whole words.
pub fn mend_end(bytes: &mut Vec<u8>) {
    if let Ok(mut words) = words_of(bytes) {
        words.pop();
        words.push(kind::END << 28 | sum_of(&words));
        *bytes = bytes_of(&words);
    }
}

pub fn read_books(bytes: &[u8]) -> Result<Books, Broken> {
    short_enough(bytes).and_then(books_of)
}

/// A books file of any length.
pub fn books_of(bytes: &[u8]) -> Result<Books, Broken> {
    let words = words_of(bytes)?;
    let mut reader = Reader { words: &words, at: 0 };
    reader.head(HEAD_BOOKS)?;
    let mut settings: Settings = [0; SETTINGS];
    for value in &mut settings {
        *value = reader.number()?;
    }
    let mut scalars = [0; SCALARS];
    for value in &mut scalars {
        *value = reader.wide()?;
    }
    let mut books = Books {
        settings,
        scalars,
        validators: vec![],
        deposits: vec![],
        partials: vec![],
        consolidations: vec![],
    };
    for _ in 0..reader.count()? {
        books.validators.push(reader.validator()?);
    }
    for _ in 0..reader.count()? {
        books.deposits.push(Deposit { index: reader.wide()?, amount: reader.wide()? });
    }
    for _ in 0..reader.count()? {
        books.partials.push(Partial { index: reader.wide()?, amount: reader.wide()?, epoch: reader.wide()? });
    }
    for _ in 0..reader.count()? {
        books.consolidations.push(Consolidation { source: reader.wide()?, target: reader.wide()? });
    }
    reader.end()?;
    Ok(books)
}

/// `steps` also reads the codes 91, 92 and 93, which no file of document 01 holds.
pub fn read_calls(bytes: &[u8], steps: bool) -> Result<Vec<Call>, Broken> {
    short_enough(bytes).and_then(|bytes| calls_of(bytes, steps))
}

/// A calls file of any length.
pub fn calls_of(bytes: &[u8], steps: bool) -> Result<Vec<Call>, Broken> {
    let words = words_of(bytes)?;
    let mut reader = Reader { words: &words, at: 0 };
    reader.head(HEAD_CALLS)?;
    let count = reader.count()?;
    if count > MOST_CALLS {
        return Err("more than 9,999 calls".into());
    }
    let calls = (0..count).map(|_| reader.call(steps)).collect::<Result<_, _>>()?;
    reader.end()?;
    Ok(calls)
}

#[derive(Default)]
struct Writer {
    words: Vec<u32>,
}

impl Writer {
    fn word(&mut self, kind: u32, value: u32) {
        assert!(value <= LOW_28, "value of a word");
        self.words.push(kind << 28 | value);
    }

    fn number(&mut self, value: u64) {
        self.word(kind::NUMBER_LOW, value as u32 & LOW_28);
        self.word(kind::NUMBER_MIDDLE, (value >> 28) as u32 & LOW_28);
        self.word(kind::NUMBER_TOP, (value >> 56) as u32);
    }

    fn wide(&mut self, value: u128) {
        self.number(value.try_into().expect("a number of 64 bits"));
    }

    fn count(&mut self, count: usize) {
        self.word(kind::COUNT, count as u32);
    }

    fn bytes(&mut self, bytes: &[u8]) {
        for three in bytes.chunks(3) {
            let mut word = [0; 4];
            word[1..1 + three.len()].copy_from_slice(three);
            self.word(kind::BYTES, u32::from_be_bytes(word));
        }
    }

    fn flag(&mut self, flag: bool) {
        self.word(kind::FLAG, flag as u32);
    }

    fn end(mut self) -> Vec<u8> {
        self.word(kind::END, sum_of(&self.words));
        bytes_of(&self.words)
    }

    fn call(&mut self, call: &Call) {
        self.word(kind::CALL, call.code());
        match call {
            Call::Reward { validator, amount } | Call::Penalty { validator, amount } => {
                self.number(*validator);
                self.number(*amount);
            }
            Call::Receipt { key, credentials, amount, index, good } => {
                self.bytes(key);
                self.bytes(credentials);
                self.number(*amount);
                self.number(*index);
                self.flag(*good);
            }
            Call::Exit { validator, epoch, good } => {
                self.number(*validator);
                self.number(*epoch);
                self.flag(*good);
            }
            Call::Request { address, key, amount } => {
                self.bytes(address);
                self.bytes(key);
                self.number(*amount);
            }
            Call::Consolidation { source, target, epoch, good } => {
                self.number(*source);
                self.number(*target);
                self.number(*epoch);
                self.flag(*good);
            }
            Call::Withdrawals(list) => {
                self.count(list.len());
                for record in list {
                    self.number(record.index);
                    self.number(record.validator);
                    self.bytes(&record.address);
                    self.number(record.amount);
                }
            }
            Call::Turn | Call::DepositStep | Call::ConsolidationStep | Call::EffectiveStep => {}
        }
    }
}

pub fn write_books(books: &Books) -> Vec<u8> {
    let mut writer = Writer::default();
    writer.word(kind::HEAD, HEAD_BOOKS);
    books.settings.iter().for_each(|&value| writer.number(value));
    books.scalars.iter().for_each(|&value| writer.wide(value));
    writer.count(books.validators.len());
    for validator in &books.validators {
        writer.bytes(&validator.key);
        writer.bytes(&validator.credentials);
        writer.flag(validator.slashed);
        writer.wide(validator.effective);
        writer.wide(validator.eligibility);
        writer.wide(validator.activation);
        writer.wide(validator.exit);
        writer.wide(validator.withdrawable);
        writer.wide(validator.balance);
    }
    writer.count(books.deposits.len());
    for deposit in &books.deposits {
        writer.wide(deposit.index);
        writer.wide(deposit.amount);
    }
    writer.count(books.partials.len());
    for partial in &books.partials {
        writer.wide(partial.index);
        writer.wide(partial.amount);
        writer.wide(partial.epoch);
    }
    writer.count(books.consolidations.len());
    for entry in &books.consolidations {
        writer.wide(entry.source);
        writer.wide(entry.target);
    }
    writer.end()
}

pub fn write_calls(calls: &[Call]) -> Vec<u8> {
    let mut writer = Writer::default();
    writer.word(kind::HEAD, HEAD_CALLS);
    writer.count(calls.len());
    calls.iter().for_each(|call| writer.call(call));
    writer.end()
}
