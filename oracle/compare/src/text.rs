//! A step as a line of plain words, and back: `exit 3 1000 1`, `read step-2.w`. Where a step is lent slices of wrong
//! lengths or spoiled books, `lengths` and five numbers or `spoil`, its kind and its numbers follow. Bytes are in
//! hexadecimal; files are beside the list, under the name in the line.
use crate::step::{Ask, File, Lengths, Spoil, Step};
use oracle::{
    books::{Call, Withdrawal},
    engine::Assignment,
};
use std::{fs, path::Path, str::FromStr};

/// The line of a step; `file` is the name under which its file, if it has one, stands.
pub fn line(step: &Step, file: &str) -> String {
    let mut text = match &step.ask {
        Ask::Call(call) => call_text(call),
        Ask::Expected => "expected".into(),
        Ask::Total => "total".into(),
        Ask::Assignment(Assignment { left, earliest, activation_exit, churn, amount }) => {
            format!("assignment {left} {earliest} {activation_exit} {churn} {amount}")
        }
        Ask::Read(_) => format!("read {file}"),
        Ask::Write(room) => format!("write {room}"),
        Ask::CarryOut(_, room) => format!("carry-out {file} {room}"),
    };
    if step.lengths != Step::plain(step.ask.clone()).lengths {
        let Lengths { key, credentials, address, records, addresses } = step.lengths;
        text += &format!(" lengths {key} {credentials} {address} {records} {addresses}");
    }
    if let Some(spoil) = step.spoil {
        text += &format!(" spoil {}", spoil_text(spoil));
    }
    text
}

fn call_text(call: &Call) -> String {
    match call {
        Call::Reward { validator, amount } => format!("reward {validator} {amount}"),
        Call::Penalty { validator, amount } => format!("penalty {validator} {amount}"),
        Call::Receipt { key, credentials, amount, index, good } => {
            format!("receipt {} {} {amount} {index} {}", hex(key), hex(credentials), *good as u8)
        }
        Call::Exit { validator, epoch, good } => format!("exit {validator} {epoch} {}", *good as u8),
        Call::Request { address, key, amount } => format!("request {} {} {amount}", hex(address), hex(key)),
        Call::Consolidation { source, target, epoch, good } => {
            format!("consolidation {source} {target} {epoch} {}", *good as u8)
        }
        Call::Turn => "turn".into(),
        Call::Withdrawals(list) => {
            let records = list
                .iter()
                .map(|one| format!(" {} {} {} {}", one.index, one.validator, hex(&one.address), one.amount));
            format!("withdrawals {}{}", list.len(), records.collect::<String>())
        }
        Call::DepositStep => "deposit-step".into(),
        Call::ConsolidationStep => "consolidation-step".into(),
        Call::EffectiveStep => "effective-step".into(),
    }
}

fn spoil_text(spoil: Spoil) -> String {
    match spoil {
        Spoil::Setting(position, value) => format!("setting {position} {value}"),
        Spoil::SettingsLength(length) => format!("settings-length {length}"),
        Spoil::Scalar(position, value) => format!("scalar {position} {value}"),
        Spoil::ScalarsLength(length) => format!("scalars-length {length}"),
        Spoil::IdentitiesLength(length) => format!("identities-length {length}"),
        Spoil::TableLength(table, length) => format!("table-length {table} {length}"),
        Spoil::Word(table, position, value) => format!("word {table} {position} {value}"),
    }
}

fn hex(bytes: &[u8]) -> String {
    bytes.iter().map(|byte| format!("{byte:02x}")).collect()
}

/// The words of a line, read one by one.
pub struct Words<'a>(pub std::str::SplitWhitespace<'a>);

impl<'a> Words<'a> {
    pub fn word(&mut self) -> Result<&'a str, String> {
        self.0.next().ok_or("a line that ends too early".into())
    }

    pub fn number<T: FromStr>(&mut self) -> Result<T, String> {
        let word = self.word()?;
        word.parse().map_err(|_| format!("no number of its kind: {word}"))
    }

    fn flag(&mut self) -> Result<bool, String> {
        Ok(self.number::<u8>()? == 1)
    }

    fn bytes<const N: usize>(&mut self) -> Result<[u8; N], String> {
        let word = self.word()?;
        let byte = |i: usize| word.get(2 * i..2 * i + 2).and_then(|two| u8::from_str_radix(two, 16).ok());
        let bytes: Option<Vec<u8>> = (0..N).map(byte).collect();
        bytes.and_then(|bytes| bytes.try_into().ok()).ok_or(format!("not {N} bytes: {word}"))
    }

    fn withdrawal(&mut self) -> Result<Withdrawal, String> {
        Ok(Withdrawal {
            index: self.number()?,
            validator: self.number()?,
            address: self.bytes()?,
            amount: self.number()?,
        })
    }
}

/// The step of a line; files are read from the folder.
pub fn step(line: &str, folder: &Path) -> Result<Step, String> {
    let mut words = Words(line.split_whitespace());
    let mut step = Step::plain(ask(&mut words, folder)?);
    while let Ok(word) = words.word() {
        match word {
            "lengths" => step.lengths = lengths(&mut words)?,
            "spoil" => step.spoil = Some(spoil(&mut words)?),
            _ => return Err(format!("neither lengths nor spoil: {word}")),
        }
    }
    Ok(step)
}

fn ask(words: &mut Words, folder: &Path) -> Result<Ask, String> {
    let kind = words.word()?;
    let file = |name: &str| fs::read(folder.join(name)).map(File).map_err(|error| format!("{name}: {error}"));
    Ok(match kind {
        "expected" => Ask::Expected,
        "total" => Ask::Total,
        "assignment" => Ask::Assignment(Assignment {
            left: words.number()?,
            earliest: words.number()?,
            activation_exit: words.number()?,
            churn: words.number()?,
            amount: words.number()?,
        }),
        "read" => Ask::Read(file(words.word()?)?),
        "write" => Ask::Write(words.number()?),
        "carry-out" => Ask::CarryOut(file(words.word()?)?, words.number()?),
        _ => Ask::Call(call(kind, words)?),
    })
}

fn call(kind: &str, words: &mut Words) -> Result<Call, String> {
    Ok(match kind {
        "reward" => Call::Reward { validator: words.number()?, amount: words.number()? },
        "penalty" => Call::Penalty { validator: words.number()?, amount: words.number()? },
        "receipt" => Call::Receipt {
            key: words.bytes()?,
            credentials: words.bytes()?,
            amount: words.number()?,
            index: words.number()?,
            good: words.flag()?,
        },
        "exit" => Call::Exit { validator: words.number()?, epoch: words.number()?, good: words.flag()? },
        "request" => Call::Request { address: words.bytes()?, key: words.bytes()?, amount: words.number()? },
        "consolidation" => Call::Consolidation {
            source: words.number()?,
            target: words.number()?,
            epoch: words.number()?,
            good: words.flag()?,
        },
        "turn" => Call::Turn,
        "withdrawals" => {
            let count = words.number()?;
            Call::Withdrawals((0..count).map(|_: u64| words.withdrawal()).collect::<Result<_, _>>()?)
        }
        "deposit-step" => Call::DepositStep,
        "consolidation-step" => Call::ConsolidationStep,
        "effective-step" => Call::EffectiveStep,
        _ => return Err(format!("no step: {kind}")),
    })
}

fn lengths(words: &mut Words) -> Result<Lengths, String> {
    Ok(Lengths {
        key: words.number()?,
        credentials: words.number()?,
        address: words.number()?,
        records: words.number()?,
        addresses: words.number()?,
    })
}

fn spoil(words: &mut Words) -> Result<Spoil, String> {
    Ok(match words.word()? {
        "setting" => Spoil::Setting(words.number()?, words.number()?),
        "settings-length" => Spoil::SettingsLength(words.number()?),
        "scalar" => Spoil::Scalar(words.number()?, words.number()?),
        "scalars-length" => Spoil::ScalarsLength(words.number()?),
        "identities-length" => Spoil::IdentitiesLength(words.number()?),
        "table-length" => Spoil::TableLength(words.number()?, words.number()?),
        "word" => Spoil::Word(words.number()?, words.number()?, words.number()?),
        kind => return Err(format!("nothing to spoil: {kind}")),
    })
}
