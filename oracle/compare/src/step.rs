//! One step of a case: what is asked, the lengths of the buffers lent with it, and what is spoiled before it.
use crate::lent::{Lent, NUMBERS};
use oracle::{
    books::{Call, SETTINGS},
    engine::Assignment,
};
use std::fmt;

#[derive(Clone, Debug)]
pub enum Ask {
    Call(Call),
    Expected,
    Total,
    Assignment(Assignment),
    /// a books file
    Read(File),
    /// how many bytes the file has room for
    Write(usize),
    /// a calls file, and how many numbers the results have room for
    CarryOut(File, usize),
}

/// The bytes of a file.
#[derive(Clone)]
pub struct File(pub Vec<u8>);

impl fmt::Debug for File {
    fn fmt(&self, f: &mut fmt::Formatter<'_>) -> fmt::Result {
        const MOST: usize = 4_000;
        self.0.iter().take(MOST).try_for_each(|byte| write!(f, "{byte:02x}"))?;
        if self.0.len() > MOST {
            write!(f, "..")?;
        }
        write!(f, " ({} bytes)", self.0.len())
    }
}

/// Lengths of what a call is handed besides the books: bytes of a key, credentials and an address, numbers and bytes
/// of a list of withdrawals.
#[derive(Clone, Copy, Debug, PartialEq)]
pub struct Lengths {
    pub key: usize,
    pub credentials: usize,
    pub address: usize,
    pub records: usize,
    pub addresses: usize,
}

impl Lengths {
    pub const RIGHT: Lengths =
        Lengths { key: 48, credentials: 32, address: 20, records: 3 * 16, addresses: 20 * 16 };
}

/// A change of the lent buffers that mostly makes them unsound.
#[derive(Clone, Copy, Debug, PartialEq)]
pub enum Spoil {
    Setting(usize, u64),
    SettingsLength(usize),
    /// one of the scalars or counts
    Scalar(usize, u64),
    ScalarsLength(usize),
    IdentitiesLength(usize),
    TableLength(usize, usize),
    /// a word of a table
    Word(usize, usize, u64),
}

impl Spoil {
    /// A place that these buffers do not have stays as it is.
    pub fn apply(self, lent: &mut Lent) {
        match self {
            Spoil::Setting(position, value) => set(&mut lent.settings, position, value),
            Spoil::SettingsLength(length) => cut(&mut lent.settings, length),
            Spoil::Scalar(position, value) => set(&mut lent.scalars, position, value),
            Spoil::ScalarsLength(length) => cut(&mut lent.scalars, length),
            Spoil::IdentitiesLength(length) => cut(&mut lent.identities, length),
            Spoil::TableLength(table, length) => cut(&mut lent.tables[table], length),
            Spoil::Word(table, position, value) => set(&mut lent.tables[table], position, value),
        }
    }
}

fn set(buffer: &mut [u64], position: usize, value: u64) {
    buffer.get_mut(position).into_iter().for_each(|word| *word = value);
}

fn cut<T>(buffer: &mut Vec<T>, length: usize) {
    buffer.truncate(length);
    buffer.shrink_to_fit();
}

#[derive(Clone, Debug)]
pub struct Step {
    pub spoil: Option<Spoil>,
    pub ask: Ask,
    pub lengths: Lengths,
}

/// The name of the call with this code.
pub fn name_of_code(code: u64) -> &'static str {
    match code {
        1 => "reward",
        2 => "penalty",
        3 => "receipt",
        4 => "exit",
        5 => "request",
        6 => "consolidation",
        7 => "turn",
        8 => "withdrawals",
        91 => "deposit step",
        92 => "consolidation step",
        _ => "effective step",
    }
}

impl Step {
    /// A call with all that it needs, on unspoiled books.
    pub fn plain(ask: Ask) -> Step {
        let mut lengths = Lengths::RIGHT;
        if let Ask::Call(Call::Withdrawals(list)) = &ask {
            lengths.records = 3 * list.len();
            lengths.addresses = 20 * list.len();
        }
        Step { spoil: None, ask, lengths }
    }

    /// As `plain` makes it.
    pub fn is_plain(&self) -> bool {
        self.spoil.is_none() && self.lengths == Step::plain(self.ask.clone()).lengths
    }

    pub fn name(&self) -> &'static str {
        match &self.ask {
            Ask::Call(call) => name_of_code(call.code().into()),
            Ask::Expected => "expected list",
            Ask::Total => "total",
            Ask::Assignment(_) => "assignment",
            Ask::Read(_) => "read books",
            Ask::Write(_) => "write books",
            Ask::CarryOut(..) => "carry out",
        }
    }

    /// A slice of a wrong length, the tables aside.
    pub fn unfit(&self, lent: &Lent) -> bool {
        let Lengths { key, credentials, address, records, addresses } = self.lengths;
        let own = match &self.ask {
            Ask::Call(Call::Receipt { .. }) => key != 48 || credentials != 32,
            Ask::Call(Call::Request { .. }) => address != 20 || key != 48,
            Ask::Call(Call::Withdrawals(list)) => records < 3 * list.len() || addresses < 20 * list.len(),
            Ask::Expected => records < 3 * 16 || addresses < 20 * 16,
            Ask::Read(_) => lent.settings.len() < SETTINGS,
            _ => false,
        };
        own || lent.scalars.len() < NUMBERS
    }
}
