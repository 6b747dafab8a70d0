#!/usr/bin/env bash
# Proves what docs/LOOK-BACK.md, "Brought back", says to be proved: in a copy of this tree two crates more. at_end has
# functions with END's signatures and clauses, each answered by today's function; own_amounts implements END's trait
# `Amounts` for a type of its own and calls `sum`. Needs rt; the crates below are proved in the copy too.
set -e
copy=$(mktemp -d)
trap 'rm -rf "$copy"' EXIT
git -C "$(dirname "$0")/.." archive HEAD | tar -x -C "$copy"
cd "$copy"
mkdir -p crates/at_end/src crates/own_amounts/src
cat >> crates.txt <<'END'

at_end: lists rules primitives records helpers recorded_cases single_calls expected_withdrawals exit_operations consolidation_operations
own_amounts: lists tables rules primitives records acceptance
END
cat > crates/at_end/src/lib.rt <<'END'
#![tactic(auto)]

ghost use Rattle.std.specs.Prelude.{◌≡◌, ◌≤◌};
ghost use Rattle.rules.specs.Helpers.{get_consolidation_churn_limit};
ghost use Rattle.rules.specs.BlockProcessing.{consolidation_refusal, voluntary_exit_refusal};
ghost use Rattle.primitives.specs.Answers.{answer_number};
ghost use Rattle.primitives.specs.Settings.{settings_of};
ghost use Rattle.records.specs.Layout.{identities_fit, validators_fit};
ghost use Rattle.records.specs.Lent.{plain_books};
ghost use Rattle.helpers.specs.Ready.{Registry, Accounts, Partials};
ghost use Rattle.expected_withdrawals.specs.Expected.{expected_of};
ghost use Rattle.expected_withdrawals.specs.Ready.{Ready};

use expected_withdrawals::ExpectedWithdrawals;
use primitives::answers::Refusal;
use primitives::sound::SoundSettings;
use primitives::{Epoch, Gwei, Scalars, Settings, ValidatorIndex};
use recorded_cases::books::{Results, Tables};
use recorded_cases::{books, laid};
use records::books::Books;
use single_calls::Broken;

// The books of a recorded case as END had them: they own their tables.
#[derive(Drop)]
pub struct RecordedBooks {
    pub settings: Settings,
    pub scalars: Scalars,
    pub tables: Tables,
}

pub fn lay(file: &[u8], mut tables: Tables) -> RecordedBooks {
    let laid = laid::lay(file, &mut tables);
    let settings = laid.settings;
    let scalars = laid.scalars;
    RecordedBooks {
        settings,
        scalars,
        tables,
    }
}

pub fn carry_out(
    books: &mut RecordedBooks,
    file: &[u8],
    results: &mut Results,
) -> Result<usize, Broken> {
    let mut lent = books::Books {
        settings: books.settings,
        scalars: books.scalars,
        tables: &mut books.tables,
    };
    let count = single_calls::carry_out(&mut lent, file, results);
    let scalars = lent.scalars;
    books.scalars = scalars;
    count
}

pub fn consolidation_refusal(
    settings: Settings,
    books: &Books<'_>,
    churn: Gwei,
    source: ValidatorIndex,
    target: ValidatorIndex,
    epoch: Epoch,
    valid: bool,
) -> Result<(), Refusal>
    requires tables_hold { (books.now.scalars.validators ≤ identities_fit books.now.identities.now)
        × (books.now.scalars.validators ≤ validators_fit books.now.validators.now) }
    requires churn_is { churn.0 ≡ get_consolidation_churn_limit (settings_of settings) (plain_books books.now) }
    ensures { answer_number result
        ≡ consolidation_refusal (settings_of settings) (plain_books books.now)
        source.0 target.0 epoch.0 valid }
{
    consolidation_operations::consolidation_refusal(
        settings, books, churn, source, target, epoch, valid,
    )
}

pub fn voluntary_exit_refusal(
    sound: SoundSettings,
    books: &Books<'_>,
    i: ValidatorIndex,
    epoch: Epoch,
    valid: bool,
) -> Result<(), Refusal>
    requires identities_room { books.now.scalars.validators ≤ identities_fit books.now.identities.now }
    requires registry { Registry books.now.scalars books.now.validators.now }
    requires accounts { Accounts books.now.scalars }
    requires partials { Partials books.now.scalars books.now.partials.now }
    ensures { answer_number result
        ≡ voluntary_exit_refusal (settings_of sound.settings) (plain_books books.now) i.0 epoch.0 valid }
{
    exit_operations::voluntary_exit_refusal(sound, books, i, epoch, valid)
}

pub fn get_expected_withdrawals(settings: Settings, books: &Books<'_>) -> ExpectedWithdrawals
    requires { Ready settings books.now.scalars books.now.identities.now books.now.validators.now
        books.now.partials.now }
    ensures { result ≡ expected_of (settings_of settings) (plain_books books.now) }
{
    expected_withdrawals::get_expected_withdrawals(settings, books)
}
END
cat > crates/own_amounts/src/lib.rt <<'END'
#![tactic(auto)]

ghost use Rattle.std.specs.Prelude.{◌≡◌, ◌≤◌};
ghost use Rattle.tables.specs.Rows.{rows};
ghost use Rattle.rules.specs.Types as rule;
ghost use Rattle.rules.specs.Acceptance.{consolidation_in};
ghost use Rattle.records.specs.Layout.{consolidation_at, consolidations_fit};
ghost use Rattle.acceptance.specs.Tests.{tested_sum, bounded};

use acceptance::amounts::{self, Amounts};
use acceptance::record;
use primitives::Gwei;
use records::queues::{self, PendingConsolidation};

// The sources of consolidations of so many validators, as amounts.
#[derive(Clone, Copy)]
pub struct Sources {
    pub validators: usize,
}

impl Amounts for Sources {
    ghost Plain = { rule.PendingConsolidation };

    ghost fit = { consolidations_fit };

    ghost record_at = { consolidation_at };

    ghost within = { λ s. consolidation_in s.validators };

    ghost amount = { λ c. c.source_index };

    fn amount_at(self, table: &[u64], i: usize) -> Option<Gwei> {
        let c: PendingConsolidation = queues::entry_at(table, i);
        record::consolidation_in(c, self.validators).then_some(Gwei(c.source_index.0 as u64))
    }
}

pub fn sum_of_sources(validators: usize, table: &[u64], m: usize) -> Option<Gwei>
    requires { m ≤ consolidations_fit table.now }
    ensures { result
        ≡ bounded (tested_sum (consolidation_in validators) (λ c. c.source_index) 0
        (rows m (consolidation_at table.now))) }
{
    amounts::sum(Sources { validators }, Gwei(0), table, m)
}
END
for crate in own_amounts at_end; do
    if (cd crates/$crate && rt check > ../$crate.log 2>&1); then
        echo "$crate: proved"
    else
        tail -20 crates/$crate.log
        exit 1
    fi
done
