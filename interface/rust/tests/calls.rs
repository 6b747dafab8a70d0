//! Each call once through the wrapper, with what it leaves and a refusal. The library's proofs say the rest.
use std::{error::Error, thread};

use solarbasil::{
    epoch_assignment, Assignment, Books, Full, Limits, Line, PendingBalanceDeposit, PendingConsolidation,
    PendingPartialWithdrawal, Refused, Scalars, Settings, Validator, FAR,
};

const G: u64 = 1_000_000_000;

fn validator(key: u8, prefix: u8, balance: u64) -> Validator {
    let mut withdrawal_credentials = [key; 32];
    withdrawal_credentials[0] = prefix;
    Validator {
        public_key: [key; 48],
        withdrawal_credentials,
        slashed: false,
        effective_balance: 32 * G,
        activation_eligibility_epoch: 0,
        activation_epoch: 0,
        exit_epoch: FAR,
        withdrawable_epoch: FAR,
        balance,
    }
}

fn books(limit: u64) -> Books {
    let limits = Limits { registry: limit, deposits: limit, partials: limit, consolidations: limit };
    Books::new(&Settings::mainnet(limits), &Scalars { epoch: 1000, ..Scalars::default() })
}

/// Two validators, of prefix 01 and 02, with 40 G each.
fn two() -> Books {
    let mut b = books(4);
    b.push_validator(&validator(1, 1, 40 * G)).unwrap();
    b.push_validator(&validator(2, 2, 40 * G)).unwrap();
    b
}

/// Two, with an entry in each queue.
fn with_queues() -> Books {
    let mut b = two();
    b.push_deposit(&PendingBalanceDeposit { index: 1, amount: G }).unwrap();
    b.push_partial(&PendingPartialWithdrawal { index: 1, amount: 5, withdrawable_epoch: 7 }).unwrap();
    b.push_consolidation(&PendingConsolidation { source_index: 0, target_index: 1 }).unwrap();
    b
}

#[test]
fn rewards_and_penalties() {
    let mut b = two();
    assert_eq!(b.reward(1, 5), Ok(()));
    assert_eq!(b.validators()[1].balance, 40 * G + 5);
    assert_eq!(b.penalty(0, 41 * G), Ok(()));
    assert_eq!(b.validators()[0].balance, 0);
    assert_eq!(b.total(), Ok(40 * G + 5));
    let before = b.clone();
    assert_eq!(b.reward(2, 5), Err(Refused(10)));
    assert_eq!(b.reward(0, 1 << 62), Err(Refused(41)));
    assert_eq!(b, before);
}

#[test]
fn settings_and_books_are_judged() {
    let mut b = books(0);
    assert_eq!(b.turn(), Err(Refused(1)));
    let mut b = books(4);
    assert_eq!(b.turn(), Err(Refused(2)));
    assert_eq!(b.total(), Err(Refused(2)));
    let mut b = books(1);
    assert_eq!(b.push_validator(&validator(1, 1, 0)), Ok(()));
    assert_eq!(b.push_validator(&validator(1, 1, 0)), Err(Full));
    let error: Box<dyn Error> = Full.into();
    assert_eq!(error.to_string(), "no room for another record");
}

#[test]
fn receipts() {
    let mut b = two();
    let new = validator(3, 1, 0);
    assert_eq!(
        b.process_deposit_receipt(&new.public_key, &new.withdrawal_credentials, 32 * G, 7, false),
        Ok(())
    );
    assert_eq!(b.validators().len(), 2);
    assert_eq!(
        b.process_deposit_receipt(&new.public_key, &new.withdrawal_credentials, 32 * G, 7, true),
        Ok(())
    );
    assert_eq!(b.validators().len(), 3);
    assert_eq!(b.validators()[2].public_key, [3; 48]);
    assert_eq!(b.deposits(), [PendingBalanceDeposit { index: 2, amount: 32 * G }]);
    assert_eq!(b.total(), Ok(112 * G));
}

#[test]
fn requests() {
    let mut b = two();
    assert_eq!(b.process_execution_layer_withdrawal_request(&[2; 20], &[2; 48], 3 * G), Ok(()));
    assert_eq!(b.partials().len(), 1);
    assert_eq!((b.partials()[0].index, b.partials()[0].amount), (1, 3 * G));
    // Another address: set aside.
    assert_eq!(b.process_execution_layer_withdrawal_request(&[3; 20], &[1; 48], 0), Ok(()));
    assert_eq!(b.validators()[0].exit_epoch, FAR);
    assert_eq!(b.process_execution_layer_withdrawal_request(&[1; 20], &[1; 48], 0), Ok(()));
    assert_eq!(b.validators()[0].exit_epoch, 1005);
    assert_eq!(b.process_voluntary_exit(1, 1000, true), Err(Refused(15)));
}

#[test]
fn consolidations_and_steps() {
    let mut b = two();
    assert_eq!(b.process_consolidation(0, 0, 1000, true), Err(Refused(21)));
    b.push_deposit(&PendingBalanceDeposit { index: 1, amount: G }).unwrap();
    b.push_consolidation(&PendingConsolidation { source_index: 0, target_index: 1 }).unwrap();
    assert_eq!(b.process_pending_balance_deposits(), Ok(()));
    assert_eq!(b.validators()[1].balance, 41 * G);
    assert_eq!(b.process_pending_consolidations(), Ok(()));
    assert_eq!(b.consolidations().len(), 1);
    assert_eq!(b.process_effective_balance_updates(), Ok(()));
    assert_eq!(b.validators()[1].effective_balance, 41 * G);
    assert_eq!(b.turn(), Ok(()));
    assert_eq!(b.scalars().epoch, 1001);
    assert_eq!(b.total(), Ok(81 * G));
}

#[test]
fn withdrawals() {
    let mut b = two();
    b.push_partial(&PendingPartialWithdrawal { index: 1, amount: 5 * G, withdrawable_epoch: 0 }).unwrap();
    let expected = b.get_expected_withdrawals().unwrap();
    assert_eq!(expected.partials, 1);
    assert_eq!(expected.list.len(), 2);
    assert_eq!((expected.list[0].validator_index, expected.list[0].amount), (1, 5 * G));
    assert_eq!((expected.list[1].index, expected.list[1].amount), (1, 8 * G));
    assert_eq!(expected.list[1].address, [1; 20]);
    let before = b.clone();
    assert_eq!(b.process_withdrawals(&expected.list[..1]), Err(Refused(30)));
    assert_eq!(b.process_withdrawals(&expected.list.repeat(9)), Err(Refused(30)));
    assert_eq!(b, before);
    assert_eq!(b.process_withdrawals(&expected.list), Ok(()));
    assert_eq!(b.total(), Ok(67 * G));
    assert_eq!(b.partials(), []);
    assert_eq!(b.scalars().next_withdrawal_index, 2);
}

#[test]
fn assignments() {
    let of = |amount| epoch_assignment(32 * G, 1005, 1005, 128 * G, amount);
    assert_eq!(of(32 * G), Ok(Assignment { left: 0, epoch: 1005 }));
    assert_eq!(of(32 * G + 1), Ok(Assignment { left: 127_999_999_999, epoch: 1006 }));
    assert_eq!(epoch_assignment(0, 0, 0, 0, 0), Err(Refused(50)));
    assert_eq!(epoch_assignment(0, FAR, 0, 1, 0), Err(Refused(42)));
}

#[test]
fn books_files() {
    let b = with_queues();
    let mut file = b.write().unwrap();
    assert_eq!(file.len(), 4 * (90 + 2 * 46 + 6 + 9 + 6));
    assert_eq!(Books::open(&file), Ok(b.clone()));
    // A buffer that is one byte short stays as it is; what stands past the file stays too.
    let mut short = vec![7; file.len() - 1];
    assert_eq!(b.write_to(&mut short), Err(Refused(61)));
    assert!(short.iter().all(|&byte| byte == 7));
    let mut long = vec![7; file.len() + 1];
    assert_eq!(b.write_to(&mut long), Ok(file.len()));
    assert_eq!((&long[..file.len()], long[file.len()]), (&file[..], 7));
    // Limits of 4 have no room in books of 3, which stay as they are.
    let mut other = books(3);
    assert_eq!(other.read(&file), Err(Refused(3)));
    assert_eq!(other, books(3));
    file[4] ^= 1;
    assert_eq!(other.read(&file), Err(Refused(60)));
    assert_eq!(Books::open(&file), Err(Refused(60)));
    assert_eq!(books(4).write(), Err(Refused(2)));
    assert_eq!(books(0).write(), Err(Refused(1)));
}

#[test]
fn equal_books() {
    let mut b = with_queues();
    assert_eq!(b.turn(), Ok(()));
    assert_eq!(b.deposits(), []);
    // The deposit was credited; what the queue's buffer still holds of it does not count.
    let file = b.write().unwrap();
    assert_eq!(Books::open(&file), Ok(b.clone()));
    // Nor does room for more records than the limits.
    let mut roomy = books(5);
    assert_eq!(roomy.read(&file), Ok(()));
    assert_eq!(roomy, b);
}

#[test]
fn unequal_settings_and_queues() {
    assert_ne!(books(4), books(5));
    assert_ne!(books(4), Books::new(&books(4).settings(), &Scalars::default()));
    let deposit = |index, amount| {
        let mut b = two();
        b.push_deposit(&PendingBalanceDeposit { index, amount }).unwrap();
        b
    };
    let partial = |index, amount, withdrawable_epoch| {
        let mut b = two();
        b.push_partial(&PendingPartialWithdrawal { index, amount, withdrawable_epoch }).unwrap();
        b
    };
    let consolidation = |source_index, target_index| {
        let mut b = two();
        b.push_consolidation(&PendingConsolidation { source_index, target_index }).unwrap();
        b
    };
    let all = [
        two(),
        deposit(0, 0),
        deposit(0, 1),
        deposit(1, 0),
        partial(0, 0, 0),
        partial(0, 0, 1),
        partial(0, 1, 0),
        partial(1, 0, 0),
        consolidation(0, 0),
        consolidation(0, 1),
        consolidation(1, 0),
    ];
    for (i, b) in all.iter().enumerate() {
        assert_eq!(all.iter().position(|other| other == b), Some(i));
    }
}

#[test]
fn unequal_validators() {
    let with = |change: fn(&mut Validator)| {
        let mut v = validator(1, 1, 40 * G);
        change(&mut v);
        let mut b = books(4);
        b.push_validator(&v).unwrap();
        b
    };
    let changes: [fn(&mut Validator); 9] = [
        |v| v.public_key[47] = 0,
        |v| v.withdrawal_credentials[31] = 0,
        |v| v.slashed = true,
        |v| v.effective_balance = 0,
        |v| v.activation_eligibility_epoch = 1,
        |v| v.activation_epoch = 1,
        |v| v.exit_epoch = 1,
        |v| v.withdrawable_epoch = 1,
        |v| v.balance = 0,
    ];
    for change in changes {
        assert_eq!(with(change), with(change));
        assert_ne!(with(change), with(|_| ()));
    }
}

#[test]
fn settings_of_a_file() {
    let limits =
        |n: [u64; 4]| Limits { registry: n[0], deposits: n[1], partials: n[2], consolidations: n[3] };
    let example = Books::open(include_bytes!("../../../example/opening.w")).unwrap();
    assert_eq!(example.settings(), Settings::mainnet(limits([256; 4])));
    // No two numbers are the same.
    let settings = Settings {
        shard_committee_period: 7,
        max_seed_lookahead: 6,
        ..Settings::mainnet(limits([9, 10, 11, 12]))
    };
    let mut b = Books::new(&settings, &Scalars::default());
    assert_eq!(b.settings(), settings);
    b.push_validator(&validator(1, 1, 0)).unwrap();
    assert_eq!(Books::open(&b.write().unwrap()).unwrap().settings(), settings);
}

#[test]
fn calls_files() {
    let calls = include_bytes!("../../../example/calls.w");
    let mut b = Books::open(include_bytes!("../../../example/opening.w")).unwrap();
    let before = b.clone();
    assert_eq!(b.carry_out(&calls[4..]), Err(Refused(60)));
    assert_eq!(b, before);
    let line = |code, answer| Line { code, answer, total: 41 * G };
    assert_eq!(b.carry_out(calls), Ok(vec![line(7, 0), line(4, 0), line(4, 12)]));
    let mut one_by_one = before;
    assert_eq!(one_by_one.turn(), Ok(()));
    assert_eq!(one_by_one.process_voluntary_exit(0, 1000, true), Ok(()));
    assert_eq!(one_by_one.process_voluntary_exit(0, 1000, true), Err(Refused(12)));
    assert_eq!(b, one_by_one);
}

/// The stack that the documentation says is enough, for the calls that take most of it.
#[test]
fn stack() {
    let calls = || {
        let mut b = with_queues();
        assert_eq!(b.process_pending_consolidations(), Ok(()));
        assert_eq!(b.turn(), Ok(()));
        assert!(b.carry_out(include_bytes!("../../../example/calls.w")).is_ok());
    };
    thread::Builder::new().stack_size(1 << 20).spawn(calls).unwrap().join().unwrap();
}
