//! The cases that the specification gives with their numbers: a to j, the refusal table's small examples, the worked
//! file, and the mistakes we have seen.

use rateio_reference::amounts::Amounts;
use rateio_reference::charges::{overrun, use_charge, Charges};
use rateio_reference::credits::{cycle_month, settled_to, vmpa};
use rateio_reference::ledger::{close, open, Ledger};
use rateio_reference::lines::{Agent, MonthLines, Point, User, CONSUMER, DISTRIBUTOR, GENERATOR};
use rateio_reference::program::{check_run, settle};
use rateio_reference::read::{check_text, read_month, Capacity};
use rateio_reference::refusals::{cells_needed, work_needed, Refusal};
use rateio_reference::sample;
use rateio_reference::share::running_share;
use rateio_reference::table::{all_tables, is_table, some_table};
use rateio_reference::texts;

const ROOM: Capacity = Capacity { agents: 16, users: 64, points: 256 };

fn sample_lines() -> MonthLines {
    read_month(sample::INPUT.as_bytes(), 0, ROOM).expect("the worked file is sound").0
}

/// A peak-only point at full tariff.
fn peak(tp: i64, mp: i64, vp: i64) -> Point {
    Point { at: 1, tp, tf: 0, dp: 0, df: 0, mp, mf: 0, vp, vf: 0 }
}

/// A closing on a ledger just opened for these lines' counts, with these held credits.
fn close_with(lines: &MonthLines, held: &mut [i64]) -> Result<Amounts, Refusal> {
    let (users, agents) = (lines.users.len() as u64, lines.agents.len() as u64);
    let ledger = Ledger { users, agents, month: 0 };
    let mut cells = vec![0; cells_needed(agents, users) as usize];
    close(ledger, held, lines, &mut cells, work_needed(agents, users)).1
}

fn refusal_of(lines: &MonthLines, held: &mut [i64]) -> (u64, u64) {
    let refusal = close_with(lines, held).expect_err("the month comes back");
    (refusal.number, refusal.place)
}

#[test]
fn case_a_the_worked_file() {
    let lines = sample_lines();
    assert_eq!(texts::file(&lines), sample::INPUT.as_bytes());
    assert_eq!((lines.month, lines.ons), (202_407, 100));
    assert_eq!(lines.agents[1], Agent { number: 2, pb: 2000, pv: 30, afs: 0, rfs: 0, pa: 25, ret: 0 });
    assert_eq!(lines.users[1], User { number: 2, kind: GENERATOR, ret: 0, ong: 0 });
    assert_eq!(lines.points[0], Point { at: 1, tp: 1000, tf: 500, dp: 0, df: 0, mp: 3, mf: 2, vp: 3, vf: 2 });

    let mut held = [9, 9, 9];
    let (ledger, refused) = open(2, 2, &mut held);
    assert_eq!((held, refused), ([0, 0, 9], None));
    let mut cells = [0; 6];
    let (ledger, answer) = close(ledger, &mut held, &lines, &mut cells, work_needed(2, 2));
    let amounts = answer.expect("the worked file is accepted");
    assert_eq!(ledger, Ledger { users: 2, agents: 2, month: 202_407 });
    assert_eq!(amounts.charges.eust, [400, 1600]);
    assert_eq!(amounts.charges.cpv, [6, 24]);
    assert_eq!(amounts.charges.vd, [394, 1576]);
    assert_eq!(amounts.credits.vmpa, [0, 2]);
    // The balance is that of case b.
    assert_eq!(amounts.credits.smse, 1970 - (1000 + 1970 + 2 + 4) - 100);
    assert_eq!(amounts.credits.vmant, [-369, -737]);
    assert_eq!(amounts.credits.vc, [635, 1235, 100]);
    assert_eq!(cells, [127, 508, 247, 988, 20, 80]);
    assert_eq!(is_table(&amounts.credits.vc, &amounts.charges.vd, &cells), Ok(()));
    assert_eq!(held, [0, 0, 9]);

    assert_eq!(String::from_utf8_lossy(&settle(sample::INPUT.as_bytes())), sample::OUTPUT);
    assert_eq!(check_run(sample::INPUT.as_bytes(), sample::OUTPUT.as_bytes()), Ok(()));
    assert_eq!(check_text(sample::INPUT.as_bytes()), -1);
}

#[test]
fn case_b_a_negative_balance() {
    assert_eq!(running_share(-1106, &[1000, 2000]), [-369, -737]);
}

#[test]
fn case_c_compensation() {
    assert_eq!(running_share(30, &[300, 1700]), [4, 26]);
}

#[test]
fn case_d_three_tables() {
    let (vc, vd) = ([632, 1238, 100], [296, 1674]);
    let user_1 = |cells: &Vec<i64>| [cells[0], cells[2], cells[4]];
    let mut found: Vec<[i64; 3]> = all_tables(&vc, &vd).iter().map(user_1).collect();
    found.sort_unstable();
    assert_eq!(found, [[94, 186, 16], [94, 187, 15], [95, 186, 15]]);
    assert!(found.contains(&user_1(&some_table(&vc, &vd))));
}

#[test]
fn case_e_half_a_cent() {
    assert_eq!(use_charge(&peak(5, 1, 0)), 1);
    assert_eq!(use_charge(&peak(4, 1, 0)), 0);
}

#[test]
fn case_f_within_the_allowance() {
    assert_eq!(overrun(CONSUMER, &peak(5432, 1000, 1050)), 0);
}

#[test]
fn case_g_one_kilowatt_over() {
    assert_eq!(overrun(CONSUMER, &peak(5432, 1000, 1051)), 1630);
}

/// VMPA of a month before which none is closed.
fn first_vmpa(pa: i128, month: i64) -> i128 {
    vmpa(pa, settled_to(0, month), cycle_month(month))
}

#[test]
fn case_h_yearly_adjustment() {
    assert_eq!((cycle_month(202_407), cycle_month(202_406)), (1, 12));
    assert_eq!((first_vmpa(25, 202_407), first_vmpa(25, 202_406)), (2, 3));
}

#[test]
fn case_i_negative_adjustment() {
    assert_eq!((first_vmpa(-1, 202_407), first_vmpa(-1, 202_408)), (-1, 0));
}

#[test]
fn case_j_a_credit_is_held() {
    let mut lines = sample_lines();
    lines.points.clear();
    lines.agents[1].pv = 0;
    // User 2 owes, so that the first month has a debit at all.
    (lines.users[0].ret, lines.users[1].ret) = (-50, 1000);
    let mut held = [0, 0];
    let first = close_with(&lines, &mut held).expect("user 2 owes");
    assert_eq!((first.charges.n[0], first.charges.vd[0], held[0]), (-50, 0, 50));
    lines.users[0].ret = 80;
    let second = close_with(&lines, &mut held).expect("both owe");
    assert_eq!((second.charges.vd[0], held[0]), (30, 0));
}

#[test]
fn the_refusals_small_examples() {
    let sound = sample_lines();
    let with = |change: &dyn Fn(&mut MonthLines)| {
        let mut lines = sound.clone();
        change(&mut lines);
        lines
    };
    assert!(close_with(&sound, &mut [0, 0]).is_ok());
    assert_eq!(refusal_of(&with(&|m| m.users.clear()), &mut [0, 0]), (1, 0));
    assert_eq!(refusal_of(&sound, &mut [0]), (2, 1));
    assert_eq!(refusal_of(&with(&|m| m.month = 202_413), &mut [0, 0]), (3, 0));
    assert_eq!(refusal_of(&sound, &mut [0, -1]), (4, 2));
    assert_eq!(refusal_of(&with(&|m| m.points[1].dp = 101), &mut [0, 0]), (5, 2));
    assert_eq!(refusal_of(&with(&|m| m.points[0].at = 3), &mut [0, 0]), (6, 1));
    assert_eq!(refusal_of(&with(&|m| m.points[1].mf = 1), &mut [0, 0]), (7, 2));
    let one_agent = with(&|m| {
        m.agents.truncate(1);
        m.agents[0].pb = 0;
    });
    assert_eq!(refusal_of(&one_agent, &mut [0, 0]), (8, 0));
    let no_points = with(&|m| {
        m.points.clear();
        m.agents[0].pv = 5;
    });
    assert_eq!(refusal_of(&no_points, &mut [0, 0]), (9, 0));
    let nothing_owed = with(&|m| {
        m.points.clear();
        m.agents[1].pv = 0;
    });
    assert_eq!(refusal_of(&nothing_owed, &mut [0, 0]), (10, 0));
    assert_eq!(read_month(b"", 0, ROOM), Err(Refusal::new(11, 0)));

    let users: Vec<User> = (1..=65).map(|number| User { number, kind: CONSUMER, ret: 0, ong: 0 }).collect();
    let text = texts::file(&with(&|m| m.users = users.clone()));
    let place = String::from_utf8_lossy(&text).find("\n65,").expect("there is a user 65") + 1;
    let output = format!("month,payee,user,cents\nrefused,12,{}\n", place);
    assert_eq!(String::from_utf8_lossy(&settle(&text)), output);
}

#[test]
fn the_mistakes_we_have_seen() {
    // Cutting towards zero would give −368 in case b.
    assert_ne!(running_share(-1106, &[1000, 2000])[0], -368);
    // The overrun tariff has no discount.
    let half_price = Point { dp: 50, ..peak(5432, 1000, 1051) };
    assert_eq!(overrun(CONSUMER, &half_price), 1630);
    // Overruns are no weights for CPV: with the same use charges, users share alike.
    let mut lines = sample_lines();
    lines.users[1].kind = DISTRIBUTOR;
    lines.points = vec![peak(1000, 10, 10), Point { at: 2, ..peak(1000, 10, 1000) }];
    let charges = Charges::of_month(&lines, &[0, 0]);
    assert!(charges.overrun[1] > 0);
    assert_eq!(charges.cpv, [15, 15]);
}
