//! Charges that go straight to ONS (change request Q-1): months worked by hand, and seeded months beside the same without
//! such charges.

use rateio_reference::amounts::Amounts;
use rateio_reference::charges::Charges;
use rateio_reference::ledger::{close, open, Ledger};
use rateio_reference::lines::{MonthLines, CONSUMER, DISTRIBUTOR, GENERATOR};
use rateio_reference::months::{self, counts_up_to, sound_month, Counts, STYLES};
use rateio_reference::program::{check_run, events, print, settle, Event};
use rateio_reference::read::{check_text, read_month, ANY_COUNT};
use rateio_reference::refusals::{cells_needed, work_needed, Lengths, Refusal, MAX_AMOUNT};
use rateio_reference::rng::Rng;
use rateio_reference::table::{all_tables, is_billed, is_table, random_table, some_table, with_direct};
use rateio_reference::tally::Demand;
use rateio_reference::{consulta, sample, texts};

/// Two months of a distributor, a consumer and a generator, the first and the last with a direct charge.
const MONTHS: &str = include_str!("../../../../examples/direct.csv");

const SMALL: Counts = Counts { users: 6, agents: 4, points: 9 };

/// The worked month with these users: ret and ong.
fn worked(users: [[i64; 2]; 2]) -> MonthLines {
    let mut lines = read_month(sample::INPUT.as_bytes(), 0, ANY_COUNT).expect("the worked file is sound").0;
    for (user, [ret, ong]) in lines.users.iter_mut().zip(users) {
        (user.ret, user.ong) = (ret, ong);
    }
    lines
}

/// A closing on a ledger of these lines' counts: what is answered, and the credits and cells that are left.
fn closing(lines: &MonthLines, last: i64, held: &[i64]) -> (Result<Amounts, Refusal>, Vec<i64>, Vec<i64>) {
    let (users, agents) = (lines.users.len() as u64, lines.agents.len() as u64);
    let (mut held, mut cells) = (held.to_vec(), vec![-7; cells_needed(agents, users) as usize]);
    let ledger = Ledger { users, agents, month: last };
    let (after, answer) = close(ledger, &mut held, lines, &mut cells, work_needed(agents, users));
    assert_eq!(after.month, if answer.is_ok() { lines.month } else { last });
    (answer, held, cells)
}

fn without_direct(lines: &MonthLines) -> MonthLines {
    let mut lines = lines.clone();
    lines.users.iter_mut().for_each(|user| user.ong = 0);
    lines
}

#[test]
fn the_sample_by_hand() {
    // Use of 700, 300 and 200 in July, less a correction of 300 for the generator, which leaves it a credit of 100; of 600,
    // 300 and 200 in August. Debits of 1000 in both, pb 1000 and 2000: SMSE is 1000 − 3000 − 100, a third of it agent 1's.
    let expected: [([i128; 3], [i128; 3], [i128; 3]); 2] =
        [([700, 300, -100], [700, 300, 0], [0, 0, 100]), ([600, 300, 200], [600, 300, 100], [0, 0, 0])];
    let events = events(MONTHS.as_bytes());
    assert_eq!(events.len(), 2);
    for (event, (vme, vd, held)) in events.iter().zip(expected) {
        let Amounts { charges, credits } = match event {
            Event::Closed(closed) => &closed.amounts,
            Event::Refused(refusal) => panic!("{:?}", refusal),
        };
        assert_eq!((&charges.vme[..], &charges.vd[..], &charges.held[..]), (&vme[..], &vd[..], &held[..]));
        assert_eq!(charges.ong, [7500, 0, 41]);
        assert_eq!((credits.smse, &credits.vmant[..]), (-2100, &[-700, -1400][..]));
        // The shared part of ONS, and that with all direct charges.
        assert_eq!((&credits.vc[..], &credits.credit[..]), (&[300, 600, 100][..], &[300, 600, 7641][..]));
        assert_eq!(charges.billed(), [vd[0] + 7500, vd[1], vd[2] + 41]);
    }
    // Tenths of 300, 600 and 100; in July none of them is the generator's, and its credit pays nothing of its 41.
    let output = "\
month,payee,user,cents
202407,1,1,210
202407,1,2,90
202407,1,3,0
202407,2,1,420
202407,2,2,180
202407,2,3,0
202407,ons,1,7570
202407,ons,2,30
202407,ons,3,41
202407,held,1,0
202407,held,2,0
202407,held,3,100
202408,1,1,180
202408,1,2,90
202408,1,3,30
202408,2,1,360
202408,2,2,180
202408,2,3,60
202408,ons,1,7560
202408,ons,2,30
202408,ons,3,51
202408,held,1,0
202408,held,2,0
202408,held,3,0
";
    assert_eq!(String::from_utf8_lossy(&settle(MONTHS.as_bytes())), output);
    assert_eq!(check_run(MONTHS.as_bytes(), output.as_bytes()), Ok(()));
}

#[test]
fn the_worked_month_with_direct_charges() {
    // Case a, its consumer with 7 and its generator with 1000: nothing moves but ONS's cells, 20 and 80 of 100, and its credit.
    let lines = worked([[0, 7], [0, 1000]]);
    let (answer, held, cells) = closing(&lines, 0, &[0, 0]);
    let Amounts { charges, credits } = answer.expect("accepted");
    assert_eq!(
        (&charges.eust[..], &charges.vme[..], &charges.cpv[..]),
        (&[400, 1600][..], &[400, 1600][..], &[6, 24][..])
    );
    assert_eq!((&charges.n[..], &charges.vd[..]), (&[394, 1576][..], &[394, 1576][..]));
    assert_eq!((credits.smse, &credits.vmant[..]), (-1106, &[-369, -737][..]));
    assert_eq!((&credits.vc[..], &credits.credit[..]), (&[635, 1235, 100][..], &[635, 1235, 1107][..]));
    assert_eq!(cells, [127, 508, 247, 988, 27, 1080]);
    assert_eq!(held, [0, 0]);

    let input = sample::INPUT.replace("\n1,2,0,0\n2,3,0,0\n", "\n1,2,0,7\n2,3,0,1000\n");
    let output = sample::OUTPUT.replace("ons,1,20\n", "ons,1,27\n").replace("ons,2,80\n", "ons,2,1080\n");
    assert_eq!(String::from_utf8_lossy(&settle(input.as_bytes())), output);
    let rows = sample::CONSULTA
        .replace("ong,,1,,0\n", "ong,,1,,7\n")
        .replace("ong,,2,,0\n", "ong,,2,,1000\n")
        .replace("VC,ons,,,100\n", "VC,ons,,,1107\n")
        .replace("cell,ons,1,,20\n", "cell,ons,1,,27\n")
        .replace("cell,ons,2,,80\n", "cell,ons,2,,1080\n");
    assert_eq!(String::from_utf8_lossy(&consulta::consulta(input.as_bytes())), rows);
}

#[test]
fn a_credit_that_is_left_pays_no_direct_charge() {
    // n of the consumer is 394 − 1000: its credit of 606 stays whole though 5, 606 or 10^11 go to ONS, and its ONS cell is
    // 0 of 100 and that charge. Next month its charges take 394 off the credit, and the charge again nothing.
    for ong in [5, 605, 606, 607, MAX_AMOUNT] {
        let (answer, held, cells) = closing(&worked([[-1000, ong], [0, 0]]), 0, &[0, 0]);
        let charges = answer.expect("accepted").charges;
        assert_eq!((charges.n[0], charges.vd[0], charges.held[0]), (-606, 0, 606));
        assert_eq!((held[0], [cells[0], cells[2]], cells[4]), (606, [0, 0], ong));
        assert_eq!(cells[5], 100);
        let mut august = worked([[0, ong], [0, 0]]);
        august.month = 202_408;
        let (answer, held, cells) = closing(&august, 202_407, &held);
        assert_eq!(answer.expect("accepted").charges.n[0], -212);
        assert_eq!((held[0], cells[4]), (212, ong));
    }
}

#[test]
fn a_direct_charge_is_no_debit() {
    // No points, no corrections and no pv: nobody owes anything, whatever goes to ONS. A credit that takes the only debit
    // away does the same.
    for ong in [1, MAX_AMOUNT] {
        let mut lines = worked([[0, ong], [0, ong]]);
        lines.points.clear();
        lines.agents[1].pv = 0;
        let refused = (Err(Refusal::new(10, 0)), vec![0, 0], vec![-7; 6]);
        assert_eq!(closing(&lines, 0, &[0, 0]), refused);
        lines.users[1].ret = 300;
        let (answer, held, cells) = closing(&lines, 0, &[0, 300]);
        assert_eq!((answer, held, cells), (Err(Refusal::new(10, 0)), vec![0, 300], vec![-7; 6]));
        // With one cent owed it closes; SMSE is 1 − (1000 + 2000 + 2 + 4) − 100, −1035 and −2070 of it.
        let (answer, held, cells) = closing(&lines, 0, &[0, 299]);
        assert_eq!(answer.expect("accepted").credits.vc, [-31, -68, 100]);
        assert_eq!((held, cells), (vec![0, 0], vec![0, -31, 0, -68, ong, 100 + ong]));
    }
}

#[test]
fn the_limits_of_a_direct_charge() {
    let base = events(MONTHS.as_bytes());
    let lines = match &base[0] {
        Event::Closed(closed) => &closed.lines,
        Event::Refused(refusal) => panic!("{:?}", refusal),
    };
    assert_eq!([0, 1, 2].map(|j| lines.users[j].kind), [DISTRIBUTOR, CONSUMER, GENERATOR]);
    for j in 0..3 {
        let refusal = |change: &dyn Fn(&mut MonthLines)| {
            let mut lines = lines.clone();
            change(&mut lines);
            closing(&lines, 0, &[0, 0, 0]).0.err().map(|refusal| (refusal.number, refusal.place))
        };
        let due = Some((5, j as u64 + 1));
        for ong in [0, 1, MAX_AMOUNT - 1, MAX_AMOUNT] {
            assert_eq!(refusal(&|m| m.users[j].ong = ong), None);
        }
        for ong in [-1, MAX_AMOUNT + 1, -MAX_AMOUNT, i64::MIN, i64::MAX] {
            assert_eq!(refusal(&|m| m.users[j].ong = ong), due);
            // With the line's other values, before the points and after the agents.
            assert_eq!(refusal(&|m| (m.users[j].kind, m.users[j].ong) = (4, ong)), due);
            assert_eq!(refusal(&|m| (m.users[j].ong, m.points[0].at) = (ong, 0)), due);
            assert_eq!(refusal(&|m| (m.users[j].ong, m.agents[1].pb) = (ong, -1)), Some((5, 2)));
            assert_eq!(refusal(&|m| m.users[j..].iter_mut().for_each(|user| user.ong = ong)), due);
        }
        assert_eq!(refusal(&|m| m.users.iter_mut().for_each(|user| user.ong = MAX_AMOUNT)), None);
    }
}

#[test]
fn the_column_in_a_file() {
    let names = sample::INPUT.find("\nuser").expect("users' names") + 1;
    // As files were before: the names go on with a comma, and so does each user line.
    assert_eq!(check_text(sample::INPUT.replace(",ong", "").as_bytes()), names as i64 + 13);
    let first = names + "user,kind,ret,ong\n".len();
    for (line, place) in
        [("1,2,0", 5), ("1,2,0,", 6), ("1,2,0,0,", 7), ("1,2,0,0,0", 7), ("1,2,0,-0", 7), ("1,2,0,01", 7)]
    {
        let text = sample::INPUT.replace("1,2,0,0\n", &format!("{}\n", line));
        assert_eq!(check_text(text.as_bytes()), (first + place) as i64, "{}", line);
    }
    // Its limits are closing's matter.
    for ong in [-999_999_999_999_999_999, -1, 1, 999_999_999_999_999_999] {
        let text = sample::INPUT.replace("1,2,0,0\n", &format!("1,2,0,{}\n", ong));
        let lines = read_month(text.as_bytes(), 0, ANY_COUNT).expect("a sound file").0;
        assert_eq!((lines.users[0].ong, lines.users[1].ong), (ong, 0));
    }
}

#[test]
fn the_shared_table_and_the_charges_beside_it() {
    // Case d's credits and debits, 1000 and 1 going straight to ONS: each of its three tables, and no other, with these.
    let (vc, vd, ong) = ([632, 1238, 100], [296, 1674], [1000, 1]);
    let tables = all_tables(&vc, &vd);
    assert_eq!(tables.len(), 3);
    for table in tables {
        assert_eq!(is_billed(&vc, &vd, &ong, &with_direct(table.clone(), &ong)), Ok(()));
        assert!(is_billed(&vc, &vd, &ong, &table).is_err(), "a table without the charges");
        assert_eq!(is_billed(&vc, &vd, &[0, 0], &table), Ok(()));
    }
    // Charges that enter the debits reach every payee's cells; ONS's would be about 480 and 621.
    for table in all_tables(&[632, 1238, 1101], &[296 + 1000, 1674 + 1]) {
        assert!(is_billed(&vc, &vd, &ong, &table).is_err());
    }
    // Totals that come out are not enough.
    let cells = with_direct(all_tables(&vc, &vd)[0].clone(), &ong);
    for change in [[0, 0, 1, -1, -1, 1], [0, 0, 0, 0, -1000, 1000], [1000, 0, 0, 0, -1000, 0]] {
        let wrong: Vec<i64> = cells.iter().zip(change).map(|(cell, more)| cell + 2 * more).collect();
        assert!(is_billed(&vc, &vd, &ong, &wrong).is_err());
    }
    assert!(is_billed(&vc, &vd, &ong, &[i64::MIN; 6]).is_err());
    assert!(is_billed(&vc, &vd, &ong, &cells[1..]).is_err());
}

#[test]
fn nothing_but_ons_cells_and_its_credit_moves() {
    let mut rng = Rng::new(17);
    let (mut plain, mut with, mut beside_credit, mut limits, mut refused) = (0, 0, 0, 0, 0);
    for _ in 0..3_000 {
        let (style, counts) = (rng.pick(&STYLES), counts_up_to(&mut rng, SMALL));
        let lines = sound_month(&mut rng, style, counts);
        let held = months::held_credits(&mut rng, counts.users);
        let last = months::last_before(&mut rng, lines.month);
        let (answer, held_after, cells) = closing(&lines, last, &held);
        let (other, held_other, cells_other) = closing(&without_direct(&lines), last, &held);
        assert_eq!(held_after, held_other);
        let (Amounts { charges, credits }, other) = match (answer, other) {
            (Ok(amounts), Ok(other)) => (amounts, other),
            (answer, other) => {
                assert_eq!(answer.err(), other.err());
                assert_eq!(cells, cells_other);
                refused += 1;
                continue;
            }
        };
        let ong: Vec<i128> = lines.users.iter().map(|user| user.ong.into()).collect();
        let total: i128 = ong.iter().sum();
        assert_eq!(charges.ong, ong);
        let no_ong = vec![0; counts.users];
        assert_eq!(Charges { ong: no_ong, ..charges.clone() }, other.charges);
        let credit = [&credits.vc[..counts.agents], &[i128::from(lines.ons) + total]].concat();
        assert_eq!(credits.credit, credit);
        assert_eq!(
            (&credits.vmst, &credits.vmpa, &credits.vmant),
            (&other.credits.vmst, &other.credits.vmpa, &other.credits.vmant)
        );
        assert_eq!((credits.smse, &credits.vc), (other.credits.smse, &other.credits.vc));
        assert_eq!(other.credits.credit, other.credits.vc);
        // One table of the same credits and debits: ONS's row differs, by each user's charge.
        let ons = counts.agents * counts.users;
        assert_eq!(cells[..ons], cells_other[..ons]);
        let more: Vec<i128> = (ons..cells.len()).map(|k| i128::from(cells[k]) - i128::from(cells_other[k])).collect();
        assert_eq!(more, ong);
        assert_eq!(is_table(&other.credits.vc, &other.charges.vd, &cells_other), Ok(()));
        assert_eq!(is_billed(&credits.vc, &charges.vd, &ong, &cells), Ok(()));
        // And so for any other table.
        let table = random_table(&credits.vc, &charges.vd, &mut rng);
        assert_eq!(is_billed(&credits.vc, &charges.vd, &ong, &with_direct(table, &ong)), Ok(()));
        *if total == 0 { &mut plain } else { &mut with } += 1;
        beside_credit += usize::from((0..counts.users).any(|j| ong[j] > 0 && charges.held[j] > 0));
        limits += usize::from(ong.contains(&MAX_AMOUNT.into()));
    }
    let seen = [plain, with, beside_credit, limits, refused];
    assert!(seen.iter().all(|&count| count > 100), "months of each sort have to come up: {:?}", seen);
}

#[test]
fn billed_totals_over_lists_of_closings() {
    let mut rng = Rng::new(18);
    let mut kinds = [0; 3];
    for _ in 0..200 {
        let counts = counts_up_to(&mut rng, SMALL);
        let (users, agents) = (counts.users as u64, counts.agents as u64);
        let mut held = vec![0; counts.users];
        let (mut ledger, _) = open(users, agents, &mut held);
        let mut demand = Demand::open(users, agents);
        let lengths = Lengths { held: users, cells: cells_needed(agents, users), work: work_needed(agents, users) };
        let mut due_of = vec![0; counts.users];
        let mut due_to_ons = 0;
        let mut month = 202_407;
        for _ in 0..8 {
            let style = rng.pick(&STYLES);
            let lines = MonthLines { month, ..sound_month(&mut rng, style, counts) };
            month = months::next_month(month);
            let mut cells = vec![0; lengths.cells as usize];
            let (after, answer) = close(ledger, &mut held, &lines, &mut cells, lengths.work);
            ledger = after;
            if let Ok(Amounts { charges, .. }) = &answer {
                for (j, user) in lines.users.iter().enumerate() {
                    due_of[j] += charges.vme[j] + i128::from(user.ong) - charges.cpv[j];
                    due_to_ons += i128::from(user.ong);
                    kinds[user.kind as usize - 1] += usize::from(user.ong > 0);
                }
                due_to_ons += i128::from(lines.ons);
            }
            assert_eq!(demand.take(&lines, lengths, answer.err(), &cells), Ok(()));
        }
        assert_eq!(demand.check(&ledger, &held), Ok(()));
        let due: Vec<i128> = due_of.iter().zip(&held).map(|(due, &held)| due + i128::from(held)).collect();
        assert_eq!(demand.billed_to, due);
        assert_eq!(demand.billed_for.last(), Some(&due_to_ons));
    }
    assert!(kinds.iter().all(|&count| count > 200), "users of each kind have to have them: {:?}", kinds);
}

#[test]
fn demand_3_finds_a_charge_in_the_wrong_place() {
    let lines = worked([[0, 7], [0, 1000]]);
    let lengths = Lengths { held: 2, cells: 6, work: work_needed(2, 2) };
    let right = [127, 508, 247, 988, 27, 1080];
    let ledger = Ledger { users: 2, agents: 2, month: 202_407 };
    let judge = |cells: &[i64]| {
        let mut demand = Demand::open(2, 2);
        demand.take(&lines, lengths, None, cells).and_then(|()| demand.check(&ledger, &[0, 0]))
    };
    assert_eq!(judge(&right), Ok(()));
    for (what, wrong) in [
        ("left out", [127, 508, 247, 988, 20, 80]),
        ("of the other user", [127, 508, 247, 988, 1020, 87]),
        ("to an agent", [134, 508, 247, 988, 20, 1080]),
        ("twice", [127, 508, 247, 988, 34, 2080]),
        ("a cent of it", [127, 508, 247, 988, 26, 1081]),
    ] {
        assert!(judge(&wrong).is_err(), "{}", what);
    }
}

#[test]
fn an_output_with_a_charge_in_the_wrong_place_is_found() {
    let mut rng = Rng::new(19);
    let mut seen = 0;
    for _ in 0..300 {
        let input = texts::run_input(&mut rng, SMALL);
        let mut events = events(&input);
        let output = settle(&input);
        assert_eq!(check_run(&input, &output), Ok(()));
        let mut any = false;
        for event in &mut events {
            if let Event::Closed(closed) = event {
                any |= closed.ong().iter().any(|&ong| ong > 0);
                closed.amounts.charges.ong.fill(0);
            }
        }
        // As the programs were: right where no month has such a charge, and only there.
        let before = print(&events, some_table);
        assert_eq!(check_run(&input, &before).is_ok(), !any);
        seen += usize::from(any);
    }
    assert!((50..250).contains(&seen), "{}", seen);
}
