//! Opening and closing: every refusal with its place, what a call changes and what it leaves, and demand 3 over lists.

use rateio_reference::amounts::Amounts;
use rateio_reference::faults::{self, Block, Fault};
use rateio_reference::ledger::{close, open, Ledger};
use rateio_reference::lines::MonthLines;
use rateio_reference::months::{self, counts_up_to, sound_month, Counts, STYLES};
use rateio_reference::refusals::{cells_needed, work_needed, Lengths, Refusal};
use rateio_reference::rng::Rng;
use rateio_reference::table::is_billed;
use rateio_reference::tally::Demand;

/// What untouched entries hold.
const MARK: i64 = -77;

fn ledger_of(lines: &MonthLines, month: i64) -> Ledger {
    Ledger { users: lines.users.len() as u64, agents: lines.agents.len() as u64, month }
}

/// A closing on a ledger with no month closed, credits all 0, and slices that are long enough for any month.
fn refusal_of(ledger: Ledger, lines: &MonthLines) -> Option<Refusal> {
    let (mut held, mut cells) = (vec![0; 600], vec![MARK; 2_000]);
    let (after, answer) = close(ledger, &mut held, lines, &mut cells, 300_000);
    if answer.is_err() {
        assert_eq!(after, ledger);
        assert!(held.iter().all(|&credit| credit == 0) && cells.iter().all(|&cell| cell == MARK));
    }
    answer.err()
}

#[test]
fn opening() {
    for (users, agents, held_length) in
        [(1, 1, 1), (512, 256, 512), (3, 2, 10), (0, 1, 5), (513, 1, 600), (1, 0, 5), (1, 257, 5), (4, 4, 3)]
    {
        let mut held = vec![MARK; held_length];
        let (ledger, refused) = open(users, agents, &mut held);
        let in_limits = (1..=512).contains(&users) && (1..=256).contains(&agents);
        if in_limits && held_length as u64 >= users {
            assert_eq!((ledger, refused), (Ledger { users, agents, month: 0 }, None));
            assert!(held[..users as usize].iter().all(|&credit| credit == 0));
            assert!(held[users as usize..].iter().all(|&credit| credit == MARK));
        } else {
            let due = if in_limits { Refusal::new(2, 1) } else { Refusal::new(1, 0) };
            assert_eq!((ledger, refused), (Ledger { users: 0, agents: 0, month: 0 }, Some(due)));
            assert!(held.iter().all(|&credit| credit == MARK));
        }
    }
    assert_eq!(open(u64::MAX, u64::MAX, &mut []).1, Some(Refusal::new(1, 0)));
}

#[test]
fn every_fault_at_its_place() {
    let mut rng = Rng::new(21);
    for style in STYLES {
        let base = faults::sound_base(&mut rng, style);
        let ledger = ledger_of(&base, 0);
        assert_eq!(refusal_of(ledger, &base), None, "{:?}", style);
        for fault in faults::all() {
            for line in fault.lines(&base) {
                let mut lines = base.clone();
                (fault.apply)(&mut lines, line);
                assert_eq!(refusal_of(ledger, &lines), Some(fault.refusal(line)), "{} at {}", fault.name, line);
            }
        }
    }
}

#[test]
fn the_earlier_of_two_faults() {
    let mut rng = Rng::new(22);
    let all = faults::all();
    let base = faults::sound_base(&mut rng, STYLES[0]);
    // Two faults of one line may undo each other, and the sums' faults change lines of every block; counts are
    // applied last, since the faults of lines need the lines.
    let of_line = |fault: &&Fault| fault.block != Block::Sums && fault.block != Block::Counts;
    for first in all.iter().filter(of_line) {
        for second in all.iter().filter(of_line) {
            let at = [rng.pick(&first.lines(&base)), rng.pick(&second.lines(&base))];
            if (first.block, at[0]) >= (second.block, at[1]) {
                continue;
            }
            let mut lines = base.clone();
            (second.apply)(&mut lines, at[1]);
            (first.apply)(&mut lines, at[0]);
            let due = Some(first.refusal(at[0]));
            assert_eq!(refusal_of(ledger_of(&base, 0), &lines), due, "{} and {}", first.name, second.name);
        }
        for sum in all.iter().filter(|fault| fault.block == Block::Sums && fault.number != 10) {
            let at = rng.pick(&first.lines(&base));
            let mut lines = base.clone();
            (first.apply)(&mut lines, at);
            let damaged = lines.clone();
            (sum.apply)(&mut lines, 0);
            // The sum's fault may take the line's away with it.
            let kept = lines.points == damaged.points || first.block != Block::Points;
            let kept = kept && (lines.agents == damaged.agents || first.block != Block::Agents);
            if kept {
                assert_eq!(refusal_of(ledger_of(&base, 0), &lines), Some(first.refusal(at)), "{}", first.name);
            }
        }
        for counts in all.iter().filter(|fault| fault.block == Block::Counts) {
            let mut lines = base.clone();
            (first.apply)(&mut lines, first.lines(&base)[0]);
            (counts.apply)(&mut lines, 0);
            assert_eq!(refusal_of(ledger_of(&base, 0), &lines), Some(Refusal::new(1, 0)), "{}", counts.name);
        }
    }
}

#[test]
fn refusals_of_the_ledger_and_its_slices() {
    let mut rng = Rng::new(23);
    let mut lines = sound_month(&mut rng, STYLES[0], Counts { users: 3, agents: 2, points: 4 });
    lines.month = 202_407;
    let answer = |ledger, held: &[i64], cells: usize, work| {
        let (mut held, mut cells) = (held.to_vec(), vec![0; cells]);
        close(ledger, &mut held, &lines, &mut cells, work).1.err().map(|refusal| (refusal.number, refusal.place))
    };
    let ledger = ledger_of(&lines, 0);
    assert_eq!((cells_needed(2, 3), work_needed(2, 3)), (9, 42));
    assert_eq!((cells_needed(256, 512), work_needed(256, 512)), (131_584, 266_244));
    assert_eq!(answer(ledger, &[0; 3], 9, 42), None);
    assert_eq!(answer(ledger, &[0; 2], 8, 41), Some((2, 1)));
    assert_eq!(answer(ledger, &[0; 3], 8, 41), Some((2, 2)));
    assert_eq!(answer(ledger, &[0; 3], 9, 41), Some((2, 3)));
    // A held credit: 0 to 10^17, looked at for users only; the month comes before it, the slices before both.
    let most = 100_000_000_000_000_000;
    assert_eq!(answer(ledger, &[0, most, 0, -1, most + 1], 9, 42), None);
    assert_eq!(answer(ledger, &[0, most + 1, -1], 9, 42), Some((4, 2)));
    assert_eq!(answer(ledger, &[0, 0, -1], 9, 42), Some((4, 3)));
    assert_eq!(answer(Ledger { month: 202_407, ..ledger }, &[0, 0, -1], 9, 42), Some((3, 0)));
    assert_eq!(answer(Ledger { month: 202_407, ..ledger }, &[0, 0, -1], 9, 41), Some((2, 3)));
    // The last closed month: none, an earlier one, the same, a later one, impossible ones.
    for (month, due) in [(202_406, None), (200_001, None), (202_408, Some((3, 0))), (209_912, Some((3, 0)))] {
        assert_eq!(answer(Ledger { month, ..ledger }, &[0; 3], 9, 42), due);
    }
    for month in [1, 202_400, 202_413, 199_912, 210_001, i64::MAX, -1, -202_406, i64::MIN] {
        assert_eq!(answer(Ledger { month, ..ledger }, &[], 0, 0), Some((1, 0)));
    }
    assert_eq!(answer(Ledger { users: 4, ..ledger }, &[0; 3], 9, 42), Some((1, 0)));
    assert_eq!(answer(Ledger { agents: 1, ..ledger }, &[0; 3], 9, 42), Some((1, 0)));
}

#[test]
fn an_accepted_closing_changes_what_it_should() {
    let mut rng = Rng::new(24);
    let mut accepted = 0;
    for _ in 0..1_000 {
        let (style, counts) = (rng.pick(&STYLES), counts_up_to(&mut rng, Counts { users: 7, agents: 5, points: 9 }));
        let lines = sound_month(&mut rng, style, counts);
        let held = months::held_credits(&mut rng, counts.users + 3);
        let entries = cells_needed(counts.agents as u64, counts.users as u64) as usize;
        let mut cells = vec![MARK; entries + 3];
        let mut after = held.clone();
        let ledger = ledger_of(&lines, 0);
        let (moved, answer) = close(ledger, &mut after, &lines, &mut cells, 1_000);
        match answer {
            Ok(Amounts { charges, credits }) => {
                accepted += 1;
                assert_eq!(moved, Ledger { month: lines.month, ..ledger });
                let (new, beyond) = after.split_at(counts.users);
                assert_eq!(new.iter().map(|&credit| i128::from(credit)).collect::<Vec<_>>(), charges.held);
                assert_eq!(beyond, &held[counts.users..]);
                assert_eq!(is_billed(&credits.vc, &charges.vd, &charges.ong, &cells[..entries]), Ok(()));
                assert_eq!(cells[entries..], [MARK; 3]);
            }
            // Held credits can take every debit away.
            Err(refusal) => {
                assert_eq!(refusal, Refusal::new(10, 0));
                assert_eq!((moved, after), (ledger, held));
                assert!(cells.iter().all(|&cell| cell == MARK));
            }
        }
    }
    assert!(accepted > 700, "most months are accepted: {}", accepted);
}

/// One closing of a list: lines that are mostly sound, slices that are mostly long enough.
fn next_closing(rng: &mut Rng, counts: Counts, last: i64) -> (MonthLines, Lengths) {
    let style = rng.pick(&STYLES);
    let counts = if rng.chance(95) { counts } else { counts_up_to(rng, Counts { users: 6, agents: 4, points: 9 }) };
    let mut lines = sound_month(rng, style, counts);
    lines.month = months::month_after(rng, last);
    let fault = rng.pick(&faults::all());
    if rng.chance(25) && fault.fits(&lines) {
        let line = rng.pick(&fault.lines(&lines));
        (fault.apply)(&mut lines, line);
    }
    let (users, agents) = (lines.users.len() as u64, lines.agents.len() as u64);
    let short = |rng: &mut Rng| u64::from(rng.chance(3));
    let lengths = Lengths {
        held: users.saturating_sub(short(rng)),
        cells: (cells_needed(agents, users) + rng.below(3) as u64).saturating_sub(short(rng)),
        work: (work_needed(agents, users) + rng.below(3) as u64).saturating_sub(short(rng)),
    };
    (lines, lengths)
}

#[test]
fn the_tally_agrees_over_lists_of_closings() {
    let mut rng = Rng::new(25);
    let (mut accepted, mut refused) = (0, [0; 11]);
    for _ in 0..400 {
        let most = Counts { users: 6, agents: 4, points: 9 };
        let counts = Counts { points: 3, ..counts_up_to(&mut rng, most) };
        let mut held = vec![MARK; counts.users + 2];
        let (mut ledger, _) = open(counts.users as u64, counts.agents as u64, &mut held);
        let mut demand = Demand::open(counts.users as u64, counts.agents as u64);
        let mut last = months::any_month(&mut rng);
        for _ in 0..12 {
            let (lines, lengths) = next_closing(&mut rng, counts, last);
            let lent = held.len().min(lengths.held as usize);
            let lengths = Lengths { held: lent as u64, ..lengths };
            let mut cells = vec![MARK; lengths.cells as usize];
            let (moved, answer) = close(ledger, &mut held[..lent], &lines, &mut cells, lengths.work);
            ledger = moved;
            last = if ledger.month == 0 { last } else { ledger.month };
            match &answer {
                Ok(_) => accepted += 1,
                Err(refusal) => refused[refusal.number as usize] += 1,
            }
            assert_eq!(demand.take(&lines, lengths, answer.err(), &cells), Ok(()));
        }
        assert_eq!(demand.check(&ledger, &held), Ok(()));
        assert_eq!(held[counts.users..], [MARK; 2]);
    }
    assert!(accepted > 2_000, "most closings are accepted: {}", accepted);
    // Credits that closings themselves left are never below 0, and in so few months none passes 10^17: no 4 here.
    let unseen: Vec<usize> = (1..=10).filter(|&number| refused[number] == 0).collect();
    assert_eq!(unseen, [4], "every other refusal comes up: {:?}", refused);
}

#[test]
fn demand_3_finds_what_is_wrong() {
    let mut rng = Rng::new(26);
    let counts = Counts { users: 3, agents: 2, points: 6 };
    let lines = sound_month(&mut rng, STYLES[0], counts);
    let mut held = vec![0; 3];
    let (ledger, _) = open(3, 2, &mut held);
    let (opened, lengths) = (ledger, Lengths { held: 3, cells: 9, work: 42 });
    let mut cells = vec![0; 9];
    let (ledger, answer) = close(ledger, &mut held, &lines, &mut cells, 42);
    let fresh = Demand::open(3, 2);

    let mut demand = fresh.clone();
    assert_eq!(demand.take(&lines, lengths, answer.err(), &cells), Ok(()));
    assert_eq!(demand.check(&ledger, &held), Ok(()));
    assert!(demand.check(&opened, &held).is_err(), "a ledger that stayed behind");
    assert!(demand.check(&ledger, &[1, 0, 0]).is_err(), "a credit that is not due");

    let refusal = Some(Refusal::new(10, 0));
    assert!(fresh.clone().take(&lines, lengths, refusal, &cells).is_err(), "a refusal that is not due");
    assert!(fresh.clone().take(&lines, lengths, None, &[0; 9]).is_err(), "a table of zeros");
    let mut one_more = cells.clone();
    one_more[4] += 1;
    let mut demand = fresh;
    let taken = demand.take(&lines, lengths, None, &one_more);
    assert!(taken.is_err() || demand.check(&ledger, &held).is_err(), "a cent too many");
}
