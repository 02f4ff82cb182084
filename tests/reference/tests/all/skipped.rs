//! Months that never closed (change request Q-8): VMPA pays the twelfths since the last closed month.

use rateio_reference::credits::{cycle, cycle_month, settled_to, vmpa};
use rateio_reference::ledger::{close, open};
use rateio_reference::lines::{Agent, MonthLines, User, CONSUMER};
use rateio_reference::months;
use rateio_reference::program::{events, Event};
use rateio_reference::refusals::{cells_needed, work_needed, MAX_AMOUNT};
use rateio_reference::rng::Rng;

/// July, September, June and the August after it, of two agents with pa 25 and −1 and two users with a point each.
const MONTHS: &[u8] = include_bytes!("../../../../examples/skipped.csv");

/// A month that is accepted, of one agent for each of these adjustments.
fn month_of(month: i64, pa: &[i64]) -> MonthLines {
    let agent = |(number, &pa): (i64, &i64)| Agent { number, pb: 1, pv: 0, afs: 0, rfs: 0, pa, ret: 0 };
    let users = vec![User { number: 1, kind: CONSUMER, ret: 100, ong: 0 }];
    MonthLines { month, ons: 0, agents: (1..).zip(pa).map(agent).collect(), users, points: vec![] }
}

/// The same with an amount out of range: it comes back.
fn refused(month: i64, pa: &[i64]) -> MonthLines {
    MonthLines { ons: -1, ..month_of(month, pa) }
}

/// VMPA by agent of each month that is closed, on a ledger just opened for them.
fn paid(months: &[MonthLines]) -> Vec<Vec<i128>> {
    let agents = months[0].agents.len() as u64;
    let (mut held, mut cells) = ([0], vec![0; cells_needed(agents, 1) as usize]);
    let (mut ledger, _) = open(1, agents, &mut held);
    let mut paid = Vec::new();
    for lines in months {
        let (after, answer) = close(ledger, &mut held, lines, &mut cells, work_needed(agents, 1));
        assert_eq!(answer.is_err(), lines.ons < 0, "{}", lines.month);
        paid.extend(answer.ok().map(|amounts| amounts.credits.vmpa));
        ledger = after;
    }
    paid
}

/// The last of these months' VMPA of 25 and of −1.
fn last_paid(months: &[i64]) -> [i128; 2] {
    let months: Vec<MonthLines> = months.iter().map(|&month| month_of(month, &[25, -1])).collect();
    let paid = paid(&months).pop().expect("a closed month");
    [paid[0], paid[1]]
}

#[test]
fn months_by_hand() {
    // Twelfths of 25, added up from July: 2, 4, 6, 8, 10, 12, 14, 16, 18, 20, 22, 25; of −1: −1 from July on.
    assert_eq!(last_paid(&[202_407]), [2, -1]);
    assert_eq!(last_paid(&[202_407, 202_408]), [2, 0]);
    assert_eq!(last_paid(&[202_407, 202_409]), [4, 0]);
    assert_eq!(last_paid(&[202_407, 202_408, 202_409]), [2, 0]);
    // The turn of the year ends no cycle.
    assert_eq!(last_paid(&[202_411, 202_501]), [4, 0]);
    assert_eq!(last_paid(&[202_407, 202_506]), [23, 0]);
    // A ledger's first month pays one twelfth, also in June.
    assert_eq!(last_paid(&[202_506]), [3, 0]);
    assert_eq!(last_paid(&[202_408]), [2, 0]);
    // After an earlier cycle every twelfth since July is due, whichever month was its last.
    assert_eq!(last_paid(&[202_406, 202_407]), [2, -1]);
    assert_eq!(last_paid(&[202_406, 202_408]), [4, -1]);
    assert_eq!(last_paid(&[202_404, 202_408]), [4, -1]);
    assert_eq!(last_paid(&[202_408, 202_508]), [4, -1]);
    assert_eq!(last_paid(&[202_406, 202_506]), [25, -1]);
    assert_eq!(last_paid(&[200_001, 209_912]), [12, -1]);
}

#[test]
fn the_sample_by_hand() {
    // Use of 1000 each; pb 200 and 1000, so SMSE is 2000 − 1200 − 100 less both VMPA, and agent 1 has a sixth of it.
    let expected: [(i64, [i128; 2], i128, [i128; 3]); 4] = [
        (202_407, [2, -1], 699, [200 + 2 + 116, 1000 - 1 + 583, 100]),
        (202_409, [4, 0], 696, [200 + 4 + 116, 1000 + 580, 100]),
        (202_506, [19, 0], 681, [200 + 19 + 113, 1000 + 568, 100]),
        (202_508, [4, -1], 697, [200 + 4 + 116, 1000 - 1 + 581, 100]),
    ];
    let events = events(MONTHS);
    assert_eq!(events.len(), expected.len());
    for (event, (month, vmpa, smse, vc)) in events.iter().zip(expected) {
        let closed = match event {
            Event::Closed(closed) => closed,
            Event::Refused(refusal) => panic!("{:?}", refusal),
        };
        assert_eq!((closed.month(), closed.vd()), (month, &[1000, 1000][..]));
        let credits = &closed.amounts.credits;
        assert_eq!((&credits.vmpa[..], credits.smse, &credits.vc[..]), (&vmpa[..], smse, &vc[..]), "{}", month);
    }
}

#[test]
fn both_floors_are_of_the_closing_months_adjustment() {
    let months = [month_of(202_407, &[0]), month_of(202_409, &[25]), month_of(202_410, &[-7])];
    // 6 less 2, though July paid nothing; −7 × 4 / 12 is −3 and −7 × 3 / 12 is −2.
    assert_eq!(paid(&months), [[0], [4], [-1]]);
}

#[test]
fn a_refused_month_settles_nothing() {
    let pa = [25, -1, 7, 100_000_000_000];
    let (july, august, september) = (month_of(202_407, &pa), refused(202_408, &pa), month_of(202_409, &pa));
    let skipped = paid(&[july.clone(), september.clone()]);
    assert_eq!(skipped[1][..2], [4, 0]);
    assert_eq!(paid(&[july.clone(), august.clone(), september.clone()]), skipped);
    assert_eq!(paid(&[july, august.clone(), august.clone(), september.clone()]), skipped);
    // A ledger of refused months alone has none closed.
    assert_eq!(paid(&[august, september.clone()]), paid(&[september]));
}

#[test]
fn a_july_parts_two_cycles() {
    let calendar: Vec<i64> = months::calendar().collect();
    for (k, &earlier) in calendar.iter().enumerate() {
        let mut july = false;
        for &later in &calendar[k + 1..] {
            july |= later % 100 == 7;
            assert_eq!(cycle(earlier) == cycle(later), !july, "{} {}", earlier, later);
            let b = if july { 0 } else { cycle_month(earlier) };
            assert_eq!(settled_to(earlier, later), b, "{} {}", earlier, later);
        }
    }
}

/// Adjustments of both signs: small ones, any, and the ends.
fn adjustments(rng: &mut Rng) -> Vec<i64> {
    let mut adjustments = vec![0, rng.between(1, 30), -rng.between(1, 30), MAX_AMOUNT, -MAX_AMOUNT];
    adjustments.extend((0..3).map(|_| rng.between(-MAX_AMOUNT, MAX_AMOUNT)));
    adjustments
}

#[test]
fn whichever_months_are_skipped_the_cycle_pays_the_year() {
    let mut rng = Rng::new(8);
    let (mut whole, mut skipped) = (0, [0; 12]);
    for _ in 0..3_000 {
        let july = rng.between(2001, 2098) * 100 + 7;
        let mut closed: Vec<i64> = (0..12).map(|k| months::moved(july, k)).filter(|_| rng.chance(60)).collect();
        // Before it an earlier cycle's month; or it begins with July, the ledger's first.
        let before = if rng.chance(50) { Some(months::moved(july, -rng.between(1, 18))) } else { None };
        if before.is_none() && closed.first() != Some(&july) {
            closed.insert(0, july);
        }
        if closed.is_empty() {
            continue;
        }
        let (pa, other) = (adjustments(&mut rng), adjustments(&mut rng));
        let months: Vec<MonthLines> = before
            .map(|month| month_of(month, &other))
            .into_iter()
            .chain(closed.iter().map(|&month| month_of(month, &pa)))
            .collect();
        let paid = paid(&months);
        let in_cycle = &paid[paid.len() - closed.len()..];
        let c = cycle_month(closed[closed.len() - 1]);
        for (i, &pa) in pa.iter().enumerate() {
            let total: i128 = in_cycle.iter().map(|month| month[i]).sum();
            // The year by June; up to another month, what no month skipped would have paid.
            let unbroken: i128 = (1..=c).map(|c| vmpa(pa.into(), c - 1, c)).sum();
            assert_eq!(total, unbroken, "{} over {:?} after {:?}", pa, closed, before);
            assert!(c < 12 || total == i128::from(pa));
        }
        whole += usize::from(c == 12);
        (0..12).filter(|&k| !closed.contains(&months::moved(july, k))).for_each(|k| skipped[k as usize] += 1);
    }
    assert!(whole > 1_000 && skipped.iter().all(|&count| count > 100), "{} {:?}", whole, skipped);
}
