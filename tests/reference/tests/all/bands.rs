//! Peak and off-peak rounded one by one (change request Q-4): months worked by hand, and seeded points.

use rateio_reference::charges::{allowance, overrun, use_charge};
use rateio_reference::lines::{Point, GENERATOR};
use rateio_reference::months::{self, Counts, STYLES};
use rateio_reference::program::{events, Event};
use rateio_reference::refusals::Refusal;
use rateio_reference::rng::Rng;

/// Three months, each of a distributor, a consumer and a generator with a point each, and one that comes back.
const MONTHS: &[u8] = include_bytes!("../../../../examples/bands.csv");

#[test]
fn three_months_by_hand() {
    let events = events(MONTHS);
    let closed = |k: usize| match &events[k] {
        Event::Closed(closed) => (closed.month(), &closed.amounts),
        Event::Refused(refusal) => panic!("{:?}", refusal),
    };

    // Use in cents: 301.5 + 100.5 of the distributor, and of the consumer at half its peak tariff; 480.6. Rounded
    // together it was 402, 402, 481.
    let (month, more) = closed(0);
    assert_eq!(month, 202_407);
    assert_eq!(more.charges.eust, [302 + 101, 302 + 101, 481]);
    assert_eq!(more.charges.overrun, [0, 0, 0]);
    // 3 over 403, 403, 481: floors of 1209 / 1287 and 2418 / 1287.
    assert_eq!(more.charges.cpv, [0, 1, 2]);
    assert_eq!(more.charges.vd, [403, 402, 479]);
    assert_eq!(more.credits.smse, 1284 - (997 + 2000) - 100);
    assert_eq!(more.credits.vmant, [-605, -1208]);
    assert_eq!(more.credits.vc, [392, 792, 100]);

    // 100.4 + 30.4; 50.4 + 30.3; 480.6. Together it was 131, 81, 481.
    let (month, less) = closed(1);
    assert_eq!(month, 202_408);
    assert_eq!(less.charges.eust, [100 + 30, 50 + 30, 481]);
    // 3 over 130, 80, 481: floors of 390 / 691 and 630 / 691.
    assert_eq!(less.charges.cpv, [0, 0, 3]);
    assert_eq!(less.charges.vd, [130, 80, 478]);
    assert_eq!(less.credits.smse, 688 - (997 + 2000) - 100);
    assert_eq!(less.credits.vmant, [-803, -1606]);
    assert_eq!(less.credits.vc, [194, 394, 100]);

    // Every band is 1 kW beyond what it may draw, 11, 21 and (of 4.04) 0.96 kW: 302.4 + 92.4; 301.5 + 100.5; 384.48.
    // Together it was 395, 402, 384, and no other amount of a payee: the debits move against each other.
    let (month, over) = closed(2);
    assert_eq!(month, 202_409);
    assert_eq!(over.charges.eust, [1008 + 308, 2010 + 670, 481]);
    assert_eq!(over.charges.overrun, [302 + 92, 302 + 101, 384]);
    // 3 over 1316, 2680, 481: floors of 3948 / 4477 and 11988 / 4477.
    assert_eq!(over.charges.cpv, [0, 2, 1]);
    assert_eq!(over.charges.vd, [1710, 3081, 864]);
    assert_eq!(over.credits.smse, 5655 - (997 + 2000) - 100);
    assert_eq!(over.credits.vmant, [852, 1706]);
    assert_eq!(over.credits.vc, [1849, 3706, 100]);

    // 0.4 + 0.4: nobody owes anything, where together it was a cent.
    assert!(matches!(events[3], Event::Refused(Refusal { number: 10, place: 0 })));
    assert_eq!(events.len(), 4);
}

/// Whether `cents` are `thousandths` of a cent rounded to the nearest, a half going up.
fn is_half_up(cents: i128, thousandths: i128) -> bool {
    let above = 1000 * cents - thousandths;
    -500 < above && above <= 500
}

/// What is left of an amount, in cents, once both bands are rounded together as before Q-4: −1, 0 or 1.
fn beside_once(cents: i128, thousandths: i128) -> i128 {
    (-1..=1).find(|cent| is_half_up(cents - cent, thousandths)).expect("at most a cent from the amount rounded once")
}

#[test]
fn bands_of_a_point_are_rounded_one_by_one() {
    let mut rng = Rng::new(3);
    let (mut halves, mut uses, mut overruns) = (0, [0; 3], [0; 3]);
    for _ in 0..8_000 {
        let style = rng.pick(&STYLES);
        let lines = months::month(&mut rng, style, Counts { users: 1, agents: 1, points: 3 });
        let kind = lines.users[0].kind;
        for point in &lines.points {
            let [_, tp, tf, dp, df, mp, mf, vp, vf] = point.columns().map(i128::from);
            let peak = Point { tf: 0, df: 0, mf: 0, vf: 0, ..*point };
            let off_peak = Point { tp: 0, dp: 0, mp: 0, vp: 0, ..*point };

            let (used_p, used_f) = (tp * (100 - dp) * mp, tf * (100 - df) * mf);
            assert!(is_half_up(use_charge(&peak), used_p));
            assert!(is_half_up(use_charge(&off_peak), used_f));
            assert_eq!(use_charge(point), use_charge(&peak) + use_charge(&off_peak));
            halves += usize::from(used_p % 1000 == 500 || used_f % 1000 == 500);
            let use_beside = beside_once(use_charge(point), used_p + used_f);
            uses[(use_beside + 1) as usize] += 1;

            let excess = |verified: i128, contracted: i128| (100 * verified - allowance(kind) * contracted).max(0);
            let (over_p, over_f) = (3 * tp * excess(vp, mp), 3 * tf * excess(vf, mf));
            assert!(is_half_up(overrun(kind, &peak), over_p));
            assert!(is_half_up(overrun(kind, &off_peak), over_f));
            assert_eq!(overrun(kind, point), overrun(kind, &peak) + overrun(kind, &off_peak));
            assert_eq!(overrun(kind, point), overrun(kind, &Point { dp: 0, df: 0, ..*point }));
            let overrun_beside = beside_once(overrun(kind, point), over_p + over_f);
            overruns[(overrun_beside + 1) as usize] += 1;

            // A generator has one band alone.
            assert!(kind != GENERATOR || (use_beside, overrun_beside) == (0, 0));
        }
    }
    assert!(halves > 100, "half cents have to come up");
    let seen = [uses, overruns];
    assert!(seen.concat().iter().all(|&count| count > 100), "a cent less and a cent more have to come up: {:?}", seen);
}
