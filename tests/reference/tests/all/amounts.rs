//! Properties of shares, charges and credits over seeded months.

use rateio_reference::amounts::Amounts;
use rateio_reference::charges::overrun;
use rateio_reference::credits::{cycle_month, vmpa};
use rateio_reference::lines::{Point, CONSUMER, DISTRIBUTOR, GENERATOR};
use rateio_reference::months::{self, counts_up_to, sound_month, Counts, STYLES};
use rateio_reference::rng::Rng;
use rateio_reference::share::{floor_share, running_share, share_c, C_REFUSAL, SHARE_LIMIT};

const SMALL: Counts = Counts { users: 8, agents: 6, points: 12 };

fn total(amounts: &[i128]) -> i128 {
    amounts.iter().sum()
}

#[test]
fn a_floor_is_the_largest_number_not_above() {
    let mut rng = Rng::new(1);
    for _ in 0..20_000 {
        let size = rng.any_size(SHARE_LIMIT);
        let p = i128::from(rng.pick(&[size, -size]));
        let w = i128::from(1 + rng.any_size(SHARE_LIMIT - 1));
        let sum = i128::from(rng.between(0, w as i64));
        let floor = floor_share(p, sum, w);
        assert!(floor * w <= p * sum && p * sum < (floor + 1) * w);
    }
}

#[test]
fn parts_total_p_and_are_what_c_sees() {
    let mut rng = Rng::new(2);
    for _ in 0..5_000 {
        let count = 1 + rng.below(6);
        let weights: Vec<i128> = (0..count).map(|_| i128::from(rng.any_size(SHARE_LIMIT / 6))).collect();
        let w = total(&weights);
        if w == 0 {
            continue;
        }
        let size = rng.any_size(SHARE_LIMIT);
        let p = rng.pick(&[size, -size, SHARE_LIMIT, -SHARE_LIMIT]);
        let parts = running_share(p.into(), &weights);
        assert_eq!(total(&parts), i128::from(p));
        let mut before = 0;
        for (weight, part) in weights.iter().zip(&parts) {
            let through = before + *weight as i64;
            assert_eq!(i128::from(share_c(p, before, through, w as i64)), *part);
            // Each part lies less than a cent from its exact value, so a weight of 0 gets 0.
            assert!((part * w - i128::from(p) * weight).abs() < w);
            before = through;
        }
    }
}

#[test]
fn c_sees_the_first_refusal() {
    let most = SHARE_LIMIT;
    assert_eq!(share_c(most, 0, most, most), most);
    assert_eq!(share_c(-most, 0, most, most), -most);
    assert_eq!(share_c(-most, 0, 1, most), -1);
    for p in [most + 1, -most - 1, i64::MAX, i64::MIN] {
        assert_eq!(share_c(p, 3, 2, 0), C_REFUSAL - 1);
    }
    for w in [0, -1, most + 1, i64::MAX, i64::MIN] {
        assert_eq!(share_c(most, 3, 2, w), C_REFUSAL - 2);
    }
    for (before, through) in [(-1, 0), (1, 0), (0, 11), (11, 11), (i64::MIN, i64::MAX), (0, -1)] {
        assert_eq!(share_c(-most, before, through, 10), C_REFUSAL - 3);
    }
    assert_eq!(C_REFUSAL - 1, -1_000_000_000_000_000_001);
}

#[test]
fn each_kind_has_its_allowance() {
    let point = |vp| Point { at: 1, tp: 1000, tf: 0, dp: 0, df: 0, mp: 1000, mf: 0, vp, vf: 0 };
    for (kind, most) in [(DISTRIBUTOR, 1100), (CONSUMER, 1050), (GENERATOR, 1010)] {
        assert_eq!(overrun(kind, &point(most)), 0);
        assert_eq!(overrun(kind, &point(most + 1)), 300);
    }
    // A band below its allowance does not make up for the other.
    let bands = Point { tf: 1000, mf: 1000, vf: 0, ..point(1051) };
    assert_eq!(overrun(CONSUMER, &bands), 300);
}

#[test]
fn twelve_adjustments_total_the_year() {
    let mut rng = Rng::new(4);
    let mut adjustments: Vec<i128> = (-30..=30).collect();
    adjustments.extend((0..200).map(|_| i128::from(rng.between(-100_000_000_000, 100_000_000_000))));
    for pa in adjustments {
        let months: Vec<i128> = (1..=12).map(|c| vmpa(pa, c - 1, c)).collect();
        assert_eq!(total(&months), pa);
        assert!(months.iter().all(|month| (month * 12 - pa).abs() < 12));
    }
}

#[test]
fn tariff_year_by_the_calendar() {
    let calendar: Vec<i64> = months::calendar().collect();
    assert_eq!((calendar.len(), calendar[0], calendar[288], calendar[1199]), (1200, 200_001, 202_401, 209_912));
    for (before, &month) in std::iter::once(&199_912).chain(&calendar).zip(&calendar) {
        let expected = match month % 100 {
            1 => 7,
            7 => 1,
            _ => cycle_month(*before) + 1,
        };
        assert_eq!(cycle_month(month), expected, "{}", month);
    }
}

#[test]
fn small_adjustments_tell_the_cycle_month() {
    let due = |c: i64| (1..12).map(|pa| vmpa(pa, c - 1, c)).collect::<Vec<i128>>();
    for c in 1..=12 {
        assert!((1..c).all(|other| due(other) != due(c)), "{}", c);
        // And twelve cents how many months are paid.
        assert!((0..c).all(|b| vmpa(12, b, c) == i128::from(c - b)), "{}", c);
    }
}

#[test]
fn totals_of_a_month() {
    let mut rng = Rng::new(5);
    let (mut owed, mut above, mut negative_credits, mut large_credits) = (0, 0, 0, 0);
    for _ in 0..3_000 {
        let (style, counts) = (rng.pick(&STYLES), counts_up_to(&mut rng, SMALL));
        let lines = sound_month(&mut rng, style, counts);
        let held: Vec<i128> = months::held_credits(&mut rng, counts.users).into_iter().map(i128::from).collect();
        let last = months::last_before(&mut rng, lines.month);
        let Amounts { charges, credits } = Amounts::of_month(&lines, last, &held);
        let pv: i128 = lines.agents.iter().map(|agent| i128::from(agent.pv)).sum();
        assert_eq!(total(&charges.cpv), pv);
        assert_eq!(total(&credits.vc), total(&charges.vd));
        assert_eq!(total(&credits.vmant), credits.smse);
        assert_eq!(credits.vc.last(), Some(&i128::from(lines.ons)));
        assert_eq!(total(&credits.credit), total(&charges.billed()));
        assert_eq!(credits.credit[..counts.agents], credits.vc[..counts.agents]);
        for (j, &credit) in held.iter().enumerate() {
            assert!(charges.vd[j] >= 0 && charges.held[j] >= 0);
            assert!(charges.vd[j] == 0 || charges.held[j] == 0);
            assert_eq!(charges.vd[j] - charges.held[j], charges.vme[j] - charges.cpv[j] - credit);
            if charges.eust[j] == 0 {
                assert_eq!(charges.cpv[j], 0);
            }
            owed += usize::from(charges.n[j] < 0);
            above += usize::from(charges.cpv[j] > charges.vme[j] && charges.vme[j] > 0);
            large_credits += usize::from(charges.held[j] > 90_000_000_000_000_000);
        }
        negative_credits += credits.vc.iter().filter(|&&vc| vc < 0).count();
    }
    let seen = [owed, above, negative_credits, large_credits];
    assert!(seen.iter().all(|&count| count > 100), "months of each sort have to come up: {:?}", seen);
}
