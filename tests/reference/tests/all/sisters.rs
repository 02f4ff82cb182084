//! Sister lines (change request Q-13): two neighbouring lines listed as one, and a line of weight 0 left out.

use rateio_reference::amounts::Amounts;
use rateio_reference::lines::MonthLines;
use rateio_reference::months::{self, counts_up_to, sound_month, Counts, STYLES};
use rateio_reference::rng::Rng;
use rateio_reference::share::{running_share, SHARE_LIMIT};

const SMALL: Counts = Counts { users: 6, agents: 6, points: 12 };

/// The entries before `k`, the sum of entries `k` and `k + 1`, the entries after them.
fn joined(amounts: &[i128], k: usize) -> Vec<i128> {
    [&amounts[..k], &[amounts[k] + amounts[k + 1]], &amounts[k + 2..]].concat()
}

fn without(amounts: &[i128], k: usize) -> Vec<i128> {
    [&amounts[..k], &amounts[k + 1..]].concat()
}

/// The month with its agents `k` and `k + 1` on one line, every column added, and those after them moved up.
fn agents_as_one(lines: &MonthLines, k: usize) -> MonthLines {
    let mut one = lines.clone();
    let sister = one.agents.remove(k + 1);
    let agent = &mut one.agents[k];
    agent.pb += sister.pb;
    agent.pv += sister.pv;
    agent.afs += sister.afs;
    agent.rfs += sister.rfs;
    agent.pa += sister.pa;
    agent.ret += sister.ret;
    (1..).zip(&mut one.agents).for_each(|(number, agent)| agent.number = number);
    one
}

/// The month with its users `k` and `k + 1` on one line, the points of both under one number.
fn users_as_one(lines: &MonthLines, k: usize) -> MonthLines {
    let mut one = lines.clone();
    let sister = one.users.remove(k + 1);
    one.users[k].ret += sister.ret;
    one.users[k].ong += sister.ong;
    (1..).zip(&mut one.users).for_each(|(number, user)| user.number = number);
    one.points.iter_mut().filter(|point| point.at > k as i64 + 1).for_each(|point| point.at -= 1);
    one
}

#[test]
fn neighbours_receive_together_what_they_receive_apart() {
    let mut rng = Rng::new(13);
    let mut zeros = 0;
    for _ in 0..20_000 {
        let count = 1 + rng.below(7);
        let mut weights: Vec<i128> = (0..count).map(|_| i128::from(rng.any_size(SHARE_LIMIT / 7))).collect();
        weights[0] += 1;
        let size = i128::from(rng.any_size(SHARE_LIMIT));
        let p = rng.pick(&[size, -size]);
        let parts = running_share(p, &weights);
        for k in 0..count - 1 {
            assert_eq!(running_share(p, &joined(&weights, k)), joined(&parts, k), "{} over {:?}", p, weights);
        }
        for k in (0..count).filter(|&k| weights[k] == 0) {
            assert_eq!(parts[k], 0);
            assert_eq!(running_share(p, &without(&weights, k)), without(&parts, k), "{} over {:?}", p, weights);
            zeros += 1;
        }
    }
    assert!(zeros > 1_000, "weights of 0 have to come up");
}

/// A seeded month, sound before any credit is held, the last closed month before it, and credits.
fn month(rng: &mut Rng) -> (MonthLines, i64, Vec<i128>) {
    let (style, counts) = (rng.pick(&STYLES), counts_up_to(rng, SMALL));
    let lines = sound_month(rng, style, counts);
    let last = months::last_before(rng, lines.month);
    let held = months::held_credits(rng, counts.users).into_iter().map(i128::from).collect();
    (lines, last, held)
}

#[test]
fn sister_agents_receive_the_same() {
    let mut rng = Rng::new(14);
    let (mut same, mut other) = (0, 0);
    for _ in 0..2_000 {
        let (lines, last, held) = month(&mut rng);
        let apart = Amounts::of_month(&lines, last, &held);
        for k in 0..lines.agents.len() - 1 {
            let one = Amounts::of_month(&agents_as_one(&lines, k), last, &held);
            assert_eq!(one.charges, apart.charges);
            // The twelfths of two yearly adjustments need not be those of their sum: then the balance is another.
            let twelfths = one.credits.vmpa == joined(&apart.credits.vmpa, k);
            assert_eq!(one.credits.smse == apart.credits.smse, twelfths);
            if twelfths {
                assert_eq!(one.credits.vmant, joined(&apart.credits.vmant, k));
                assert_eq!(one.credits.vc, joined(&apart.credits.vc, k));
            }
            *if twelfths { &mut same } else { &mut other } += 1;
        }
    }
    assert!(same > 1_000 && other > 100, "both have to come up: {} {}", same, other);
}

#[test]
fn sister_users_are_compensated_the_same() {
    let mut rng = Rng::new(15);
    let (mut same, mut other) = (0, 0);
    for _ in 0..2_000 {
        let (lines, last, held) = month(&mut rng);
        let apart = Amounts::of_month(&lines, last, &held).charges;
        for k in 0..lines.users.len() - 1 {
            let one = Amounts::of_month(&users_as_one(&lines, k), last, &joined(&held, k)).charges;
            assert_eq!(one.eust, joined(&apart.eust, k));
            assert_eq!(one.cpv, joined(&apart.cpv, k));
            // A debit need not be the sum: it is cut at 0 for each user, and a kind has its allowance.
            *if one.vd == joined(&apart.vd, k) { &mut same } else { &mut other } += 1;
        }
    }
    assert!(same > 1_000 && other > 100, "both have to come up: {} {}", same, other);
}
