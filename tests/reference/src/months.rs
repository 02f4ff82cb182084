//! Seeded months: ordinary ones and those at the edges of what a month may hold.

use crate::charges::{self, Charges};
use crate::lines::{Agent, MonthLines, Point, User, CONSUMER, DISTRIBUTOR, GENERATOR};
use crate::refusals::{MAX_AMOUNT, MAX_DISCOUNT, MAX_HELD, MAX_POWER, MAX_TARIFF};
use crate::rng::Rng;

/// How many lines of each kind.
#[derive(Clone, Copy, Debug, PartialEq, Eq)]
pub struct Counts {
    pub users: usize,
    pub agents: usize,
    pub points: usize,
}

/// What the amounts of a month are like.
#[derive(Clone, Copy, Debug, PartialEq, Eq)]
pub enum Style {
    /// Amounts as months have them.
    Ordinary,
    /// A few cents, so that most cells are broken.
    Tiny,
    /// Each value at or beside an end of its range, or anywhere in it.
    Extreme,
    /// Corrections and adjustments mostly negative and large.
    Negative,
    /// Variable parcels above the charges, so that CPV passes VME.
    Compensation,
    /// Charges and overruns that end in half a cent.
    Halves,
    /// Mostly zeros: whole cells, users without points, weights of 0.
    Sparse,
    /// Any size of number in every column.
    Mixed,
}

pub const STYLES: [Style; 8] = [
    Style::Ordinary,
    Style::Tiny,
    Style::Extreme,
    Style::Negative,
    Style::Compensation,
    Style::Halves,
    Style::Sparse,
    Style::Mixed,
];

/// Counts from 1 (points: 0) to those given.
pub fn counts_up_to(rng: &mut Rng, most: Counts) -> Counts {
    Counts { users: 1 + rng.below(most.users), agents: 1 + rng.below(most.agents), points: rng.below(most.points + 1) }
}

/// A possible month.
pub fn any_month(rng: &mut Rng) -> i64 {
    rng.between(2000, 2099) * 100 + rng.between(1, 12)
}

/// The month after, December going to January.
pub fn next_month(month: i64) -> i64 {
    if month % 100 == 12 {
        month + 89
    } else {
        month + 1
    }
}

/// The month so many months later, or earlier where `by` is below 0.
pub fn moved(month: i64, by: i64) -> i64 {
    let months = month / 100 * 12 + month % 100 - 1 + by;
    months / 12 * 100 + months % 12 + 1
}

/// A month to close after this one: mostly the next, often one with months skipped before it, in the cycle or beyond, and
/// at times any, also one that has gone by.
pub fn month_after(rng: &mut Rng, last: i64) -> i64 {
    match rng.below(20) {
        0..=2 => any_month(rng),
        3..=6 => moved(last, rng.between(2, 12)),
        7 => moved(last, rng.between(13, 36)),
        _ => next_month(last),
    }
}

/// A last closed month that this one can come after: none, the month before, one of the three years before, or any.
pub fn last_before(rng: &mut Rng, month: i64) -> i64 {
    let last = match rng.below(4) {
        0 => 0,
        1 => moved(month, -1),
        2 => moved(month, -rng.between(2, 36)),
        _ => any_month(rng),
    };
    if (200_001..month).contains(&last) {
        last
    } else {
        0
    }
}

/// Every month that exists, in the calendar's order.
pub fn calendar() -> impl Iterator<Item = i64> {
    std::iter::successors(Some(200_001), |&month| Some(next_month(month))).take_while(|&month| month <= 209_912)
}

/// Lines that break none of the limits 5 to 7; 8, 9 and 10 may apply.
pub fn month(rng: &mut Rng, style: Style, counts: Counts) -> MonthLines {
    let agents = (1..=counts.agents as i64).map(|number| agent(rng, style, number)).collect();
    let users: Vec<User> = (1..=counts.users as i64).map(|number| user(rng, style, number)).collect();
    let points = (0..counts.points).map(|_| point(rng, style, &users)).collect();
    let mut lines = MonthLines { month: any_month(rng), ons: amount(rng, style), agents, users, points };
    // Half of the months have no direct charge.
    if rng.chance(50) {
        lines.users.iter_mut().for_each(|user| user.ong = direct_charge(rng));
    }
    lines
}

/// A month that is accepted where no credit is held and the month is later than the last.
pub fn sound_month(rng: &mut Rng, style: Style, counts: Counts) -> MonthLines {
    let mut lines = month(rng, style, counts);
    if lines.agents.iter().all(|agent| agent.pb == 0) {
        lines.agents[0].pb = 1;
    }
    let eust: i128 = charges::eust(&lines).iter().sum();
    let debits = |lines: &MonthLines| -> i128 { Charges::of_month(lines, &vec![0; counts.users]).vd.iter().sum() };
    if eust == 0 || debits(&lines) == 0 {
        lines.agents.iter_mut().for_each(|agent| agent.pv = 0);
    }
    if debits(&lines) == 0 {
        // Without compensation and credits, VME above 0 is a debit above 0.
        lines.users[0].ret = 1;
    }
    lines
}

/// Held credits for `entries` users: none, small, larger than any charge, and the largest that is taken up.
pub fn held_credits(rng: &mut Rng, entries: usize) -> Vec<i64> {
    let most = MAX_HELD as i64;
    let credit = |rng: &mut Rng| match rng.below(8) {
        0 => rng.any_size(most),
        1 => rng.pick(&[1, most - 1, most]),
        2 => rng.any_size(1_000_000),
        _ => 0,
    };
    (0..entries).map(|_| credit(rng)).collect()
}

fn agent(rng: &mut Rng, style: Style, number: i64) -> Agent {
    let (pb, afs, rfs) = (amount(rng, style), small_amount(rng, style), small_amount(rng, style));
    let pv = match style {
        Style::Compensation => rng.between(0, MAX_AMOUNT),
        // Months without any variable parcel have to come up too.
        _ if rng.chance(40) => 0,
        _ => small_amount(rng, style),
    };
    Agent { number, pb, pv, afs, rfs, pa: signed_amount(rng, style), ret: signed_amount(rng, style) }
}

fn user(rng: &mut Rng, style: Style, number: i64) -> User {
    let ret = if rng.chance(30) { 0 } else { signed_amount(rng, style) };
    User { number, kind: rng.pick(&[DISTRIBUTOR, CONSUMER, GENERATOR]), ret, ong: 0 }
}

/// A direct charge of whatever kind of user: none, a few cents, any size, and about the limit.
fn direct_charge(rng: &mut Rng) -> i64 {
    match rng.below(5) {
        0 | 1 => 0,
        2 => rng.between(1, 99),
        3 => rng.any_size(MAX_AMOUNT),
        _ => rng.pick(&[MAX_AMOUNT - 1, MAX_AMOUNT]),
    }
}

fn point(rng: &mut Rng, style: Style, users: &[User]) -> Point {
    let user = users[rng.below(users.len())];
    let (tp, tf) = (tariff(rng, style), tariff(rng, style));
    let (mp, mf) = (power(rng, style), power(rng, style));
    let (vp, vf) = (verified(rng, style, user.kind, mp), verified(rng, style, user.kind, mf));
    let discount = |rng: &mut Rng| rng.pick(&[0, 0, 1, 50, 99, MAX_DISCOUNT]);
    let (dp, df) = (discount(rng), discount(rng));
    let at = user.number;
    match user.kind {
        DISTRIBUTOR => Point { at, tp, tf, dp: 0, df: 0, mp, mf, vp, vf },
        CONSUMER => Point { at, tp, tf, dp, df, mp, mf, vp, vf },
        _ => Point { at, tp, tf: 0, dp, df: 0, mp, mf: 0, vp, vf: 0 },
    }
}

/// At or beside an end of 0 to `most`, or anywhere between.
fn edge(rng: &mut Rng, most: i64) -> i64 {
    let inside = rng.between(0, most);
    rng.pick(&[0, 1, most - 1, most, most, inside])
}

fn amount(rng: &mut Rng, style: Style) -> i64 {
    match style {
        Style::Ordinary | Style::Negative | Style::Halves => rng.between(0, 1_000_000_000),
        Style::Tiny => rng.between(0, 9),
        Style::Extreme => edge(rng, MAX_AMOUNT),
        Style::Compensation => rng.between(0, 1_000_000),
        Style::Sparse => rng.pick(&[0, 0, 0, 0, 1, 100]),
        Style::Mixed => rng.any_size(MAX_AMOUNT),
    }
}

fn small_amount(rng: &mut Rng, style: Style) -> i64 {
    match style {
        Style::Ordinary | Style::Negative | Style::Halves => rng.between(0, 1_000_000),
        _ => amount(rng, style),
    }
}

fn signed_amount(rng: &mut Rng, style: Style) -> i64 {
    match style {
        Style::Negative if rng.chance(80) => -rng.any_size(MAX_AMOUNT),
        Style::Ordinary => rng.between(-100_000, 100_000),
        _ => {
            let size = amount(rng, style);
            rng.pick(&[size, -size])
        }
    }
}

fn tariff(rng: &mut Rng, style: Style) -> i64 {
    match style {
        Style::Tiny => rng.between(0, 30),
        Style::Extreme => edge(rng, MAX_TARIFF),
        Style::Compensation => rng.between(0, 500),
        Style::Halves => rng.pick(&[1, 5, 15, 25, 5005]),
        Style::Sparse => rng.pick(&[0, 0, 10, 1000]),
        Style::Mixed => rng.any_size(MAX_TARIFF),
        _ => rng.between(500, 12_000),
    }
}

fn power(rng: &mut Rng, style: Style) -> i64 {
    match style {
        Style::Tiny | Style::Halves => rng.between(0, 9),
        Style::Extreme => edge(rng, MAX_POWER),
        Style::Sparse => rng.pick(&[0, 0, 1, 100]),
        Style::Mixed => rng.any_size(MAX_POWER),
        _ => rng.between(0, 200_000),
    }
}

/// Verified power: below, about and well above what the kind of user may draw.
fn verified(rng: &mut Rng, style: Style, kind: i64, contracted: i64) -> i64 {
    let allowed = i128::from(contracted) * charges::allowance(kind) / 100;
    let allowed = (allowed as i64).min(MAX_POWER);
    match rng.below(4) {
        0 => power(rng, style),
        1 => allowed,
        2 => (allowed + 1).min(MAX_POWER),
        _ => rng.between(0, contracted),
    }
}
