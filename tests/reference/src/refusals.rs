//! Refusals 1 to 10 of opening and closing, in their order ("Why a month comes back").

use crate::charges::{self, Charges};
use crate::ledger::Ledger;
use crate::lines::{Agent, MonthLines, Point, User, DISTRIBUTOR, GENERATOR};

/// Why a call comes back: the refusal's number and its place.
#[derive(Clone, Copy, Debug, PartialEq, Eq)]
pub struct Refusal {
    pub number: u64,
    pub place: u64,
}

impl Refusal {
    pub fn new(number: u64, place: u64) -> Refusal {
        Refusal { number, place }
    }
}

/// The lengths of the slices lent to a closing.
#[derive(Clone, Copy, Debug, PartialEq, Eq)]
pub struct Lengths {
    pub held: u64,
    pub cells: u64,
    pub work: u64,
}

pub const MAX_USERS: u64 = 512;
pub const MAX_AGENTS: u64 = 256;
pub const MAX_POINTS: u64 = 1024;

/// The largest amount of a line, in cents.
pub const MAX_AMOUNT: i64 = 100_000_000_000;
/// The largest held credit that a closing takes up.
pub const MAX_HELD: i128 = 100_000_000_000_000_000;
pub const MAX_TARIFF: i64 = 100_000;
pub const MAX_DISCOUNT: i64 = 100;
pub const MAX_POWER: i64 = 20_000_000;

/// Entries of the cells slice that a month fills.
pub fn cells_needed(agents: u64, users: u64) -> u64 {
    (agents + 1) * users
}

/// Entries of the work slice that a month may use.
pub fn work_needed(agents: u64, users: u64) -> u64 {
    2 * cells_needed(agents, users) + 4 * (agents + 1 + users)
}

/// yyyymm from 200001 to 209912 with mm from 01 to 12.
pub fn is_month(month: i128) -> bool {
    (200_001..=209_912).contains(&month) && (1..=12).contains(&(month % 100))
}

fn counts_in_limits(users: u64, agents: u64) -> bool {
    (1..=MAX_USERS).contains(&users) && (1..=MAX_AGENTS).contains(&agents)
}

/// Why an opening is refused, if it is.
pub fn opening(users: u64, agents: u64, held_length: u64) -> Option<Refusal> {
    if !counts_in_limits(users, agents) {
        return Some(Refusal::new(1, 0));
    }
    if held_length < users {
        return Some(Refusal::new(2, 1));
    }
    None
}

/// Why a closing is refused, if it is. `credits` are the held credits, of which only those of users are looked at.
pub fn closing(ledger: &Ledger, credits: &[i128], lengths: Lengths, lines: &MonthLines) -> Option<Refusal> {
    counts(ledger, lines)
        .or_else(|| slices(lengths, lines))
        .or_else(|| month(ledger, lines))
        .or_else(|| held_credits(credits, lines))
        .or_else(|| ons_line(lines))
        .or_else(|| first_line(&lines.agents, agent_line))
        .or_else(|| first_line(&lines.users, user_line))
        .or_else(|| first_line(&lines.points, |place, point| point_line(place, point, &lines.users)))
        .or_else(|| sums(lines, credits))
}

fn counts(ledger: &Ledger, lines: &MonthLines) -> Option<Refusal> {
    let users = lines.users.len() as u64;
    let agents = lines.agents.len() as u64;
    let possible = counts_in_limits(users, agents) && lines.points.len() as u64 <= MAX_POINTS;
    let as_ledger = users == ledger.users && agents == ledger.agents;
    let last_month = ledger.month == 0 || is_month(ledger.month.into());
    refuse_unless(possible && as_ledger && last_month, 1, 0)
}

fn slices(lengths: Lengths, lines: &MonthLines) -> Option<Refusal> {
    let users = lines.users.len() as u64;
    let agents = lines.agents.len() as u64;
    refuse_unless(lengths.held >= users, 2, 1)
        .or_else(|| refuse_unless(lengths.cells >= cells_needed(agents, users), 2, 2))
        .or_else(|| refuse_unless(lengths.work >= work_needed(agents, users), 2, 3))
}

fn month(ledger: &Ledger, lines: &MonthLines) -> Option<Refusal> {
    let month = i128::from(lines.month);
    refuse_unless(is_month(month) && month > ledger.month.into(), 3, 0)
}

fn held_credits(credits: &[i128], lines: &MonthLines) -> Option<Refusal> {
    first_line(&credits[..lines.users.len()], |place, credit| refuse_unless((0..=MAX_HELD).contains(credit), 4, place))
}

fn ons_line(lines: &MonthLines) -> Option<Refusal> {
    refuse_unless((0..=MAX_AMOUNT).contains(&lines.ons), 5, 0)
}

fn agent_line(place: u64, agent: &Agent) -> Option<Refusal> {
    let payments = [agent.pb, agent.pv, agent.afs, agent.rfs];
    let adjustments = [agent.pa, agent.ret];
    let in_range = agent.number == place as i64
        && payments.iter().all(|amount| (0..=MAX_AMOUNT).contains(amount))
        && adjustments.iter().all(|amount| (-MAX_AMOUNT..=MAX_AMOUNT).contains(amount));
    refuse_unless(in_range, 5, place)
}

fn user_line(place: u64, user: &User) -> Option<Refusal> {
    let in_range = user.number == place as i64
        && (1..=3).contains(&user.kind)
        && (-MAX_AMOUNT..=MAX_AMOUNT).contains(&user.ret)
        && (0..=MAX_AMOUNT).contains(&user.ong);
    refuse_unless(in_range, 5, place)
}

/// 5, 6 and 7 of one point. Its user number has no range of its own: one that names no user is 6.
fn point_line(place: u64, point: &Point, users: &[User]) -> Option<Refusal> {
    let in_range = [point.tp, point.tf].iter().all(|tariff| (0..=MAX_TARIFF).contains(tariff))
        && [point.dp, point.df].iter().all(|discount| (0..=MAX_DISCOUNT).contains(discount))
        && [point.mp, point.mf, point.vp, point.vf].iter().all(|power| (0..=MAX_POWER).contains(power));
    if !in_range {
        return Some(Refusal::new(5, place));
    }
    if !(1..=users.len() as i64).contains(&point.at) {
        return Some(Refusal::new(6, place));
    }
    let as_its_kind = match users[point.at as usize - 1].kind {
        GENERATOR => [point.tf, point.df, point.mf, point.vf] == [0; 4],
        DISTRIBUTOR => [point.dp, point.df] == [0; 2],
        _ => true,
    };
    refuse_unless(as_its_kind, 7, place)
}

/// 8, 9 and 10; no line has broken a limit. A direct charge is no debit: it keeps no month from 10.
fn sums(lines: &MonthLines, credits: &[i128]) -> Option<Refusal> {
    let total = |column: fn(&Agent) -> i64| lines.agents.iter().map(|agent| i128::from(column(agent))).sum::<i128>();
    if total(|agent| agent.pb) == 0 {
        return Some(Refusal::new(8, 0));
    }
    if total(|agent| agent.pv) > 0 && charges::eust(lines).iter().sum::<i128>() == 0 {
        return Some(Refusal::new(9, 0));
    }
    let debits: i128 = Charges::of_month(lines, credits).vd.iter().sum();
    refuse_unless(debits != 0, 10, 0)
}

/// The first refusal of a block's lines, each with its position from 1.
fn first_line<T>(block: &[T], test: impl Fn(u64, &T) -> Option<Refusal>) -> Option<Refusal> {
    block.iter().enumerate().find_map(|(position, line)| test(position as u64 + 1, line))
}

fn refuse_unless(holds: bool, number: u64, place: u64) -> Option<Refusal> {
    if holds {
        None
    } else {
        Some(Refusal::new(number, place))
    }
}
