//! What breaks a month: each way to earn a refusal of a closing, at any line of its block.

use crate::lines::{MonthLines, Point, User, CONSUMER, DISTRIBUTOR, GENERATOR};
use crate::months::{self, Counts, Style};
use crate::refusals::{Refusal, MAX_AMOUNT, MAX_DISCOUNT, MAX_POINTS, MAX_POWER, MAX_TARIFF};
use crate::rng::Rng;

/// Where a fault sits. The order is the one in which closing tests.
#[derive(Clone, Copy, Debug, PartialEq, Eq, PartialOrd, Ord)]
pub enum Block {
    Counts,
    Month,
    Ons,
    Agents,
    Users,
    Points,
    Sums,
}

/// One way to break a month, and the refusal due for it where nothing else is broken.
#[derive(Clone, Copy, Debug)]
pub struct Fault {
    pub name: &'static str,
    pub block: Block,
    pub number: u64,
    /// Breaks the line at this index (from 0) of its block; a block that has no lines takes any index. The month fits.
    pub apply: fn(&mut MonthLines, usize),
}

impl Fault {
    /// The indexes of the first, a middle and the last line of the fault's block.
    pub fn lines(&self, lines: &MonthLines) -> Vec<usize> {
        let count = match self.block {
            Block::Agents => lines.agents.len(),
            Block::Users => lines.users.len(),
            Block::Points => lines.points.len(),
            _ => 1,
        };
        let mut indexes = vec![0, count / 2, count - 1];
        indexes.dedup();
        indexes
    }

    /// Whether the month has the lines that the fault needs: some of its block, and for a point's a user of each kind.
    pub fn fits(&self, lines: &MonthLines) -> bool {
        let has_kind = |kind: i64| lines.users.iter().any(|user| user.kind == kind);
        let has_points = !lines.points.is_empty() && [DISTRIBUTOR, CONSUMER, GENERATOR].into_iter().all(has_kind);
        !lines.agents.is_empty() && !lines.users.is_empty() && (self.block != Block::Points || has_points)
    }

    /// The refusal due for the fault at a line of a month that is sound but for it.
    pub fn refusal(&self, line: usize) -> Refusal {
        let place = match self.block {
            Block::Agents | Block::Users | Block::Points => line as u64 + 1,
            _ => 0,
        };
        Refusal::new(self.number, place)
    }
}

/// A sound month for faults to break: three or more lines of each kind, and a user of each kind.
pub fn sound_base(rng: &mut Rng, style: Style) -> MonthLines {
    let counts = Counts { users: 3 + rng.below(4), agents: 3 + rng.below(3), points: 3 + rng.below(6) };
    let mut lines = months::month(rng, style, counts);
    lines.agents.iter_mut().for_each(|agent| agent.pv = 1 + agent.pv / 2);
    lines.agents[0].pb += if lines.agents[0].pb == 0 { 1 } else { 0 };
    for (user, kind) in lines.users.iter_mut().zip([DISTRIBUTOR, CONSUMER, GENERATOR]) {
        user.kind = kind;
    }
    // The points are made anew, since the kinds changed; a tariff and a power above 0 give each a use charge above 0.
    for (k, point) in lines.points.iter_mut().enumerate() {
        let at = 1 + (k % 3) as i64;
        let (tf, mf, vf) = if at == GENERATOR { (0, 0, 0) } else { (point.tf, point.mf, point.vf) };
        *point = Point { at, tp: 5 + point.tp / 2, tf, dp: 0, df: 0, mp: 1 + point.mp / 2, mf, vp: point.vp, vf };
    }
    // A correction above any compensation keeps a debit in the month.
    lines.agents.iter_mut().for_each(|agent| agent.pv = agent.pv.min(1_000_000));
    lines.users[0].ret = MAX_AMOUNT;
    lines
}

/// A user of this kind; `sound_base` has one of each.
fn number_of_kind(users: &[User], kind: i64) -> i64 {
    users.iter().find(|user| user.kind == kind).expect("a user of each kind").number
}

/// A sound point of a user of this kind with one column, counted from 0, set to `value`.
fn point_of_kind(lines: &mut MonthLines, line: usize, kind: i64, column: usize, value: i64) {
    let mut columns = [number_of_kind(&lines.users, kind), 100, 0, 0, 0, 10, 0, 10, 0];
    columns[column] = value;
    lines.points[line] = Point::from_columns(columns);
}

macro_rules! fault {
    ($name:expr, $block:ident, $number:expr, $apply:expr) => {
        Fault { name: $name, block: Block::$block, number: $number, apply: $apply }
    };
}

/// Every fault.
pub fn all() -> Vec<Fault> {
    let mut faults = vec![
        fault!("a user more", Counts, 1, |m, _| m.users.push(User { number: m.users.len() as i64 + 1, ..m.users[0] })),
        fault!("a user less", Counts, 1, |m, _| m.users.truncate(m.users.len() - 1)),
        fault!("no users", Counts, 1, |m, _| m.users.clear()),
        fault!("an agent more", Counts, 1, |m, _| m.agents.push(m.agents[0])),
        fault!("no agents", Counts, 1, |m, _| m.agents.clear()),
        fault!("points beyond the limit", Counts, 1, |m, _| {
            let point = Point::from_columns([1, 0, 0, 0, 0, 0, 0, 0, 0]);
            m.points.resize(MAX_POINTS as usize + 1, point);
        }),
        fault!("month 0", Month, 3, |m, _| m.month = 0),
        fault!("month -202407", Month, 3, |m, _| m.month = -202_407),
        fault!("month 13", Month, 3, |m, _| m.month = 202_413),
        fault!("month 00", Month, 3, |m, _| m.month = 202_400),
        fault!("month too early", Month, 3, |m, _| m.month = 199_912),
        fault!("month too late", Month, 3, |m, _| m.month = 210_001),
        fault!("month huge", Month, 3, |m, _| m.month = 999_999_999_999_999_999),
        fault!("ons -1", Ons, 5, |m, _| m.ons = -1),
        fault!("ons above", Ons, 5, |m, _| m.ons = MAX_AMOUNT + 1),
        fault!("agent number", Agents, 5, |m, i| m.agents[i].number += 1),
        fault!("pb -1", Agents, 5, |m, i| m.agents[i].pb = -1),
        fault!("pb above", Agents, 5, |m, i| m.agents[i].pb = MAX_AMOUNT + 1),
        fault!("pv -1", Agents, 5, |m, i| m.agents[i].pv = -1),
        fault!("pv above", Agents, 5, |m, i| m.agents[i].pv = MAX_AMOUNT + 1),
        fault!("afs -1", Agents, 5, |m, i| m.agents[i].afs = -1),
        fault!("afs above", Agents, 5, |m, i| m.agents[i].afs = MAX_AMOUNT + 1),
        fault!("rfs -1", Agents, 5, |m, i| m.agents[i].rfs = -1),
        fault!("rfs above", Agents, 5, |m, i| m.agents[i].rfs = i64::MAX),
        fault!("pa below", Agents, 5, |m, i| m.agents[i].pa = -MAX_AMOUNT - 1),
        fault!("pa above", Agents, 5, |m, i| m.agents[i].pa = MAX_AMOUNT + 1),
        fault!("agent ret below", Agents, 5, |m, i| m.agents[i].ret = i64::MIN),
        fault!("agent ret above", Agents, 5, |m, i| m.agents[i].ret = MAX_AMOUNT + 1),
        fault!("user number", Users, 5, |m, i| m.users[i].number = 0),
        fault!("kind 0", Users, 5, |m, i| m.users[i].kind = 0),
        fault!("kind 4", Users, 5, |m, i| m.users[i].kind = 4),
        fault!("user ret below", Users, 5, |m, i| m.users[i].ret = -MAX_AMOUNT - 1),
        fault!("user ret above", Users, 5, |m, i| m.users[i].ret = MAX_AMOUNT + 1),
        fault!("ong -1", Users, 5, |m, i| m.users[i].ong = -1),
        fault!("ong above", Users, 5, |m, i| m.users[i].ong = MAX_AMOUNT + 1),
        fault!("ong huge", Users, 5, |m, i| m.users[i].ong = 999_999_999_999_999_999),
        // Where ret may be, and ong may not.
        fault!("ong below 0 as ret may be", Users, 5, |m, i| m.users[i].ong = -MAX_AMOUNT),
        fault!("point of user 0", Points, 6, |m, i| m.points[i].at = 0),
        fault!("point of user -1", Points, 6, |m, i| m.points[i].at = -1),
        fault!("point past the users", Points, 6, |m, i| m.points[i].at = m.users.len() as i64 + 1),
        fault!("generator tf", Points, 7, |m, i| point_of_kind(m, i, GENERATOR, 2, 1)),
        fault!("generator df", Points, 7, |m, i| point_of_kind(m, i, GENERATOR, 4, 1)),
        fault!("generator mf", Points, 7, |m, i| point_of_kind(m, i, GENERATOR, 6, 1)),
        fault!("generator vf", Points, 7, |m, i| point_of_kind(m, i, GENERATOR, 8, 1)),
        fault!("distributor dp", Points, 7, |m, i| point_of_kind(m, i, DISTRIBUTOR, 3, 1)),
        fault!("distributor df", Points, 7, |m, i| point_of_kind(m, i, DISTRIBUTOR, 4, 100)),
        fault!("no pb", Sums, 8, |m, _| m.agents.iter_mut().for_each(|agent| agent.pb = 0)),
        fault!("no points", Sums, 9, |m, _| m.points.clear()),
        fault!("no use charge", Sums, 9, |m, _| m.points.iter_mut().for_each(|point| (point.mp, point.mf) = (0, 0))),
        fault!("no debit", Sums, 10, |m, _| {
            m.points.clear();
            m.agents.iter_mut().for_each(|agent| agent.pv = 0);
            m.users.iter_mut().for_each(|user| user.ret = user.ret.min(0));
            m.users[0].ret = 0;
        }),
        // A direct charge is no debit.
        fault!("no debit but direct charges", Sums, 10, |m, _| {
            m.points.clear();
            m.agents.iter_mut().for_each(|agent| agent.pv = 0);
            m.users.iter_mut().for_each(|user| (user.ret, user.ong) = (user.ret.min(0), MAX_AMOUNT));
            m.users[0].ret = 0;
        }),
    ];
    faults.extend(point_range_faults());
    faults
}

/// A point's columns out of range, below and above; the consumer's point has no other limit.
fn point_range_faults() -> Vec<Fault> {
    vec![
        fault!("tp -1", Points, 5, |m, i| point_of_kind(m, i, CONSUMER, 1, -1)),
        fault!("tp above", Points, 5, |m, i| point_of_kind(m, i, CONSUMER, 1, MAX_TARIFF + 1)),
        fault!("tf -1", Points, 5, |m, i| point_of_kind(m, i, CONSUMER, 2, -1)),
        fault!("tf above", Points, 5, |m, i| point_of_kind(m, i, CONSUMER, 2, MAX_TARIFF + 1)),
        fault!("dp -1", Points, 5, |m, i| point_of_kind(m, i, CONSUMER, 3, -1)),
        fault!("dp above", Points, 5, |m, i| point_of_kind(m, i, CONSUMER, 3, MAX_DISCOUNT + 1)),
        fault!("df -1", Points, 5, |m, i| point_of_kind(m, i, CONSUMER, 4, -1)),
        fault!("df above", Points, 5, |m, i| point_of_kind(m, i, CONSUMER, 4, MAX_DISCOUNT + 1)),
        fault!("mp -1", Points, 5, |m, i| point_of_kind(m, i, CONSUMER, 5, -1)),
        fault!("mp above", Points, 5, |m, i| point_of_kind(m, i, CONSUMER, 5, MAX_POWER + 1)),
        fault!("mf -1", Points, 5, |m, i| point_of_kind(m, i, CONSUMER, 6, -1)),
        fault!("mf above", Points, 5, |m, i| point_of_kind(m, i, CONSUMER, 6, MAX_POWER + 1)),
        fault!("vp -1", Points, 5, |m, i| point_of_kind(m, i, CONSUMER, 7, -1)),
        fault!("vp above", Points, 5, |m, i| point_of_kind(m, i, CONSUMER, 7, i64::MAX)),
        fault!("vf -1", Points, 5, |m, i| point_of_kind(m, i, CONSUMER, 8, -1)),
        fault!("vf above", Points, 5, |m, i| point_of_kind(m, i, CONSUMER, 8, MAX_POWER + 1)),
        // On one line 5 comes before 6 and 7, and 6 before 7.
        fault!("range and user", Points, 5, |m, i| {
            point_of_kind(m, i, CONSUMER, 3, MAX_DISCOUNT + 1);
            m.points[i].at = 0;
        }),
        fault!("range and kind", Points, 5, |m, i| point_of_kind(m, i, DISTRIBUTOR, 3, MAX_DISCOUNT + 1)),
    ]
}
