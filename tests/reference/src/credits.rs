//! What each payee is due ("Credits of a payee").

use crate::lines::{Agent, MonthLines};
use crate::share::running_share;

/// Every amount of every payee, in cents.
#[derive(Clone, Debug, PartialEq, Eq)]
pub struct Credits {
    /// Monthly value of the transmission services, by agent.
    pub vmst: Vec<i128>,
    /// The month's part of the yearly adjustment, by agent.
    pub vmpa: Vec<i128>,
    /// Balance of the month.
    pub smse: i128,
    /// The agent's part of the balance.
    pub vmant: Vec<i128>,
    /// Credit by payee out of the debits: the agents in order, then ONS with `ons`, the shared part alone.
    pub vc: Vec<i128>,
    /// The month's credit by payee: the same, ONS's with all direct charges (change request Q-1).
    pub credit: Vec<i128>,
}

/// The month's place in the tariff cycle: July 1 to June 12.
pub fn cycle_month(month: i64) -> i64 {
    match month % 100 {
        mm @ 7..=12 => mm - 6,
        mm @ 1..=6 => mm + 6,
        mm => panic!("month {} is refused before any credit is worked out", mm),
    }
}

/// The year of the July that begins the month's cycle.
pub fn cycle(month: i64) -> i64 {
    match month % 100 {
        7..=12 => month / 100,
        _ => month / 100 - 1,
    }
}

/// The cycle month up to which the adjustment is settled before `month` closes, b of paper 02, Q-8. `last` is the last
/// closed month, 0 for none: a refused month settles nothing.
pub fn settled_to(last: i64, month: i64) -> i64 {
    if last == 0 {
        cycle_month(month) - 1
    } else if cycle(last) == cycle(month) {
        cycle_month(last)
    } else {
        0
    }
}

/// VMPA: the twelfths of `pa` after the cycle month `b`, up to `c` (paper 02, Q-8).
pub fn vmpa(pa: i128, b: i64, c: i64) -> i128 {
    let through = |months: i64| (pa * i128::from(months)).div_euclid(12);
    through(c) - through(b)
}

/// VMST of an agent.
pub fn vmst(agent: &Agent) -> i128 {
    i128::from(agent.pb) - i128::from(agent.pv) + i128::from(agent.afs) - i128::from(agent.rfs)
}

impl Credits {
    /// All amounts of a month that breaks none of the limits 1 to 9, from its lines, the last closed month (0 for none)
    /// and its debits.
    pub fn of_month(lines: &MonthLines, last: i64, vd: &[i128]) -> Credits {
        let (b, c) = (settled_to(last, lines.month), cycle_month(lines.month));
        let ons = i128::from(lines.ons);
        let vmst: Vec<i128> = lines.agents.iter().map(vmst).collect();
        let vmpa: Vec<i128> = lines.agents.iter().map(|agent| vmpa(agent.pa.into(), b, c)).collect();
        let own: Vec<i128> =
            (0..lines.agents.len()).map(|i| vmst[i] + vmpa[i] + i128::from(lines.agents[i].ret)).collect();
        // Item 3.2.1.3.1: what ONS is due of the debits leaves the balance.
        let smse = vd.iter().sum::<i128>() - own.iter().sum::<i128>() - ons;
        let pb: Vec<i128> = lines.agents.iter().map(|agent| agent.pb.into()).collect();
        let vmant = running_share(smse, &pb);
        let mut vc: Vec<i128> = own.iter().zip(&vmant).map(|(own, vmant)| own + vmant).collect();
        let mut credit = vc.clone();
        vc.push(ons);
        credit.push(ons + lines.users.iter().map(|user| i128::from(user.ong)).sum::<i128>());
        Credits { vmst, vmpa, smse, vmant, vc, credit }
    }
}
