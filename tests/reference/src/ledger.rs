//! Opening a ledger and closing its months ("The ledger").

use crate::amounts::Amounts;
use crate::lines::MonthLines;
use crate::refusals::{self, Lengths, Refusal};
use crate::table::{some_table, with_direct};

/// Both counts and the last closed month, 0 for none.
#[derive(Clone, Copy, Debug, PartialEq, Eq)]
pub struct Ledger {
    pub users: u64,
    pub agents: u64,
    pub month: i64,
}

/// Opens a ledger and zeroes the held credit of each user. A refused opening answers an empty ledger, `held` as it was.
pub fn open(users: u64, agents: u64, held: &mut [i64]) -> (Ledger, Option<Refusal>) {
    if let Some(refusal) = refusals::opening(users, agents, held.len() as u64) {
        return (Ledger { users: 0, agents: 0, month: 0 }, Some(refusal));
    }
    held[..users as usize].fill(0);
    (Ledger { users, agents, month: 0 }, None)
}

/// Closes a month: new held credits and the table of cells are written, the ledger moves on to the month, and the
/// amounts are answered. A refused closing changes nothing. The work slice is here only as its length, since what it
/// holds afterwards is free.
pub fn close(
    ledger: Ledger,
    held: &mut [i64],
    lines: &MonthLines,
    cells: &mut [i64],
    work_length: u64,
) -> (Ledger, Result<Amounts, Refusal>) {
    let lengths = Lengths { held: held.len() as u64, cells: cells.len() as u64, work: work_length };
    let credits: Vec<i128> = held.iter().map(|&credit| credit.into()).collect();
    if let Some(refusal) = refusals::closing(&ledger, &credits, lengths, lines) {
        return (ledger, Err(refusal));
    }
    let amounts = Amounts::of_month(lines, ledger.month, &credits);
    for (held, &credit) in held.iter_mut().zip(&amounts.charges.held) {
        *held = i64::try_from(credit).expect("a held credit grows by no more than a month's amounts");
    }
    let table = some_table(&amounts.credits.vc, &amounts.charges.vd);
    cells[..table.len()].copy_from_slice(&with_direct(table, &amounts.charges.ong));
    (Ledger { month: lines.month, ..ledger }, Ok(amounts))
}
