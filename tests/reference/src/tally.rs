//! The tally of demand 3 ("The tally of demand 3"), and demand 3 over a list of closings.

use crate::amounts::Amounts;
use crate::ledger::Ledger;
use crate::lines::MonthLines;
use crate::refusals::{self, Lengths, Refusal};

/// Counts, last closed month and credits of its own: it is fed lines and lengths, and nothing that a ledger, a held
/// slice or a table of cells holds.
#[derive(Clone, Debug, PartialEq, Eq)]
pub struct Tally {
    pub users: u64,
    pub agents: u64,
    pub month: i64,
    pub credits: Vec<i128>,
}

impl Tally {
    /// The tally after an accepted opening with these counts.
    pub fn open(users: u64, agents: u64) -> Tally {
        Tally { users, agents, month: 0, credits: vec![0; users as usize] }
    }

    /// Goes through one closing: the amounts if it is accepted; the refusal, and the tally as it was, if not.
    pub fn close(&mut self, lines: &MonthLines, lengths: Lengths) -> Result<Amounts, Refusal> {
        let counts = Ledger { users: self.users, agents: self.agents, month: self.month };
        if let Some(refusal) = refusals::closing(&counts, &self.credits, lengths, lines) {
            return Err(refusal);
        }
        let amounts = Amounts::of_month(lines, self.month, &self.credits);
        self.credits = amounts.charges.held.clone();
        self.month = lines.month;
        Ok(amounts)
    }
}

/// Demand 3 while a list of closings goes by: the tally, what it says is due, and what was billed in cells.
#[derive(Clone, Debug)]
pub struct Demand {
    pub tally: Tally,
    /// By user: charges less compensation, direct charges among them, added over the accepted months.
    pub charges: Vec<i128>,
    /// By user: debits and direct charges, added.
    pub debits: Vec<i128>,
    /// By payee: the months' credits, added.
    pub credits: Vec<i128>,
    /// By user and by payee: cells, added.
    pub billed_to: Vec<i128>,
    pub billed_for: Vec<i128>,
}

impl Demand {
    pub fn open(users: u64, agents: u64) -> Demand {
        let by_user = vec![0; users as usize];
        let by_payee = vec![0; agents as usize + 1];
        Demand {
            tally: Tally::open(users, agents),
            charges: by_user.clone(),
            debits: by_user.clone(),
            credits: by_payee.clone(),
            billed_to: by_user,
            billed_for: by_payee,
        }
    }

    /// Takes in one closing: its lines and lengths, what it answered, and the cells slice as it left it.
    pub fn take(
        &mut self,
        lines: &MonthLines,
        lengths: Lengths,
        answer: Option<Refusal>,
        cells: &[i64],
    ) -> Result<(), String> {
        let amounts = match (self.tally.close(lines, lengths), answer) {
            (Ok(amounts), None) => amounts,
            (Err(due), Some(refusal)) if due == refusal => return Ok(()),
            (due, answer) => return Err(format!("answered {:?} where {:?} is due", answer, due.err())),
        };
        let Amounts { charges, credits } = &amounts;
        let total: i128 = charges.vd.iter().sum();
        let ons = credits.vc.len() - 1;
        for (i, &vc) in credits.vc.iter().enumerate() {
            for (j, &vd) in charges.vd.iter().enumerate() {
                let cell = i128::from(cells[i * lines.users.len() + j]);
                // An ONS cell is measured without its direct charge, against the shared part alone.
                let shared = if i == ons { cell - charges.ong[j] } else { cell };
                if (shared * total - vc * vd).abs() >= total {
                    return Err(format!("payee {}, user {}: {} is a cent or more off", i + 1, j + 1, cell));
                }
                self.billed_for[i] += cell;
                self.billed_to[j] += cell;
            }
            self.credits[i] += credits.credit[i];
        }
        for (j, billed) in charges.billed().into_iter().enumerate() {
            self.charges[j] += charges.vme[j] + charges.ong[j] - charges.cpv[j];
            self.debits[j] += billed;
        }
        Ok(())
    }

    /// Compares what the whole list left behind: the ledger, the held credits, and what was billed.
    pub fn check(&self, ledger: &Ledger, held: &[i64]) -> Result<(), String> {
        let counts = Ledger { users: self.tally.users, agents: self.tally.agents, month: self.tally.month };
        same("ledger", ledger, &counts)?;
        let held: Vec<i128> = held[..self.tally.credits.len()].iter().map(|&credit| credit.into()).collect();
        same("held credits", &held, &self.tally.credits)?;
        let due: Vec<i128> = self.charges.iter().zip(&held).map(|(charges, held)| charges + held).collect();
        same("cells by user, and charges with the credit still held", &self.billed_to, &due)?;
        same("cells by user, and debits with direct charges", &self.billed_to, &self.debits)?;
        same("cells by payee, and credits", &self.billed_for, &self.credits)?;
        same("all cells, and all debits", &self.billed_for.iter().sum::<i128>(), &self.debits.iter().sum())
    }
}

fn same<T: PartialEq + std::fmt::Debug>(what: &str, found: &T, due: &T) -> Result<(), String> {
    if found == due {
        Ok(())
    } else {
        Err(format!("{}: {:?} and not {:?}", what, found, due))
    }
}
