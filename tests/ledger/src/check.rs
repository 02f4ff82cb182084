//! What the program wrote of each call, held to the reference calculation; a table by its properties.

use crate::call::{Call, Outcome};
use rateio_reference::amounts::Amounts;
use rateio_reference::ledger::Ledger;
use rateio_reference::refusals::Refusal;
use rateio_reference::table::is_billed;

/// Numbers of 8 bytes, the lowest first.
struct Numbers<'a>(&'a [u8]);

impl Numbers<'_> {
    fn next(&mut self) -> Result<u64, String> {
        if self.0.len() < 8 {
            return Err("the program's output ends here".to_string());
        }
        let (number, rest) = self.0.split_at(8);
        self.0 = rest;
        Ok(u64::from_le_bytes(number.try_into().expect("8 bytes")))
    }

    fn take(&mut self, count: usize) -> Result<Vec<i64>, String> {
        (0..count).map(|_| self.next().map(|number| number as i64)).collect()
    }
}

/// Compares one run of the calls at the start of `written`, and answers how many bytes it has.
pub fn run(calls: &[Call], outcomes: &[Outcome], written: &[u8]) -> Result<usize, (usize, String)> {
    let mut numbers = Numbers(written);
    for (k, (call, outcome)) in calls.iter().zip(outcomes).enumerate() {
        record(call, outcome, &mut numbers).map_err(|why| (k, why))?;
    }
    Ok(written.len() - numbers.0.len())
}

fn record(call: &Call, outcome: &Outcome, numbers: &mut Numbers) -> Result<(), String> {
    let answer = match (numbers.next()?, numbers.next()?) {
        (0, 0) => None,
        (number, place) => Some(Refusal { number, place }),
    };
    same("answer", &answer, &outcome.answer)?;
    let ledger = Ledger { users: numbers.next()?, agents: numbers.next()?, month: numbers.next()? as i64 };
    same("ledger", &ledger, &outcome.ledger)?;
    same("cells changed that should not be", &numbers.next()?, &0)?;
    same("work changed that should not be", &numbers.next()?, &0)?;
    let held = numbers.take(outcome.held.len())?;
    for (j, (found, due)) in held.iter().zip(&outcome.held).enumerate() {
        same(&format!("held entry {}", j + 1), found, due)?;
    }
    if let Some(Amounts { charges, credits }) = &outcome.amounts {
        let cells = numbers.take(credits.vc.len() * call.users())?;
        is_billed(&credits.vc, &charges.vd, &charges.ong, &cells)?;
    }
    Ok(())
}

fn same<T: PartialEq + std::fmt::Debug>(what: &str, found: &T, due: &T) -> Result<(), String> {
    if found == due {
        Ok(())
    } else {
        Err(format!("{}: {:?} and not {:?}", what, found, due))
    }
}
