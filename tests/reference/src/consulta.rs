//! The program `consulta`: every amount that stands behind a month's table, from the same files as `settle`.
//!
//! A row is `month,item,payee,user,point,cents`; a column is empty where it does not apply. Of a closed month come the
//! charges of each point, the amounts of each user with its direct charge last, those of each agent, what ONS is due of the
//! debits and with the direct charges, the balance, and the cells.

use crate::charges::{overrun, use_charge};
use crate::output::{output_lines, payee_names, refused_line};
use crate::program::{events, Closed, Event};
use crate::table::some_table;

/// The names, printed first in every run.
pub const CONSULTA_NAMES: &str = "month,item,payee,user,point,cents\n";

/// What the program prints, the odd cents as `some_table` sets them.
pub fn consulta(input: &[u8]) -> Vec<u8> {
    print(&events(input), some_table)
}

/// The output for these events, with a table made for each closed month from its shared credits and its debits.
pub fn print(events: &[Event], mut table: impl FnMut(&[i128], &[i128]) -> Vec<i64>) -> Vec<u8> {
    let mut output = String::from(CONSULTA_NAMES);
    for event in events {
        match event {
            Event::Refused(refusal) => output.push_str(&refused_line(refusal)),
            Event::Closed(closed) => {
                amount_rows(closed).iter().for_each(|row| output.push_str(row));
                for (start, cents) in cell_starts(closed).iter().zip(closed.cells(table(closed.vc(), closed.vd()))) {
                    output.push_str(&format!("{}{}\n", start, cents));
                }
            }
        }
    }
    output.into_bytes()
}

/// All rows of a month but the cells, in their order.
fn amount_rows(closed: &Closed) -> Vec<String> {
    let month = closed.month();
    let mut rows = Vec::new();
    for (k, point) in closed.lines.points.iter().enumerate() {
        let kind = closed.lines.users[point.at as usize - 1].kind;
        for (item, cents) in [("use", use_charge(point)), ("overrun", overrun(kind, point))] {
            rows.push(format!("{},{},,{},{},{}\n", month, item, point.at, k + 1, cents));
        }
    }
    let charges = &closed.amounts.charges;
    for (j, user) in closed.lines.users.iter().enumerate() {
        let items = [
            ("EUST", charges.eust[j]),
            ("overruns", charges.overrun[j]),
            ("ret", user.ret.into()),
            ("VME", charges.vme[j]),
            ("CPV", charges.cpv[j]),
            ("held_before", closed.held_before[j].into()),
            ("n", charges.n[j]),
            ("VD", charges.vd[j]),
            ("held_after", charges.held[j]),
            ("ong", user.ong.into()),
        ];
        rows.extend(items.iter().map(|(item, cents)| format!("{},{},,{},,{}\n", month, item, j + 1, cents)));
    }
    let credits = &closed.amounts.credits;
    for (i, agent) in closed.lines.agents.iter().enumerate() {
        let items = [
            ("VMST", credits.vmst[i]),
            ("VMPA", credits.vmpa[i]),
            ("VMANT", credits.vmant[i]),
            ("ret", agent.ret.into()),
            ("VC", credits.vc[i]),
        ];
        rows.extend(items.iter().map(|(item, cents)| format!("{},{},{},,,{}\n", month, item, i + 1, cents)));
    }
    let credit = credits.credit.last().expect("ONS is a payee");
    rows.push(format!("{},ons,ons,,,{}\n", month, closed.lines.ons));
    rows.push(format!("{},VC,ons,,,{}\n", month, credit));
    rows.push(format!("{},SMSE,,,,{}\n", month, credits.smse));
    rows
}

/// The rows of a month's cells, each up to its cents.
fn cell_starts(closed: &Closed) -> Vec<String> {
    let mut starts = Vec::new();
    for payee in payee_names(closed.vc().len()) {
        starts.extend((1..=closed.vd().len()).map(|user| format!("{},cell,{},{},,", closed.month(), payee, user)));
    }
    starts
}

/// Whether `output` is what the program may print for `input`: any table for each closed month, all else byte for byte.
pub fn check_run(input: &[u8], output: &[u8]) -> Result<(), String> {
    check_events(&events(input), output)
}

/// The same for a run that has these events.
pub fn check_events(events: &[Event], output: &[u8]) -> Result<(), String> {
    let mut lines = output_lines(output);
    lines.same(CONSULTA_NAMES)?;
    for event in events {
        match event {
            Event::Refused(refusal) => lines.same(&refused_line(refusal))?,
            Event::Closed(closed) => {
                amount_rows(closed).iter().try_for_each(|row| lines.same(row))?;
                let starts = cell_starts(closed);
                let cells: Vec<i64> = starts.iter().map(|start| lines.cents_after(start)).collect::<Result<_, _>>()?;
                closed.check_cells(&cells)?;
            }
        }
    }
    lines.end()
}
