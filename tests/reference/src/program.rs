//! The program `settle` ("The month file", from its second paragraph): what it prints, and whether an output is right.
//! What a run comes to, file by file, is the same for the program `consulta`.

use crate::amounts::Amounts;
use crate::ledger::{self, Ledger};
use crate::lines::MonthLines;
use crate::output::{output_lines, payee_names, refused_line};
use crate::read::{self, Capacity};
use crate::refusals::{work_needed, Refusal};
use crate::table::{is_billed, some_table, with_direct};

/// The most that the program takes.
pub const PROGRAM_CAPACITY: Capacity = Capacity { agents: 16, users: 64, points: 256 };
pub const PROGRAM_INPUT: usize = 32_768;

/// The names, printed first in every run.
pub const OUTPUT_NAMES: &str = "month,payee,user,cents\n";

/// What the program has to say about one file.
#[derive(Clone, Debug, PartialEq, Eq)]
pub enum Event {
    Refused(Refusal),
    Closed(Box<Closed>),
}

/// A closed month: its lines, the credits held before it, and all that was worked out.
#[derive(Clone, Debug, PartialEq, Eq)]
pub struct Closed {
    pub lines: MonthLines,
    pub held_before: Vec<i64>,
    pub amounts: Amounts,
}

impl Closed {
    pub fn month(&self) -> i64 {
        self.lines.month
    }

    /// The shared credits: of ONS without the direct charges.
    pub fn vc(&self) -> &[i128] {
        &self.amounts.credits.vc
    }

    pub fn vd(&self) -> &[i128] {
        &self.amounts.charges.vd
    }

    pub fn held(&self) -> &[i128] {
        &self.amounts.charges.held
    }

    pub fn ong(&self) -> &[i128] {
        &self.amounts.charges.ong
    }

    /// The cells of this table of the shared credits and debits, as they are billed.
    pub(crate) fn cells(&self, table: Vec<i64>) -> Vec<i64> {
        with_direct(table, self.ong())
    }

    /// Whether these may be the month's cells.
    pub(crate) fn check_cells(&self, cells: &[i64]) -> Result<(), String> {
        is_billed(self.vc(), self.vd(), self.ong(), cells).map_err(|why| format!("{}: {}", self.month(), why))
    }
}

/// What a run has to say, in order.
pub fn events(input: &[u8]) -> Vec<Event> {
    if input.len() > PROGRAM_INPUT {
        return vec![Event::Refused(Refusal::new(12, 0))];
    }
    let mut events = Vec::new();
    let mut held = [0; 64];
    let mut cells = [0; 17 * 64];
    let mut ledger: Option<Ledger> = None;
    let mut position = 0;
    loop {
        let (lines, next) = match read::read_month(input, position, PROGRAM_CAPACITY) {
            Ok(file) => file,
            Err(refusal) => {
                events.push(Event::Refused(refusal));
                return events;
            }
        };
        let opened = match ledger {
            Some(ledger) => ledger,
            None => match ledger::open(lines.users.len() as u64, lines.agents.len() as u64, &mut held) {
                (ledger, None) => ledger,
                (_, Some(refusal)) => {
                    events.push(Event::Refused(refusal));
                    return events;
                }
            },
        };
        let held_before = held[..lines.users.len()].to_vec();
        let (closed, answer) = ledger::close(opened, &mut held, &lines, &mut cells, work_needed(16, 64));
        ledger = Some(closed);
        events.push(match answer {
            Err(refusal) => Event::Refused(refusal),
            Ok(amounts) => Event::Closed(Box::new(Closed { lines, held_before, amounts })),
        });
        if next == input.len() {
            return events;
        }
        position = next;
    }
}

/// What the program prints, the odd cents as `some_table` sets them.
pub fn settle(input: &[u8]) -> Vec<u8> {
    print(&events(input), some_table)
}

/// The output for these events, with a table made for each closed month from its shared credits and its debits.
pub fn print(events: &[Event], mut table: impl FnMut(&[i128], &[i128]) -> Vec<i64>) -> Vec<u8> {
    let mut output = String::from(OUTPUT_NAMES);
    for event in events {
        match event {
            Event::Refused(refusal) => output.push_str(&refused_line(refusal)),
            Event::Closed(closed) => {
                for (start, cents) in cell_starts(closed).iter().zip(closed.cells(table(closed.vc(), closed.vd()))) {
                    output.push_str(&format!("{}{}\n", start, cents));
                }
                held_lines(closed).iter().for_each(|line| output.push_str(line));
            }
        }
    }
    output.into_bytes()
}

/// The lines of a month's cells, each up to its cents.
fn cell_starts(closed: &Closed) -> Vec<String> {
    let mut starts = Vec::new();
    for payee in payee_names(closed.vc().len()) {
        starts.extend((1..=closed.vd().len()).map(|user| format!("{},{},{},", closed.month(), payee, user)));
    }
    starts
}

fn held_lines(closed: &Closed) -> Vec<String> {
    let numbered = closed.held().iter().enumerate();
    numbered.map(|(j, cents)| format!("{},held,{},{}\n", closed.month(), j + 1, cents)).collect()
}

/// Whether `output` is what the program may print for `input`: any table for each closed month, all else byte for byte.
pub fn check_run(input: &[u8], output: &[u8]) -> Result<(), String> {
    check_events(&events(input), output)
}

/// The same for a run that has these events.
pub fn check_events(events: &[Event], output: &[u8]) -> Result<(), String> {
    let mut lines = output_lines(output);
    lines.same(OUTPUT_NAMES)?;
    for event in events {
        match event {
            Event::Refused(refusal) => lines.same(&refused_line(refusal))?,
            Event::Closed(closed) => {
                let starts = cell_starts(closed);
                let cells: Vec<i64> = starts.iter().map(|start| lines.cents_after(start)).collect::<Result<_, _>>()?;
                closed.check_cells(&cells)?;
                held_lines(closed).iter().try_for_each(|line| lines.same(line))?;
            }
        }
    }
    lines.end()
}
