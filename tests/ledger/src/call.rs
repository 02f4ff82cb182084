//! One call: how the script says it (calls.rt.txt), and what the reference calculation makes of it.

use rateio_reference::amounts::Amounts;
use rateio_reference::ledger::{self, Ledger};
use rateio_reference::lines::MonthLines;
use rateio_reference::refusals::{cells_needed, work_needed, Refusal};

/// Entries of the program's arrays that a slice can be taken of.
pub const HELD_ENTRIES: usize = 640;
pub const CELLS_ENTRIES: usize = 131_596;
pub const WORK_ENTRIES: usize = 266_256;

#[derive(Clone, Copy, Debug, PartialEq, Eq)]
pub enum How {
    /// Opens with the ledger's counts.
    Open = 1,
    /// Closes with this ledger and these held credits.
    Close = 2,
    /// Closes with the ledger and the held credits that the call before left.
    Next = 3,
}

#[derive(Clone, Debug)]
pub struct Call {
    pub how: How,
    pub ledger: Ledger,
    /// What the held array holds before the call.
    pub held: Vec<i64>,
    pub lines: MonthLines,
    /// The lengths of the slices that are lent.
    pub lent_held: usize,
    pub lent_cells: usize,
    pub lent_work: usize,
    /// What cells and work hold before the call: 0 a number by its place, 1 small numbers, 2 the largest.
    pub patterns: [u64; 2],
}

/// What an entry of the held array beyond the users holds.
pub fn mark(i: usize) -> i64 {
    -77 - i as i64
}

pub fn no_lines() -> MonthLines {
    MonthLines { month: 0, ons: 0, agents: vec![], users: vec![], points: vec![] }
}

impl Call {
    /// An opening on a held slice of so many entries.
    pub fn open(users: u64, agents: u64, held: usize) -> Call {
        Call {
            how: How::Open,
            ledger: Ledger { users, agents, month: 0 },
            held: (0..held + 2).map(mark).collect(),
            lines: no_lines(),
            lent_held: held,
            lent_cells: 0,
            lent_work: 0,
            patterns: [0, 0],
        }
    }

    /// A closing by a ledger with the lines' counts and no month closed, with no credit held, on slices that are just long enough.
    pub fn close(lines: MonthLines) -> Call {
        let (users, agents) = (lines.users.len(), lines.agents.len());
        let mut call = Call {
            how: How::Close,
            ledger: Ledger { users: users as u64, agents: agents as u64, month: 0 },
            held: (0..users + 3).map(|i| if i < users { 0 } else { mark(i) }).collect(),
            lines,
            lent_held: users,
            lent_cells: 0,
            lent_work: 0,
            patterns: [0, 0],
        };
        call.lend_enough();
        call
    }

    /// The same closing with what the call before left.
    pub fn next(lines: MonthLines, lent_held: usize) -> Call {
        Call { how: How::Next, held: vec![], lent_held, ..Call::close(lines) }
    }

    /// Slices for cells and for work just long enough for the lines, or the whole array.
    pub fn lend_enough(&mut self) {
        let (users, agents) = (self.lines.users.len() as u64, self.lines.agents.len() as u64);
        self.lent_cells = (cells_needed(agents, users) as usize).min(CELLS_ENTRIES);
        self.lent_work = (work_needed(agents, users) as usize).min(WORK_ENTRIES);
    }

    pub fn users(&self) -> usize {
        self.lines.users.len()
    }

    /// Sets the held credit of every user.
    pub fn hold(&mut self, credit: i64) {
        let users = self.users();
        self.held[..users].fill(credit);
    }

    /// The call as the program reads it.
    pub fn write(&self, script: &mut Vec<u8>) {
        let lines = &self.lines;
        let numbers = [lines.agents.len(), lines.users.len(), lines.points.len(), self.held.len()];
        let lent = [self.lent_held, self.lent_cells, self.lent_work];
        let mut put = |number: i64| script.extend(number.to_le_bytes());
        put(self.how as i64);
        put(self.ledger.users as i64);
        put(self.ledger.agents as i64);
        put(self.ledger.month);
        put(lines.month);
        put(lines.ons);
        numbers.iter().chain(&lent).for_each(|&count| put(count as i64));
        self.patterns.iter().for_each(|&pattern| put(pattern as i64));
        self.held.iter().for_each(|&credit| put(credit));
        lines.agents.iter().flat_map(|agent| agent.columns()).for_each(&mut put);
        lines.users.iter().flat_map(|user| user.columns()).for_each(&mut put);
        lines.points.iter().flat_map(|point| point.columns()).for_each(&mut put);
    }
}

/// What a call has to answer and to leave.
#[derive(Clone, Debug)]
pub struct Outcome {
    pub answer: Option<Refusal>,
    pub ledger: Ledger,
    /// The held array, also beyond the slice that was lent.
    pub held: Vec<i64>,
    /// Those of a month that was closed.
    pub amounts: Option<Amounts>,
}

/// Ledger and held array between calls.
pub struct State {
    pub ledger: Ledger,
    pub held: Vec<i64>,
}

impl State {
    pub fn new() -> State {
        State { ledger: Ledger { users: 0, agents: 0, month: 0 }, held: vec![] }
    }

    /// Makes the call by the reference calculation.
    pub fn run(&mut self, call: &Call) -> Outcome {
        if call.how != How::Next {
            self.ledger = call.ledger;
            self.held = call.held.clone();
        }
        let held = &mut self.held[..call.lent_held];
        let (answer, amounts) = if call.how == How::Open {
            let (ledger, answer) = ledger::open(self.ledger.users, self.ledger.agents, held);
            self.ledger = ledger;
            (answer, None)
        } else {
            let mut cells = vec![0; call.lent_cells];
            let (ledger, answer) = ledger::close(self.ledger, held, &call.lines, &mut cells, call.lent_work as u64);
            self.ledger = ledger;
            (answer.as_ref().err().copied(), answer.ok())
        };
        Outcome { answer, ledger: self.ledger, held: self.held.clone(), amounts }
    }
}

impl Outcome {
    /// The row that the program writes.
    pub fn row(&self) -> String {
        let answer = self.answer.unwrap_or(Refusal { number: 0, place: 0 });
        let Ledger { users, agents, month } = self.ledger;
        // no entry of cells and none of work is changed that should not be
        let mut digest = self.held.iter().fold(mixed(mixed(0, 0), 0), |h, &credit| mixed(h, credit as u64));
        if let Some(Amounts { charges, credits }) = &self.amounts {
            let billed = charges.billed();
            digest = credits.credit.iter().chain(&billed).fold(digest, |h, &total| mixed(h, total as u64));
        }
        format!("{} {} {} {} {} {}\n", answer.number, answer.place, users, agents, month, digest)
    }
}

fn mixed(h: u64, x: u64) -> u64 {
    let half = |h: u64, x: u64| (h * 2_147_483_629 + x + 1) % 4_294_967_291;
    half(half(h, x >> 32), x & 0xffff_ffff)
}
