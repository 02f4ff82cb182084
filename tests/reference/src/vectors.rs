//! The comparison with the vector files, one function a file: how many cases agree, or the first that does not.

use crate::amounts::Amounts;
use crate::json::{self, Json};
use crate::ledger::{self, Ledger};
use crate::lines::{Agent, MonthLines, Point, User};
use crate::program::{check_run, events, settle, Event};
use crate::read::{check_text, read_month, Capacity};
use crate::refusals::Refusal;
use crate::share::share_c;
use crate::table::is_billed;

/// A file's name and the comparison of one of its lines.
pub type VectorFile = (&'static str, fn(&Json) -> Result<(), String>);

pub const VECTOR_FILES: [VectorFile; 9] = [
    ("shares.jsonl", share),
    ("openings.jsonl", opening),
    ("closings.jsonl", closing),
    ("readings.jsonl", reading),
    ("runs.jsonl", run),
    ("runs-Q3.jsonl", run_in_full::<15>),
    ("runs-Q4.jsonl", run_in_full::<15>),
    ("runs-Q8.jsonl", run_in_full::<15>),
    ("runs-Q1.jsonl", run_in_full::<16>),
];

/// Compares every line of a file's text; the answer is their count.
pub fn compare(text: &str, case: fn(&Json) -> Result<(), String>) -> Result<usize, String> {
    let mut count = 0;
    for line in text.lines() {
        count += 1;
        json::parse(line).and_then(|vector| case(&vector)).map_err(|why| format!("line {}: {}", count, why))?;
    }
    Ok(count)
}

fn share(vector: &Json) -> Result<(), String> {
    let [p, before, through, w, answer]: [i64; 5] = row(vector)?;
    same("answer", &share_c(p, before, through, w), &answer)
}

/// The opening of a vector: counts of users and agents, and the length of the held slice.
pub fn opening_call(vector: &Json) -> Result<(u64, u64, usize), String> {
    Ok((whole(vector, "users")?, whole(vector, "agents")?, whole(vector, "held_len")?))
}

fn opening(vector: &Json) -> Result<(), String> {
    const MARK: i64 = -7;
    let (users, agents, held_length) = opening_call(vector)?;
    let mut held = vec![MARK; held_length];
    let (ledger, refused) = ledger::open(users, agents, &mut held);
    same("ledger", &ledger, &ledger_of(field(vector, "ledger")?)?)?;
    same("refusal", &refused, &refusal(field(vector, "refused")?)?)?;
    let zeroed = if refused.is_none() { users as usize } else { 0 };
    let as_it_should = held.iter().enumerate().all(|(j, &credit)| credit == if j < zeroed { 0 } else { MARK });
    same("held slice", &as_it_should, &true)
}

/// The closing of a vector, with the lengths of the slices for cells and for work.
pub struct ClosingCall {
    pub ledger: Ledger,
    pub held: Vec<i64>,
    pub lines: MonthLines,
    pub cells: usize,
    pub work: usize,
}

pub fn closing_call(vector: &Json) -> Result<ClosingCall, String> {
    Ok(ClosingCall {
        ledger: ledger_of(field(vector, "ledger")?)?,
        held: numbers(field(vector, "held")?)?,
        lines: month_lines(vector)?,
        cells: whole(vector, "cells_len")?,
        work: whole(vector, "work_len")?,
    })
}

fn closing(vector: &Json) -> Result<(), String> {
    const MARK: i64 = -7;
    let ClosingCall { ledger, held, lines, cells, work } = closing_call(vector)?;
    let mut after = held.clone();
    let mut cells = vec![MARK; cells];
    let (moved, answer) = ledger::close(ledger, &mut after, &lines, &mut cells, work as u64);
    let expect = field(vector, "expect")?;
    let amounts = match answer {
        Err(refused) => {
            same("refusal", &Some(refused), &refusal(field(expect, "refused")?)?)?;
            same("ledger", &moved, &ledger)?;
            same("held slice", &after, &held)?;
            return same("cells untouched", &cells.iter().all(|&cell| cell == MARK), &true);
        }
        Ok(amounts) => amounts,
    };
    let expect = field(expect, "accepted")?;
    let (charges, credits) = (&amounts.charges, &amounts.credits);
    every_amount(&amounts, expect)?;
    same("ledger", &moved, &Ledger { month: lines.month, ..ledger })?;
    let users = lines.users.len();
    let new: Vec<i128> = after[..users].iter().map(|&credit| credit.into()).collect();
    same("new held credits", &new, &charges.held)?;
    same("held entries beyond", &after[users..], &held[users..])?;
    let (table, beyond) = cells.split_at(credits.vc.len() * users);
    is_billed(&credits.vc, &charges.vd, &charges.ong, table)?;
    same("cells beyond", &beyond.iter().all(|&cell| cell == MARK), &true)
}

/// Every amount of a month by its name in the vector files.
fn every_amount(Amounts { charges, credits }: &Amounts, expect: &Json) -> Result<(), String> {
    let lists = [
        ("eust", &charges.eust),
        ("overrun", &charges.overrun),
        ("vme", &charges.vme),
        ("cpv", &charges.cpv),
        ("n", &charges.n),
        ("vd", &charges.vd),
        ("held", &charges.held),
        ("vmst", &credits.vmst),
        ("vmpa", &credits.vmpa),
        ("vmant", &credits.vmant),
        ("vc", &credits.vc),
    ];
    for (name, amounts) in lists {
        same(name, amounts, &numbers(field(expect, name)?)?)?;
    }
    same("smse", &credits.smse, &whole(expect, "smse")?)
}

fn reading(vector: &Json) -> Result<(), String> {
    let text = text_of(vector)?;
    let [agents, users, points]: [usize; 3] = row(field(vector, "capacity")?)?;
    let answer = read_month(text, whole(vector, "position")?, Capacity { agents, users, points });
    same("check", &check_text(text), &whole(vector, "check")?)?;
    let expect = field(vector, "expect")?;
    match answer {
        Err(refused) => same("refusal", &Some(refused), &refusal(field(expect, "refused")?)?),
        Ok((lines, next)) => {
            same("lines", &lines, &month_lines(expect)?)?;
            same("next position", &next, &whole(expect, "position")?)
        }
    }
}

fn run(vector: &Json) -> Result<(), String> {
    let text = text_of(vector)?;
    let expected: Vec<Told> = each(field(vector, "events")?, event)?;
    let found: Vec<Told> = events(text).into_iter().map(told).collect();
    same("events", &found, &expected)?;
    check_run(text, &settle(text))
}

/// What a vector tells of a file: its refusal; or the month, VC, VD and the new held credits.
type Told = Result<(i64, Vec<i128>, Vec<i128>, Vec<i128>), Refusal>;

fn told(event: Event) -> Told {
    match event {
        Event::Refused(refusal) => Err(refusal),
        Event::Closed(closed) => {
            Ok((closed.month(), closed.vc().to_vec(), closed.vd().to_vec(), closed.held().to_vec()))
        }
    }
}

fn event(event: &Json) -> Result<Told, String> {
    if let Some(refused) = event.field("refused") {
        return Ok(Err(refusal(refused)?.ok_or("an event refused by nothing")?));
    }
    let list = |name: &str| field(event, name).and_then(numbers);
    Ok(Ok((whole(event, "month")?, list("vc")?, list("vd")?, list("held")?)))
}

/// A run of which each closed month is told with every amount, in so many fields: month, the twelve of every amount,
/// `use`, `credit` and, of the runs made after request Q-1, `ong`; those made before have no direct charge. Without
/// contracts a user's EUST is its use of the grid.
fn run_in_full<const FIELDS: usize>(vector: &Json) -> Result<(), String> {
    let text = text_of(vector)?;
    let expected = field(vector, "events")?.list().ok_or("events is no list")?;
    let found = events(text);
    same("number of events", &found.len(), &expected.len())?;
    for (found, expected) in found.iter().zip(expected) {
        let closed = match found {
            Event::Refused(refused) => {
                same("refusal", &Some(*refused), &refusal(field(expected, "refused")?)?)?;
                continue;
            }
            Event::Closed(closed) => closed,
        };
        let fields = match expected {
            Json::Record(fields) => fields.len(),
            _ => 0,
        };
        same("number of fields", &fields, &FIELDS)?;
        same("month", &closed.month(), &whole(expected, "month")?)?;
        every_amount(&closed.amounts, expected)?;
        same("use", &closed.amounts.charges.eust, &numbers(field(expected, "use")?)?)?;
        same("credit", &closed.amounts.credits.credit, &numbers(field(expected, "credit")?)?)?;
        let no_ong = vec![0; closed.lines.users.len()];
        same("ong", closed.ong(), &expected.field("ong").map_or(Ok(no_ong), numbers)?)?;
    }
    check_run(text, &settle(text))
}

/// The text of a vector: what is read, or the program's input.
pub fn text_of(vector: &Json) -> Result<&[u8], String> {
    Ok(field(vector, "text")?.text().ok_or("text is no text")?)
}

fn month_lines(record: &Json) -> Result<MonthLines, String> {
    Ok(MonthLines {
        month: whole(record, "month")?,
        ons: whole(record, "ons")?,
        agents: each(field(record, "agents")?, |line| row(line).map(Agent::from_columns))?,
        users: each(field(record, "users")?, |line| row(line).map(User::from_columns))?,
        points: each(field(record, "points")?, |line| row(line).map(Point::from_columns))?,
    })
}

fn ledger_of(list: &Json) -> Result<Ledger, String> {
    match list.list() {
        Some([users, agents, month]) => {
            Ok(Ledger { users: number(users)?, agents: number(agents)?, month: number(month)? })
        }
        _ => Err("a ledger is three numbers".to_string()),
    }
}

fn refusal(pair: &Json) -> Result<Option<Refusal>, String> {
    match pair {
        Json::Null => Ok(None),
        _ => row(pair).map(|[number, place]| Some(Refusal { number, place })),
    }
}

fn field<'a>(record: &'a Json, name: &str) -> Result<&'a Json, String> {
    record.field(name).ok_or_else(|| format!("no field {}", name))
}

fn whole<N: TryFrom<i128>>(record: &Json, name: &str) -> Result<N, String> {
    number(field(record, name)?).map_err(|why| format!("{}: {}", name, why))
}

fn number<N: TryFrom<i128>>(value: &Json) -> Result<N, String> {
    let number = value.number().ok_or("no number")?;
    N::try_from(number).map_err(|_| format!("{} does not fit", number))
}

fn numbers<N: TryFrom<i128>>(list: &Json) -> Result<Vec<N>, String> {
    each(list, number)
}

/// A list of so many numbers.
fn row<N: TryFrom<i128>, const COLUMNS: usize>(list: &Json) -> Result<[N; COLUMNS], String> {
    <[N; COLUMNS]>::try_from(numbers(list)?).map_err(|list| format!("{} numbers and not {}", list.len(), COLUMNS))
}

fn each<T>(list: &Json, item: impl Fn(&Json) -> Result<T, String>) -> Result<Vec<T>, String> {
    list.list().ok_or("no list")?.iter().map(item).collect()
}

fn same<T: PartialEq + std::fmt::Debug + ?Sized>(what: &str, found: &T, expected: &T) -> Result<(), String> {
    if found == expected {
        Ok(())
    } else {
        Err(format!("{}: {:?} and not {:?}", what, found, expected))
    }
}
