//! Inputs that are listed one by one: a CR at every place, the longest input in CR LF, every month of the calendar, months
//! skipped or refused in a cycle, direct charges at their limits, and the stored runs.

use crate::inputs::{exact, in_turn, Ends, Input};
use rateio_reference::lines::{Agent, MonthLines, User, CONSUMER};
use rateio_reference::program::{events, Event, PROGRAM_CAPACITY, PROGRAM_INPUT};
use rateio_reference::refusals::MAX_AMOUNT;
use rateio_reference::rng::Rng;
use rateio_reference::vectors::{self, VECTOR_FILES};
use rateio_reference::{json, months, sample, texts};
use std::path::Path;

/// All of them; `runs` are vector files of runs.
pub fn inputs(runs: &[&str]) -> Result<Vec<Input>, String> {
    let mut inputs = cr_at_every_place();
    inputs.extend(longest());
    inputs.extend(calendar()?);
    inputs.extend(skipped()?);
    inputs.extend(direct()?);
    inputs.extend(another_column());
    for path in runs {
        inputs.extend(stored(path)?.into_iter().map(|input| ("a stored run", input)));
    }
    Ok(inputs)
}

/// The worked file twice, in LF, in CR LF and in turn; where its text is sound the second is refused for its month.
fn cr_at_every_place() -> Vec<Input> {
    let lf = sample::INPUT.as_bytes();
    let mut inputs = Vec::new();
    for file in [lf.to_vec(), texts::cr_lf(lf), in_turn(lf)] {
        let text = [&file[..], &file[..]].concat();
        inputs.push(("the worked file twice", text.clone()));
        // In the second file the start and the end will do.
        let places = (0..=file.len() + 12).chain(text.len() - 3..=text.len());
        inputs.extend(places.map(|at| ("a CR at every place", texts::with_crs(&text, &[at]))));
    }
    inputs
}

/// Sound months of as many bytes as are taken: every CR counts, so what fits in LF may not in CR LF.
fn longest() -> Vec<Input> {
    let mut rng = Rng::new(32_768);
    let mut inputs = Vec::new();
    for ends in [texts::cr_lf as Ends, in_turn] {
        let most = exact(&mut rng, PROGRAM_INPUT, ends);
        inputs.push(("a CR more than is taken", texts::with_crs(&most, &[most.len()])));
        inputs.push(("the longest input in CR LF", most));
    }
    let one_less = exact(&mut rng, PROGRAM_INPUT - 1, <[u8]>::to_vec);
    let lfs = texts::bare_lfs(&one_less);
    let last = lfs[lfs.len() - 1];
    inputs.push(("the longest input by one CR", texts::with_crs(&one_less, &[last])));
    inputs.push(("a CR more than is taken", texts::with_crs(&one_less, &[lfs[0], last])));
    inputs.push(("too long in CR LF alone", texts::cr_lf(&one_less)));
    inputs.push(("not too long in LF", one_less));
    inputs
}

/// A month that closes. No two cycle months have the same VMPA of adjustments of 1 to 11 cents where one twelfth is due,
/// so the agents' VMPA tell which one it is; that of 12 cents tells how many twelfths are due.
fn telling(month: i64) -> MonthLines {
    let agent = |pa: i64| Agent { number: pa, pb: pa, pv: 0, afs: 0, rfs: 0, pa, ret: 0 };
    let users = vec![User { number: 1, kind: CONSUMER, ret: 100, ong: 0 }];
    MonthLines { month, ons: 1, agents: (1..=12).map(agent).collect(), users, points: Vec::new() }
}

/// Every month that exists, a year an input, all of them closed.
fn calendar() -> Result<Vec<Input>, String> {
    let months: Vec<MonthLines> = months::calendar().map(telling).collect();
    let inputs: Vec<Input> = months.chunks(12).map(|year| ("a year of the calendar", texts::files(year))).collect();
    closing(inputs, 1200)
}

/// Each month of a cycle skipped, and each refused, from the June before it to the July after it; each month of a cycle
/// and any later one of it or of the next two, with none between them; and the first month that exists with the last.
fn skipped() -> Result<Vec<Input>, String> {
    let all: Vec<i64> = (0..14).map(|k| months::moved(202_306, k)).collect();
    let mut inputs = Vec::new();
    for out in &all[1..13] {
        let others = all.iter().filter(|&month| month != out).map(|&month| telling(month));
        inputs.push(("a month skipped", texts::files(&others.collect::<Vec<_>>())));
        let mut refused: Vec<MonthLines> = all.iter().map(|&month| telling(month)).collect();
        refused.iter_mut().filter(|lines| lines.month == *out).for_each(|lines| lines.ons = -1);
        inputs.push(("a month refused", texts::files(&refused)));
    }
    let two = |last: i64, month: i64| ("two months", texts::files(&[telling(last), telling(month)]));
    let cycles: Vec<i64> = (0..36).map(|k| months::moved(202_307, k)).collect();
    for (k, &last) in cycles[..12].iter().enumerate() {
        inputs.extend(cycles[k + 1..].iter().map(|&month| two(last, month)));
    }
    inputs.push(two(200_001, 209_912));
    closing(inputs, 24 * 13 + 355 * 2)
}

/// A month of so many users, of each kind in turn, each of whom owes 100.
fn of_each_kind(month: i64, users: usize) -> MonthLines {
    let user = |number: i64| User { number, kind: 1 + (number - 1) % 3, ret: 100, ong: 0 };
    MonthLines { users: (1..=users as i64).map(user).collect(), ..telling(month) }
}

/// Direct charges of a user of each kind, the first, the second and the last: at their limits and past them, and beside
/// a credit that is left and then used; where nobody owes anything; and the largest, of as many users as are taken.
fn direct() -> Result<Vec<Input>, String> {
    const HUGE: i64 = 999_999_999_999_999_999;
    let mut inputs = Vec::new();
    for k in 0..3 {
        for ong in [-HUGE, -MAX_AMOUNT, -1, 0, 1, MAX_AMOUNT - 1, MAX_AMOUNT, MAX_AMOUNT + 1, HUGE] {
            let mut lines = of_each_kind(202_407, 3);
            lines.users[k].ong = ong;
            inputs.push(("a direct charge at its limits", texts::file(&lines)));
        }
        for ong in [1, 999, 1000, 1001, MAX_AMOUNT] {
            let mut months = [202_407, 202_408, 202_409].map(|month| of_each_kind(month, 3));
            months[0].users[k].ret = -1000;
            months[1].users[k].ret = 300;
            months[2].users[k].ret = 1700;
            months.iter_mut().for_each(|lines| lines.users[k].ong = ong);
            inputs.push(("a direct charge beside a credit", texts::files(&months)));
        }
        let mut nobody = of_each_kind(202_407, 3);
        nobody.users.iter_mut().for_each(|user| user.ret = 0);
        nobody.users[k].ong = 100;
        inputs.push(("a direct charge and no debit", texts::file(&nobody)));
    }
    let mut months = [202_407, 202_408].map(|month| of_each_kind(month, PROGRAM_CAPACITY.users));
    months.iter_mut().flat_map(|lines| &mut lines.users).for_each(|user| user.ong = MAX_AMOUNT);
    inputs.push(("the largest direct charges", texts::files(&months)));
    closing(inputs, 3 * 4 + 3 * 5 * 3 + 2)
}

/// The worked file as it was before it had the column `ong`, in its names, its lines or both; with the column elsewhere,
/// twice, and one more.
fn another_column() -> Vec<Input> {
    let names =
        ["user,kind,ret", "user,kind,ret,ong", "user,kind,ong,ret", "user,kind,ret,ong,ong", "user,kind,ret,ong,"];
    let lines =
        ["1,2,0\n2,3,0\n", "1,2,0,0\n2,3,0,0\n", "1,2,0,0,0\n2,3,0,0,0\n", "1,2,0,\n2,3,0,\n", "1,2,0,0\n2,3,0\n"];
    let mut inputs = Vec::new();
    for names in names {
        for lines in lines {
            let text = sample::INPUT.replace("user,kind,ret,ong", names).replace("1,2,0,0\n2,3,0,0\n", lines);
            inputs.push(("another column", text.clone().into_bytes()));
            inputs.push(("another column", texts::cr_lf(text.as_bytes())));
        }
    }
    inputs
}

/// These inputs, in which so many months close.
fn closing(inputs: Vec<Input>, months: usize) -> Result<Vec<Input>, String> {
    let events = inputs.iter().flat_map(|(_, text)| events(text));
    match events.filter(|event| matches!(event, Event::Closed(_))).count() {
        closed if closed == months => Ok(inputs),
        closed => Err(format!("{} months closed, of {}: {}", closed, months, inputs[0].0)),
    }
}

/// The inputs of a vector file of runs, on each of which the reference calculation agrees with what is stored.
fn stored(path: &str) -> Result<Vec<Vec<u8>>, String> {
    let name = Path::new(path).file_name().unwrap_or_default();
    let (_, case) =
        VECTOR_FILES.into_iter().find(|file| file.0 == name).ok_or_else(|| format!("no vectors {}", path))?;
    let text = std::fs::read_to_string(path).map_err(|why| format!("{}: {}", path, why))?;
    vectors::compare(&text, case).map_err(|why| format!("{}, {}", path, why))?;
    text.lines().map(|line| json::parse(line).and_then(|run| Ok(vectors::text_of(&run)?.to_vec()))).collect()
}
