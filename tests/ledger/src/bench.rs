//! Closings at full size: the program's times (bench.rt.txt) beside those of the reference calculation.

use crate::call::Call;
use crate::limits::full_months;
use rateio_reference::ledger::close;
use rateio_reference::lines::{Agent, MonthLines, User, CONSUMER};
use rateio_reference::months::{sound_month, Counts, Style};
use rateio_reference::refusals::MAX_HELD;
use rateio_reference::rng::Rng;
use std::time::{Duration, Instant};

/// What lies between the times that a closing tells.
const PARTS: [&str; 4] = ["scan of the points", "refusals and amounts", "credits of the payees", "table of cells"];

/// Months of the largest size: two that are closed, without points, refused with 10, with 8, and by the ledger's counts.
fn months() -> Vec<(&'static str, Call)> {
    let mut rng = Rng::new(202_411);
    let counts = Counts { users: 512, agents: 256, points: 1024 };
    let full = Call::close(sound_month(&mut rng, Style::Ordinary, counts));
    let extreme = Call::close(sound_month(&mut rng, Style::Extreme, counts));
    let mut no_points = full.clone();
    no_points.lines.points.clear();
    no_points.lines.agents.iter_mut().for_each(|agent| agent.pv = 0);
    let mut no_debit = full.clone();
    no_debit.hold(MAX_HELD as i64);
    let mut no_pb = full.clone();
    no_pb.lines.agents.iter_mut().for_each(|agent| agent.pb = 0);
    let mut other_counts = full.clone();
    other_counts.ledger.agents = 255;
    vec![
        ("closed, ordinary amounts", full),
        ("closed, extreme amounts", extreme),
        ("closed, no points", no_points),
        ("refused with 10", no_debit),
        ("refused with 8", no_pb),
        ("refused with 1", other_counts),
    ]
}

/// A month whose table takes a search some 500 visits deep, one call within another: the dealing leaves one mark, for a row whose columns
/// are all taken, and each column on the way has one row to turn to.
fn deep_month(rng: &mut Rng) -> Call {
    let (users, agents, odd) = (512, 256, 1_000_000_007_i64);
    let sum = 2 * odd;
    let mut debits: Vec<i64> = (2..users).map(|_| 2 * rng.between(1, (sum - odd) / users / 2)).collect();
    debits.push(odd);
    debits.push(sum - debits.iter().sum::<i64>());
    let ons = 2000;
    let mut credits = vec![odd, odd, 0];
    credits.extend((3..agents).map(|_| 2 * rng.between(1, 1_000_000) * if rng.chance(50) { 1 } else { -1 }));
    // the third agent alone takes the balance, whatever it is
    let agent = |(number, ret): (i64, i64)| Agent::from_columns([number, i64::from(number == 3), 0, 0, 0, 0, ret]);
    Call::close(MonthLines {
        month: 202_401,
        ons,
        agents: (1..).zip(credits).map(agent).collect(),
        users: (1..).zip(debits).map(|(number, ret)| User { number, kind: CONSUMER, ret, ong: 0 }).collect(),
        points: vec![],
    })
}

/// Writes the program's input, with a time for each month; that for the first of them; and that for months of every style and one with a
/// deep search, closed once.
pub fn write(timed: &str, first: &str, once: &str) {
    let script = |milliseconds: u64, calls: &[Call]| {
        let mut script = milliseconds.to_le_bytes().to_vec();
        calls.iter().for_each(|call| call.write(&mut script));
        script
    };
    let calls: Vec<Call> = months().into_iter().map(|(_, call)| call).collect();
    std::fs::write(timed, script(200, &calls)).expect("the input can be written");
    std::fs::write(first, script(400, &calls[..1])).expect("the input can be written");
    let mut every = full_months(&mut Rng::new(202_412));
    every.push(deep_month(&mut Rng::new(202_413)));
    std::fs::write(once, script(0, &every)).expect("the input can be written");
}

/// The least nanoseconds of the reference's closing.
fn reference(call: &Call) -> u64 {
    let mut cells = vec![0; call.lent_cells];
    let mut least = u64::MAX;
    let start = Instant::now();
    while start.elapsed() < Duration::from_millis(600) {
        let mut held = call.held[..call.lent_held].to_vec();
        let from = Instant::now();
        let answer = close(call.ledger, &mut held, &call.lines, &mut cells, call.lent_work as u64);
        least = least.min(from.elapsed().as_nanos() as u64);
        std::hint::black_box(answer.0);
    }
    least
}

/// The least and the most of the times that the runs have for the same.
fn range(runs: &[Vec<u64>], k: usize) -> (u64, u64) {
    let times = || runs.iter().map(|times| times[k]);
    (times().min().expect("a run"), times().max().expect("a run"))
}

/// The times of a run: of the scan, then of each month.
fn times(path: &str) -> Vec<u64> {
    let text = std::fs::read_to_string(path).expect("the times of a run");
    text.lines().map(|line| line.parse().expect("nanoseconds")).collect()
}

/// The least of each part, of what a run's closings told: the time at their start and after each part, 8 bytes each.
fn parts(path: &str) -> Vec<u64> {
    let bytes = std::fs::read(path).expect("what a run told");
    let told: Vec<u64> = bytes.chunks(8).map(|b| u64::from_le_bytes(b.try_into().expect("8 bytes"))).collect();
    let closings = || told.chunks(PARTS.len() + 1);
    assert!(!told.is_empty() && closings().all(|c| c.len() == PARTS.len() + 1), "each closing tells all its times");
    (0..PARTS.len()).map(|k| closings().map(|c| c[k + 1] - c[k]).min().expect("a closing")).collect()
}

/// Prints the times of the program's runs beside the reference's. A time is the least of a run; of the runs, the least and the most.
pub fn compare(folder: &str, count: usize) {
    let of_runs = |f: fn(&str) -> Vec<u64>, name: &str| -> Vec<Vec<u64>> {
        (1..=count).map(|run| f(&format!("{}/{}.{}", folder, name, run))).collect()
    };
    let (runs, told) = (of_runs(times, "times"), of_runs(parts, "told"));
    let months = months();
    assert!(runs.iter().all(|times| times.len() == 1 + months.len()), "a time for the scan and each month");
    let micros = |nanoseconds: u64| nanoseconds as f64 / 1000.0;
    println!("{:<28}{:>11}{:>11}{:>11}{:>9}", "microseconds", "least", "most", "reference", "ratio");
    for (k, (name, call)) in months.iter().enumerate() {
        let (least, most) = range(&runs, 1 + k);
        let theirs = reference(call);
        let ratio = least as f64 / theirs as f64;
        println!("{:<28}{:>11.1}{:>11.1}{:>11.1}{:>9.3}", name, micros(least), micros(most), micros(theirs), ratio);
    }
    let whole: u64 = (0..PARTS.len()).map(|k| range(&told, k).0).sum();
    println!("{:<28}{:>11}{:>11}{:>11}", "by part, ordinary amounts", "least", "most", "share");
    let ranges = PARTS.iter().enumerate().map(|(k, name)| (*name, range(&told, k)));
    for (name, (least, most)) in ranges.chain([("scan", range(&runs, 0))]) {
        let share = 100.0 * least as f64 / whole as f64;
        println!("{:<28}{:>11.1}{:>11.1}{:>10.1}%", name, micros(least), micros(most), share);
    }
}
