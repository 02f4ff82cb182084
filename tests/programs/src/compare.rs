//! Both programs beside the reference calculation, input after input, on two threads.

use crate::child::{Desk, Program, Runner};
use crate::inputs::{self, Input};
use crate::rows;
use rateio_reference::credits::{cycle, cycle_month, settled_to};
use rateio_reference::program::{self, Event, PROGRAM_INPUT};
use rateio_reference::{consulta, texts};
use std::ops::Range;
use std::path::Path;
use std::sync::atomic::{AtomicBool, AtomicU64, AtomicUsize, Ordering};
use std::sync::Mutex;
use std::time::{Duration, Instant};

const WORKERS: usize = 2;
/// After so long on one input a program is ended.
const PATIENCE: Duration = Duration::from_secs(20);
/// After so many differences a comparison is over.
const ENOUGH: usize = 5;
/// One of so many inputs comes in pieces, so that one read does not get it whole.
const PIECES_EVERY: u64 = 40;

/// What a comparison went through.
#[derive(Clone, Default)]
pub struct Counts {
    pub inputs: u64,
    pub bytes: usize,
    pub in_pieces: u64,
    /// Inputs of no bytes, of the most that are taken, of one more, and of more than that.
    pub sizes: [u64; 4],
    /// Inputs with a closed month and all lines in CR LF, with one and some lines so; and inputs refused for a CR: at
    /// the byte after it where a line may end, and at the CR itself.
    pub line_ends: [u64; 4],
    pub files: usize,
    pub closed: usize,
    pub with_credit: usize,
    /// Closed months before which months of their own cycle were skipped, by where the last closed one lies: in that
    /// cycle, in the one before it, in an earlier one.
    pub skipped: [usize; 3],
    /// Closed months with direct charges, by the kind of a user that has one; and those in which a user with a direct
    /// charge has a credit left.
    pub direct: [usize; 3],
    pub direct_beside_credit: usize,
    pub cells: usize,
    /// By the refusal's number.
    pub refused: [usize; 13],
}

impl Counts {
    fn add(&mut self, input: &[u8], pieces: usize, events: &[Event]) {
        self.inputs += 1;
        self.bytes += input.len();
        self.in_pieces += u64::from(pieces > 1);
        let length = input.len();
        let sizes = [length == 0, length == PROGRAM_INPUT, length == PROGRAM_INPUT + 1, length > PROGRAM_INPUT + 1];
        self.sizes.iter_mut().zip(sizes).for_each(|(count, is_so)| *count += u64::from(is_so));
        self.line_ends.iter_mut().zip(line_ends(input, events)).for_each(|(count, is_so)| *count += u64::from(is_so));
        self.files += events.len();
        let mut last = 0;
        for event in events {
            match event {
                Event::Refused(refusal) => self.refused[refusal.number as usize] += 1,
                Event::Closed(closed) => {
                    self.closed += 1;
                    self.with_credit += usize::from(closed.held_before.iter().any(|&credit| credit > 0));
                    let month = closed.month();
                    if last != 0 && settled_to(last, month) < cycle_month(month) - 1 {
                        self.skipped[(cycle(month) - cycle(last)).min(2) as usize] += 1;
                    }
                    last = month;
                    for (kind, count) in (1..).zip(&mut self.direct) {
                        *count += usize::from(closed.lines.users.iter().any(|user| user.kind == kind && user.ong > 0));
                    }
                    let mut both = closed.ong().iter().zip(closed.held());
                    self.direct_beside_credit += usize::from(both.any(|(&ong, &held)| ong > 0 && held > 0));
                    self.cells += closed.vc().len() * closed.vd().len();
                }
            }
        }
    }
}

/// Which of the counts of line ends an input belongs to.
fn line_ends(input: &[u8], events: &[Event]) -> [bool; 4] {
    let closed = events.iter().any(|event| matches!(event, Event::Closed(_)));
    let bare = !texts::bare_lfs(input).is_empty();
    let office = input.windows(2).any(|pair| pair == b"\r\n");
    let place = match events.last() {
        Some(Event::Refused(refusal)) if refusal.number == 11 => Some(refusal.place as usize),
        _ => None,
    };
    let cr_at = |at: usize| input.get(at) == Some(&b'\r');
    let lone = place.map_or(false, |place| place > 0 && cr_at(place - 1));
    let astray = place.map_or(false, cr_at);
    [closed && office && !bare, closed && office && bare, lone, astray]
}

/// An input on which a program is wrong.
pub struct Difference {
    pub number: u64,
    pub kind: &'static str,
    pub input: Vec<u8>,
    pub why: String,
}

/// Goes through the inputs of these numbers; `enough` differences end it early.
pub fn compare(
    settle: &Program,
    consulta: &Program,
    inputs: &(dyn Fn(u64) -> Input + Sync),
    numbers: Range<u64>,
    enough: usize,
    folder: &Path,
) -> Result<(Counts, Vec<Difference>), String> {
    let next = AtomicU64::new(numbers.start);
    let at_work = AtomicUsize::new(WORKERS);
    let over = AtomicBool::new(false);
    let found = Mutex::new((Counts::default(), Vec::new()));
    let desks: Vec<Desk> = (0..WORKERS).map(|_| Desk::default()).collect();
    let mut runners = Vec::new();
    for worker in 0..WORKERS {
        runners.push(Runner::new(folder, worker).map_err(|why| format!("{}: {}", folder.display(), why))?);
    }
    std::thread::scope(|scope| {
        for (mut runner, desk) in runners.into_iter().zip(&desks) {
            let (next, at_work, over, found, numbers) = (&next, &at_work, &over, &found, &numbers);
            scope.spawn(move || {
                while !over.load(Ordering::SeqCst) {
                    let number = next.fetch_add(1, Ordering::SeqCst);
                    if number >= numbers.end {
                        break;
                    }
                    desk.number.store(number, Ordering::SeqCst);
                    let (kind, input) = inputs(number);
                    let pieces = if number % PIECES_EVERY == 0 { 2 + (number / PIECES_EVERY % 3) as usize } else { 1 };
                    let events = program::events(&input);
                    let judged = judge(&mut runner, desk, [settle, consulta], &input, pieces, &events);
                    let (counts, differences) = &mut *found.lock().expect("no worker panics");
                    counts.add(&input, pieces, &events);
                    if let Err(why) = judged {
                        differences.push(Difference { number, kind, input, why });
                        over.fetch_or(differences.len() >= enough, Ordering::SeqCst);
                    }
                }
                at_work.fetch_sub(1, Ordering::SeqCst);
            });
        }
        watch(&desks, &at_work);
    });
    let (counts, mut differences) = found.into_inner().expect("no worker panics");
    differences.sort_by_key(|difference| difference.number);
    Ok((counts, differences))
}

fn judge(
    runner: &mut Runner,
    desk: &Desk,
    [settle, consulta]: [&Program; 2],
    input: &[u8],
    pieces: usize,
    events: &[Event],
) -> Result<(), String> {
    let settled = runner.run(settle, input, pieces, desk)?;
    program::check_events(events, &settled).map_err(|why| format!("settle: {}", why))?;
    let consulted = runner.run(consulta, input, pieces, desk)?;
    consulta::check_events(events, &consulted).map_err(|why| format!("consulta: {}", why))?;
    rows::add_up(&consulted).map_err(|why| format!("consulta's rows: {}", why))?;
    let same = rows::as_settle(&consulted)?;
    match same.lines().zip(std::str::from_utf8(&settled).map_err(|why| why.to_string())?.lines()).find(|(a, b)| a != b)
    {
        Some((other, line)) => Err(format!("settle has {:?} where consulta has {:?}", line, other)),
        None if same.len() == settled.len() => Ok(()),
        None => Err("settle has more lines, or less, than consulta holds".to_string()),
    }
}

/// Ends a program that takes too long; its worker then reports it.
fn watch(desks: &[Desk], at_work: &AtomicUsize) {
    let mut seen: Vec<(u32, Instant)> = desks.iter().map(|_| (0, Instant::now())).collect();
    while at_work.load(Ordering::SeqCst) > 0 {
        std::thread::sleep(Duration::from_millis(10));
        for (desk, seen) in desks.iter().zip(&mut seen) {
            let process = desk.process.load(Ordering::SeqCst);
            if process != seen.0 {
                *seen = (process, Instant::now());
            } else if process != 0 && seen.1.elapsed() > PATIENCE {
                eprintln!("input {}: no end after {:?}", desk.number.load(Ordering::SeqCst), PATIENCE);
                // The worker waits for it, so the number is still that process's.
                let _ = std::process::Command::new("kill").args(["-9", &process.to_string()]).status();
                seen.1 = Instant::now();
            }
        }
    }
}

/// The whole comparison: prints what it went through, and answers whether nothing differed.
pub fn report(settle: &Program, consulta: &Program, count: u64, listed: &[Input], folder: &Path) -> Result<(), String> {
    let start = Instant::now();
    let (counts, differences) = compare(settle, consulta, &inputs::input, 0..count, ENOUGH, folder)?;
    no_differences("input", &counts, &differences, folder)?;
    let Counts { sizes, line_ends, skipped, direct, direct_beside_credit, refused, .. } = counts;
    println!(
        "programs: {} inputs through each ({} bytes, {} inputs in pieces), {} files",
        counts.inputs, counts.bytes, counts.in_pieces, counts.files
    );
    let [empty, most, one_more, longer] = sizes;
    println!(
        "programs: {} inputs are empty, {} of 32,768 bytes, {} of 32,769, {} longer",
        empty, most, one_more, longer
    );
    print_line_ends(line_ends);
    println!(
        "programs: {} months closed ({} with credits held before), {} cells",
        counts.closed, counts.with_credit, counts.cells
    );
    let [in_cycle, before, earlier] = skipped;
    println!(
        "programs: with months of their cycle skipped {} closed after one of it, {} after the cycle before, {} after an earlier",
        in_cycle, before, earlier
    );
    println!(
        "programs: with direct charges of distributors {} closed, of consumers {}, of generators {}; {} beside a credit that was left",
        direct[0], direct[1], direct[2], direct_beside_credit
    );
    let by_number: Vec<String> = (1..13).map(|number| format!("{}: {}", number, refused[number])).collect();
    println!("programs: refusals by number {}", by_number.join(", "));
    // The programs' own slices are never short (2); and an input holds less than 400 months, each of which raises a
    // credit by at most 17 × 10^11, so that none comes to 10^17 (4).
    let unseen: Vec<usize> = (1..13).filter(|&number| refused[number] == 0).collect();
    if unseen != [2, 4] {
        return Err(format!("refusals {:?} never came up, and 2 and 4 alone should not", unseen));
    }
    if sizes.contains(&0) || line_ends.contains(&0) || skipped.contains(&0) {
        return Err("one of these sizes, line ends or skipped months never came up".to_string());
    }
    if direct.contains(&0) || direct_beside_credit == 0 {
        return Err("direct charges of one of these sorts never came up".to_string());
    }
    println!("programs: 0 differences, {:.1} s", start.elapsed().as_secs_f64());

    let start = Instant::now();
    let one = |number: u64| listed[number as usize].clone();
    let (counts, differences) = compare(settle, consulta, &one, 0..listed.len() as u64, ENOUGH, folder)?;
    no_differences("listed", &counts, &differences, folder)?;
    println!("programs: {} listed inputs through each, {} files", counts.inputs, counts.files);
    print_line_ends(counts.line_ends);
    println!("programs: 0 differences, {:.1} s", start.elapsed().as_secs_f64());
    Ok(())
}

fn print_line_ends([office, mixed, lone, astray]: [u64; 4]) {
    println!(
        "programs: {} inputs closed a month in CR LF, {} in LF and CR LF; {} were refused after a lone CR, {} at a CR",
        office, mixed, lone, astray
    );
}

/// Keeps each input on which something differed, as a file of this name and its number.
fn no_differences(name: &str, counts: &Counts, differences: &[Difference], folder: &Path) -> Result<(), String> {
    for Difference { number, kind, input, why } in differences {
        let path = folder.join(format!("{}-{}.csv", name, number));
        std::fs::write(&path, input).map_err(|why| why.to_string())?;
        println!("{} {} ({}), kept as {}: {}", name, number, kind, path.display(), why);
    }
    if differences.is_empty() {
        return Ok(());
    }
    Err(format!("{} differences or more in {} inputs", differences.len(), counts.inputs))
}
