//! Seeded inputs for the programs. An input is known by its number alone, so that one that fails can be made again.

use rateio_reference::faults;
use rateio_reference::lines::MonthLines;
use rateio_reference::months::{self, Counts, Style, STYLES};
use rateio_reference::program::{PROGRAM_CAPACITY, PROGRAM_INPUT};
use rateio_reference::rng::Rng;
use rateio_reference::texts;

/// What an input is like, and how many of each hundred are so. Of nearly every kind some have lines in CR LF.
struct Kind {
    name: &'static str,
    percent: usize,
    make: fn(&mut Rng) -> Vec<u8>,
}

const KINDS: [Kind; 13] = [
    Kind { name: "a month of any shape", percent: 6, make: one_month },
    Kind { name: "a small month", percent: 14, make: small_month },
    Kind { name: "months with held credits", percent: 14, make: chain },
    Kind { name: "a mixed run", percent: 14, make: mixed_run },
    Kind { name: "a fault among sound months", percent: 14, make: fault },
    Kind { name: "any values", percent: 4, make: any_values },
    Kind { name: "a damaged text", percent: 12, make: damaged },
    Kind { name: "a cut text", percent: 5, make: cut },
    Kind { name: "a CR out of place", percent: 4, make: astray },
    Kind { name: "a fragment", percent: 4, make: fragment },
    Kind { name: "capacities passed", percent: 5, make: past_capacity },
    Kind { name: "a long input", percent: 3, make: long },
    Kind { name: "months of full size", percent: 1, make: full },
];

/// The largest months that the programs take.
pub const FULL: Counts =
    Counts { users: PROGRAM_CAPACITY.users, agents: PROGRAM_CAPACITY.agents, points: PROGRAM_CAPACITY.points };
const MEDIUM: Counts = Counts { users: 16, agents: 8, points: 40 };
const SMALL: Counts = Counts { users: 5, agents: 4, points: 8 };

/// What an input is like, and the input.
pub type Input = (&'static str, Vec<u8>);

/// The input of a number.
pub fn input(number: u64) -> Input {
    let kind = kind(number);
    (kind.name, (kind.make)(&mut Rng::new(number.wrapping_mul(0x2545_f491_4f6c_dd1d))))
}

/// The kinds take turns: of the first twenty inputs nearly every kind has one.
fn kind(number: u64) -> &'static Kind {
    // 37 and 100 have no factor in common, so a hundred numbers on end go through all percents.
    let mut turn = (number * 37 % 100) as usize;
    for kind in &KINDS {
        if turn < kind.percent {
            return kind;
        }
        turn -= kind.percent;
    }
    unreachable!("the percents total 100")
}

fn one_month(rng: &mut Rng) -> Vec<u8> {
    let counts = months::counts_up_to(rng, FULL);
    let style = rng.pick(&STYLES);
    let text = texts::file(&months::month(rng, style, counts));
    texts::any_ends(rng, &text)
}

fn small_month(rng: &mut Rng) -> Vec<u8> {
    let counts = months::counts_up_to(rng, SMALL);
    let style = rng.pick(&STYLES);
    let text = texts::file(&months::sound_month(rng, style, counts));
    texts::any_ends(rng, &text)
}

/// Months in their order, of one shape but for the points. Credits come up by corrections and compensation, and are
/// used up by the months between.
fn chain(rng: &mut Rng) -> Vec<u8> {
    let most = rng.pick(&[SMALL, SMALL, MEDIUM]);
    let counts = months::counts_up_to(rng, most);
    let mut date = months::any_month(rng);
    let mut input = Vec::new();
    for _ in 0..2 + rng.below(8) {
        let style = rng.pick(&[Style::Negative, Style::Compensation, Style::Ordinary, Style::Tiny, Style::Mixed]);
        let counts = Counts { points: rng.below(most.points + 1), ..counts };
        let mut lines = months::sound_month(rng, style, counts);
        lines.month = date;
        for _ in 0..1 + rng.below(3) {
            date = months::next_month(date);
        }
        input.extend(texts::file(&lines));
    }
    texts::any_ends(rng, &input)
}

fn mixed_run(rng: &mut Rng) -> Vec<u8> {
    let most = rng.pick(&[SMALL, SMALL, SMALL, MEDIUM]);
    texts::run_input(rng, most)
}

/// One of the ways to break a month, at one of its lines, with sound months of the same counts before and after.
fn fault(rng: &mut Rng) -> Vec<u8> {
    let style = rng.pick(&STYLES);
    let mut broken = faults::sound_base(rng, style);
    broken.month = rng.between(2001, 2098) * 100 + rng.between(1, 12);
    let counts = Counts { users: broken.users.len(), agents: broken.agents.len(), points: broken.points.len() };
    let (before, after) = (broken.month - 100, broken.month + 100);
    let fault = rng.pick(&faults::all());
    let line = rng.pick(&fault.lines(&broken));
    (fault.apply)(&mut broken, line);
    let sound = |rng: &mut Rng, month: i64| {
        let style = rng.pick(&STYLES);
        MonthLines { month, ..months::sound_month(rng, style, counts) }
    };
    let mut files = Vec::new();
    if rng.chance(50) {
        files.push(sound(rng, before));
    }
    files.push(broken);
    if rng.chance(50) {
        files.push(sound(rng, after));
    }
    texts::any_ends(rng, &texts::files(&files))
}

/// Values that a file can hold and a month cannot.
fn any_values(rng: &mut Rng) -> Vec<u8> {
    let counts = months::counts_up_to(rng, SMALL);
    let mut files = vec![months::sound_month(rng, Style::Ordinary, counts)];
    files.insert(rng.below(2), texts::any_values(rng, counts));
    texts::any_ends(rng, &texts::files(&files))
}

fn damaged(rng: &mut Rng) -> Vec<u8> {
    let make = rng.pick(&[chain as fn(&mut Rng) -> Vec<u8>, small_month, mixed_run]);
    let text = make(rng);
    texts::damaged(rng, &text)
}

fn cut(rng: &mut Rng) -> Vec<u8> {
    let mut text = chain(rng);
    text.truncate(rng.below(text.len()));
    text
}

/// A CR anywhere, for an LF, before or after one; or for every LF.
fn astray(rng: &mut Rng) -> Vec<u8> {
    let make = rng.pick(&[chain as fn(&mut Rng) -> Vec<u8>, small_month]);
    let mut text = make(rng);
    let lfs: Vec<usize> = (0..text.len()).filter(|&at| text[at] == b'\n').collect();
    let lf = if rng.chance(20) { lfs[lfs.len() - 1] } else { rng.pick(&lfs) };
    match rng.below(6) {
        0 => text.insert(rng.below(text.len() + 1), b'\r'),
        1 | 2 => text[lf] = b'\r',
        3 => drop(text.splice(lf..lf, *b"\r\r")),
        4 => text.insert(lf + 1, b'\r'),
        _ => lfs.iter().for_each(|&at| text[at] = b'\r'),
    }
    text
}

/// Nothing, a byte, or the beginning of a file.
fn fragment(rng: &mut Rng) -> Vec<u8> {
    match rng.below(4) {
        0 => vec![],
        1 => vec![rng.bits() as u8],
        2 => (0..rng.below(40)).map(|_| rng.pick(b"0123456789,-\n\rmonthage")).collect(),
        _ => {
            let mut text = small_month(rng);
            text.truncate(rng.below(60));
            text
        }
    }
}

/// One line or more beyond what the programs take of a kind, in the first or second file; at times a byte is wrong, too.
fn past_capacity(rng: &mut Rng) -> Vec<u8> {
    let mut counts = months::counts_up_to(rng, SMALL);
    let first = months::sound_month(rng, Style::Tiny, counts);
    let more = rng.below(3);
    match rng.below(3) {
        0 => counts.users = FULL.users + more,
        1 => counts.agents = FULL.agents + more,
        _ => counts.points = FULL.points + more,
    }
    let style = rng.pick(&[Style::Tiny, Style::Sparse, Style::Ordinary]);
    let text = texts::file(&months::month(rng, style, counts));
    let mut text = texts::any_ends(rng, &text);
    if rng.chance(40) {
        text = texts::damaged(rng, &text);
    }
    if rng.chance(50) {
        text = [texts::file(&first), text].concat();
    }
    text
}

/// About the longest input that is taken, and well beyond it.
fn long(rng: &mut Rng) -> Vec<u8> {
    let sizes =
        [PROGRAM_INPUT - 1, PROGRAM_INPUT, PROGRAM_INPUT, PROGRAM_INPUT + 1, PROGRAM_INPUT + 2, 65_536, 200_000];
    let size = rng.pick(&sizes);
    let ends = rng.pick(&[in_lf as Ends, in_lf, texts::cr_lf, in_turn]);
    match rng.below(4) {
        // Cut where it has the size.
        0 => {
            let mut text = exact(rng, size + 500, ends);
            text.truncate(size);
            text
        }
        1 => vec![rng.pick(b"\0\n\rm1"); size],
        _ => exact(rng, size, ends),
    }
}

/// How the lines of a file end: another text for that in LF.
pub type Ends = fn(&[u8]) -> Vec<u8>;

pub fn in_lf(file: &[u8]) -> Vec<u8> {
    file.to_vec()
}

/// CR LF at every other line.
pub fn in_turn(file: &[u8]) -> Vec<u8> {
    let every_other: Vec<usize> = texts::bare_lfs(file).into_iter().step_by(2).collect();
    texts::with_crs(file, &every_other)
}

/// Sound months of exactly so many bytes on end, whose lines end so.
pub fn exact(rng: &mut Rng, size: usize, ends: Ends) -> Vec<u8> {
    loop {
        let counts = months::counts_up_to(rng, Counts { users: 24, agents: 16, points: 60 });
        let mut date = 200_001;
        let mut months: Vec<MonthLines> = Vec::new();
        let mut missing = size;
        while date <= 209_912 {
            let style = rng.pick(&[Style::Tiny, Style::Ordinary, Style::Negative, Style::Halves]);
            let mut lines = MonthLines { month: date, ..months::sound_month(rng, style, counts) };
            lines.agents.iter_mut().for_each(|agent| agent.afs = 0);
            let length = ends(&texts::file(&lines)).len();
            if length > missing {
                break;
            }
            missing -= length;
            months.push(lines);
            date = months::next_month(date);
        }
        // What is missing goes into further digits, of which each of these amounts takes ten.
        for agent in months.iter_mut().flat_map(|lines| lines.agents.iter_mut()) {
            let digits = missing.min(10);
            agent.afs = if digits == 0 { 0 } else { 10_i64.pow(digits as u32) };
            missing -= digits;
        }
        if missing == 0 {
            return months.iter().flat_map(|lines| ends(&texts::file(lines))).collect();
        }
    }
}

/// Months of full size, as many as are taken.
pub fn full(rng: &mut Rng) -> Vec<u8> {
    let style = rng.pick(&STYLES);
    let ends = rng.pick(&[in_lf as Ends, texts::cr_lf]);
    full_of(rng, style, ends)
}

pub fn full_of(rng: &mut Rng, style: Style, ends: Ends) -> Vec<u8> {
    let mut date = 202_407;
    let mut text = Vec::new();
    loop {
        let lines = MonthLines { month: date, ..months::sound_month(rng, style, FULL) };
        let file = ends(&texts::file(&lines));
        if text.len() + file.len() > PROGRAM_INPUT {
            return text;
        }
        text.extend(file);
        date = months::next_month(date);
    }
}
