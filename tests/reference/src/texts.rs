//! Month files as texts: written from lines, put on end, and damaged.

use crate::faults;
use crate::lines::{Agent, MonthLines, Point, User};
use crate::months::{self, Counts, STYLES};
use crate::read::{AGENT_NAMES, MONTH_NAMES, POINT_NAMES, USER_NAMES};
use crate::rng::Rng;

/// The file that holds these lines, each of which ends in LF.
pub fn file(lines: &MonthLines) -> Vec<u8> {
    let mut text = format!("{}\n", MONTH_NAMES);
    push_line(&mut text, &[lines.month, lines.ons]);
    push_block(&mut text, AGENT_NAMES, lines.agents.iter().map(Agent::columns));
    push_block(&mut text, USER_NAMES, lines.users.iter().map(User::columns));
    push_block(&mut text, POINT_NAMES, lines.points.iter().map(Point::columns));
    text.into_bytes()
}

fn push_block<const COLUMNS: usize>(text: &mut String, names: &str, lines: impl Iterator<Item = [i64; COLUMNS]>) {
    text.push_str(&format!("{}\n", names));
    lines.for_each(|line| push_line(text, &line));
}

fn push_line(text: &mut String, values: &[i64]) {
    let values: Vec<String> = values.iter().map(i64::to_string).collect();
    text.push_str(&values.join(","));
    text.push('\n');
}

/// The files of these months on end.
pub fn files(months: &[MonthLines]) -> Vec<u8> {
    months.iter().flat_map(file).collect()
}

/// The LFs of a text that no CR comes before.
pub fn bare_lfs(text: &[u8]) -> Vec<usize> {
    (0..text.len()).filter(|&at| text[at] == b'\n' && (at == 0 || text[at - 1] != b'\r')).collect()
}

/// The text with a CR put in before each of these bytes, given in their order.
pub fn with_crs(text: &[u8], before: &[usize]) -> Vec<u8> {
    let mut longer = Vec::with_capacity(text.len() + before.len());
    let mut copied = 0;
    for &at in before {
        longer.extend(&text[copied..at]);
        longer.push(b'\r');
        copied = at;
    }
    longer.extend(&text[copied..]);
    longer
}

/// The text with CR LF for LF, as office machines save it.
pub fn cr_lf(text: &[u8]) -> Vec<u8> {
    with_crs(text, &bare_lfs(text))
}

/// The text with CR LF for LF line by line as it comes.
pub fn mixed(rng: &mut Rng, text: &[u8]) -> Vec<u8> {
    let some: Vec<usize> = bare_lfs(text).into_iter().filter(|_| rng.chance(50)).collect();
    with_crs(text, &some)
}

/// The text as it is, in CR LF, or mixed.
pub fn any_ends(rng: &mut Rng, text: &[u8]) -> Vec<u8> {
    match rng.below(4) {
        0 => cr_lf(text),
        1 => mixed(rng, text),
        _ => text.to_vec(),
    }
}

/// Lines with any value that a file can hold, limits being closing's matter.
pub fn any_values(rng: &mut Rng, counts: Counts) -> MonthLines {
    const MOST: i64 = 999_999_999_999_999_999;
    let mut value = || {
        let size = rng.any_size(MOST);
        rng.pick(&[0, size, -size, MOST, -MOST])
    };
    let mut lines = MonthLines { month: value(), ons: value(), agents: vec![], users: vec![], points: vec![] };
    for _ in 0..counts.agents {
        lines.agents.push(Agent::from_columns([(); 7].map(|()| value())));
    }
    for _ in 0..counts.users {
        lines.users.push(User::from_columns([(); 4].map(|()| value())));
    }
    for _ in 0..counts.points {
        lines.points.push(Point::from_columns([(); 9].map(|()| value())));
    }
    lines
}

/// What people and programs put into such files by mistake.
const PIECES: [&[u8]; 32] = [
    b"",
    b"0",
    b"00",
    b"01",
    b"-",
    b"--",
    b"-0",
    b"-01",
    b"+1",
    b"1",
    b"9",
    b" ",
    b",",
    b",,",
    b",0",
    b",ong",
    b"\n",
    b"\n\n",
    b"\r",
    b"\r\n",
    b"\r\r\n",
    b"\n\r",
    b"\t",
    b"m",
    b"month,ons\n",
    b"Month,ons\n",
    b"user,kind,ret\n",
    b"\xe2\x88\x921",
    b"\xff",
    b"\0",
    b"1.5",
    b"1234567890123456789",
];

/// The text with one to three damages. A damage may leave the text sound, such as one more digit.
pub fn damaged(rng: &mut Rng, text: &[u8]) -> Vec<u8> {
    let mut text = text.to_vec();
    for _ in 0..1 + rng.below(3) {
        damage(rng, &mut text);
    }
    text
}

fn damage(rng: &mut Rng, text: &mut Vec<u8>) {
    if text.is_empty() {
        return;
    }
    let at = rng.below(text.len());
    let until = (at + rng.below(12)).min(text.len());
    match rng.below(9) {
        0 => text[at] = rng.bits() as u8,
        1 => text[at] = rng.pick(b"0123456789-,\n\rma"),
        2 => drop(text.drain(at..at + 1)),
        3 => text.insert(at, rng.pick(b"0123456789-,\n\rma")),
        4 => text.truncate(at),
        5 => drop(text.splice(at..until, rng.pick(&PIECES).to_vec())),
        6 => drop(text.splice(at..at, rng.pick(&PIECES).to_vec())),
        7 => {
            let again = text[at..until].to_vec();
            drop(text.splice(at..at, again));
        }
        _ => damage_line(rng, text, at),
    }
}

/// Drops, doubles or moves the whole line around a byte.
fn damage_line(rng: &mut Rng, text: &mut Vec<u8>, at: usize) {
    let start = text[..at].iter().rposition(|&byte| byte == b'\n').map_or(0, |lf| lf + 1);
    let end = text[at..].iter().position(|&byte| byte == b'\n').map_or(text.len(), |lf| at + lf + 1);
    let line = text[start..end].to_vec();
    match rng.below(3) {
        0 => drop(text.drain(start..end)),
        1 => drop(text.splice(start..start, line)),
        _ => {
            text.drain(start..end);
            let to = rng.below(text.len() + 1);
            let to = text[..to].iter().rposition(|&byte| byte == b'\n').map_or(0, |lf| lf + 1);
            drop(text.splice(to..to, line));
        }
    }
}

/// An input for the program: months in their order for the most part, some of them broken, some texts damaged.
pub fn run_input(rng: &mut Rng, most: Counts) -> Vec<u8> {
    let counts = months::counts_up_to(rng, most);
    let mut date = months::any_month(rng);
    let mut input = Vec::new();
    for _ in 0..1 + rng.below(6) {
        let style = rng.pick(&STYLES);
        let mut lines = if rng.chance(90) {
            months::sound_month(rng, style, counts)
        } else {
            let counts = months::counts_up_to(rng, most);
            months::month(rng, style, counts)
        };
        lines.month = date;
        date = months::month_after(rng, date);
        let fault = rng.pick(&faults::all());
        if rng.chance(20) && fault.fits(&lines) {
            let line = rng.pick(&fault.lines(&lines));
            (fault.apply)(&mut lines, line);
        }
        input.extend(file(&lines));
    }
    input = any_ends(rng, &input);
    if rng.chance(15) {
        input = damaged(rng, &input);
    }
    input
}
