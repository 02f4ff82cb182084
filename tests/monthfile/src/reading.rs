//! Cases for the program that reads (read.rt.txt), and what the reference calculation makes of them, as the program writes it.

use rateio_reference::lines::MonthLines;
use rateio_reference::months::Counts;
use rateio_reference::read::{read_month, Capacity};
use rateio_reference::rng::Rng;
use rateio_reference::sample;
use rateio_reference::texts;
use std::io::Result;

const MARK: i64 = -7;
/// Entries of each slice.
const ENTRIES: usize = 4;

#[derive(Clone, Copy)]
enum How {
    AsItIs,
    Cut,
    Changed,
}

struct Case {
    how: How,
    at: u8,
    room: [u8; 3],
    text: Vec<u8>,
}

fn mixed(h: u64, x: u64) -> u64 {
    (h * 1_000_003 + x % 1_000_003 + 1) % 1_000_000_007
}

fn signed(h: u64, x: i64) -> u64 {
    mixed(mixed(h, (x < 0) as u64), x.unsigned_abs())
}

/// The lines of a kind in their slice, which holds marks beyond them.
fn slice<const COLUMNS: usize>(lines: Vec<[i64; COLUMNS]>) -> Vec<[i64; COLUMNS]> {
    let mut slice = lines;
    slice.resize(ENTRIES, [MARK; COLUMNS]);
    slice
}

/// What one reading answers and leaves, as one number.
fn one(h: u64, text: &[u8], at: u8, room: [u8; 3]) -> u64 {
    let [agents, users, points] = room.map(usize::from);
    let at = usize::from(at);
    let (mut h, lines, after) = match read_month(text, at, Capacity { agents, users, points }) {
        Ok((lines, next)) => {
            let counts = [lines.agents.len(), lines.users.len(), lines.points.len(), next];
            let h = signed(signed(h, lines.month), lines.ons);
            (counts.iter().fold(h, |h, &n| mixed(h, n as u64)), lines, next)
        }
        Err(refused) => {
            let none = MonthLines { month: 0, ons: 0, agents: vec![], users: vec![], points: vec![] };
            (mixed(mixed(h, refused.number.into()), refused.place), none, at)
        }
    };
    h = mixed(h, after as u64);
    let agents = slice(lines.agents.iter().map(|a| a.columns()).collect());
    let users = slice(lines.users.iter().map(|u| u.columns()).collect());
    let points = slice(lines.points.iter().map(|p| p.columns()).collect());
    for i in 0..ENTRIES {
        h = agents[i].iter().fold(h, |h, &x| signed(h, x));
        h = users[i].iter().fold(h, |h, &x| signed(h, x));
        h = points[i].iter().fold(h, |h, &x| signed(h, x));
    }
    h
}

impl Case {
    fn readings(&self) -> usize {
        match self.how {
            How::AsItIs => 1,
            How::Cut => self.text.len() + 1,
            How::Changed => 256 * self.text.len(),
        }
    }

    fn answer(&self) -> u64 {
        let Case { how, at, room, text } = self;
        match how {
            How::AsItIs => one(0, text, *at, *room),
            How::Cut => (0..=text.len()).fold(0, |h, n| one(h, &text[..n], *at, *room)),
            How::Changed => {
                let mut changed = text.clone();
                let mut h = 0;
                for i in 0..text.len() {
                    for byte in 0..=255 {
                        changed[i] = byte;
                        h = one(h, &changed, *at, *room);
                    }
                    changed[i] = text[i];
                }
                h
            }
        }
    }
}

/// Room exactly, one short, none, and to spare.
fn rooms(exact: [u8; 3]) -> Vec<[u8; 3]> {
    let mut rooms = vec![exact, [4, 4, 4], [0, 0, 0]];
    for kind in 0..3 {
        if exact[kind] > 0 {
            let mut short = exact;
            short[kind] -= 1;
            rooms.push(short);
        }
    }
    rooms
}

fn short_cases() -> Vec<Case> {
    let mut rng = Rng::new(202_409);
    let mut cases = Vec::new();
    let mut add = |how, at, room, text: &[u8]| cases.push(Case { how, at, room, text: text.to_vec() });
    for agents in 0..3 {
        for users in 0..3 {
            for points in 0..3 {
                let text = texts::file(&texts::any_values(&mut rng, Counts { agents, users, points }));
                for room in rooms([agents as u8, users as u8, points as u8]) {
                    add(How::AsItIs, 0, room, &text);
                }
            }
        }
    }
    let two = two_files();
    for at in [0, 1, 191, 192, 193, 255] {
        add(How::AsItIs, at, [2, 2, 2], &two);
        add(How::AsItIs, at, [2, 2, 2], &two[..192]);
    }
    for _ in 0..150 {
        let text = texts::damaged(&mut rng, sample::INPUT.as_bytes());
        let room = [(); 3].map(|()| rng.below(4) as u8);
        add(How::AsItIs, rng.below(3) as u8, room, &text);
    }
    add(How::AsItIs, 0, [2, 2, 2], &[b"\xef\xbb\xbf", sample::INPUT.as_bytes()].concat());
    // Into the second file; of both the long cases have it.
    add(How::Cut, 0, [2, 2, 2], &two[..256]);

    // Lines that end in CR LF, all of them or some: every room, positions about a file's end, and the last LF missing.
    let worked = sample::INPUT.as_bytes();
    for file in [texts::cr_lf(worked), texts::mixed(&mut rng, worked), texts::mixed(&mut rng, worked)] {
        for room in rooms([2, 2, 2]) {
            add(How::AsItIs, 0, room, &file);
        }
        let end = file.len();
        let further = [&file[..], worked].concat();
        for at in [0, 1, end - 2, end - 1, end, end + 1] {
            add(How::AsItIs, at as u8, [2, 2, 2], &file);
            add(How::AsItIs, at as u8, [2, 2, 2], &further);
        }
        add(How::AsItIs, 0, [2, 2, 2], &file[..end - 1]);
        for after in [&b"\r"[..], b"\r\n", b"\n", b"\rm"] {
            add(How::AsItIs, 0, [2, 2, 2], &[&file[..], after].concat());
        }
    }
    // A lone CR for the end of each line, in a file that has room and in one that has none for some kind.
    let office = texts::cr_lf(worked);
    for (line, lf) in texts::bare_lfs(worked).into_iter().enumerate() {
        let mut lone = worked.to_vec();
        lone[lf] = b'\r';
        for room in [[2, 2, 2], [1, 2, 2], [2, 1, 2], [2, 2, 1]] {
            add(How::AsItIs, 0, room, &lone);
        }
        add(How::AsItIs, 0, [2, 2, 2], &lone[..=lf]);
        // A second CR; there are as many CRs before this line's LF as there are lines up to it.
        add(How::AsItIs, 0, [2, 2, 2], &texts::with_crs(&office, &[lf + line + 1]));
    }
    for _ in 0..60 {
        let text = texts::mixed(&mut rng, worked);
        let text = texts::damaged(&mut rng, &text);
        let room = [(); 3].map(|()| rng.below(4) as u8);
        add(How::AsItIs, 0, room, &text);
    }
    cases
}

fn two_files() -> Vec<u8> {
    [sample::INPUT, sample::INPUT].concat().into_bytes()
}

/// More readings than the interpreter takes in one run.
fn long_cases() -> Vec<Case> {
    let none = texts::file(&MonthLines { month: -1, ons: 0, agents: vec![], users: vec![], points: vec![] });
    let two = two_files();
    let mut cases = vec![
        Case { how: How::Cut, at: 0, room: [2, 2, 2], text: two.clone() },
        Case { how: How::Cut, at: 192, room: [2, 1, 2], text: two.clone() },
        Case { how: How::Cut, at: 203, room: [2, 2, 1], text: texts::cr_lf(&two) },
        Case { how: How::Changed, at: 0, room: [1, 1, 1], text: texts::cr_lf(&none) },
        Case { how: How::Changed, at: 0, room: [1, 1, 1], text: none },
    ];
    // A CR at every place of a file and at the start of the next, with room and without.
    for text in [sample::INPUT.as_bytes().to_vec(), texts::cr_lf(sample::INPUT.as_bytes())] {
        let further = [&text[..], b"month,ons\r\n"].concat();
        for at in 0..=text.len() + 1 {
            for room in [[2, 2, 2], [1, 2, 1]] {
                cases.push(Case { how: How::AsItIs, at: 0, room, text: texts::with_crs(&further, &[at]) });
            }
        }
    }
    cases
}

/// Writes the program's input and what it has to write, to one folder for the short cases and one for the long.
pub fn write(short: &str, long: &str) -> Result<()> {
    write_cases(short, &short_cases())?;
    write_cases(long, &long_cases())
}

fn write_cases(folder: &str, cases: &[Case]) -> Result<()> {
    let mut input = Vec::new();
    let mut output = String::new();
    for case in cases {
        let length = u16::try_from(case.text.len()).expect("a short text");
        input.extend([case.how as u8, case.at]);
        input.extend(case.room);
        input.extend(length.to_le_bytes());
        input.extend(&case.text);
        output.push_str(&format!("{:010}\n", case.answer()));
    }
    std::fs::write(format!("{}/stdin", folder), input)?;
    std::fs::write(format!("{}/stdout", folder), output)?;
    println!("{} cases, {} readings", cases.len(), cases.iter().map(Case::readings).sum::<usize>());
    Ok(())
}
