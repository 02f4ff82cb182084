//! The month file: what is accepted, and the places of refusals 11 and 12 in the specification's own words.

use rateio_reference::months::{counts_up_to, Counts};
use rateio_reference::read::{check_length, check_text, read_month, Capacity, ANY_COUNT};
use rateio_reference::read::{AGENT_NAMES, MONTH_NAMES, POINT_NAMES, USER_NAMES};
use rateio_reference::refusals::Refusal;
use rateio_reference::rng::Rng;
use rateio_reference::{sample, texts};

const SMALL: Counts = Counts { users: 4, agents: 3, points: 4 };

/// A value is 1 to 18 digits, with no leading zero but in 0 itself, after one minus sign if negative.
fn is_value(value: &str) -> bool {
    let digits = value.strip_prefix('-').unwrap_or(value);
    let plain = (1..=18).contains(&digits.len()) && digits.bytes().all(|byte| byte.is_ascii_digit());
    plain && value != "-0" && (digits == "0" || !digits.starts_with('0'))
}

/// Whether a text is one or more files on end: the format line by line, with no notion of a place. It shares nothing
/// with the reader, which it judges.
fn is_files(text: &[u8]) -> bool {
    let text = match std::str::from_utf8(text) {
        Ok(text) if text.ends_with('\n') => &text[..text.len() - 1],
        _ => return false,
    };
    let blocks = [(MONTH_NAMES, 2), (AGENT_NAMES, 7), (USER_NAMES, 4), (POINT_NAMES, 9)];
    // The block of the line before, and how many lines of values it has so far.
    let (mut block, mut lines) = (3, 0);
    let mut begun = false;
    for line in text.split('\n') {
        // "CR LF, which is now read as LF": one CR before the LF says nothing, and any other one is no part of a line.
        let line = line.strip_suffix('\r').unwrap_or(line);
        let next = (block + 1) % 4;
        let month_line_due = begun && block == 0 && lines == 0;
        if line == blocks[next].0 && !month_line_due {
            (block, lines, begun) = (next, 0, true);
        } else {
            let values: Vec<&str> = line.split(',').collect();
            let one_too_many = block == 0 && lines == 1;
            if !begun || one_too_many || values.len() != blocks[block].1 || !values.iter().all(|value| is_value(value))
            {
                return false;
            }
            lines += 1;
        }
    }
    block == 3
}

/// Endings, of which one fits whatever a text may be in the middle of.
fn endings() -> Vec<Vec<u8>> {
    let whole = format!("{}\n1,1\n{}\n{}\n{}\n", MONTH_NAMES, AGENT_NAMES, USER_NAMES, POINT_NAMES);
    // In names, at the start of a line, or after a CR.
    let mut endings: Vec<Vec<u8>> = (0..=whole.len()).map(|from| whole.as_bytes()[from..].to_vec()).collect();
    // In a line of values, with up to eight more values to come.
    let blocks = [POINT_NAMES, USER_NAMES, AGENT_NAMES];
    for value in ["", "1"] {
        for more in 0..=8 {
            for left in 0..=blocks.len() {
                let names: String = blocks[..left].iter().rev().map(|names| names.to_string() + "\n").collect();
                endings.push(format!("{}{}\n{}", value, ",1".repeat(more), names).into_bytes());
            }
        }
    }
    endings
}

fn can_be_ended(start: &[u8], endings: &[Vec<u8>]) -> bool {
    endings.iter().any(|ending| is_files(&[start, ending].concat()))
}

/// Where the first file of a text ends, if it is sound: with the text or before a byte `m`.
fn end_of_first(text: &[u8]) -> Option<usize> {
    let may_end = |&end: &usize| end == text.len() || text[end] == b'm';
    let is_one_file = |&end: &usize| {
        let file = &text[..end];
        is_files(file) && file.windows(MONTH_NAMES.len()).filter(|names| *names == MONTH_NAMES.as_bytes()).count() == 1
    };
    (0..=text.len()).filter(may_end).find(is_one_file)
}

/// Checks the file check's answer: accepted where the text is files on end; else its place is that of the first byte
/// that no accepted text could have there, or the text's length.
fn check_place(text: &[u8], endings: &[Vec<u8>]) {
    let answer = check_text(text);
    let shown = String::from_utf8_lossy(text);
    assert_eq!(answer == -1, is_files(text), "{:?}", shown);
    if answer != -1 {
        let place = answer as usize;
        assert!(place <= text.len());
        assert!(can_be_ended(&text[..place], endings), "too late, {}: {:?}", place, shown);
        if place < text.len() {
            assert!(!can_be_ended(&text[..=place], endings), "too early, {}: {:?}", place, shown);
        }
    }
    // Reading takes the first file alone; where that one is faulty, its place is the file check's.
    let read = read_month(text, 0, ANY_COUNT).map(|(_, next)| next);
    assert_eq!(read, end_of_first(text).ok_or(Refusal::new(11, answer as u64)), "{:?}", shown);
}

#[test]
fn places_of_one_wrong_byte() {
    let endings = endings();
    let lf = sample::INPUT.as_bytes();
    for text in [lf.to_vec(), texts::cr_lf(lf), texts::mixed(&mut Rng::new(30), lf)] {
        for at in 0..text.len() {
            for byte in *b"019-,\nmua \r\0\xff" {
                let mut changed = text.to_vec();
                changed[at] = byte;
                check_place(&changed, &endings);
            }
            for byte in *b"\r\n" {
                let mut longer = text.to_vec();
                longer.insert(at, byte);
                check_place(&longer, &endings);
            }
            check_place(&text[..at], &endings);
        }
    }
}

#[test]
fn places_in_damaged_texts() {
    let endings = endings();
    let mut rng = Rng::new(31);
    let mut sound = 0;
    for _ in 0..3_000 {
        let count = 1 + rng.below(3);
        let months: Vec<_> = (0..count)
            .map(|_| {
                let counts = counts_up_to(&mut rng, SMALL);
                texts::any_values(&mut rng, counts)
            })
            .collect();
        let text = texts::any_ends(&mut rng, &texts::files(&months));
        let text = texts::damaged(&mut rng, &text);
        check_place(&text, &endings);
        sound += usize::from(check_text(&text) == -1);
    }
    assert!((50..1_500).contains(&sound), "sound and faulty texts have to come up: {}", sound);
}

#[test]
fn small_faults_of_values() {
    for (value, place) in [
        ("-0", 1),
        ("01", 1),
        ("00", 1),
        ("--1", 1),
        ("-", 1),
        ("+1", 0),
        (" 1", 0),
        ("1 ", 1),
        ("", 0),
        ("1.5", 1),
        ("1234567890123456789", 18),
        ("-1234567890123456789", 19),
        ("\u{2212}1", 0),
        ("1\r1", 2),
        ("\r1", 0),
        ("-\r1", 1),
    ] {
        let start = "month,ons\n202407,";
        let text = format!("{}{}\n{}\n{}\n{}\n", start, value, AGENT_NAMES, USER_NAMES, POINT_NAMES);
        assert_eq!(check_text(text.as_bytes()), (start.len() + place) as i64, "{:?}", value);
    }
    for value in ["0", "1", "-1", "999999999999999999", "-999999999999999999", "100000000000000000"] {
        let text = format!("month,ons\n{},{}\n{}\n{}\n{}\n", value, value, AGENT_NAMES, USER_NAMES, POINT_NAMES);
        let (lines, next) = read_month(text.as_bytes(), 0, ANY_COUNT).expect("a sound file");
        assert_eq!((lines.month.to_string(), lines.ons.to_string()), (value.to_string(), value.to_string()));
        assert_eq!(next, text.len());
    }
    // A second month line, a file without its last LF, a blank line at the end.
    assert_eq!(check_text(b"month,ons\n1,1\n2,2\n"), 14);
    let text = sample::INPUT.as_bytes();
    assert_eq!(check_text(&text[..text.len() - 1]), text.len() as i64 - 1);
    assert_eq!(check_text(&[text, b"\n"].concat()), text.len() as i64);
    assert_eq!(check_text(&[text, b"m"].concat()), text.len() as i64 + 1);
    assert_eq!(check_text(&[text, text].concat()), -1);
    assert_eq!(check_text(b""), 0);
}

#[test]
fn what_may_follow_a_file() {
    let no_points = format!("month,ons\n1,1\n{}\n{}\n{}\n", AGENT_NAMES, USER_NAMES, POINT_NAMES);
    for file in [sample::INPUT, &no_points] {
        for byte in 0..=u8::MAX {
            let text = [file.as_bytes(), &[byte]].concat();
            let next = read_month(&text, 0, ANY_COUNT).map(|(_, next)| next);
            let due = match byte {
                b'm' => Ok(file.len()),
                // A point line begins, and the text ends in it.
                b'0'..=b'9' | b'-' => Err(Refusal::new(11, text.len() as u64)),
                _ => Err(Refusal::new(11, file.len() as u64)),
            };
            assert_eq!(next, due, "{}", byte);
        }
    }
}

#[test]
fn what_was_written_is_read() {
    let mut rng = Rng::new(32);
    for _ in 0..500 {
        let months: Vec<_> = (0..1 + rng.below(4))
            .map(|_| {
                let counts = counts_up_to(&mut rng, SMALL);
                texts::any_values(&mut rng, counts)
            })
            .collect();
        let text = texts::any_ends(&mut rng, &texts::files(&months));
        assert_eq!(check_text(&text), -1);
        let mut position = 0;
        for month in &months {
            let fits = Capacity { agents: month.agents.len(), users: month.users.len(), points: month.points.len() };
            let (lines, next) = read_month(&text, position, fits).expect("a sound file");
            assert_eq!(&lines, month);
            position = next;
        }
        assert_eq!(position, text.len());
        // At the end and past it there is no file.
        for past in [0, 1, 1_000, usize::MAX - text.len()] {
            let refusal = Refusal::new(11, text.len() as u64);
            assert_eq!(read_month(&text, text.len() + past, ANY_COUNT), Err(refusal));
        }
        // Only a file's start is a place to read from.
        let inside = 1 + rng.below(MONTH_NAMES.len() + 3);
        assert_eq!(read_month(&text, inside, ANY_COUNT), Err(Refusal::new(11, inside as u64)));
    }
}

/// The first byte of the first line too many in the first file, as far as the text is sound.
fn line_too_many(sound: &[u8], capacity: Capacity) -> Option<u64> {
    let (mut place, mut room) = (0, 1);
    for line in sound.split_inclusive(|&byte| byte == b'\n') {
        match line[0] {
            b'a' if line.starts_with(b"at") => room = capacity.points,
            b'a' if line.starts_with(b"ag") => room = capacity.agents,
            b'u' => room = capacity.users,
            b'0'..=b'9' | b'-' if room == 0 => return Some(place),
            b'0'..=b'9' | b'-' => room -= 1,
            // Names cut short, or the next file's.
            _ if place > 0 => return None,
            _ => {}
        }
        place += line.len() as u64;
    }
    None
}

#[test]
fn eleven_or_twelve_whichever_comes_first() {
    let mut rng = Rng::new(33);
    let mut seen = [0; 3];
    for _ in 0..4_000 {
        let months: Vec<_> = (0..2).map(|_| texts::any_values(&mut rng, SMALL)).collect();
        let mut text = texts::any_ends(&mut rng, &texts::files(&months));
        if rng.chance(60) {
            text = texts::damaged(&mut rng, &text);
        }
        let mut room = |lines: usize| if rng.chance(70) { 1_000 } else { rng.below(lines + 1) };
        let capacity = Capacity { agents: room(3), users: room(4), points: room(4) };
        let without_limit = read_month(&text, 0, ANY_COUNT);
        let sound = match &without_limit {
            Ok((_, next)) => *next,
            Err(refusal) => refusal.place as usize,
        };
        let answer = read_month(&text, 0, capacity);
        match line_too_many(&text[..sound], capacity) {
            Some(place) => {
                seen[2] += 1;
                assert_eq!(answer, Err(Refusal::new(12, place)));
            }
            None => {
                seen[usize::from(without_limit.is_err())] += 1;
                assert_eq!(answer, without_limit);
            }
        }
    }
    assert!(seen.iter().all(|&count| count > 300), "accepted, 11 and 12 have to come up: {:?}", seen);
}

#[test]
fn a_full_slice() {
    let none = Capacity { agents: 0, users: 0, points: 0 };
    let start = format!("month,ons\n1,1\n{}\n", AGENT_NAMES);
    let place = start.len() as u64;
    // A line of values begins at a digit or minus sign, faulty or not; at any other byte only 11 can apply.
    for (line, number) in [("1", 12), ("0", 12), ("-", 12), ("-x", 12), ("00", 12), ("x", 11), (" 1", 11), ("", 11)] {
        let text = format!("{}{}", start, line);
        assert_eq!(read_month(text.as_bytes(), 0, none), Err(Refusal::new(number, place)), "{:?}", line);
    }
    // With no lines to take, slices without entries do.
    let text = format!("{}{}\n{}\n", start, USER_NAMES, POINT_NAMES);
    assert!(read_month(text.as_bytes(), 0, none).is_ok());
}

#[test]
fn the_length_of_a_text() {
    assert_eq!(check_length(1_000_000_000_000_000), None);
    assert_eq!(check_length(1_000_000_000_000_001), Some(-2));
    assert_eq!(check_length(u64::MAX), Some(-2));
}
