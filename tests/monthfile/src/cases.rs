//! Texts by classes, each through the exported file check, the scanner by hand and the reference calculation.

use crate::{exported, hand};
use rateio_reference::json;
use rateio_reference::months::{self, Counts, STYLES};
use rateio_reference::read::check_text;
use rateio_reference::rng::Rng;
use rateio_reference::sample;
use rateio_reference::texts;

/// How many texts, and what the check answers.
#[derive(Default)]
struct Tally {
    texts: u64,
    files: u64,
    ends: u64,
    places: u64,
}

impl Tally {
    fn compare(&mut self, text: &[u8]) {
        let wanted = check_text(text);
        let got = exported(text);
        if got != wanted || hand::check(text) != wanted {
            println!(
                "DIFFERENT: {} or {}, wanted {}, of {:?}",
                got,
                hand::check(text),
                wanted,
                String::from_utf8_lossy(text)
            );
            std::process::exit(1);
        }
        self.texts += 1;
        match wanted {
            -1 => self.files += 1,
            place if place == text.len() as i64 => self.ends += 1,
            _ => self.places += 1,
        }
    }

    fn print(&self, name: &str) {
        println!("{:<26}{:>9}{:>9}{:>9}{:>9}", name, self.texts, self.files, self.ends, self.places);
    }
}

/// Files on end, of any shape and any values.
fn sound(rng: &mut Rng) -> Vec<u8> {
    let mut text = Vec::new();
    for _ in 0..1 + rng.below(3) {
        let counts = Counts { agents: rng.below(4), users: rng.below(4), points: rng.below(5) };
        let some = Counts { agents: 3, users: 3, points: 4 };
        let lines = match rng.below(2) {
            0 => texts::any_values(rng, counts),
            _ => {
                let style = rng.pick(&STYLES);
                let counts = months::counts_up_to(rng, some);
                months::month(rng, style, counts)
            }
        };
        text.extend(texts::file(&lines));
    }
    text
}

/// A CR before some of the LFs that have none is read as if it were not there: files stay files, and a place moves by
/// the CRs put in before the byte at it; one put in just before that byte is the wrong byte then, and has its place.
fn cr_before_lfs(rng: &mut Rng, text: &[u8], tally: &mut Tally) {
    let percent = rng.pick(&[10, 50, 90, 100]);
    let crs: Vec<usize> = texts::bare_lfs(text).into_iter().filter(|_| rng.chance(percent)).collect();
    let longer = texts::with_crs(text, &crs);
    let due = match exported(text) {
        -1 => -1,
        place => place + crs.iter().filter(|&&at| (at as i64) < place).count() as i64,
    };
    if exported(&longer) != due {
        println!(
            "DIFFERENT: {} with CRs, wanted {}, of {:?}",
            exported(&longer),
            due,
            String::from_utf8_lossy(&longer)
        );
        std::process::exit(1);
    }
    tally.compare(&longer);
}

/// Two files in LF, in CR LF, and mixed.
fn two_files(rng: &mut Rng) -> [Vec<u8>; 3] {
    let lf = [sample::INPUT, sample::INPUT].concat().into_bytes();
    let (cr_lf, mixed) = (texts::cr_lf(&lf), texts::mixed(rng, &lf));
    [lf, cr_lf, mixed]
}

/// What may stand for a line's end, or be taken for one.
const ENDS: [&[u8]; 8] = [b"\r", b"\n", b"\r\n", b"\n\r", b"\r\r", b"\r\r\n", b"\r\n\r", b"\r\n\n"];

/// Each of these ends put in at every place, and put for every byte and for every two.
fn ends_at_every_place(text: &[u8], compare: &mut dyn FnMut(&[u8])) {
    for end in ENDS {
        for at in 0..=text.len() {
            for instead in 0..=2.min(text.len() - at) {
                compare(&[&text[..at], end, &text[at + instead..]].concat());
            }
        }
    }
}

/// A text written as other systems write it, or as it was before its user lines had the column `ong`.
fn foreign(rng: &mut Rng, text: &[u8]) -> Vec<u8> {
    let mut text = text.to_vec();
    match rng.below(7) {
        0 => text = String::from_utf8(text).expect("ASCII").replace('\n', "\r\n").into_bytes(),
        1 => drop(text.splice(0..0, *b"\xef\xbb\xbf")),
        2 => drop(text.pop()),
        3 => text.push(b'\n'),
        4 => text.extend(b"month"),
        5 => text = String::from_utf8(text).expect("ASCII").replace(",ong", "").into_bytes(),
        _ => text = String::from_utf8(text).expect("ASCII").replace(',', ";").into_bytes(),
    }
    text
}

/// Every prefix, every byte changed to each other byte, every byte dropped, and each byte put in at every place.
fn around(text: &[u8], compare: &mut dyn FnMut(&[u8])) {
    for at in 0..=text.len() {
        compare(&text[..at]);
    }
    for at in 0..text.len() {
        let mut changed = text.to_vec();
        for byte in 0..=255 {
            changed[at] = byte;
            compare(&changed);
        }
        changed.remove(at);
        compare(&changed);
    }
    for at in 0..=text.len() {
        for &byte in b"0159-,\nmau\r \0" {
            let mut more = text.to_vec();
            more.insert(at, byte);
            compare(&more);
        }
    }
}

pub fn compare_all(readings: &str) {
    println!("{:<26}{:>9}{:>9}{:>9}{:>9}", "texts", "all", "files", "at end", "place");
    let mut all = Tally::default();
    let mut class = |name: &str, fill: &mut dyn FnMut(&mut Tally)| {
        let mut tally = Tally::default();
        fill(&mut tally);
        tally.print(name);
        all.texts += tally.texts;
        all.files += tally.files;
        all.ends += tally.ends;
        all.places += tally.places;
    };
    let mut rng = Rng::new(202_407);

    class("empty", &mut |t| t.compare(b""));
    class("stored readings", &mut |t| {
        for line in std::fs::read_to_string(readings).expect(readings).lines() {
            let vector = json::parse(line).expect(line);
            let text = vector.field("text").and_then(|v| v.text()).expect(line);
            let stored = vector.field("check").and_then(|v| v.number()).expect(line);
            assert!(i128::from(exported(text)) == stored, "{}", line);
            t.compare(text);
        }
    });
    class("files of every shape", &mut |t| (0..30_000).for_each(|_| t.compare(&sound(&mut rng))));
    class("files in CR LF", &mut |t| (0..15_000).for_each(|_| t.compare(&texts::cr_lf(&sound(&mut rng)))));
    class("files in LF and CR LF", &mut |t| {
        for _ in 0..15_000 {
            let text = sound(&mut rng);
            t.compare(&texts::mixed(&mut rng, &text));
        }
    });
    class("damaged", &mut |t| {
        for _ in 0..150_000 {
            let text = sound(&mut rng);
            let text = texts::any_ends(&mut rng, &text);
            t.compare(&texts::damaged(&mut rng, &text));
        }
    });
    class("as others write", &mut |t| {
        for _ in 0..6_000 {
            let text = sound(&mut rng);
            t.compare(&foreign(&mut rng, &text));
        }
    });
    class("CRs before LFs", &mut |t| {
        for _ in 0..60_000 {
            let mut text = sound(&mut rng);
            if rng.chance(30) {
                text = texts::mixed(&mut rng, &text);
            }
            if rng.chance(70) {
                text = texts::damaged(&mut rng, &text);
            }
            cr_before_lfs(&mut rng, &text, t);
        }
    });
    class("around the worked file", &mut |t| around(sample::INPUT.as_bytes(), &mut |text| t.compare(text)));
    class("around it in CR LF", &mut |t| around(&texts::cr_lf(sample::INPUT.as_bytes()), &mut |text| t.compare(text)));
    class("around small files", &mut |t| {
        for counts in [[0, 0, 0], [1, 0, 1], [0, 1, 0]] {
            let [agents, users, points] = counts;
            let text = texts::file(&texts::any_values(&mut rng, Counts { agents, users, points }));
            let mixed = texts::mixed(&mut rng, &text);
            around(&text, &mut |text| t.compare(text));
            around(&mixed, &mut |text| t.compare(text));
        }
    });
    class("cut in two files", &mut |t| {
        for text in two_files(&mut rng) {
            (0..=text.len()).for_each(|at| t.compare(&text[..at]));
        }
    });
    class("a CR in two files", &mut |t| {
        for text in two_files(&mut rng) {
            (0..=text.len()).for_each(|at| t.compare(&texts::with_crs(&text, &[at])));
        }
    });
    class("ends in a small file", &mut |t| {
        let text = texts::file(&texts::any_values(&mut rng, Counts { agents: 1, users: 1, points: 1 }));
        let (cr_lf, mixed) = (texts::cr_lf(&text), texts::mixed(&mut rng, &text));
        for text in [text, cr_lf, mixed] {
            ends_at_every_place(&text, &mut |text| t.compare(text));
        }
    });
    all.print("together");
    assert!(all.texts >= 100_000 && all.files > 10_000 && all.ends > 1_000 && all.places > 10_000);
    println!("no differences");
}
