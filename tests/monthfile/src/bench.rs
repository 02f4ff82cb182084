//! Bytes a second over 10 MB of text, the exported check and the scanner by hand in turn.

use crate::{exported, hand};
use rateio_reference::months::{self, Counts, Style};
use rateio_reference::rng::Rng;
use rateio_reference::sample;
use rateio_reference::texts;
use std::time::Instant;

const BYTES: usize = 10_000_000;

// Seconds of one pass.
fn pass(check: fn(&[u8]) -> i64, text: &[u8]) -> f64 {
    let start = Instant::now();
    assert!(check(std::hint::black_box(text)) == -1);
    start.elapsed().as_secs_f64()
}

fn row(name: &str, text: &[u8]) {
    let (mut ours, mut theirs) = (f64::MAX, f64::MAX);
    for _ in 0..25 {
        ours = ours.min(pass(exported, text));
        theirs = theirs.min(pass(hand::check, text));
    }
    let rate = |seconds: f64| text.len() as f64 / seconds / 1e6;
    println!("{:<26}{:>9.0}{:>9.0}{:>9.2}", name, rate(ours), rate(theirs), theirs / ours);
}

// Files made one after the other until there is enough text.
fn fill(mut file: impl FnMut() -> Vec<u8>) -> Vec<u8> {
    let mut text = Vec::new();
    while text.len() < BYTES {
        text.extend(file());
    }
    text
}

pub fn run() {
    let mut rng = Rng::new(202_408);
    let small = fill(|| sample::INPUT.into());
    let wide = Counts { agents: 16, users: 64, points: 50_000 };
    let points = fill(|| texts::file(&months::month(&mut rng, Style::Ordinary, wide)));
    let long = fill(|| texts::file(&texts::any_values(&mut rng, wide)));
    println!("{:<26}{:>9}{:>9}{:>9}", "MB a second", "ours", "by hand", "ratio");
    row("many small files", &small);
    row("long files of points", &points);
    row("values of every length", &long);
    row("small files in CR LF", &texts::cr_lf(&small));
    row("files of points in CR LF", &texts::cr_lf(&points));
}
