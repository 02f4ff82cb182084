//! Holds the exported file check to the reference calculation, and times it beside a scanner by hand; and writes cases for the
//! program that reads.

mod bench;
mod cases;
mod hand;
mod reading;

extern "C" {
    fn rateio_check(text: *const u8, length: usize) -> i64;
}

/// The exported file check.
pub fn exported(text: &[u8]) -> i64 {
    unsafe { rateio_check(text.as_ptr(), text.len()) }
}

fn main() {
    let args: Vec<String> = std::env::args().collect();
    match args.iter().map(String::as_str).collect::<Vec<_>>()[..] {
        [_, "check", readings] => {
            cases::compare_all(readings);
            bench::run();
        }
        [_, "reading", short, long] => reading::write(short, long).expect("the folders can be written to"),
        _ => panic!("check READINGS, or reading SHORT LONG"),
    }
}
