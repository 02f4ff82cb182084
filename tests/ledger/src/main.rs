//! Lists of openings and closings for the program that makes the calls (calls.rt.txt), and the comparison of what it wrote with the
//! reference calculation.

mod bench;
mod call;
mod chains;
mod check;
mod kinds;
mod limits;
mod lists;
mod orders;

use call::Outcome;
use lists::List;

/// The program compiled by LLVM, by Rattle's own compiler, and with checks.
const RUNS: usize = 3;

fn main() {
    let args: Vec<String> = std::env::args().collect();
    match args.iter().map(String::as_str).collect::<Vec<_>>()[..] {
        [_, "write", vectors, summary, ref parts @ ..] => write(vectors, summary, parts),
        [_, "check", vectors, short, ref parts @ ..] => check(vectors, short, parts),
        [_, "bench-write", timed, first, once] => bench::write(timed, first, once),
        [_, "bench", folder, runs] => bench::compare(folder, runs.parse().expect("a count of runs")),
        _ => panic!(
            "write VECTORS SUMMARY PART.., check VECTORS SHORT PART.., bench-write TIMED FIRST ONCE, bench FOLDER RUNS"
        ),
    }
}

/// The program's input: the path of the file to which the records go, if they go to one, then the calls.
fn script(records: &str, lists: &[List]) -> Vec<u8> {
    let mut script = (records.len() as u64).to_le_bytes().to_vec();
    script.extend(records.bytes());
    lists.iter().flat_map(|list| &list.calls).for_each(|call| call.write(&mut script));
    script
}

fn store(folder: &str, name: &str, bytes: impl AsRef<[u8]>) {
    std::fs::write(format!("{}/{}", folder, name), bytes).expect("the folder can be written to");
}

/// Writes a summary of the lists and, to one folder a part, the program's input and the rows that it has to write. Its records go there.
fn write(vectors: &str, summary: &str, folders: &[&str]) {
    let parts = lists::parts(vectors);
    assert_eq!(parts.len(), folders.len(), "a folder for each part");
    let mut text = format!("{:<18}{:>6}{:>6}", "list", "calls", "ok");
    (1..=10).for_each(|number| text += &format!("{:>6}", number));
    text += " digest of calls and rows\n";
    parts.iter().flatten().for_each(|list| text += &list.summary());
    std::fs::write(summary, text).expect("the summary can be written");
    for (lists, folder) in parts.iter().zip(folders) {
        store(folder, "stdin", script(&format!("{}/records", folder), lists));
        let rows: String = lists.iter().flat_map(|list| &list.outcomes).map(Outcome::row).collect();
        store(folder, "stdout", rows);
    }
}

/// Checks the records of all parts, and writes input and records of the short lists as the interpreter has to write them.
fn check(vectors: &str, short: &str, folders: &[&str]) {
    let parts = lists::parts(vectors);
    assert_eq!(parts.len(), folders.len(), "a folder for each part");
    for (k, (lists, folder)) in parts.iter().zip(folders).enumerate() {
        let records = std::fs::read(format!("{}/records", folder)).expect("the records are there");
        let after_short = check_part(lists, &records);
        if k == 0 {
            store(short, "stdin", script("", &lists[..lists::SHORT]));
            store(short, "stdout", &records[..after_short]);
        }
    }
    let outcomes = || parts.iter().flatten().flat_map(|list| &list.outcomes);
    let closed = outcomes().filter(|outcome| outcome.amounts.is_some()).count();
    println!("{} calls, {} of them closings with a table", outcomes().count(), closed);
}

/// Checks every run's records of one part, and answers how many bytes those of the short lists are.
fn check_part(lists: &[List], records: &[u8]) -> usize {
    let mut at = 0;
    let mut after_short = 0;
    for run in 1..=RUNS {
        for (k, list) in lists.iter().enumerate() {
            match check::run(&list.calls, &list.outcomes, &records[at..]) {
                Ok(length) => at += length,
                Err((call, why)) => panic!("run {}, list {}, call {}: {}", run, list.name, call + 1, why),
            }
            if run == 1 && k < lists::SHORT {
                after_short = at;
            }
        }
    }
    assert_eq!(at, records.len(), "the program wrote more than its records");
    let (one, others) = records.split_at(at / RUNS);
    assert!(others.chunks(one.len()).all(|other| other == one), "the compiled programs differ");
    after_short
}
