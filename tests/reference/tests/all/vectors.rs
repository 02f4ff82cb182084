//! Every line of every vector file.

use rateio_reference::json::{self, Json};
use rateio_reference::vectors::{compare, VECTOR_FILES};

/// Compares one file, and its count with the number of cases that it is known to hold.
fn file(name: &str, cases: usize) {
    let (_, case) = VECTOR_FILES.into_iter().find(|file| file.0 == name).expect("a vector file");
    let path = format!("{}/../vectors/{}", env!("CARGO_MANIFEST_DIR"), name);
    let text = std::fs::read_to_string(&path).expect("the vector file is there");
    assert_eq!(compare(&text, case), Ok(cases), "{}", name);
}

#[test]
fn shares() {
    file("shares.jsonl", 129);
}

#[test]
fn openings() {
    file("openings.jsonl", 10);
}

#[test]
fn closings() {
    file("closings.jsonl", 200);
}

#[test]
fn readings() {
    file("readings.jsonl", 119);
}

#[test]
fn runs() {
    file("runs.jsonl", 38);
}

#[test]
fn runs_after_request_3() {
    file("runs-Q3.jsonl", 60);
}

#[test]
fn runs_after_request_4() {
    file("runs-Q4.jsonl", 60);
}

#[test]
fn runs_after_request_8() {
    file("runs-Q8.jsonl", 40);
}

#[test]
fn runs_after_request_1() {
    file("runs-Q1.jsonl", 60);
}

#[test]
fn json_is_read_as_written() {
    let read = json::parse(r#" {"a": [1, -20 ,null], "text":"x\n\"\\\u00e2\u0000é" , "none":[],"empty":{}} "#);
    let record = read.expect("sound JSON");
    let list = vec![Json::Number(1), Json::Number(-20), Json::Null];
    assert_eq!(record.field("a"), Some(&Json::List(list)));
    assert_eq!(record.field("text").and_then(Json::text), Some(&b"x\n\"\\\xe2\x00\xe9"[..]));
    assert_eq!(record.field("none").and_then(Json::list), Some(&[][..]));
    assert_eq!(record.field("empty"), Some(&Json::Record(vec![])));
    assert_eq!(record.field("other"), None);
    assert_eq!(json::parse("9223372036854775808"), Ok(Json::Number(9_223_372_036_854_775_808)));
    for faulty in ["", "[1", "[1,]", "{\"a\"}", "1.5", "-", "\"a", "\"\\x\"", "\"\\u12\"", "\"\u{2212}\"", "1 2", "nul"]
    {
        assert!(json::parse(faulty).is_err(), "{:?}", faulty);
    }
}

#[test]
fn a_wrong_case_is_found() {
    let (_, share) = VECTOR_FILES[0];
    assert_eq!(compare("[30,0,300,2000,4]\n", share), Ok(1));
    assert!(compare("[30,0,300,2000,5]\n", share).is_err());
    // Every amount of a run that is told in full, of each closed month.
    let (name, run) = VECTOR_FILES[5];
    let path = format!("{}/../vectors/{}", env!("CARGO_MANIFEST_DIR"), name);
    let text = std::fs::read_to_string(&path).expect("the vector file is there");
    let line = text.lines().find(|line| line.starts_with("{\"name\":\"orders")).expect("a run of closed months");
    assert_eq!(compare(line, run), Ok(1));
    let (_, events) = line.split_once("\"events\":").expect("events");
    for (at, _) in events.match_indices(|byte: char| byte.is_ascii_digit()) {
        let at = line.len() - events.len() + at;
        let digit = if &line[at..=at] == "7" { "8" } else { "7" };
        let wrong = [&line[..at], digit, &line[at + 1..]].concat();
        assert!(compare(&wrong, run).is_err(), "{}", wrong);
    }
}
