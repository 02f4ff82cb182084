//! The reference calculation on a command line.
//!
//! `reference settle` and `reference consulta` print what these programs print for standard input; `reference check` the
//! file check's answer for it; `reference vectors DIR` compares with the vector files in a folder and prints the counts.

use rateio_reference::{consulta, program, read, vectors};
use std::io::{Read, Write};
use std::process::ExitCode;

fn main() -> ExitCode {
    let arguments: Vec<String> = std::env::args().skip(1).collect();
    let arguments: Vec<&str> = arguments.iter().map(String::as_str).collect();
    let done = match arguments[..] {
        ["settle"] => run(program::settle),
        ["consulta"] => run(consulta::consulta),
        ["check"] => standard_input().map(|text| println!("{}", read::check_text(&text))),
        ["vectors", folder] => compare_all(folder),
        _ => Err("usage: reference settle | consulta | check | vectors DIR".to_string()),
    };
    match done {
        Ok(()) => ExitCode::SUCCESS,
        Err(why) => {
            eprintln!("{}", why);
            ExitCode::FAILURE
        }
    }
}

fn run(program: fn(&[u8]) -> Vec<u8>) -> Result<(), String> {
    let output = program(&standard_input()?);
    std::io::stdout().write_all(&output).map_err(|why| why.to_string())
}

fn standard_input() -> Result<Vec<u8>, String> {
    let mut input = Vec::new();
    std::io::stdin().read_to_end(&mut input).map_err(|why| why.to_string())?;
    Ok(input)
}

fn compare_all(folder: &str) -> Result<(), String> {
    for (name, case) in vectors::VECTOR_FILES {
        let path = std::path::Path::new(folder).join(name);
        let text = std::fs::read_to_string(&path).map_err(|why| format!("{}: {}", name, why))?;
        let count = vectors::compare(&text, case).map_err(|why| format!("{}, {}", name, why))?;
        println!("{} {}", name, count);
    }
    Ok(())
}
