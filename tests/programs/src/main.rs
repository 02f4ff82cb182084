//! Holds the programs `settle` and `consulta` to the reference calculation.
//!
//! `compare SETTLE CONSULTA COUNT FOLDER RUNS..` runs both on so many seeded inputs, and on those that are listed or
//! stored as vectors; `stand-ins COUNT FOLDER` shows that this finds wrong programs; `judge PROGRAM INPUT OUTPUT` looks
//! at one output in a file. `input NUMBER` writes a seeded input, `largest` as many months of full size as are taken,
//! `office` as many as are taken in CR LF, `full` the month of `examples/full.csv`.

mod child;
mod compare;
mod inputs;
mod listed;
mod rows;
mod stand_in;

use rateio_reference::lines::MonthLines;
use rateio_reference::months::{self, Style};
use rateio_reference::program::{events, Event};
use rateio_reference::rng::Rng;
use rateio_reference::{consulta, program, texts};
use std::io::Write;
use std::path::Path;
use std::process::ExitCode;

const USAGE: &str = "usage: compare SETTLE CONSULTA COUNT FOLDER RUNS.. | stand-ins COUNT FOLDER | \
    judge PROGRAM INPUT OUTPUT | input NUMBER | largest | office | full";

fn main() -> ExitCode {
    let arguments: Vec<String> = std::env::args().skip(1).collect();
    let arguments: Vec<&str> = arguments.iter().map(String::as_str).collect();
    let done = match arguments[..] {
        ["compare", settle, consulta, count, folder, ref runs @ ..] => number(count).and_then(|count| {
            let programs = [vec![settle.to_string()], vec![consulta.to_string()]];
            compare::report(&programs[0], &programs[1], count, &listed::inputs(runs)?, Path::new(folder))
        }),
        ["stand-ins", count, folder] => number(count).and_then(|count| stand_in::all_found(count, Path::new(folder))),
        ["stand-in", program, fault] => stand_in::print(program, fault).and_then(|output| write(&output)),
        ["input", at] => number(at).and_then(|at| write(&inputs::input(at).1)),
        ["judge", program, input, output] => judge(program, input, output),
        // Short lines, so that most files of full size fit, and most cells are broken.
        ["largest"] => write(&inputs::full_of(&mut Rng::new(1), Style::Tiny, inputs::in_lf)),
        ["office"] => write(&inputs::full_of(&mut Rng::new(1), Style::Tiny, texts::cr_lf)),
        ["full"] => {
            let mut lines = months::sound_month(&mut Rng::new(2024), Style::Ordinary, inputs::FULL);
            // It is older than the direct charges, and its stored output has none.
            lines.users.iter_mut().for_each(|user| user.ong = 0);
            write(&texts::file(&MonthLines { month: 202_407, ..lines }))
        }
        _ => Err(USAGE.to_string()),
    };
    match done {
        Ok(()) => ExitCode::SUCCESS,
        Err(why) => {
            eprintln!("programs: {}", why);
            ExitCode::FAILURE
        }
    }
}

/// Whether a file holds what a program may print for another; prints how much it is.
fn judge(program: &str, input: &str, output: &str) -> Result<(), String> {
    let read = |path: &str| std::fs::read(path).map_err(|why| format!("{}: {}", path, why));
    let (input, output) = (read(input)?, read(output)?);
    let events = events(&input);
    match program {
        "settle" => program::check_events(&events, &output)?,
        "consulta" => consulta::check_events(&events, &output).and_then(|()| rows::add_up(&output))?,
        _ => return Err(format!("no program {}", program)),
    }
    let closed = events.iter().filter(|event| matches!(event, Event::Closed(_))).count();
    let lines = output.iter().filter(|&&byte| byte == b'\n').count();
    println!("{} bytes, {} files, {} months closed, {} lines", input.len(), events.len(), closed, lines);
    Ok(())
}

fn number(text: &str) -> Result<u64, String> {
    text.parse().map_err(|_| format!("{:?} is no count", text))
}

fn write(output: &[u8]) -> Result<(), String> {
    std::io::stdout().write_all(output).map_err(|why| why.to_string())
}
