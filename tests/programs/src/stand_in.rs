//! Programs that print what the reference calculation says, and wrong ones. The comparison has to pass the first and to
//! find each of the others, or it shows nothing about the programs that it is meant for.

use crate::compare::compare;
use crate::inputs::input;
use crate::rows;
use rateio_reference::amounts::Amounts;
use rateio_reference::credits::Credits;
use rateio_reference::program::{self, events, Closed, Event, PROGRAM_CAPACITY, PROGRAM_INPUT};
use rateio_reference::read::read_month;
use rateio_reference::refusals::Refusal;
use rateio_reference::rng::Rng;
use rateio_reference::table::{is_table, random_table, some_table};
use rateio_reference::{consulta, sample};
use std::io::Read;
use std::path::Path;

pub const NO_FAULT: &str = "none";

/// What is wrong, and whether only `consulta` can have it.
const FAULTS: [(&str, bool); 29] = [
    ("cent moved round a ring", false),
    ("cent added to a cell", false),
    ("cells rounded one by one", false),
    ("held credit", false),
    ("credits forgotten", false),
    ("one twelfth whatever was skipped", false),
    ("direct charges left out", false),
    ("direct charges shared among the payees", false),
    ("direct charges paid by held credits", false),
    ("place", false),
    ("number", false),
    ("no names", false),
    ("names for each file", false),
    ("last line cut", false),
    ("last line missing", false),
    ("a line twice", false),
    ("prints CR LF", false),
    ("prints CR LF for CR LF", false),
    ("takes a lone CR", false),
    ("a lone CR at its own place", false),
    ("refuses CR LF after names", false),
    ("stops at a refused month", false),
    ("takes less input", false),
    ("takes more input", false),
    ("reads once", false),
    ("speaks on standard error", false),
    ("another table than settle's", true),
    ("ONS's credit without the direct charges", true),
    ("cent moved between points", true),
];

/// What a program with this fault prints for standard input.
pub fn print(program: &str, fault: &str) -> Result<Vec<u8>, String> {
    let input = standard_input(fault == "reads once").map_err(|why| why.to_string())?;
    let events = faulty_events(&input, fault);
    let mut rng = Rng::new(1);
    let table = |vc: &[i128], vd: &[i128]| faulty_table(vc, vd, fault, &mut rng);
    let output = match program {
        "settle" => program::print(&events, table),
        "consulta" => consulta::print(&events, table),
        _ => return Err(format!("no program {}", program)),
    };
    if fault == "speaks on standard error" {
        eprintln!("settled");
    }
    let output = String::from_utf8(output).expect("outputs are ASCII");
    let as_office = fault == "prints CR LF for CR LF" && input.windows(2).any(|pair| pair == b"\r\n");
    Ok(faulty_lines(&output, if as_office { "prints CR LF" } else { fault }).into_bytes())
}

fn standard_input(once: bool) -> std::io::Result<Vec<u8>> {
    let mut input = vec![0; 300_000];
    let mut length = 0;
    loop {
        let got = std::io::stdin().lock().read(&mut input[length..])?;
        length += got;
        if got == 0 || once || length > PROGRAM_INPUT {
            input.truncate(length);
            return Ok(input);
        }
    }
}

fn faulty_events(input: &[u8], fault: &str) -> Vec<Event> {
    match fault {
        "takes less input" if input.len() == PROGRAM_INPUT => vec![Event::Refused(Refusal::new(12, 0))],
        "takes more input" if input.len() == PROGRAM_INPUT + 1 => events(&input[..PROGRAM_INPUT]),
        "credits forgotten" if input.len() <= PROGRAM_INPUT => {
            // Every file has a ledger of its own; the last one may be one that cannot be read.
            let mut found = Vec::new();
            let mut position = 0;
            while let Ok((_, next)) = read_month(input, position, PROGRAM_CAPACITY) {
                found.extend(events(&input[position..next]));
                position = next;
            }
            if position < input.len() || input.is_empty() {
                found.extend(events(input).pop());
            }
            found
        }
        "one twelfth whatever was skipped" => {
            let mut events = events(input);
            for event in &mut events {
                if let Event::Closed(closed) = event {
                    // As if it were the ledger's first month.
                    closed.amounts.credits = Credits::of_month(&closed.lines, 0, closed.vd());
                }
            }
            events
        }
        "direct charges left out"
        | "direct charges shared among the payees"
        | "direct charges paid by held credits"
        | "ONS's credit without the direct charges" => {
            let mut events = events(input);
            let mut last = 0;
            for event in &mut events {
                if let Event::Closed(closed) = event {
                    misplace_direct_charges(closed, last, fault);
                    last = closed.month();
                }
            }
            events
        }
        "takes a lone CR" => {
            let lf_next = |at: usize| input.get(at + 1) == Some(&b'\n');
            let taken = |at: usize| if input[at] == b'\r' && !lf_next(at) { b'\n' } else { input[at] };
            events(&(0..input.len()).map(taken).collect::<Vec<u8>>())
        }
        "a lone CR at its own place" => {
            let mut events = events(input);
            if let Some(Event::Refused(Refusal { number: 11, place })) = events.last_mut() {
                *place -= u64::from(*place > 0 && input[*place as usize - 1] == b'\r');
            }
            events
        }
        // Names end in a letter, and lines of values in a digit.
        "refuses CR LF after names" => {
            let mut input = input.to_vec();
            if let Some(at) = input.windows(3).position(|end| end[0].is_ascii_lowercase() && end[1..] == *b"\r\n") {
                input[at + 1] = b'x';
            }
            events(&input)
        }
        "stops at a refused month" => {
            let mut events = events(input);
            if let Some(first) = events.iter().position(|event| matches!(event, Event::Refused(_))) {
                events.truncate(first + 1);
            }
            events
        }
        _ => events(input),
    }
}

/// A month as such a program has it; `last` is the month closed before it.
fn misplace_direct_charges(closed: &mut Closed, last: i64, fault: &str) {
    let Amounts { charges, credits } = &mut closed.amounts;
    match fault {
        "direct charges left out" => charges.ong.fill(0),
        "direct charges paid by held credits" => {
            for (ong, held) in charges.ong.iter_mut().zip(&mut charges.held) {
                let paid = (*ong).min(*held);
                (*ong, *held) = (*ong - paid, *held - paid);
            }
        }
        "ONS's credit without the direct charges" => credits.credit = credits.vc.clone(),
        // Charges like the others: they enter the debits, and so every payee's cells.
        _ => {
            let mut lines = closed.lines.clone();
            lines.users.iter_mut().for_each(|user| (user.ret, user.ong) = (user.ret + user.ong, 0));
            let held: Vec<i128> = closed.held_before.iter().map(|&credit| credit.into()).collect();
            closed.amounts = Amounts::of_month(&lines, last, &held);
        }
    }
}

fn faulty_table(vc: &[i128], vd: &[i128], fault: &str, rng: &mut Rng) -> Vec<i64> {
    let mut cells = some_table(vc, vd);
    let users = vd.len();
    match fault {
        "cent added to a cell" => cells[0] += 1,
        "cells rounded one by one" => {
            let total: i128 = vd.iter().sum();
            let rounded = |vc: i128, vd: i128| (2 * vc * vd + total).div_euclid(2 * total) as i64;
            cells = vc.iter().flat_map(|&vc| vd.iter().map(move |&vd| rounded(vc, vd))).collect();
        }
        // Rows and columns still total; a cent or two take one of the four cells too far.
        "cent moved round a ring" if users > 1 => {
            while is_table(vc, vd, &cells).is_ok() {
                for (cell, cent) in [(0, 1), (1, -1), (users, -1), (users + 1, 1)] {
                    cells[cell] += cent;
                }
            }
        }
        "another table than settle's" => return random_table(vc, vd, rng),
        _ => {}
    }
    cells
}

fn faulty_lines(output: &str, fault: &str) -> String {
    let mut lines: Vec<String> = output.lines().map(|line| line.to_string() + "\n").collect();
    let last = lines.len() - 1;
    match fault {
        "held credit" => add(&mut lines, &[",held,", ",held_after,"], &[1]),
        "place" => add(&mut lines, &["refused,"], &[1]),
        "number" => {
            let refused = lines.iter_mut().find(|line| line.starts_with("refused,"));
            refused.into_iter().for_each(|line| line.insert(8, '1'));
        }
        "no names" => drop(lines.remove(0)),
        "names for each file" => {
            let month = |line: &str| line.split(',').next().map(str::to_string);
            let again = (2..lines.len()).find(|&k| month(&lines[k]) != month(&lines[k - 1]));
            again.into_iter().for_each(|k| lines.insert(k, lines[0].clone()));
        }
        "last line cut" => drop(lines[last].pop()),
        "last line missing" => drop(lines.pop()),
        "a line twice" => lines.push(lines[last].clone()),
        "prints CR LF" => lines.iter_mut().for_each(|line| *line = line.replace('\n', "\r\n")),
        "cent moved between points" => {
            // The points have to be of one user, or its EUST would give it away.
            let user = |line: &String| line.split(',').nth(3).map(str::to_string);
            let points: Vec<usize> = (0..lines.len()).filter(|&k| lines[k].contains(",use,")).collect();
            if let Some(pair) = points.windows(2).find(|pair| user(&lines[pair[0]]) == user(&lines[pair[1]])) {
                add(&mut lines[pair[0]..=pair[1]], &[",use,"], &[1, -1]);
            }
        }
        _ => {}
    }
    lines.concat()
}

/// Adds these amounts to the last columns of the first lines that have one of the marks in them.
fn add(lines: &mut [String], marks: &[&str], amounts: &[i64]) {
    let marked = lines.iter_mut().filter(|line| marks.iter().any(|mark| line.contains(mark)));
    for (line, amount) in marked.zip(amounts) {
        let (start, cents) = line.trim_end().rsplit_once(',').expect("a line has columns");
        let cents: i64 = cents.parse().expect("cents");
        *line = format!("{},{}\n", start, cents + amount);
    }
}

/// Shows that the comparison passes the right stand-ins and finds each wrong one.
pub fn all_found(count: u64, folder: &Path) -> Result<(), String> {
    let here = std::env::current_exe().map_err(|why| why.to_string())?.display().to_string();
    let stand_in = |program: &str, fault: &str| vec![here.clone(), "stand-in".into(), program.into(), fault.into()];
    let right = |program: &str| stand_in(program, NO_FAULT);
    let (_, differences) = compare(&right("settle"), &right("consulta"), &input, 0..count, 1, folder)?;
    if let Some(difference) = differences.first() {
        return Err(format!("a right program fails at input {}: {}", difference.number, difference.why));
    }
    println!("programs: right stand-ins pass {} inputs", count);
    sums_alone()?;
    for (fault, only_consulta) in FAULTS {
        let in_settle = Some((stand_in("settle", fault), right("consulta"))).filter(|_| !only_consulta);
        let in_consulta = Some((right("settle"), stand_in("consulta", fault)));
        for (settle, consulta) in in_settle.into_iter().chain(in_consulta) {
            let program = if settle[3] == NO_FAULT { "consulta" } else { "settle" };
            let (_, differences) = compare(&settle, &consulta, &input, 0..count, 1, folder)?;
            match differences.first() {
                None => return Err(format!("{} with the fault {:?} is not found in {} inputs", program, fault, count)),
                Some(found) => {
                    println!("programs: found, {} with {:?}: input {}, {}", program, fault, found.number, found.why)
                }
            }
        }
    }
    Ok(())
}

/// Without the reference calculation, the sums alone find any amount of the worked month that is a cent off.
fn sums_alone() -> Result<(), String> {
    let lines: Vec<String> = sample::CONSULTA.lines().map(|line| line.to_string() + "\n").collect();
    rows::add_up(lines.concat().as_bytes())?;
    for wrong in 1..lines.len() {
        let mut changed = lines.clone();
        add(&mut changed[wrong..], &[","], &[1]);
        if rows::add_up(changed.concat().as_bytes()).is_ok() {
            return Err(format!("the sums do not miss a cent of {:?}", lines[wrong]));
        }
    }
    println!("programs: a cent off in any of {} amounts is found by the sums alone", lines.len() - 1);
    Ok(())
}
