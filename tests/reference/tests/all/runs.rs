//! The program: what it prints, its limits, and the check of an output.

use rateio_reference::lines::{Agent, MonthLines, Point, User, CONSUMER};
use rateio_reference::months::{next_month, Counts};
use rateio_reference::program::{check_run, events, print, settle, Event, PROGRAM_INPUT};
use rateio_reference::refusals::Refusal;
use rateio_reference::rng::Rng;
use rateio_reference::table::random_table;
use rateio_reference::{sample, texts};

const SMALL: Counts = Counts { users: 6, agents: 4, points: 10 };

/// What `settle` prints, without the names' line.
fn printed(input: &[u8]) -> String {
    let output = String::from_utf8(settle(input)).expect("the output is ASCII");
    output.strip_prefix("month,payee,user,cents\n").expect("names come first in every run").to_string()
}

/// A sound month of so many lines.
fn month_of(users: i64, agents: i64, points: usize) -> MonthLines {
    MonthLines {
        month: 202_407,
        ons: 7,
        agents: (1..=agents).map(|number| Agent { number, pb: 10, pv: 1, afs: 0, rfs: 0, pa: 0, ret: 0 }).collect(),
        users: (1..=users).map(|number| User { number, kind: CONSUMER, ret: 100, ong: number % 3 }).collect(),
        points: vec![Point { at: 1, tp: 1000, tf: 0, dp: 0, df: 0, mp: 9, mf: 0, vp: 9, vf: 0 }; points],
    }
}

#[test]
fn outputs_with_any_table_are_right() {
    let mut rng = Rng::new(41);
    let mut seen = [0; 13];
    for _ in 0..1_500 {
        let input = texts::run_input(&mut rng, SMALL);
        assert_eq!(check_run(&input, &settle(&input)), Ok(()));
        let events = events(&input);
        let other = print(&events, |vc, vd| random_table(vc, vd, &mut rng));
        assert_eq!(check_run(&input, &other), Ok(()));
        for event in &events {
            match event {
                Event::Closed(_) => seen[0] += 1,
                Event::Refused(refusal) => seen[refusal.number as usize] += 1,
            }
        }
    }
    // The program's own slices are never short, and credits that start at 0 stay within their limit here.
    let unseen: Vec<usize> = (0..seen.len()).filter(|&number| seen[number] == 0).collect();
    assert_eq!(unseen, [2, 4], "everything else comes up: {:?}", seen);
}

#[test]
fn any_wrong_byte_is_found() {
    let mut rng = Rng::new(42);
    let mut inputs = vec![sample::INPUT.as_bytes().to_vec(), b"".to_vec()];
    inputs.extend((0..40).map(|_| texts::run_input(&mut rng, SMALL)));
    for input in inputs {
        let output = settle(&input);
        for at in 0..output.len() {
            let mut wrong = output.clone();
            // One cell alone cannot change: its row would miss its total.
            let byte = rng.pick(b"0123456789,-\nronsheldfu x");
            if wrong[at] != byte {
                wrong[at] = byte;
                assert!(check_run(&input, &wrong).is_err(), "{:?}", String::from_utf8_lossy(&wrong));
            }
            let mut short = output.clone();
            short.remove(at);
            assert!(check_run(&input, &short).is_err(), "{:?}", String::from_utf8_lossy(&short));
            assert!(check_run(&input, &output[..at]).is_err());
        }
        for more in ["\n", "x", "refused,1,0\n", "202407,held,1,0\n"] {
            assert!(check_run(&input, &[&output[..], more.as_bytes()].concat()).is_err());
        }
    }
}

#[test]
fn cents_have_one_form() {
    let input = sample::INPUT.as_bytes();
    for form in ["+127", "0127", "127.0", " 127", "127 ", "127,", "-127"] {
        let wrong = sample::OUTPUT.replacen("127", form, 1);
        assert!(check_run(input, wrong.as_bytes()).is_err(), "{:?}", form);
    }
}

#[test]
fn refusals_end_a_run_or_do_not() {
    let sound = sample::INPUT;
    let later = sound.replace("202407", "202408");
    let lines = |text: &str| text.strip_prefix("month,payee,user,cents\n").expect("names").to_string();
    // A refused closing leaves the next file its turn; the ledger is the first file's all the same.
    let broken = sound.replace(",50,0,16", ",101,0,16");
    assert_eq!(printed(broken.as_bytes()), "refused,5,2\n");
    assert_eq!(printed(format!("{}{}", broken, sound).as_bytes()), format!("refused,5,2\n{}", lines(sample::OUTPUT)));
    assert_eq!(printed(format!("{}{}", sound, sound).as_bytes()), format!("{}refused,3,0\n", lines(sample::OUTPUT)));
    let three_users = later.replace("2,3,0,0\nat", "2,3,0,0\n3,2,0,0\nat");
    let output = format!("{}refused,1,0\n", lines(sample::OUTPUT));
    assert_eq!(printed(format!("{}{}", sound, three_users).as_bytes()), output);
    // A refusal by reading or opening is the last word.
    let output = format!("{}refused,11,{}\n", lines(sample::OUTPUT), sound.len() + 2);
    assert_eq!(printed(format!("{}mo", sound).as_bytes()), output);
    let no_users = sound.replace("1,2,0,0\n2,3,0,0\n", "");
    assert_eq!(printed(format!("{}{}", no_users, sound).as_bytes()), "refused,1,0\n");
    assert_eq!(printed(b""), "refused,11,0\n");
}

#[test]
fn held_credits_go_from_month_to_month() {
    let credit = sample::INPUT.replace("1,2,0,0\n2,3,0,0", "1,2,-1000,0\n2,3,0,0");
    let charge = sample::INPUT.replace("202407", "202409");
    let events = events(format!("{}{}", credit, charge).as_bytes());
    let debits_and_held: Vec<(Vec<i128>, Vec<i128>)> = events
        .into_iter()
        .map(|event| match event {
            Event::Closed(closed) => (closed.vd().to_vec(), closed.held().to_vec()),
            Event::Refused(refusal) => panic!("{:?}", refusal),
        })
        .collect();
    assert_eq!(debits_and_held, [(vec![0, 1576], vec![606, 0]), (vec![0, 1576], vec![212, 0])]);
}

#[test]
fn the_most_that_the_program_takes() {
    let refused = |lines: &MonthLines| match events(&texts::file(lines))[..] {
        [Event::Refused(refusal)] => Some(refusal.number),
        _ => None,
    };
    assert_eq!(refused(&month_of(64, 16, 256)), None);
    assert_eq!(refused(&month_of(65, 16, 256)), Some(12));
    assert_eq!(refused(&month_of(64, 17, 256)), Some(12));
    assert_eq!(refused(&month_of(64, 16, 257)), Some(12));
    let full = texts::file(&month_of(64, 16, 256));
    assert_eq!(check_run(&full, &settle(&full)), Ok(()));
}

#[test]
fn the_longest_input() {
    // Sound months until the rest is less than a month, and then more digits in what ONS is due.
    let mut month = month_of(20, 5, 40);
    let mut months = Vec::new();
    while texts::files(&months).len() + texts::file(&month).len() <= PROGRAM_INPUT {
        months.push(month.clone());
        month.month = next_month(month.month);
    }
    let mut missing = PROGRAM_INPUT - texts::files(&months).len();
    for month in &mut months {
        // Up to ten digits more in each of these amounts.
        let amounts = month.agents.iter_mut().map(|agent| &mut agent.afs);
        for amount in amounts {
            let digits = missing.min(10);
            *amount = if digits == 0 { 0 } else { 10_i64.pow(digits as u32) };
            missing -= digits;
        }
    }
    assert_eq!(missing, 0);
    let input = texts::files(&months);
    assert_eq!(input.len(), PROGRAM_INPUT);
    assert_eq!(events(&input).len(), months.len());
    assert!(events(&input).iter().all(|event| matches!(event, Event::Closed(_))));
    assert_eq!(check_run(&input, &settle(&input)), Ok(()));
    // The size is tested before anything else is.
    for more in [&b"m"[..], b"x", b"month,ons\n"] {
        let longer = [&input[..], more].concat();
        assert_eq!(events(&longer), [Event::Refused(Refusal::new(12, 0))]);
        assert_eq!(printed(&longer), "refused,12,0\n");
    }
}
