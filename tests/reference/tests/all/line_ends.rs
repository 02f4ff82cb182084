//! Lines that end in CR LF (request Q-3): where that is read as LF, and the place of a CR that is no part of an end.

use rateio_reference::months::{counts_up_to, Counts};
use rateio_reference::program::{check_run, events, settle, Event, PROGRAM_INPUT};
use rateio_reference::read::{check_text, read_month, Capacity, ANY_COUNT};
use rateio_reference::refusals::Refusal;
use rateio_reference::rng::Rng;
use rateio_reference::{consulta, sample, texts};

const SMALL: Counts = Counts { users: 4, agents: 3, points: 4 };

/// The worked file in CR LF.
fn office() -> Vec<u8> {
    sample::INPUT.replace('\n', "\r\n").into_bytes()
}

/// Files on end with any values.
fn some_files(rng: &mut Rng) -> Vec<u8> {
    let months: Vec<_> = (0..1 + rng.below(3))
        .map(|_| {
            let counts = counts_up_to(rng, SMALL);
            texts::any_values(rng, counts)
        })
        .collect();
    texts::files(&months)
}

#[test]
fn the_worked_file_in_cr_lf() {
    let (lf, cr_lf) = (sample::INPUT.as_bytes(), office());
    assert_eq!((lf.len(), cr_lf.len()), (192, 203));
    assert_eq!(texts::cr_lf(lf), cr_lf);
    assert_eq!(texts::cr_lf(&cr_lf), cr_lf, "an LF that has its CR gets no other");
    assert_eq!(check_text(&cr_lf), -1);
    let (lines, next) = read_month(&cr_lf, 0, ANY_COUNT).expect("a sound file");
    assert_eq!((lines, next), (read_month(lf, 0, ANY_COUNT).expect("a sound file").0, 203));
    // "Output keeps LF."
    assert_eq!(String::from_utf8_lossy(&settle(&cr_lf)), sample::OUTPUT);
    assert_eq!(String::from_utf8_lossy(&consulta::consulta(&cr_lf)), sample::CONSULTA);
    assert!(check_run(&cr_lf, sample::OUTPUT.replace('\n', "\r\n").as_bytes()).is_err());
}

#[test]
fn any_choice_of_ends_is_read() {
    let text = sample::INPUT.as_bytes();
    let lines = read_month(text, 0, ANY_COUNT).expect("a sound file").0;
    let lfs = texts::bare_lfs(text);
    for choice in 0..1_usize << lfs.len() {
        let chosen: Vec<usize> = (0..lfs.len()).filter(|k| choice >> k & 1 == 1).map(|k| lfs[k]).collect();
        let mixed = texts::with_crs(text, &chosen);
        assert_eq!(read_month(&mixed, 0, ANY_COUNT), Ok((lines.clone(), text.len() + chosen.len())));
    }
    // Each end for itself, also from file to file.
    for files in [[text, &office()], [&office(), text]] {
        assert_eq!(check_text(&files.concat()), -1);
    }
}

#[test]
fn places_of_a_cr() {
    // What stands after a line of names and a line of values, and its place there.
    for (end, place) in [
        ("\r", 1),
        ("\rx", 1),
        ("\r1", 1),
        ("\r,", 1),
        ("\rm", 1),
        ("\r\r\n", 1),
        ("\r\r", 1),
        ("\n\r", 1),
        ("\n\r\n", 1),
        ("\r\n\r", 2),
        ("\r\n\r\n", 2),
        ("\r\n\n", 2),
        ("\r\n", 2),
        (" \r\n", 0),
        (",\r\n", 0),
    ] {
        let names = "month,ons";
        let text = format!("{}{}", names, end);
        assert_eq!(check_text(text.as_bytes()), (names.len() + place) as i64, "{:?}", text);
        let text = format!("month,ons\r\n202407,10{}", end);
        // A comma would begin a third value, which a month line has not.
        assert_eq!(check_text(text.as_bytes()), (text.len() - end.len() + place) as i64, "{:?}", text);
    }
    // Where no line may end, the CR is the wrong byte.
    for (start, rest) in [
        ("", "\r\n"),
        ("", "\r"),
        ("mon", "\rth"),
        ("month,", "\r\nons"),
        ("month,ons\r\n", "\r\n"),
        ("month,ons\n", "\r1"),
        ("month,ons\n202407", "\r\n"),
        ("month,ons\n202407,", "\r\n"),
        ("month,ons\n202407,-", "\r\n"),
        ("month,ons\n202407,1\nagent,pb,pv,afs,rfs,pa,ret\r\n1,2,3,4,5,6", "\r\n"),
    ] {
        let text = format!("{}{}", start, rest);
        assert_eq!(check_text(text.as_bytes()), start.len() as i64, "{:?}", text);
    }
    // 0 stands alone, and 18 digits are the most: after either a line may end.
    for value in ["0", "-1", "999999999999999999", "-999999999999999999"] {
        let text = format!("month,ons\n202407,{}\r", value);
        assert_eq!(check_text(text.as_bytes()), text.len() as i64, "{:?}", text);
    }
}

#[test]
fn a_cr_after_a_file() {
    for file in [sample::INPUT.as_bytes().to_vec(), office()] {
        let end = file.len();
        let place = |rest: &[u8]| check_text(&[&file[..], rest].concat());
        // Nothing, or the `m` of a further file, comes after a file.
        assert_eq!(place(b"\r"), end as i64);
        assert_eq!(place(b"\r\n"), end as i64);
        assert_eq!(place(&[b"\r", &file[..]].concat()), end as i64);
        assert_eq!(place(&[b"\r\n", &file[..]].concat()), end as i64);
        // The last line without its LF; a CR in its place is in order after the line's values, and a second CR is not.
        let lf = end - 1;
        assert_eq!(check_text(&file[..lf]), lf as i64);
        let due = if file[lf - 1] == b'\r' { lf } else { lf + 1 };
        let mut lone = [&file[..], &file[..]].concat();
        lone[lf] = b'\r';
        assert_eq!(check_text(&lone[..end]), due as i64);
        // Before the `m` of a further file, which is no LF.
        assert_eq!(check_text(&lone), due as i64);
    }
}

#[test]
fn a_line_too_many_in_cr_lf() {
    let text = office();
    let at = |line: &str| String::from_utf8_lossy(&text).find(line).expect("a line of the worked file") as u64;
    let room = Capacity { agents: 2, users: 2, points: 2 };
    assert!(read_month(&text, 0, room).is_ok());
    let refused = |capacity| read_month(&text, 0, capacity).expect_err("a line too many");
    assert_eq!(refused(Capacity { agents: 1, ..room }), Refusal::new(12, at("2,2000,30")));
    assert_eq!(refused(Capacity { users: 0, ..room }), Refusal::new(12, at("1,2,0,0\r")));
    assert_eq!(refused(Capacity { points: 1, ..room }), Refusal::new(12, at("2,2000,0,50")));
    // The line's own CR is not looked at, and a CR before the line comes first.
    let alone = text[..at("2,2000,30") as usize + 8].to_vec();
    assert_eq!(read_month(&alone, 0, Capacity { agents: 1, ..room }), Err(Refusal::new(12, at("2,2000,30"))));
    let lone = String::from_utf8_lossy(&text).replacen(",0,4\r\n", ",0,4\r", 1);
    let place = at("2,2000,30") - 1;
    assert_eq!(read_month(lone.as_bytes(), 0, Capacity { agents: 1, ..room }), Err(Refusal::new(11, place)));
}

#[test]
fn the_longest_input_counts_every_byte() {
    let file = sample::INPUT.as_bytes();
    let copies = PROGRAM_INPUT / file.len();
    let text = file.repeat(copies);
    let closed = |text: &[u8]| matches!(events(text)[0], Event::Closed(_));
    let crs = PROGRAM_INPUT - text.len();
    let lfs = texts::bare_lfs(&text);
    let fits = texts::with_crs(&text, &lfs[..crs]);
    assert_eq!(fits.len(), PROGRAM_INPUT);
    assert!(closed(&fits) && events(&fits).len() == copies);
    let too_long = texts::with_crs(&text, &lfs[..=crs]);
    assert_eq!(too_long.len(), PROGRAM_INPUT + 1);
    assert_eq!(events(&too_long), [Event::Refused(Refusal::new(12, 0))]);
    // Fits in LF, and not in CR LF.
    assert!(closed(&text));
    assert_eq!(events(&texts::cr_lf(&text)), [Event::Refused(Refusal::new(12, 0))]);
}

/// Where a place comes to when CRs are put in before these bytes: each that is put in before an earlier byte moves it.
fn moved(place: u64, crs: &[usize]) -> u64 {
    place + crs.iter().filter(|&&at| (at as u64) < place).count() as u64
}

#[test]
fn a_cr_before_an_lf_changes_nothing_but_places() {
    let mut rng = Rng::new(61);
    let mut seen = [0; 3];
    for _ in 0..6_000 {
        let mut text = some_files(&mut rng);
        if rng.chance(30) {
            text = texts::mixed(&mut rng, &text);
        }
        if rng.chance(70) {
            text = texts::damaged(&mut rng, &text);
        }
        let crs: Vec<usize> = texts::bare_lfs(&text).into_iter().filter(|_| rng.chance(50)).collect();
        let longer = texts::with_crs(&text, &crs);
        let due = match check_text(&text) {
            -1 => -1,
            place => moved(place as u64, &crs) as i64,
        };
        assert_eq!(check_text(&longer), due, "{:?}", String::from_utf8_lossy(&longer));
        let mut room = |lines: usize| if rng.chance(70) { 1_000 } else { rng.below(lines + 1) };
        let capacity = Capacity { agents: room(3), users: room(4), points: room(4) };
        let due = match read_month(&text, 0, capacity) {
            Ok((lines, next)) => Ok((lines, moved(next as u64, &crs) as usize)),
            Err(refusal) => Err(Refusal { place: moved(refusal.place, &crs), ..refusal }),
        };
        match &due {
            Ok(_) => seen[0] += 1,
            Err(refusal) => seen[refusal.number as usize - 10] += 1,
        }
        assert_eq!(read_month(&longer, 0, capacity), due, "{:?}", String::from_utf8_lossy(&longer));
    }
    assert!(seen.iter().all(|&count| count > 500), "accepted, 11 and 12 have to come up: {:?}", seen);
}

#[test]
fn runs_in_cr_lf_print_the_same() {
    let mut rng = Rng::new(62);
    let mut refused = 0;
    for _ in 0..300 {
        let text = texts::run_input(&mut rng, SMALL);
        let crs: Vec<usize> = texts::bare_lfs(&text).into_iter().filter(|_| rng.chance(50)).collect();
        // The places of 11 and 12 alone are places in the text.
        let due: Vec<Event> = events(&text)
            .into_iter()
            .map(|event| match event {
                Event::Refused(refusal) if refusal.number >= 11 => {
                    refused += 1;
                    Event::Refused(Refusal { place: moved(refusal.place, &crs), ..refusal })
                }
                event => event,
            })
            .collect();
        assert_eq!(events(&texts::with_crs(&text, &crs)), due);
    }
    assert!(refused > 20, "{}", refused);
}
