//! The program `consulta`: what it prints, and the check of an output.

use rateio_reference::consulta::{check_run, consulta, print};
use rateio_reference::months::Counts;
use rateio_reference::program::events;
use rateio_reference::rng::Rng;
use rateio_reference::table::random_table;
use rateio_reference::{sample, texts};

const SMALL: Counts = Counts { users: 6, agents: 4, points: 10 };

/// What `consulta` prints, without the names' line.
fn printed(input: &str) -> String {
    let output = String::from_utf8(consulta(input.as_bytes())).expect("the output is ASCII");
    output.strip_prefix("month,item,payee,user,point,cents\n").expect("names come first in every run").to_string()
}

/// The cents of every row that begins so.
fn cents(rows: &str, start: &str) -> Vec<i64> {
    let rows = rows.lines().filter(|row| row.starts_with(start));
    rows.map(|row| row.rsplit(',').next().expect("a last column").parse().expect("cents")).collect()
}

#[test]
fn the_worked_month_whole() {
    assert_eq!(String::from_utf8(consulta(sample::INPUT.as_bytes())).expect("ASCII"), sample::CONSULTA);
    assert_eq!(check_run(sample::INPUT.as_bytes(), sample::CONSULTA.as_bytes()), Ok(()));
}

#[test]
fn refusals_are_printed_as_settle_does() {
    let sound = sample::INPUT;
    let rows = printed(sound);
    let broken = sound.replace(",50,0,16", ",101,0,16");
    assert_eq!(printed(&broken), "refused,5,2\n");
    assert_eq!(printed(&format!("{}{}", broken, sound)), format!("refused,5,2\n{}", rows));
    assert_eq!(printed(&format!("{}{}", sound, sound)), format!("{}refused,3,0\n", rows));
    assert_eq!(printed(&format!("{}mo", sound)), format!("{}refused,11,{}\n", rows, sound.len() + 2));
    assert_eq!(printed(&sound.replace("1,2,0,0\n2,3,0,0\n", "")), "refused,1,0\n");
    assert_eq!(printed(""), "refused,11,0\n");
    assert_eq!(printed(&"m".repeat(32_769)), "refused,12,0\n");
}

/// A point's row names its user; an overrun has the kind's allowance; a generator's point has one band.
#[test]
fn points_by_their_users() {
    // Consumer, tp 5432: 1,051 kW verified of 1,000 contracted (case g); a second point of the same user; no points of 2.
    let points = "1,5432,0,0,0,1000,0,1051,0\n1,5,0,0,0,1,0,1,0\n";
    let start = sample::INPUT.split("1,1000,500").next().expect("a start").to_string();
    let rows = printed(&(start + points));
    assert_eq!(cents(&rows, "202407,use,,1,"), [543_200, 1]);
    assert_eq!(cents(&rows, "202407,overrun,,1,"), [1630, 0]);
    assert_eq!(cents(&rows, "202407,EUST,,"), [543_201, 0]);
    assert_eq!(cents(&rows, "202407,overruns,,"), [1630, 0]);
}

/// Case j: n of −50, then charges of 80: debit 0 with 50 held, then 30 with 0.
#[test]
fn held_credits_before_and_after() {
    let no_pv = sample::INPUT.replace("2,2000,30", "2,2000,0");
    let first = no_pv.replace("\n1,2,0,0\n", "\n1,2,-450,0\n");
    let second = no_pv.replace("202407", "202409").replace("\n1,2,0,0\n", "\n1,2,-320,0\n");
    let rows = printed(&(first + &second));
    let of_user_1 = |item: &str| -> Vec<i64> {
        ["202407", "202409"].iter().flat_map(|month| cents(&rows, &format!("{},{},,1,,", month, item))).collect()
    };
    assert_eq!(of_user_1("held_before"), [0, 50]);
    assert_eq!(of_user_1("n"), [-50, 30]);
    assert_eq!(of_user_1("VD"), [0, 30]);
    assert_eq!(of_user_1("held_after"), [50, 0]);
}

#[test]
fn outputs_with_any_table_are_right() {
    let mut rng = Rng::new(51);
    for _ in 0..500 {
        let input = texts::run_input(&mut rng, SMALL);
        assert_eq!(check_run(&input, &consulta(&input)), Ok(()));
        let other = print(&events(&input), |vc, vd| random_table(vc, vd, &mut rng));
        assert_eq!(check_run(&input, &other), Ok(()));
    }
}

#[test]
fn any_wrong_byte_is_found() {
    let mut rng = Rng::new(52);
    let mut inputs = vec![sample::INPUT.as_bytes().to_vec(), b"".to_vec()];
    inputs.extend((0..4).map(|_| texts::run_input(&mut rng, SMALL)));
    for input in inputs {
        let output = consulta(&input);
        for at in 0..output.len() {
            let mut wrong = output.clone();
            let byte = rng.pick(b"0123456789,-\nronscelVD x");
            if wrong[at] != byte {
                wrong[at] = byte;
                assert!(check_run(&input, &wrong).is_err(), "{:?}", String::from_utf8_lossy(&wrong));
            }
            let mut short = output.clone();
            short.remove(at);
            assert!(check_run(&input, &short).is_err(), "{:?}", String::from_utf8_lossy(&short));
            assert!(check_run(&input, &output[..at]).is_err());
        }
        for more in ["\n", "x", "refused,1,0\n", "202407,cell,1,1,,0\n"] {
            assert!(check_run(&input, &[&output[..], more.as_bytes()].concat()).is_err());
        }
    }
}
