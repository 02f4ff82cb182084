//! The rows of `consulta` by themselves, without the reference calculation: they add up, and they hold what `settle`
//! prints.

use rateio_reference::program::OUTPUT_NAMES;
use std::collections::HashMap;

/// A row as it is printed.
struct Row<'a> {
    month: &'a str,
    item: &'a str,
    payee: &'a str,
    user: &'a str,
    cents: &'a str,
}

fn row(line: &str) -> Result<Row<'_>, String> {
    match line.split(',').collect::<Vec<_>>()[..] {
        [month, item, payee, user, _, cents] => Ok(Row { month, item, payee, user, cents }),
        _ => Err(format!("{:?} has not six columns", line)),
    }
}

/// One file's part of an output: a refusal, or the rows of a month.
enum Part<'a> {
    Refused(&'a str),
    Month(Vec<Row<'a>>),
}

fn parts(output: &str) -> Result<Vec<Part<'_>>, String> {
    let mut parts: Vec<Part> = Vec::new();
    for line in output.lines().skip(1) {
        if line.starts_with("refused,") {
            parts.push(Part::Refused(line));
            continue;
        }
        let row = row(line)?;
        match parts.last_mut() {
            Some(Part::Month(rows)) if rows[0].month == row.month => rows.push(row),
            _ => parts.push(Part::Month(vec![row])),
        }
    }
    Ok(parts)
}

/// What `settle` prints, taken from these rows.
pub fn as_settle(output: &[u8]) -> Result<String, String> {
    let output = std::str::from_utf8(output).map_err(|why| why.to_string())?;
    let mut settle = String::from(OUTPUT_NAMES);
    for part in parts(output)? {
        match part {
            Part::Refused(line) => settle.push_str(&format!("{}\n", line)),
            Part::Month(rows) => {
                for row in rows.iter().filter(|row| row.item == "cell") {
                    settle.push_str(&format!("{},{},{},{}\n", row.month, row.payee, row.user, row.cents));
                }
                for row in rows.iter().filter(|row| row.item == "held_after") {
                    settle.push_str(&format!("{},held,{},{}\n", row.month, row.user, row.cents));
                }
            }
        }
    }
    Ok(settle)
}

/// Whether the rows of every month add up, and credits are handed on from month to month.
pub fn add_up(output: &[u8]) -> Result<(), String> {
    let output = std::str::from_utf8(output).map_err(|why| why.to_string())?;
    let mut held: HashMap<String, i128> = HashMap::new();
    for part in parts(output)? {
        if let Part::Month(rows) = part {
            month_adds_up(&rows, &mut held).map_err(|why| format!("{}: {}", rows[0].month, why))?;
        }
    }
    Ok(())
}

/// Sums of cents by item, payee and user; several points of one user fall together, and cells by row and by column.
struct Sums<'a>(HashMap<(&'a str, &'a str, &'a str), i128>);

impl<'a> Sums<'a> {
    fn of(rows: &[Row<'a>]) -> Result<Sums<'a>, String> {
        let mut sums = HashMap::new();
        for row in rows {
            let cents: i128 = row.cents.parse().map_err(|_| format!("cents {:?}", row.cents))?;
            if row.item == "cell" {
                *sums.entry(("row", row.payee, "")).or_insert(0) += cents;
                *sums.entry(("column", "", row.user)).or_insert(0) += cents;
            } else {
                *sums.entry((row.item, row.payee, row.user)).or_insert(0) += cents;
            }
        }
        Ok(Sums(sums))
    }

    fn get(&self, item: &str, payee: &str, user: &str) -> i128 {
        self.0.get(&(item, payee, user)).copied().unwrap_or(0)
    }

    fn total(&self, item: &str) -> i128 {
        self.0.iter().filter(|((of, _, _), _)| *of == item).map(|(_, cents)| cents).sum()
    }
}

fn month_adds_up(rows: &[Row], held: &mut HashMap<String, i128>) -> Result<(), String> {
    let sums = Sums::of(rows)?;
    for row in rows.iter().filter(|row| row.item == "EUST") {
        let user = row.user;
        let of = |item: &str| sums.get(item, "", user);
        let at = |what: &str| format!("user {}: {}", user, what);
        same(of("use"), of("EUST"), || at("use of its points, EUST"))?;
        same(of("overrun"), of("overruns"), || at("overrun of its points, overruns"))?;
        same(of("VME"), of("EUST") + of("overruns") + of("ret"), || at("VME, EUST + overruns + ret"))?;
        same(of("n"), of("VME") - of("CPV") - of("held_before"), || at("n, VME - CPV - held_before"))?;
        same(of("VD") - of("held_after"), of("n"), || at("VD - held_after, n"))?;
        same(of("VD").min(of("held_after")), 0, || at("the lesser of VD and held_after, 0"))?;
        same(of("column"), of("VD") + of("ong"), || at("its cells, VD + ong"))?;
        let before = held.insert(user.to_string(), of("held_after")).unwrap_or(0);
        same(of("held_before"), before, || at("held_before, held_after of the month before"))?;
    }
    for row in rows.iter().filter(|row| row.item == "VC") {
        let payee = row.payee;
        let of = |item: &str| sums.get(item, payee, "");
        let at = |what: &str| format!("payee {}: {}", payee, what);
        same(of("row"), of("VC"), || at("its cells, VC"))?;
        if payee == "ons" {
            same(of("VC"), of("ons") + sums.total("ong"), || at("VC, ons + all ong"))?;
        } else {
            let parts = of("VMST") + of("VMPA") + of("VMANT") + of("ret");
            same(of("VC"), parts, || at("VC, VMST + VMPA + VMANT + ret"))?;
        }
    }
    same(sums.total("VC"), sums.total("VD") + sums.total("ong"), || "all VC, all VD + all ong".to_string())?;
    same(sums.total("VMANT"), sums.total("SMSE"), || "all VMANT, SMSE".to_string())
}

fn same(left: i128, right: i128, what: impl Fn() -> String) -> Result<(), String> {
    if left == right {
        return Ok(());
    }
    Err(format!("{}: {} and {}", what(), left, right))
}
