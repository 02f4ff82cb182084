//! The table of cells ("The table of cells"): what one is, one such table, and all of them.
//!
//! Payees are rows and users are columns. A cell whose exact value is whole holds that value; any other, a broken cell,
//! holds the floor or one cent more. That is the table of the shared credits and debits; the direct charges are added to
//! ONS's row, the last, once it is formed (change request Q-1).

use crate::rng::Rng;

/// Floor of the exact value VC × VD / ΣVD, and what is left of VC × VD above the floor (0 where the value is whole).
fn floor_and_rest(vc: i128, vd: i128, total: i128) -> (i128, i128) {
    ((vc * vd).div_euclid(total), (vc * vd).rem_euclid(total))
}

/// Whether `cells` is a table for these credits and debits; if not, the first property that fails.
pub fn is_table(vc: &[i128], vd: &[i128], cells: &[i64]) -> Result<(), String> {
    let total: i128 = vd.iter().sum();
    if total <= 0 {
        return Err(format!("the debits total {}, so no cell has a value", total));
    }
    let users = vd.len();
    if cells.len() != vc.len() * users {
        return Err(format!("{} cells for {} payees and {} users", cells.len(), vc.len(), users));
    }
    let cell = |i: usize, j: usize| i128::from(cells[i * users + j]);
    for (i, &vc) in vc.iter().enumerate() {
        for (j, &vd) in vd.iter().enumerate() {
            let (floor, rest) = floor_and_rest(vc, vd, total);
            let right = cell(i, j) == floor || (rest != 0 && cell(i, j) == floor + 1);
            if !right {
                let or = if rest == 0 { "" } else { " or 1 more" };
                return Err(format!("payee {}, user {}: {} and not {}{}", i + 1, j + 1, cell(i, j), floor, or));
            }
        }
        let row: i128 = (0..users).map(|j| cell(i, j)).sum();
        if row != vc {
            return Err(format!("payee {}: cells total {} and not {}", i + 1, row, vc));
        }
    }
    for (j, &vd) in vd.iter().enumerate() {
        let column: i128 = (0..vc.len()).map(|i| cell(i, j)).sum();
        if column != vd {
            return Err(format!("user {}: cells total {} and not {}", j + 1, column, vd));
        }
    }
    Ok(())
}

/// A table with each user's direct charge in its ONS cell: the cells as they are billed.
pub fn with_direct(mut table: Vec<i64>, ong: &[i128]) -> Vec<i64> {
    let ons = table.len() - ong.len();
    for (cell, &ong) in table[ons..].iter_mut().zip(ong) {
        *cell += i64::try_from(ong).expect("a direct charge is an amount of a line");
    }
    table
}

/// Whether `cells` are billed for these shared credits, debits and direct charges: with the charges taken off ONS's row
/// they are a table. If not, the first property that fails.
pub fn is_billed(vc: &[i128], vd: &[i128], ong: &[i128], cells: &[i64]) -> Result<(), String> {
    if cells.len() != vc.len() * vd.len() {
        return Err(format!("{} cells for {} payees and {} users", cells.len(), vc.len(), vd.len()));
    }
    let mut shared = cells.to_vec();
    let ons = cells.len() - vd.len();
    for (j, (cell, &ong)) in shared[ons..].iter_mut().zip(ong).enumerate() {
        let left = i64::try_from(i128::from(*cell) - ong);
        *cell = left.map_err(|_| format!("ONS, user {}: {} less the direct charge {}", j + 1, cell, ong))?;
    }
    is_table(vc, vd, &shared)
}

/// One table. Credits and debits have the same total, above 0, and no debit is negative.
pub fn some_table(vc: &[i128], vd: &[i128]) -> Vec<i64> {
    Rounding::start(vc, vd).finish(|| true)
}

/// One table, the odd cents set by chance; for tests of what has to take any table.
pub fn random_table(vc: &[i128], vd: &[i128], rng: &mut Rng) -> Vec<i64> {
    Rounding::start(vc, vd).finish(|| rng.chance(50))
}

/// Every table, by trying each broken cell both ways; for tiny tables only.
pub fn all_tables(vc: &[i128], vd: &[i128]) -> Vec<Vec<i64>> {
    let start = Rounding::start(vc, vd);
    let broken: Vec<usize> = (0..start.rest.len()).filter(|&cell| start.rest[cell] != 0).collect();
    assert!(broken.len() <= 20, "{} broken cells are too many to try them all", broken.len());
    let mut tables = Vec::new();
    for choice in 0_u32..1 << broken.len() {
        let mut cells = start.floor.clone();
        for (bit, &cell) in broken.iter().enumerate() {
            cells[cell] += i64::from(choice >> bit & 1);
        }
        if is_table(vc, vd, &cells).is_ok() {
            tables.push(cells);
        }
    }
    tables
}

/// A table on its way to whole cents. Each cell is a floor and a rest from 0 to `total`, which counts for rest / total
/// of a cent; every row's and every column's rests total whole cents, at the start and ever after.
///
/// A cell is open while its rest lies strictly between 0 and `total`. A row or column with one open cell has another,
/// because its rests total whole cents. So a walk from open cell to open cell, by row and by column in turn, never
/// gets stuck and comes back to a line it has been to. Around that ring, rests are raised and lowered in turn by what
/// the tightest of them allows: no line's total changes and at least one cell stops being open. This repeats until no
/// cell is open, which is also why a table always exists.
///
/// The table's lines are numbered, its rows first and its columns after them.
struct Rounding {
    payees: usize,
    users: usize,
    total: i128,
    floor: Vec<i64>,
    rest: Vec<i128>,
    /// By line: no cell before this one is open. Cells never open again, so a search can start here.
    first_open: Vec<usize>,
}

impl Rounding {
    fn start(vc: &[i128], vd: &[i128]) -> Rounding {
        let total: i128 = vd.iter().sum();
        assert!(total > 0 && vd.iter().all(|&vd| vd >= 0), "debits total more than 0 and none is negative");
        assert_eq!(total, vc.iter().sum::<i128>(), "credits and debits have the same total");
        let mut floors = Vec::with_capacity(vc.len() * vd.len());
        let mut rests = Vec::with_capacity(vc.len() * vd.len());
        for &vc in vc {
            for &vd in vd {
                let (floor, rest) = floor_and_rest(vc, vd, total);
                floors.push(i64::try_from(floor).expect("a cell is no larger than its credit"));
                rests.push(rest);
            }
        }
        let first_open = vec![0; vc.len() + vd.len()];
        Rounding { payees: vc.len(), users: vd.len(), total, floor: floors, rest: rests, first_open }
    }

    /// Goes on until no cell is open; `raise` decides, ring by ring, whether its first cell goes up or down.
    fn finish(mut self, mut raise: impl FnMut() -> bool) -> Vec<i64> {
        for row in 0..self.payees {
            self.close_row(row, &mut raise);
        }
        let whole = self.floor.iter().zip(&self.rest).map(|(floor, &rest)| floor + i64::from(rest != 0));
        whole.collect()
    }

    /// Walks from a row, and rounds each ring the walk comes to, until the row has no open cell.
    fn close_row(&mut self, row: usize, raise: &mut impl FnMut() -> bool) {
        let mut lines = vec![row];
        let mut cells: Vec<usize> = Vec::new();
        // By line: its place on the walk.
        let mut place = vec![None; self.payees + self.users];
        place[row] = Some(0);
        loop {
            let here = lines[cells.len()];
            let cell = match self.open_cell(here, cells.last().copied()) {
                Some(cell) => cell,
                None => {
                    assert!(cells.is_empty(), "a line that was come to by an open cell has a second one");
                    return;
                }
            };
            cells.push(cell);
            let next = self.crossing(here, cell);
            match place[next] {
                None => {
                    place[next] = Some(lines.len());
                    lines.push(next);
                }
                // The walk goes on from where the ring began: the cells before it are as they were.
                Some(ring) => {
                    self.round_ring(&cells[ring..], raise());
                    lines.drain(ring + 1..).for_each(|line| place[line] = None);
                    cells.truncate(ring);
                }
            }
        }
    }

    fn round_ring(&mut self, ring: &[usize], raise: bool) {
        let rises = |step: usize| (step % 2 == 0) == raise;
        let room = |step: usize| if rises(step) { self.total - self.rest[ring[step]] } else { self.rest[ring[step]] };
        let change = (0..ring.len()).map(room).min().expect("a ring has cells");
        for (step, &cell) in ring.iter().enumerate() {
            self.rest[cell] += if rises(step) { change } else { -change };
        }
    }

    /// The first open cell of a line other than `except`.
    fn open_cell(&mut self, line: usize, except: Option<usize>) -> Option<usize> {
        let length = if line < self.payees { self.users } else { self.payees };
        while self.first_open[line] < length && !self.is_open(self.cell(line, self.first_open[line])) {
            self.first_open[line] += 1;
        }
        let mut cells = (self.first_open[line]..length).map(|k| self.cell(line, k));
        cells.find(|&cell| self.is_open(cell) && Some(cell) != except)
    }

    fn is_open(&self, cell: usize) -> bool {
        0 < self.rest[cell] && self.rest[cell] < self.total
    }

    /// The cell at place `k` of a line.
    fn cell(&self, line: usize, k: usize) -> usize {
        if line < self.payees {
            line * self.users + k
        } else {
            k * self.users + (line - self.payees)
        }
    }

    /// The line that crosses this one at a cell.
    fn crossing(&self, line: usize, cell: usize) -> usize {
        if line < self.payees {
            self.payees + cell % self.users
        } else {
            cell / self.users
        }
    }
}
