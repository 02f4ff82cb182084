// Tables of cells from the proved code, each checked against paper 01 by 128-bit arithmetic: every cell is the floor of
// VC × VD / ΣVD, or that plus 1 where the value is not whole; every row totals VC, every column VD; nothing else is written. Before
// them shares of single rates: amount × weight / sum rounded down, and what is left.

extern "C" {
    fn rateio_test_fill(
        vc: *const i64,
        payees: usize,
        vd: *const i64,
        users: usize,
        cells: *mut i64,
        cells_len: usize,
        work: *mut u64,
        work_len: usize,
    );
    fn rateio_test_at(amount: i64, w: u64, t: u64, rest: *mut u64) -> i64;
}

const LIMIT: i64 = 100_000_000_000_000_000;
const BEYOND: usize = 5;
const SHAPES: usize = 11;

// splitmix64
struct Random(u64);

impl Random {
    fn next(&mut self) -> u64 {
        self.0 = self.0.wrapping_add(0x9e37_79b9_7f4a_7c15);
        let mut z = self.0;
        z = (z ^ (z >> 30)).wrapping_mul(0xbf58_476d_1ce4_e5b9);
        z = (z ^ (z >> 27)).wrapping_mul(0x94d0_49bb_1331_11eb);
        z ^ (z >> 31)
    }

    // low..=high
    fn range(&mut self, low: i64, high: i64) -> i64 {
        let span = (high as i128 - low as i128 + 1) as u128;
        (low as i128 + (self.next() as u128 % span) as i128) as i64
    }
}

fn fill(vc: &[i64], vd: &[i64]) -> Result<Vec<i64>, String> {
    let size = vc.len() * vd.len();
    let mut cells = vec![-7_i64; size + BEYOND];
    let room = 2 * size + 4 * (vc.len() + vd.len());
    let mut work = vec![0xdead_beef_u64; room + BEYOND];
    unsafe {
        rateio_test_fill(
            vc.as_ptr(),
            vc.len(),
            vd.as_ptr(),
            vd.len(),
            cells.as_mut_ptr(),
            size,
            work.as_mut_ptr(),
            room,
        );
    }
    if cells[size..].iter().any(|&x| x != -7) {
        return Err("an entry beyond the cells was written".into());
    }
    if work[room..].iter().any(|&x| x != 0xdead_beef) {
        return Err("an entry beyond the work slice was written".into());
    }
    cells.truncate(size);
    Ok(cells)
}

// The three properties; how many cells took the extra cent.
fn verify(vc: &[i64], vd: &[i64], cells: &[i64]) -> Result<usize, String> {
    let users = vd.len();
    let sum: i128 = vd.iter().map(|&x| x as i128).sum();
    let mut extra = 0;
    for (i, &c) in vc.iter().enumerate() {
        for (j, &d) in vd.iter().enumerate() {
            let exact = c as i128 * d as i128;
            let floor = exact.div_euclid(sum);
            let whole = exact.rem_euclid(sum) == 0;
            let cell = cells[i * users + j] as i128;
            if cell == floor + 1 && !whole {
                extra += 1;
            } else if cell != floor {
                return Err(format!("cell ({i}, {j}) is {cell}, its floor {floor}, whole: {whole}"));
            }
        }
        let row: i128 = cells[i * users..(i + 1) * users].iter().map(|&x| x as i128).sum();
        if row != c as i128 {
            return Err(format!("row {i} totals {row} and not {c}"));
        }
    }
    for (j, &d) in vd.iter().enumerate() {
        let column: i128 = (0..vc.len()).map(|i| cells[i * users + j] as i128).sum();
        if column != d as i128 {
            return Err(format!("column {j} totals {column} and not {d}"));
        }
    }
    Ok(extra)
}

// Debits that sum to 1..=10^17, and credits that sum to the same: drawn within `reach`, the rest spread over payees that can take it.
fn credits(r: &mut Random, payees: usize, sum: i64, reach: i64, zeros: i64) -> Vec<i64> {
    let mut vc: Vec<i64> = (0..payees)
        .map(|_| if r.range(0, 99) < zeros { 0 } else { r.range(-reach, reach) })
        .collect();
    let mut rest = sum as i128 - vc.iter().map(|&x| x as i128).sum::<i128>();
    for x in vc.iter_mut() {
        let new = (*x as i128 + rest).clamp(-(LIMIT as i128), LIMIT as i128);
        rest -= new - *x as i128;
        *x = new as i64;
    }
    assert_eq!(rest, 0);
    vc
}

fn shares(r: &mut Random, payees: usize, sum: i64) -> Vec<i64> {
    let mut vc = vec![0_i64; payees];
    let mut left = sum;
    for x in vc.iter_mut().skip(1) {
        *x = r.range(0, 2 * (sum / payees as i64).max(1)).min(left);
        left -= *x;
    }
    vc[0] = left;
    vc
}

fn debits(r: &mut Random, users: usize, most: i64, zeros: i64) -> Vec<i64> {
    let top = (most / users as i64).max(1);
    let mut vd: Vec<i64> = (0..users)
        .map(|_| if r.range(0, 99) < zeros { 0 } else { r.range(0, top) })
        .collect();
    if vd.iter().all(|&x| x == 0) {
        let k = r.range(0, users as i64 - 1) as usize;
        vd[k] = 1;
    }
    vd
}

// One month of a shape; seeds go through all shapes.
fn month(shape: u64, r: &mut Random, payees: usize, users: usize) -> (Vec<i64>, Vec<i64>) {
    let scale = [20, 1_000, 1_000_000, 1_000_000_000_000, LIMIT][r.range(0, 4) as usize].max(users as i64);
    match shape {
        // credits of either sign, some zero, debits some zero
        0 => {
            let vd = debits(r, users, scale, 20);
            let sum = vd.iter().sum();
            let reach = [sum, (3 * (sum as i128)).min(LIMIT as i128) as i64, LIMIT][r.range(0, 2) as usize];
            (credits(r, payees, sum, reach, 10), vd)
        }
        // no negative credit
        1 => {
            let vd = debits(r, users, scale, 0);
            (shares(r, payees, vd.iter().sum()), vd)
        }
        // all debits equal
        2 => {
            let d = r.range(1, (scale / users as i64).max(1));
            let vd = vec![d; users];
            let sum = d * users as i64;
            (if r.next() % 2 == 0 { shares(r, payees, sum) } else { credits(r, payees, sum, sum, 5) }, vd)
        }
        // debits 1 to n
        3 => {
            let vd: Vec<i64> = (1..=users as i64).collect();
            let sum = vd.iter().sum();
            (credits(r, payees, sum, sum, 0), vd)
        }
        // one large payee
        4 => {
            let vd = debits(r, users, scale, 5);
            let sum: i64 = vd.iter().sum();
            let mut vc: Vec<i64> = (0..payees).map(|_| r.range(0, 3)).collect();
            let k = r.range(0, payees as i64 - 1) as usize;
            vc[k] = 0;
            vc[k] = sum - vc.iter().sum::<i64>();
            (vc, vd)
        }
        // nearly all credits negative
        5 => {
            let vd = debits(r, users, scale, 0);
            let sum: i64 = vd.iter().sum();
            let reach = LIMIT / 300;
            let mut vc: Vec<i64> = (0..payees).map(|_| -r.range(0, reach.min(4 * sum))).collect();
            let k = r.range(0, payees as i64 - 1) as usize;
            vc[k] = 0;
            vc[k] = (sum as i128 - vc.iter().map(|&x| x as i128).sum::<i128>()) as i64;
            if vc[k] > LIMIT {
                vc = shares(r, payees, sum);
            }
            (vc, vd)
        }
        // every cell whole: credits are multiples of ΣVD over a common divisor of the debits
        6 => {
            let d = r.range(1, (LIMIT / 1_000_000) / users as i64);
            let vd: Vec<i64> = (0..users).map(|_| d * r.range(0, 9)).collect();
            let sum: i64 = vd.iter().sum();
            if sum == 0 {
                return month(7, r, payees, users);
            }
            let unit = sum / d;
            let mut vc: Vec<i64> = (0..payees).map(|_| unit * r.range(-3, 3)).collect();
            vc[0] = 0;
            vc[0] = sum - vc.iter().sum::<i64>();
            (vc, vd)
        }
        // ΣVD = 1
        7 => {
            let mut vd = vec![0_i64; users];
            vd[r.range(0, users as i64 - 1) as usize] = 1;
            let reach = [1, 5, LIMIT][r.range(0, 2) as usize];
            (credits(r, payees, 1, reach, 30), vd)
        }
        // many whole cells in patterns, on which the dealing leaves marks to the search
        8 | 9 => {
            let vd: Vec<i64> = match r.range(0, 3) {
                0 => (0..users).map(|j| if j < users / 2 { 1 } else { users as i64 }).collect(),
                1 => (0..users).map(|_| [1, 2, 3, 4, 6, 12][r.range(0, 5) as usize]).collect(),
                2 => (0..users).map(|_| 1 << r.range(0, 4)).collect(),
                _ => (0..users).map(|j| (j % 3) as i64 + (users == 1) as i64).collect(),
            };
            let sum: i64 = vd.iter().sum();
            if sum == 0 {
                return month(7, r, payees, users);
            }
            let divisors: Vec<i64> = (1..=sum.min(4_000)).filter(|d| sum % d == 0).collect();
            let mut vc: Vec<i64> = (0..payees)
                .map(|_| {
                    let d = divisors[r.range(0, divisors.len() as i64 - 1) as usize];
                    r.range(-1, 3) * (sum / d) + (r.range(0, 3) == 0) as i64
                })
                .collect();
            vc[payees - 1] = 0;
            vc[payees - 1] = sum - vc.iter().sum::<i64>();
            (vc, vd)
        }
        // amounts at their limits
        _ => {
            let mut vd = vec![0_i64; users];
            for _ in 0..r.range(1, 4) {
                vd[r.range(0, users as i64 - 1) as usize] += LIMIT / 4 - r.range(0, 9);
            }
            let sum = vd.iter().sum();
            (credits(r, payees, sum, LIMIT, 0), vd)
        }
    }
}

// A number up to `most`, as often as not within 3 of either end.
fn near(r: &mut Random, most: i64) -> i64 {
    let k = r.range(0, 3).min(most);
    match r.range(0, 3) {
        0 => k,
        1 => most - k,
        _ => r.range(0, most),
    }
}

fn rates(count: u64) -> Result<(), String> {
    let mut r = Random(count);
    for _ in 0..count {
        let most = [20, 1_000_000, LIMIT / 1_000, LIMIT][r.range(0, 3) as usize];
        let w = near(&mut r, most).max(1);
        let t = near(&mut r, w);
        let size = near(&mut r, LIMIT);
        let amount = if r.range(0, 1) == 0 { size } else { -size };
        let mut rest = 0;
        let share = unsafe { rateio_test_at(amount, w as u64, t as u64, &mut rest) };
        let exact = amount as i128 * t as i128;
        if (share as i128, rest as i128) != (exact.div_euclid(w as i128), exact.rem_euclid(w as i128)) {
            return Err(format!("{amount} x {t} / {w}: {share}, rest {rest}"));
        }
    }
    println!("{count} shares of rates: all as a division of 128 bits has them");
    Ok(())
}

fn case_d() -> Result<(), String> {
    let (vc, vd) = ([632, 1238, 100], [296, 1674]);
    let cells = fill(&vc, &vd)?;
    verify(&vc, &vd, &cells)?;
    let user = [cells[0], cells[2], cells[4]];
    if ![[95, 186, 15], [94, 187, 15], [94, 186, 16]].contains(&user) {
        return Err(format!("case d: {user:?}"));
    }
    println!("case d: user 1 has {user:?}");
    Ok(())
}

fn run(tables: u64) -> Result<(), String> {
    rates(2_000_000)?;
    case_d()?;
    let mut seen = [0_u64; SHAPES];
    let (mut cells, mut extra, mut broken_rows) = (0_usize, 0_usize, 0_usize);
    for seed in 0..tables {
        let mut r = Random(seed);
        let shape = seed % SHAPES as u64;
        let (payees, users) = match seed % 64 {
            62 => (257, 512),
            63 => (r.range(1, 257) as usize, r.range(1, 512) as usize),
            k if k % 8 == 6 => (1, r.range(1, 64) as usize),
            k if k % 8 == 7 => (r.range(1, 64) as usize, 1),
            k if k % 8 == 5 => (r.range(1, 40) as usize, r.range(1, 80) as usize),
            _ => (r.range(1, 9) as usize, r.range(1, 9) as usize),
        };
        let (vc, vd) = month(shape, &mut r, payees, users);
        assert!(vc.iter().all(|x| x.abs() <= LIMIT) && vd.iter().all(|&x| x >= 0));
        let sum: i64 = vd.iter().sum();
        assert!((1..=LIMIT).contains(&sum) && vc.iter().map(|&x| x as i128).sum::<i128>() == sum as i128);
        let table = fill(&vc, &vd).map_err(|e| format!("seed {seed}: {e}"))?;
        extra += verify(&vc, &vd, &table).map_err(|e| format!("seed {seed}: {e}"))?;
        cells += table.len();
        broken_rows += vc.iter().filter(|&&x| x < 0).count();
        seen[shape as usize] += 1;
    }
    println!("{tables} tables, {cells} cells, {extra} with the extra cent, {broken_rows} negative credits, by shape {seen:?}: all as paper 01 asks");
    Ok(())
}

fn main() {
    let tables = std::env::args().nth(1).and_then(|x| x.parse().ok()).unwrap_or(6_400);
    if let Err(e) = run(tables) {
        eprintln!("FAILED: {e}");
        std::process::exit(1);
    }
}
