// Holds the exported share to a 128-bit calculation made from paper 01 alone, and times both on the same inputs.
// Keeps to std and to what rustc 1.63 has. Its argument is the file of stored shares.
use std::time::Instant;

type Share = unsafe extern "C" fn(i64, i64, i64, i64) -> i64;

extern "C" {
    fn rateio_share(p: i64, before: i64, through: i64, w: i64) -> i64;
}

fn ours(p: i64, before: i64, through: i64, w: i64) -> i64 {
    unsafe { rateio_share(p, before, through, w) }
}

const LIMIT: i64 = 100_000_000_000_000_000;
const REFUSED: i64 = -1_000_000_000_000_000_000;

// Which of the three tests fail, all of them and not just the first.
fn faults(x: [i64; 4]) -> [bool; 3] {
    let [p, before, through, w] = x;
    [
        !(-LIMIT..=LIMIT).contains(&p),
        !(1..=LIMIT).contains(&w),
        !(0 <= before && before <= through && through <= w),
    ]
}

fn floor(n: i128, d: i128) -> i128 {
    let q = n / d;
    if q * d > n {
        q - 1
    } else {
        q
    }
}

// As plain as 128 bits allow: one division a floor.
#[inline(never)]
extern "C" fn peer(p: i64, before: i64, through: i64, w: i64) -> i64 {
    if p < -LIMIT || p > LIMIT {
        return REFUSED - 1;
    }
    if w < 1 || w > LIMIT {
        return REFUSED - 2;
    }
    if before < 0 || before > through || through > w {
        return REFUSED - 3;
    }
    let (p, w) = (p as i128, w as i128);
    (floor(p * through as i128, w) - floor(p * before as i128, w)) as i64
}

// ---- inputs

// splitmix64
struct Random(u64);

impl Random {
    fn word(&mut self) -> u64 {
        self.0 = self.0.wrapping_add(0x9e37_79b9_7f4a_7c15);
        let mut z = self.0;
        z = (z ^ (z >> 30)).wrapping_mul(0xbf58_476d_1ce4_e5b9);
        z = (z ^ (z >> 27)).wrapping_mul(0x94d0_49bb_1331_11eb);
        z ^ (z >> 31)
    }

    // 0..=most, evenly
    fn upto(&mut self, most: i64) -> i64 {
        ((self.word() as u128 * (most as u128 + 1)) >> 64) as i64
    }

    // 0..=most: half of them of a random bit width
    fn sized(&mut self, most: i64) -> i64 {
        let bits = 64 - most.leading_zeros() as i64;
        if self.word() & 1 == 0 {
            return self.upto(most);
        }
        let width = self.upto(bits) as u32;
        (self.word().checked_shr(64 - width).unwrap_or(0) as i64).min(most)
    }

    // any i64, of a random bit width
    fn any(&mut self) -> i64 {
        (self.word() as i64).checked_shr(self.upto(63) as u32).unwrap_or(0)
    }

    fn signed(&mut self, most: i64) -> i64 {
        let x = self.sized(most);
        if self.word() & 1 == 0 {
            x
        } else {
            -x
        }
    }

    // arguments within the limits
    fn valid(&mut self, amount: i64, total: i64) -> [i64; 4] {
        let p = self.signed(amount);
        let w = self.sized(total - 1) + 1;
        let through = self.sized(w);
        [p, self.sized(through), through, w]
    }
}

// A limit and its neighbours; halves and whole words of the two-word product; 0 and the ends of the type.
fn edges() -> Vec<i64> {
    let mut e = Vec::new();
    for &x in &[0, 3, 1 << 31, 1 << 32, 1 << 56, LIMIT] {
        e.extend_from_slice(&[x - 1, x, x + 1]);
    }
    for &x in &[1 << 32, LIMIT] {
        e.extend_from_slice(&[-x - 1, -x, -x + 1]);
    }
    e.extend_from_slice(&[-2, i64::MIN, i64::MIN + 1, i64::MAX - 1, i64::MAX, REFUSED]);
    e.sort();
    e.dedup();
    e
}

// ---- comparison

fn differs(x: [i64; 4], got: i64, wanted: i64) -> ! {
    println!("DIFFERENT: share({}, {}, {}, {}) is {}, wanted {}", x[0], x[1], x[2], x[3], got, wanted);
    std::process::exit(1);
}

// how many inputs, by which of the three tests they fail and, where none, by the part's sign
#[derive(Default)]
struct Counts {
    inputs: u64,
    faulty: [u64; 8],
    signs: [u64; 3],
}

impl Counts {
    fn compare(&mut self, x: [i64; 4]) {
        let [p, before, through, w] = x;
        let (got, wanted) = (ours(p, before, through, w), peer(p, before, through, w));
        if got != wanted {
            differs(x, got, wanted);
        }
        let f = faults(x);
        let class = f[0] as usize + 2 * f[1] as usize + 4 * f[2] as usize;
        self.inputs += 1;
        self.faulty[class] += 1;
        if class == 0 {
            self.signs[(wanted.signum() + 1) as usize] += 1;
        }
    }

    fn add(&mut self, c: &Counts) {
        self.inputs += c.inputs;
        for i in 0..8 {
            self.faulty[i] += c.faulty[i];
        }
        for i in 0..3 {
            self.signs[i] += c.signs[i];
        }
    }

    fn print(&self, name: &str) {
        let (s, f) = (self.signs, self.faulty);
        print!("{:<22}", name);
        for n in [self.inputs, s[0], s[1], s[2], f[1], f[2], f[4], f[3], f[5], f[6], f[7]] {
            print!("{:>9}", n);
        }
        println!();
    }
}

fn stored(path: &str) -> Vec<[i64; 5]> {
    let text = std::fs::read_to_string(path).unwrap_or_else(|e| panic!("{}: {}", path, e));
    let mut rows = Vec::new();
    for line in text.lines() {
        let inner = line.trim().trim_start_matches('[').trim_end_matches(']');
        let row: Vec<i64> = inner.split(',').map(|v| v.trim().parse().expect(line)).collect();
        assert!(row.len() == 5, "{}", line);
        rows.push([row[0], row[1], row[2], row[3], row[4]]);
    }
    rows
}

fn compare_all(path: &str) {
    let mut random = Random(202407);
    let mut all = Counts::default();
    let mut class = |name: &str, fill: &mut dyn FnMut(&mut Counts)| {
        let mut counts = Counts::default();
        fill(&mut counts);
        counts.print(name);
        all.add(&counts);
    };

    println!("{:<22}{:>9}{:>27}{:>63}", "", "", "parts", "refused, by all the tests that fail");
    print!("{:<22}", "class");
    for name in ["inputs", "below 0", "0", "above 0", "P", "W", "sums", "P W", "P sums", "W sums", "all"] {
        print!("{:>9}", name);
    }
    println!();

    class("stored shares", &mut |c| {
        for r in stored(path) {
            let x = [r[0], r[1], r[2], r[3]];
            let got = ours(x[0], x[1], x[2], x[3]);
            if got != r[4] {
                differs(x, got, r[4]);
            }
            c.compare(x);
        }
    });

    let e = edges();
    class("edges, every four", &mut |c| {
        for &p in &e {
            for &before in &e {
                for &through in &e {
                    for &w in &e {
                        c.compare([p, before, through, w]);
                    }
                }
            }
        }
    });

    // the sums at and one past 0, W and each other, for totals between the edges
    class("sums at their limits", &mut |c| {
        for _ in 0..4_000 {
            let p = random.signed(LIMIT);
            let w = random.sized(LIMIT - 1) + 1;
            let middle = random.upto(w);
            let near = [-1, 0, 1, middle - 1, middle, middle + 1, w - 1, w, w + 1];
            for &before in &near {
                for &through in &near {
                    c.compare([p, before, through, w]);
                }
            }
        }
    });

    class("within the limits", &mut |c| {
        for _ in 0..3_000_000 {
            c.compare(random.valid(LIMIT, LIMIT));
        }
    });

    // divisors whose upper half says least of them, so that long division guesses a digit too large by 1 or 2
    class("misleading divisors", &mut |c| {
        for _ in 0..1_000_000 {
            let top = (1u64 << 63) | (random.sized(255) as u64) << 32 | (u32::MAX as u64 - random.sized(255) as u64);
            let w = (top >> (8 + random.upto(54))) as i64 & i64::MAX;
            let w = w.clamp(1, LIMIT);
            let through = w - random.sized(w - 1);
            c.compare([random.signed(LIMIT), random.upto(through), through, w]);
        }
    });

    class("one argument anything", &mut |c| {
        for i in 0..1_000_000 {
            let mut x = random.valid(LIMIT, LIMIT);
            x[i % 4] = random.any();
            c.compare(x);
        }
    });

    class("anything", &mut |c| {
        for _ in 0..2_000_000 {
            c.compare([random.any(), random.any(), random.any(), random.any()]);
        }
    });

    all.print("together");
    assert!(all.inputs >= 2_000_000 && all.faulty.iter().all(|&n| n > 0) && all.signs.iter().all(|&n| n > 0));

    // whole lists: the parts total the amount, and two neighbours on one line receive what they receive apart
    let lists = 200_000;
    for _ in 0..lists {
        let p = random.signed(LIMIT);
        let n = 1 + random.upto(9) as usize;
        let mut weights: Vec<i64> = (0..n).map(|_| random.sized(LIMIT / 10)).collect();
        weights[0] += (weights.iter().sum::<i64>() == 0) as i64;
        let w = weights.iter().sum();
        let (mut before, mut through, mut part, mut total) = (0, 0, 0, 0);
        for &weight in &weights {
            let both = (before, part);
            before = through;
            through += weight;
            part = ours(p, before, through, w);
            total += part;
            assert!(weight > 0 || part == 0, "{} over {:?}", p, weights);
            assert!(ours(p, both.0, through, w) == both.1 + part, "{} over {:?}, neighbours", p, weights);
        }
        assert!(total == p, "{} over {:?} totals {}", p, weights, total);
    }
    println!("no differences; {} lists of weights, the parts of each total its amount, those of neighbours the part of both", lists);
}

// ---- benchmark

// ns per share. Both sides run in this one loop, through a pointer that the compiler cannot see through.
#[inline(never)]
fn pass(f: Share, inputs: &[[i64; 4]], sum: &mut i64) -> f64 {
    const TIMES: usize = 4;
    let f = unsafe { std::ptr::read_volatile(&f) };
    let start = Instant::now();
    for _ in 0..TIMES {
        for &[p, before, through, w] in inputs {
            *sum = sum.wrapping_add(unsafe { f(p, before, through, w) });
        }
    }
    start.elapsed().as_nanos() as f64 / (TIMES * inputs.len()) as f64
}

fn bench(name: &str, inputs: &[[i64; 4]]) {
    let (mut a, mut b) = (f64::MAX, f64::MAX);
    let (mut ours_sum, mut peer_sum) = (0, 0);
    for _ in 0..25 {
        a = a.min(pass(rateio_share, inputs, &mut ours_sum));
        b = b.min(pass(peer, inputs, &mut peer_sum));
    }
    assert!(ours_sum == peer_sum);
    println!("{:<22}{:>9.1}{:>9.1}{:>9.2}", name, a, b, a / b);
}

fn bench_all() {
    let mut random = Random(202408);
    let n = 16_384;
    let mut set = |amount: i64, total: i64| -> Vec<[i64; 4]> { (0..n).map(|_| random.valid(amount, total)).collect() };
    let whole = set(LIMIT, LIMIT);
    let months = set(100_000_000_000, 10_000_000_000_000);
    let small = set(10_000, 10_000);
    println!("{:<22}{:>9}{:>9}{:>9}", "ns a share", "ours", "128 bits", "ratio");
    bench("whole range", &whole);
    bench("ordinary months", &months);
    bench("small", &small);
}

fn main() {
    let path = std::env::args().nth(1).expect("the file of stored shares");
    compare_all(&path);
    bench_all();
}
