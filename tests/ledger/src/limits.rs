//! Calls at the limits: lengths of slices, months, held credits, counts, values and places.

use crate::call::{Call, CELLS_ENTRIES, HELD_ENTRIES, WORK_ENTRIES};
use crate::orders::due;
use rateio_reference::ledger::Ledger;
use rateio_reference::lines::{Agent, MonthLines, Point, User, CONSUMER};
use rateio_reference::months::{moved, sound_month, Counts, Style, STYLES};
use rateio_reference::refusals::{Refusal, MAX_AMOUNT, MAX_HELD};
use rateio_reference::rng::Rng;

/// A plain month of consumers, each point of the next user in turn.
pub fn plain(users: usize, agents: usize, points: usize) -> MonthLines {
    let at = |k: i64| if users == 0 { 1 } else { k % users as i64 + 1 };
    MonthLines {
        month: 202_407,
        ons: 100,
        agents: (1..=agents as i64).map(|n| Agent::from_columns([n, 1000 + n, n % 3, 5, 2, 25 - n, -n])).collect(),
        users: (1..=users as i64).map(|n| User::from_columns([n, CONSUMER, 7 * (n % 4), 11 * (n % 3)])).collect(),
        points: (0..points as i64).map(|k| Point::from_columns([at(k), 5 + k, 3, 0, 50, 9, 8, 10, 8])).collect(),
    }
}

/// Lengths about one that is needed, and 0.
fn about(needed: usize) -> Vec<usize> {
    let mut lengths = vec![0, needed - 1, needed, needed + 1, needed + 5];
    lengths.dedup();
    lengths
}

/// Slices of every length about the ones that are needed, for small counts.
pub fn slices() -> Vec<Call> {
    let mut calls = Vec::new();
    for (users, agents) in [(1, 1), (2, 1), (1, 2), (3, 2), (2, 3)] {
        let base = Call::close(plain(users, agents, 3));
        for lent_held in about(users) {
            for lent_cells in about(base.lent_cells) {
                for lent_work in about(base.lent_work) {
                    let patterns = [(calls.len() % 3) as u64, (calls.len() / 3 % 3) as u64];
                    let mut call = Call { lent_held, lent_cells, lent_work, patterns, ..base.clone() };
                    call.held.resize(lent_held.max(users) + 1, -5);
                    calls.push(call);
                }
            }
        }
    }
    calls
}

/// Months that are possible, nearly so, and far from it; some differ from a possible one by 2^32 or by their sign.
const MONTHS: [i64; 30] = [
    i64::MIN,
    -202_407,
    -100,
    -1,
    0,
    1,
    12,
    2024,
    199_912,
    199_999,
    200_000,
    200_001,
    200_002,
    200_012,
    200_013,
    200_100,
    202_399,
    202_400,
    202_406,
    202_407,
    202_412,
    202_413,
    209_911,
    209_912,
    209_913,
    210_001,
    20_240_701,
    (1 << 32) + 202_407,
    (1 << 48) + 202_406,
    i64::MAX,
];

/// Every last closed month with every month to close. Of two agents, since a VMPA moves no credit of one alone.
pub fn months() -> Vec<Call> {
    let mut calls = Vec::new();
    for last in MONTHS {
        for month in MONTHS {
            let mut call = Call::close(MonthLines { month, ..plain(1, 2, 1) });
            call.ledger.month = last;
            calls.push(call);
        }
    }
    calls
}

/// Every month of a cycle, and of the one after it, to close after each earlier month of the first and after none. The
/// adjustments of the agents leave every remainder over 12.
pub fn skipped() -> Vec<Call> {
    let cycles: Vec<i64> = (0..24).map(|k| moved(202_307, k)).collect();
    let mut calls = Vec::new();
    for (k, &month) in cycles.iter().enumerate() {
        for &last in [0].iter().chain(&cycles[..k.min(12)]) {
            let mut call = Call::close(MonthLines { month, ..plain(2, 12, 2) });
            call.ledger.month = last;
            calls.push(call);
        }
    }
    calls
}

/// Direct charges at and beside their limits: of one user of each kind alone and of all together, of users who owe, who
/// have a credit left, and of a month in which nobody owes anything.
pub fn direct() -> Vec<Call> {
    let most = MAX_HELD as i64;
    let mut calls = Vec::new();
    for ong in [i64::MIN, -MAX_AMOUNT, -1, 0, 1, MAX_AMOUNT - 1, MAX_AMOUNT, MAX_AMOUNT + 1, i64::MAX] {
        for k in 0..4 {
            for credits in [[0, 0, 0], [1, 50, 1_000_000], [most, 0, most], [most; 3]] {
                let mut lines = plain(3, 2, 3);
                lines.points.iter_mut().for_each(|point| (point.tf, point.df, point.mf, point.vf) = (0, 0, 0, 0));
                for (j, user) in lines.users.iter_mut().enumerate() {
                    (user.kind, user.ong) = (j as i64 + 1, if k == j || k == 3 { ong } else { 0 });
                }
                let mut call = Call::close(lines);
                call.held[..3].copy_from_slice(&credits);
                if (0..=MAX_AMOUNT).contains(&ong) && credits == [most; 3] {
                    due(&call, Refusal::new(10, 0), "no debit");
                }
                calls.push(call);
            }
        }
    }
    calls
}

/// Held credits at and beside their limits, of the first, a middle and the last user and beyond them.
pub fn credits() -> Vec<Call> {
    let most = MAX_HELD as i64;
    let values = [i64::MIN, -most, -1, 0, 1, most - 1, most, most + 1, (1 << 57) + 5, i64::MAX];
    let mut calls = Vec::new();
    for rest in [0, most] {
        for value in values {
            for place in 0..7 {
                let mut call = Call::close(plain(5, 2, 4));
                call.lent_held = 6;
                call.hold(rest);
                call.held[place] = value;
                // a debit that no held credit takes away
                call.held[1] = if place == 1 { value } else { 0 };
                calls.push(call.clone());
                if place > 0 {
                    call.held[place - 1] = -1;
                    calls.push(call);
                }
            }
        }
    }
    calls
}

/// Any counts and months in the ledger, few lines or none.
pub fn counts(rng: &mut Rng) -> Vec<Call> {
    let any: [u64; 14] = [0, 1, 2, 3, 4, 255, 256, 257, 512, 513, (1 << 32) + 2, 1 << 63, u64::MAX - 1, u64::MAX];
    let mut calls = Vec::new();
    for _ in 0..900 {
        let (users, agents, points) = (rng.below(4), rng.below(4), rng.below(3));
        let mut call = Call::close(plain(users, agents, points));
        let any_month = rng.bits() as i64;
        let Ledger { users, agents, month } = &mut call.ledger;
        match rng.below(4) {
            0 => *users = rng.pick(&any),
            1 => *agents = rng.pick(&any),
            2 => (*users, *agents) = (rng.bits(), rng.bits()),
            _ => *month = rng.pick(&[any_month, any_month, 0, 202_406, 202_413, -1]),
        }
        call.lent_cells += rng.below(3);
        call.lent_work += rng.below(3);
        calls.push(call);
    }
    calls
}

/// Counts of lines at and past their limits, with a ledger of the same counts or of one less.
pub fn most_lines() -> Vec<Call> {
    let mut calls = Vec::new();
    for users in [512, 513] {
        for agents in [256, 257] {
            for points in [1, 1024, 1025] {
                for off in 0..3 {
                    // the one that is accepted stands in full_slices
                    if [users, agents, off] == [512, 256, 0] && points < 1025 {
                        continue;
                    }
                    let mut call = Call::close(plain(users, agents, points));
                    call.ledger.users -= u64::from(off == 1);
                    call.ledger.agents -= u64::from(off == 2);
                    // counts come before slices
                    (call.lent_cells, call.lent_work) = (100 * points, 100);
                    due(&call, Refusal::new(1, 0), "counts");
                    calls.push(call);
                }
            }
        }
    }
    // the point past the limit plays no part, whatever it holds
    let mut call = Call::close(plain(3, 2, 1025));
    call.lines.points[1024].at = i64::MIN;
    due(&call, Refusal::new(1, 0), "a bad point past the limit");
    calls.push(call);
    for (users, agents, points) in
        [(1, 1, 1024), (1, 1, 1025), (512, 1, 1024), (1, 256, 1025), (512, 1, 1025), (3, 2, 1023)]
    {
        calls.push(Call::close(plain(users, agents, points)));
    }
    calls
}

/// Slices about what the largest month needs: each a number short, and all long enough.
pub fn full_slices() -> Vec<Call> {
    let base = Call::close(plain(512, 256, 1024));
    let lent = |held: usize, cells: usize, work: usize| {
        let mut call = Call { lent_held: held, lent_cells: cells, lent_work: work, ..base.clone() };
        call.held.resize(held + 520, -5);
        call.held.truncate(HELD_ENTRIES);
        call
    };
    vec![
        lent(511, 131_583, 266_243),
        lent(511, 131_584, 266_244),
        lent(512, 131_583, 266_244),
        lent(512, 131_584, 266_243),
        lent(512, 131_584, 266_244),
        lent(513, 131_585, 266_245),
        lent(HELD_ENTRIES, CELLS_ENTRIES, WORK_ENTRIES),
    ]
}

/// Refusals at the first, a middle and the last line of the longest blocks.
pub fn places() -> Vec<Call> {
    let mut calls = Vec::new();
    let mut add = |lines: &MonthLines, place: usize, number: u64, change: &dyn Fn(&mut Call)| {
        let mut call = Call::close(lines.clone());
        change(&mut call);
        due(&call, Refusal::new(number, place as u64), "place");
        calls.push(call);
    };
    let lines = plain(512, 2, 3);
    for place in [1, 2, 256, 511, 512] {
        add(&lines, place, 4, &|call| call.held[place - 1] = -1);
        add(&lines, place, 4, &|call| call.held[place - 1..512].fill(MAX_HELD as i64 + 1));
        add(&lines, place, 5, &|call| call.lines.users[place - 1].kind = 0);
        add(&lines, place, 5, &|call| call.lines.users[place - 1..].iter_mut().for_each(|user| user.ong = -1));
        add(&lines, place, 5, &|call| call.lines.users[place - 1..].iter_mut().for_each(|user| user.number += 1));
    }
    let lines = plain(2, 256, 3);
    for place in [1, 2, 128, 255, 256] {
        add(&lines, place, 5, &|call| call.lines.agents[place - 1].pv = -1);
        add(&lines, place, 5, &|call| call.lines.agents[place - 1..].iter_mut().for_each(|agent| agent.number -= 1));
    }
    let lines = plain(3, 2, 1024);
    for place in [1, 2, 512, 1023, 1024] {
        add(&lines, place, 5, &|call| call.lines.points[place - 1].tf = 100_001);
        add(&lines, place, 6, &|call| call.lines.points[place - 1].at = 4);
        add(&lines, place, 6, &|call| call.lines.points[place - 1..].iter_mut().for_each(|point| point.at = 0));
        add(&lines, place, 7, &|call| {
            call.lines.users[2].kind = 1;
            call.lines.points.iter_mut().for_each(|point| point.at = 1);
            call.lines.points[place - 1].at = 3;
        });
    }
    calls
}

/// Values beside every limit of a column, and far beyond all of them.
const VALUES: [i64; 34] = [
    i64::MIN,
    i64::MIN + 1,
    -(1 << 32),
    -100_000_000_001,
    -100_000_000_000,
    -101,
    -1,
    0,
    1,
    2,
    3,
    4,
    99,
    100,
    101,
    99_999,
    100_000,
    100_001,
    202_406,
    202_407,
    209_912,
    209_913,
    19_999_999,
    20_000_000,
    20_000_001,
    (1 << 32) + 1,
    99_999_999_999,
    100_000_000_000,
    100_000_000_001,
    1 << 53,
    100_000_000_000_000_000,
    100_000_000_000_000_001,
    i64::MAX - 1,
    i64::MAX,
];

/// Each value in each column of each line of a month of three users, agents and points; users are of all three kinds.
pub fn values() -> Vec<Call> {
    let mut base = plain(3, 3, 3);
    for (user, kind) in base.users.iter_mut().zip(1..) {
        user.kind = kind;
    }
    base.points = (1..=3).map(|n| Point::from_columns([n, 500, 0, 0, 0, 90, 0, 91, 0])).collect();
    let mut calls = Vec::new();
    let mut add = |change: &dyn Fn(&mut MonthLines)| {
        let mut lines = base.clone();
        change(&mut lines);
        calls.push(Call::close(lines));
    };
    for value in VALUES {
        add(&|lines| lines.ons = value);
        for line in 0..3 {
            for column in 0..7 {
                add(&|lines| {
                    let mut columns = lines.agents[line].columns();
                    columns[column] = value;
                    lines.agents[line] = Agent::from_columns(columns);
                });
            }
            for column in 0..4 {
                add(&|lines| {
                    let mut columns = lines.users[line].columns();
                    columns[column] = value;
                    lines.users[line] = User::from_columns(columns);
                });
            }
            for column in 0..9 {
                add(&|lines| {
                    let mut columns = lines.points[line].columns();
                    columns[column] = value;
                    lines.points[line] = Point::from_columns(columns);
                });
            }
        }
    }
    calls
}

/// Any value in any column of all lines, or of the points alone: the points are looked at before all else, and hold anything then.
pub fn garbage(rng: &mut Rng) -> Vec<Call> {
    let any = |rng: &mut Rng| match rng.below(20) {
        0 => rng.bits() as i64,
        1 => rng.pick(&VALUES),
        _ => rng.between(0, 3),
    };
    let mut calls = Vec::new();
    for k in 0..600 {
        let (users, agents, points) = (1 + rng.below(5), 1 + rng.below(4), 1 + rng.below(8));
        let mut lines = plain(users, agents, points);
        lines.points = (0..points).map(|_| Point::from_columns([(); 9].map(|()| any(rng)))).collect();
        if k % 3 == 0 {
            lines.month = any(rng);
            lines.ons = any(rng);
            lines.agents = (0..agents).map(|_| Agent::from_columns([(); 7].map(|()| any(rng)))).collect();
            lines.users = (0..users).map(|_| User::from_columns([(); 4].map(|()| any(rng)))).collect();
        }
        let mut call = Call::close(lines);
        call.ledger.users += u64::from(k % 5 == 0);
        calls.push(call);
    }
    calls
}

/// Counts at and past their limits, held slices of every length about them.
pub fn openings() -> Vec<Call> {
    let mut calls = Vec::new();
    for users in [0, 1, 2, 3, 511, 512, 513, (1 << 32) + 1, 1 << 63, u64::MAX] {
        for agents in [0, 1, 2, 255, 256, 257, (1 << 32) + 1, 1 << 63, u64::MAX] {
            let needed = users.min(600) as usize;
            for held in [0, needed.saturating_sub(1), needed, needed + 1, needed + 30] {
                calls.push(Call::open(users, agents, held));
            }
        }
    }
    calls
}

/// Months of the largest size, of every style, with credits held; those that break 8 to 10 too.
pub fn full_months(rng: &mut Rng) -> Vec<Call> {
    let counts = Counts { users: 512, agents: 256, points: 1024 };
    let mut calls = Vec::new();
    for style in STYLES {
        let mut call = Call::close(sound_month(rng, style, counts));
        call.lent_held = 514;
        call.patterns = [0, calls.len() as u64 % 3];
        // the first user keeps its debit
        call.held[1..512].copy_from_slice(&rateio_reference::months::held_credits(rng, 511));
        call.lines.users[0].ret = 100_000_000_000;
        calls.push(call);
    }
    for number in [8, 9, 10] {
        let mut call = Call::close(sound_month(rng, Style::Ordinary, counts));
        match number {
            8 => call.lines.agents.iter_mut().for_each(|agent| agent.pb = 0),
            9 => call.lines.points.iter_mut().for_each(|point| (point.tp, point.tf) = (0, 0)),
            _ => call.hold(MAX_HELD as i64),
        }
        due(&call, Refusal::new(number, 0), "sums");
        calls.push(call);
    }
    calls
}
