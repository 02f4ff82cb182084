//! Lists of closings, each with what the one before answered and left.

use crate::call::{Call, State, HELD_ENTRIES};
use crate::limits::plain;
use rateio_reference::faults;
use rateio_reference::lines::MonthLines;
use rateio_reference::months::{self, any_month, counts_up_to, month_after, moved, sound_month, Counts, STYLES};
use rateio_reference::refusals::MAX_HELD;
use rateio_reference::rng::Rng;

/// An opening and so many closings; about three in ten break a limit.
fn chain(rng: &mut Rng, counts: Counts, closings: usize, calls: &mut Vec<Call>) {
    let mut state = State::new();
    let mut push = |call: Call| {
        let outcome = state.run(&call);
        calls.push(call);
        outcome
    };
    let spare = rng.below(4);
    push(Call::open(counts.users as u64, counts.agents as u64, counts.users + spare));
    let mut last = any_month(rng);
    for _ in 0..closings {
        let style = rng.pick(&STYLES);
        let mut lines = sound_month(rng, style, counts);
        lines.month = month_after(rng, last);
        let mut call = Call::next(lines, counts.users + rng.below(spare + 1));
        call.patterns = [rng.below(3) as u64, rng.below(3) as u64];
        call.lent_cells += rng.below(3);
        call.lent_work += rng.below(3);
        break_one(rng, &mut call);
        let month = push(call).ledger.month;
        last = if month == 0 { last } else { month };
    }
}

/// Breaks a limit, three times in ten.
fn break_one(rng: &mut Rng, call: &mut Call) {
    match rng.below(40) {
        0 => call.lent_held -= 1,
        1 => call.lent_cells = call.lent_cells.saturating_sub(3),
        2 => call.lent_work -= 3,
        3..=11 => {
            let fault = rng.pick(&faults::all());
            if fault.fits(&call.lines) {
                let line = rng.pick(&fault.lines(&call.lines));
                (fault.apply)(&mut call.lines, line);
            }
        }
        _ => {}
    }
}

pub fn small(rng: &mut Rng, chains: usize) -> Vec<Call> {
    let mut calls = Vec::new();
    for _ in 0..chains {
        let counts = counts_up_to(rng, Counts { users: 6, agents: 4, points: 9 });
        chain(rng, counts, 12, &mut calls);
    }
    calls
}

/// The size that the program takes, and in between.
pub fn middling(rng: &mut Rng) -> Vec<Call> {
    let mut calls = Vec::new();
    for _ in 0..8 {
        let counts = counts_up_to(rng, Counts { users: 64, agents: 16, points: 256 });
        chain(rng, counts, 8, &mut calls);
    }
    chain(rng, Counts { users: 64, agents: 16, points: 256 }, 6, &mut calls);
    chain(rng, Counts { users: 200, agents: 1, points: 300 }, 3, &mut calls);
    chain(rng, Counts { users: 1, agents: 200, points: 300 }, 3, &mut calls);
    calls
}

/// Three months of the largest size, the second refused once before it is closed.
pub fn full(rng: &mut Rng) -> Vec<Call> {
    let counts = Counts { users: 512, agents: 256, points: 1024 };
    let mut calls = vec![Call::open(512, 256, 512)];
    let mut add = |lines: MonthLines, month: i64| calls.push(Call::next(MonthLines { month, ..lines }, 512));
    let styles = [STYLES[3], STYLES[0], STYLES[4]];
    for (style, month) in styles.into_iter().zip([202_411, 202_412, 202_501]) {
        let lines = sound_month(rng, style, counts);
        if month == 202_412 {
            add(lines.clone(), 202_411);
        }
        add(lines, month);
    }
    calls
}

/// Credits that a closing itself takes past 10^17: the next is refused at that user, and also the one after.
pub fn past_the_limit() -> Vec<Call> {
    let mut calls = Vec::new();
    for users in [2, 5, 512] {
        for place in [1, users / 2, users - 1] {
            for credit in [MAX_HELD as i64 - 7, MAX_HELD as i64 - 6, MAX_HELD as i64] {
                let lines = |month, ret| {
                    let mut lines = MonthLines { month, ..plain(users, 1, 1) };
                    lines.agents[0].pv = 0;
                    lines.users[place].ret = ret;
                    lines
                };
                let mut first = Call::close(lines(202_407, -7));
                first.held[place] = credit;
                let mut found = State::new();
                assert_eq!(found.run(&first).held[place], credit + 7);
                calls.push(first);
                calls.push(Call::next(lines(202_408, 0), users));
                calls.push(Call::next(lines(202_409, 7), users));
            }
        }
    }
    calls
}

/// A refused opening leaves counts of 0, with which no month can be closed.
pub fn never_opened() -> Vec<Call> {
    let mut calls = Vec::new();
    for (users, agents, held) in [(0, 1, 3), (513, 2, HELD_ENTRIES - 2), (2, 0, 3), (2, 257, 3), (2, 2, 1)] {
        calls.push(Call::open(users, agents, held));
        calls.push(Call::next(plain(users.min(3) as usize, agents.min(3) as usize, 1), held.min(2)));
        calls.push(Call::next(plain(0, 0, 0), 0));
    }
    calls
}

/// Single calls with any lines that are mostly sound, any credits, and slices that are mostly long enough.
pub fn singles(rng: &mut Rng, count: usize) -> Vec<Call> {
    let mut calls = Vec::new();
    for _ in 0..count {
        let counts = counts_up_to(rng, Counts { users: 9, agents: 7, points: 20 });
        let style = rng.pick(&STYLES);
        let mut call = Call::close(sound_month(rng, style, counts));
        call.patterns = [rng.below(3) as u64, rng.below(3) as u64];
        call.held = months::held_credits(rng, counts.users + 4);
        call.lent_held += rng.below(4);
        call.ledger.month = match rng.below(10) {
            0..=4 => 0,
            5..=7 => any_month(rng),
            _ => moved(call.lines.month, -rng.between(1, 18)),
        };
        if rng.chance(10) {
            // also beyond the users, where any number may stand
            let entry = rng.below(call.held.len());
            call.held[entry] = rng.pick(&[-1, MAX_HELD as i64 + 1, i64::MIN, i64::MAX]);
        }
        if rng.chance(50) {
            break_one(rng, &mut call);
        }
        calls.push(call);
    }
    calls
}
