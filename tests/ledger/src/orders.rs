//! Every refusal at its places, and every two of them in one call: the earlier is the answer.

use crate::call::{Call, State};
use rateio_reference::faults;
use rateio_reference::lines::{Point, GENERATOR};
use rateio_reference::months::{Style, STYLES};
use rateio_reference::refusals::{Refusal, MAX_AMOUNT, MAX_HELD};
use rateio_reference::rng::Rng;

/// Every fault of a month at the first, a middle and the last line of its block, in months of every style.
pub fn faults(rng: &mut Rng) -> Vec<Call> {
    let mut calls = Vec::new();
    for style in STYLES {
        let base = faults::sound_base(rng, style);
        calls.push(Call::close(base.clone()));
        for fault in faults::all() {
            for line in fault.lines(&base) {
                let sound = Call::close(base.clone());
                let mut lines = base.clone();
                (fault.apply)(&mut lines, line);
                let call = Call { lines, ..sound };
                due(&call, fault.refusal(line), fault.name);
                calls.push(call);
            }
        }
    }
    calls
}

/// A way to break a closing of five users, agents and points.
struct Break {
    name: &'static str,
    refusal: (u64, u64),
    apply: fn(&mut Call),
}

/// In the order in which closing tests.
fn breaks() -> Vec<Break> {
    let with = |name, refusal, apply| Break { name, refusal, apply };
    vec![
        with("a user more in the ledger", (1, 0), |c| c.ledger.users += 1),
        with("an agent less in the ledger", (1, 0), |c| c.ledger.agents -= 1),
        with("an impossible month in the ledger", (1, 0), |c| c.ledger.month = -202_406),
        with("held too short", (2, 1), |c| c.lent_held -= 1),
        with("cells too short", (2, 2), |c| c.lent_cells -= 1),
        with("work too short", (2, 3), |c| c.lent_work -= 1),
        with("an impossible month", (3, 0), |c| c.lines.month = 202_413),
        with("a month closed before", (3, 0), |c| c.ledger.month = 209_912),
        with("first held below 0", (4, 1), |c| c.held[0] = -1),
        with("last held above its limit", (4, 5), |c| c.held[4] = MAX_HELD as i64 + 1),
        with("ons", (5, 0), |c| c.lines.ons = -1),
        with("first agent", (5, 1), |c| c.lines.agents[0].number = 2),
        with("last agent", (5, 5), |c| c.lines.agents[4].ret = i64::MIN),
        with("first user", (5, 1), |c| c.lines.users[0].number = 0),
        with("second user's direct charge", (5, 2), |c| c.lines.users[1].ong = -1),
        with("last user", (5, 5), |c| c.lines.users[4].ret = i64::MAX),
        with("last user's direct charge", (5, 5), |c| c.lines.users[4].ong = MAX_AMOUNT + 1),
        with("first point out of range", (5, 1), |c| c.lines.points[0].vp = -1),
        with("second point of no user", (6, 2), |c| c.lines.points[1].at = 6),
        with("third point against its kind", (7, 3), |c| c.lines.points[2] = generator_with_mf(c)),
        with("fourth point of no user", (6, 4), |c| c.lines.points[3].at = i64::MIN),
        with("last point out of range", (5, 5), |c| c.lines.points[4].df = 101),
        with("no pb", (8, 0), |c| c.lines.agents.iter_mut().for_each(|agent| agent.pb = 0)),
        with("no use charge", (9, 0), |c| c.lines.points.iter_mut().for_each(|point| (point.mp, point.mf) = (0, 0))),
        with("no debit", (10, 0), |c| c.hold(MAX_HELD as i64)),
    ]
}

fn generator_with_mf(call: &Call) -> Point {
    let generator = call.lines.users.iter().find(|user| user.kind == GENERATOR).expect("a user of each kind");
    Point::from_columns([generator.number, 7, 0, 0, 0, 3, 1, 3, 0])
}

/// A sound month of five lines of each kind, on a ledger of the month before.
fn five(rng: &mut Rng, style: Style) -> Call {
    loop {
        let mut lines = faults::sound_base(rng, style);
        if [lines.users.len(), lines.agents.len()] == [5, 5] && lines.points.len() >= 5 {
            lines.points.truncate(5);
            lines.month = 202_407;
            let mut call = Call::close(lines);
            call.ledger.month = 202_406;
            return call;
        }
    }
}

/// The closing with some breaks; the answer is the first's.
fn broken(base: &Call, chosen: &[&Break]) -> Call {
    let mut call = base.clone();
    // the later first: what both change is then as the earlier leaves it
    chosen.iter().rev().for_each(|one| (one.apply)(&mut call));
    let (number, place) = chosen[0].refusal;
    due(&call, Refusal { number, place }, chosen[0].name);
    call
}

/// Each break alone, and with all after it.
pub fn alone(rng: &mut Rng) -> Vec<Call> {
    let base = five(rng, Style::Ordinary);
    let breaks: Vec<Break> = breaks();
    let from = |k: usize| breaks[k..].iter().collect::<Vec<_>>();
    (0..breaks.len()).flat_map(|k| [broken(&base, &from(k)[..1]), broken(&base, &from(k))]).collect()
}

/// Every two breaks, so also every two neighbours.
pub fn pairs(rng: &mut Rng) -> Vec<Call> {
    let breaks = breaks();
    let mut calls = Vec::new();
    for style in [Style::Ordinary, Style::Extreme] {
        let base = five(rng, style);
        for (k, first) in breaks.iter().enumerate() {
            calls.extend(breaks[k + 1..].iter().map(|second| broken(&base, &[first, second])));
        }
    }
    calls
}

/// The list is as it is meant: the reference calculation gives this refusal.
pub fn due(call: &Call, refusal: Refusal, name: &str) {
    assert_eq!(State::new().run(call).answer, Some(refusal), "{}", name);
}
