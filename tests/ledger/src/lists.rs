//! All lists of calls, and what is stored of them.

use crate::call::{Call, Outcome, State};
use crate::{chains, kinds, limits, orders};
use rateio_reference::json;
use rateio_reference::rng::Rng;
use rateio_reference::vectors::{closing_call, opening_call};

pub struct List {
    pub name: &'static str,
    pub calls: Vec<Call>,
    pub outcomes: Vec<Outcome>,
}

impl List {
    fn new(name: &'static str, calls: Vec<Call>) -> List {
        let mut state = State::new();
        let outcomes = calls.iter().map(|call| state.run(call)).collect();
        List { name, calls, outcomes }
    }

    /// Name, calls, how many are accepted, how many have each refusal, and a digest of calls and rows.
    pub fn summary(&self) -> String {
        let mut answers = [0; 11];
        for outcome in &self.outcomes {
            answers[outcome.answer.map_or(0, |refusal| refusal.number as usize)] += 1;
        }
        let mut bytes = Vec::new();
        self.calls.iter().for_each(|call| call.write(&mut bytes));
        self.outcomes.iter().for_each(|outcome| bytes.extend(outcome.row().bytes()));
        // FNV-1a
        let mixed = |h: u64, &byte: &u8| (h ^ u64::from(byte)).wrapping_mul(0x0000_0100_0000_01b3);
        let digest = bytes.iter().fold(0xcbf2_9ce4_8422_2325, mixed);
        let answers: String = answers.iter().map(|count| format!("{:>6}", count)).collect();
        format!("{:<18}{:>6}{} {:016x}\n", self.name, self.calls.len(), answers, digest)
    }
}

/// How many of the first lists the interpreter takes.
pub const SHORT: usize = 4;

/// Every list, in the parts that the program takes in one run, the short lists first; `vectors` is the folder of the vector files.
pub fn parts(vectors: &str) -> Vec<Vec<List>> {
    let mut rng = Rng::new(202_410);
    let rng = &mut rng;
    let first = vec![
        List::new("never opened", chains::never_opened()),
        List::new("alone", orders::alone(rng)),
        List::new("short chains", chains::small(rng, 4)),
        List::new("short singles", chains::singles(rng, 20)),
        List::new("openings", limits::openings()),
        List::new("vectors", of_vectors(vectors)),
        List::new("faults", orders::faults(rng)),
        List::new("pairs", orders::pairs(rng)),
        List::new("slices", limits::slices()),
        List::new("months", limits::months()),
        List::new("skipped", limits::skipped()),
        List::new("held credits", limits::credits()),
        List::new("direct charges", limits::direct()),
        List::new("past the limit", chains::past_the_limit()),
        List::new("counts", limits::counts(rng)),
        List::new("values", limits::values()),
        List::new("garbage", limits::garbage(rng)),
        List::new("singles", chains::singles(rng, 2_000)),
        List::new("chains", chains::small(rng, 250)),
        List::new("cases", kinds::cases()),
        List::new("kinds", kinds::kinds(&mut Rng::new(202_411), 200)),
    ];
    let second = vec![
        List::new("most lines", limits::most_lines()),
        List::new("places", limits::places()),
        List::new("middling chains", chains::middling(rng)),
        List::new("full slices", limits::full_slices()),
        List::new("full chain", chains::full(rng)),
        List::new("full months", limits::full_months(rng)),
    ];
    vec![first, second]
}

fn of_vectors(folder: &str) -> Vec<Call> {
    let lines = |name: &str| -> Vec<json::Json> {
        let text = std::fs::read_to_string(format!("{}/{}", folder, name)).expect("the vector file is there");
        text.lines().map(|line| json::parse(line).expect("sound JSON")).collect()
    };
    let mut calls = Vec::new();
    for vector in lines("openings.jsonl") {
        let (users, agents, held) = opening_call(&vector).expect("an opening");
        calls.push(Call::open(users, agents, held));
    }
    for vector in lines("closings.jsonl") {
        let vector = closing_call(&vector).expect("a closing");
        let lent_held = vector.held.len();
        calls.push(Call {
            ledger: vector.ledger,
            held: vector.held,
            lent_held,
            lent_cells: vector.cells,
            lent_work: vector.work,
            ..Call::close(vector.lines)
        });
    }
    calls
}
