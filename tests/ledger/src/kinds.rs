//! The specification's cases of charges and credits, and months whose columns are all drawn in one way: no style of `months` is one.

use crate::call::{Call, State};
use rateio_reference::amounts::Amounts;
use rateio_reference::lines::{Agent, MonthLines, Point, User, CONSUMER};
use rateio_reference::months::any_month;
use rateio_reference::refusals::{MAX_AMOUNT, MAX_DISCOUNT, MAX_HELD, MAX_POWER, MAX_TARIFF};
use rateio_reference::rng::Rng;

/// How the columns of a month are drawn.
#[derive(Clone, Copy, PartialEq)]
enum Kind {
    /// Anywhere in their ranges.
    Whole,
    /// A few units, so that many charges end in half a cent.
    Few,
    /// At one end of their ranges or at the other.
    Ends,
    /// Anywhere and now and then past the end, of no user, or where the user's kind has none.
    Past,
    /// Anywhere, and every correction below 0.
    Below,
    /// Anywhere, and held credits up to their limit.
    Held,
    /// A few units, and a pv that passes by far what the users are charged.
    Parcel,
}

const KINDS: [Kind; 7] = [Kind::Whole, Kind::Few, Kind::Ends, Kind::Past, Kind::Below, Kind::Held, Kind::Parcel];

/// The ends of a point's columns after its user.
const POINT: [i64; 8] =
    [MAX_TARIFF, MAX_TARIFF, MAX_DISCOUNT, MAX_DISCOUNT, MAX_POWER, MAX_POWER, MAX_POWER, MAX_POWER];

impl Kind {
    /// A column from 0 to `most`.
    fn column(self, rng: &mut Rng, most: i64) -> i64 {
        match self {
            Kind::Few | Kind::Parcel => rng.between(0, 11),
            Kind::Ends => rng.pick(&[0, most]),
            Kind::Past => rng.between(0, most + 1),
            _ => rng.between(0, most),
        }
    }

    /// An amount of a line that is within its limit.
    fn amount(self, rng: &mut Rng) -> i64 {
        self.column(rng, MAX_AMOUNT).min(MAX_AMOUNT)
    }

    fn parcel(self, rng: &mut Rng) -> i64 {
        match self {
            Kind::Parcel => rng.between(1, MAX_AMOUNT),
            Kind::Ends => self.amount(rng),
            _ if rng.chance(25) => 0,
            _ => rng.between(0, MAX_AMOUNT),
        }
    }

    fn correction(self, rng: &mut Rng) -> i64 {
        match self {
            Kind::Few | Kind::Parcel => rng.between(-6, 5),
            Kind::Ends => rng.pick(&[-MAX_AMOUNT, MAX_AMOUNT]),
            Kind::Below => rng.between(-MAX_AMOUNT, -1),
            _ => rng.between(-MAX_AMOUNT, MAX_AMOUNT),
        }
    }

    fn credit(self, rng: &mut Rng) -> i64 {
        let most = if matches!(self, Kind::Held | Kind::Ends) { MAX_HELD as i64 } else { MAX_AMOUNT };
        let inside = rng.between(0, most);
        rng.pick(&[0, most, inside, inside])
    }

    /// The first three users are of the three kinds, in turn.
    fn point(self, rng: &mut Rng) -> Point {
        let at = if self == Kind::Past { rng.between(0, 5) } else { rng.between(1, 3) };
        let [tp, tf, dp, df, mp, mf, vp, vf] = POINT.map(|most| self.column(rng, most));
        match at {
            1 if self != Kind::Past => Point { at, tp, tf, dp: 0, df: 0, mp, mf, vp, vf },
            3 if self != Kind::Past => Point { at, tp, tf: 0, dp, df: 0, mp, mf: 0, vp, vf: 0 },
            _ => Point { at, tp, tf, dp, df, mp, mf, vp, vf },
        }
    }

    fn agent(self, rng: &mut Rng, number: i64) -> Agent {
        let (pb, pv, afs, rfs) = (self.amount(rng), self.parcel(rng), self.amount(rng), self.amount(rng));
        Agent { number, pb, pv, afs, rfs, pa: self.correction(rng), ret: self.correction(rng) }
    }

    /// A direct charge, which no correction and no credit of the month touches.
    fn direct(self, rng: &mut Rng) -> i64 {
        match self {
            Kind::Past if rng.chance(10) => rng.pick(&[-1, MAX_AMOUNT + 1]),
            _ if rng.chance(30) => 0,
            _ => self.amount(rng),
        }
    }

    fn user(self, rng: &mut Rng, number: i64) -> User {
        User { number, kind: number, ret: self.correction(rng), ong: self.direct(rng) }
    }

    /// A closing of three agents, four points and three users, beside a fourth who owes at any rate: so the months of the others are closed.
    fn closing(self, rng: &mut Rng) -> Call {
        let month = if self == Kind::Ends { rng.pick(&[200_001, 209_912]) } else { any_month(rng) };
        let debtor = User { number: 4, kind: CONSUMER, ret: self.amount(rng).max(1), ong: self.direct(rng) };
        let mut call = Call::close(MonthLines {
            month,
            ons: self.amount(rng),
            agents: (1..=3).map(|number| self.agent(rng, number)).collect(),
            users: (1..=3).map(|number| self.user(rng, number)).chain([debtor]).collect(),
            points: (0..4).map(|_| self.point(rng)).collect(),
        });
        call.held[..3].fill_with(|| self.credit(rng));
        call
    }
}

/// So many months of each kind.
pub fn kinds(rng: &mut Rng, count: usize) -> Vec<Call> {
    let calls: Vec<Call> = KINDS.iter().flat_map(|&kind| vec![kind; count]).map(|kind| kind.closing(rng)).collect();
    assert!(calls.iter().map(compensated).sum::<usize>() > 2 * count, "compensation passes charges");
    assert!(calls.iter().map(beside_credit).sum::<usize>() > 2 * count, "direct charges stand beside credits");
    calls
}

/// How many users of a month that is closed have a CPV that passes their VME.
fn compensated(call: &Call) -> usize {
    let amounts = State::new().run(call).amounts;
    amounts.map_or(0, |Amounts { charges, .. }| (0..3).filter(|&j| charges.cpv[j] > charges.vme[j]).count())
}

/// How many users of a month that is closed have a direct charge and a credit left.
fn beside_credit(call: &Call) -> usize {
    let amounts = State::new().run(call).amounts;
    amounts.map_or(0, |Amounts { charges, .. }| (0..3).filter(|&j| charges.ong[j] > 0 && charges.held[j] > 0).count())
}

/// A month of consumers, the second of whom owes something, with pa of 25, −1 and 0 and these points: tp, mp, vp at full tariff.
fn consumers(month: i64, ret: i64, points: &[[i64; 3]]) -> MonthLines {
    let point = |(&[tp, mp, vp], at): (&[i64; 3], i64)| Point::from_columns([at, tp, 0, 0, 0, mp, 0, vp, 0]);
    MonthLines {
        month,
        ons: 0,
        agents: [(1, 25), (2, -1), (3, 0)]
            .map(|(number, pa)| Agent::from_columns([number, 1, 0, 0, 0, pa, 0]))
            .to_vec(),
        users: [(1, ret), (2, 1000), (3, 0)].map(|(number, ret)| User { number, kind: CONSUMER, ret, ong: 0 }).to_vec(),
        points: points.iter().zip(1..).map(point).collect(),
    }
}

/// Cases e; f and g; the two months of j; and h and i, whose months are July, August and June.
pub fn cases() -> Vec<Call> {
    let calls = vec![
        Call::close(consumers(202_407, 0, &[[5, 1, 0], [4, 1, 0]])),
        Call::close(consumers(202_407, 0, &[[5432, 1000, 1050], [5432, 1000, 1051]])),
        Call::close(consumers(202_407, -50, &[])),
        Call::next(consumers(202_408, 0, &[[800, 1, 0]]), 3),
        Call::close(consumers(202_506, 0, &[])),
    ];
    let mut state = State::new();
    let found: Vec<Amounts> = calls.iter().map(|call| state.run(call).amounts.expect("a case is closed")).collect();
    assert_eq!(found[0].charges.eust[..2], [1, 0]);
    assert_eq!(found[1].charges.overrun[..2], [0, 1630]);
    let of_first = |k: usize| (found[k].charges.n[0], found[k].charges.vd[0], found[k].charges.held[0]);
    assert_eq!((of_first(2), of_first(3)), ((-50, 0, 50), (30, 30, 0)));
    let vmpa = |k: usize| &found[k].credits.vmpa[..2];
    assert_eq!((vmpa(2), vmpa(3)[1], vmpa(4)[0]), (&[2, -1][..], 0, 3));
    calls
}
