//! A month's lines ("A month's lines"), in the columns' order of the month file.

/// An agent's line; `number` is its position from 1.
#[derive(Clone, Copy, Debug, PartialEq, Eq)]
pub struct Agent {
    pub number: i64,
    /// Base payments.
    pub pb: i64,
    /// Variable parcel.
    pub pv: i64,
    /// Overload addition.
    pub afs: i64,
    /// Overload refund.
    pub rfs: i64,
    /// Yearly adjustment.
    pub pa: i64,
    /// Revenue correction.
    pub ret: i64,
}

/// A user's line; `number` is its position from 1.
#[derive(Clone, Copy, Debug, PartialEq, Eq)]
pub struct User {
    pub number: i64,
    /// `DISTRIBUTOR`, `CONSUMER` or `GENERATOR`.
    pub kind: i64,
    /// Charge correction.
    pub ret: i64,
    /// The month's direct charge to ONS (change request Q-1).
    pub ong: i64,
}

pub const DISTRIBUTOR: i64 = 1;
pub const CONSUMER: i64 = 2;
pub const GENERATOR: i64 = 3;

/// A connection point's line. In the two letters of a name, p is peak and f off-peak.
#[derive(Clone, Copy, Debug, PartialEq, Eq)]
pub struct Point {
    /// The number of the user connected here.
    pub at: i64,
    /// Tariffs, thousandths of a real per kW and month.
    pub tp: i64,
    pub tf: i64,
    /// Discounts, percent.
    pub dp: i64,
    pub df: i64,
    /// Contracted power, kW.
    pub mp: i64,
    pub mf: i64,
    /// Verified power, kW.
    pub vp: i64,
    pub vf: i64,
}

/// All lines of one month.
#[derive(Clone, Debug, PartialEq, Eq)]
pub struct MonthLines {
    /// yyyymm.
    pub month: i64,
    /// What the operator ONS is due (RMONS) of the month's debits; its direct charges are beside it.
    pub ons: i64,
    pub agents: Vec<Agent>,
    pub users: Vec<User>,
    pub points: Vec<Point>,
}

impl Agent {
    pub fn from_columns([number, pb, pv, afs, rfs, pa, ret]: [i64; 7]) -> Agent {
        Agent { number, pb, pv, afs, rfs, pa, ret }
    }

    pub fn columns(&self) -> [i64; 7] {
        [self.number, self.pb, self.pv, self.afs, self.rfs, self.pa, self.ret]
    }
}

impl User {
    pub fn from_columns([number, kind, ret, ong]: [i64; 4]) -> User {
        User { number, kind, ret, ong }
    }

    pub fn columns(&self) -> [i64; 4] {
        [self.number, self.kind, self.ret, self.ong]
    }
}

impl Point {
    pub fn from_columns([at, tp, tf, dp, df, mp, mf, vp, vf]: [i64; 9]) -> Point {
        Point { at, tp, tf, dp, df, mp, mf, vp, vf }
    }

    pub fn columns(&self) -> [i64; 9] {
        [self.at, self.tp, self.tf, self.dp, self.df, self.mp, self.mf, self.vp, self.vf]
    }
}
