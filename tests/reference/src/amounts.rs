//! Every amount of one month together, as an accepted closing settles it.

use crate::charges::Charges;
use crate::credits::Credits;
use crate::lines::MonthLines;

#[derive(Clone, Debug, PartialEq, Eq)]
pub struct Amounts {
    pub charges: Charges,
    pub credits: Credits,
}

impl Amounts {
    /// The amounts of a month that breaks no limit, from its lines, the last closed month (0 for none) and the credits
    /// held so far.
    pub fn of_month(lines: &MonthLines, last: i64, credits: &[i128]) -> Amounts {
        let charges = Charges::of_month(lines, credits);
        let credits = Credits::of_month(lines, last, &charges.vd);
        Amounts { charges, credits }
    }
}
