//! The settlement of the basic grid, worked out once more for the tests to compare the product with.
//!
//! Everything here follows the specification ("Rateio: monthly settlement of the basic grid"), its change requests Q-3,
//! and the readings decided for their open points, and neither the product's definitions nor its code.
//! Amounts are `i128`, so that no product of two of them needs two words, and nothing is arranged for speed beyond what
//! the tests need.
//!
//! | module | what it holds |
//! |---|---|
//! | `share` | the running share, and the share as C sees it |
//! | `lines` | a month's lines |
//! | `read` | the month file, its lines in LF or CR LF: reading one, checking a text of them |
//! | `charges`, `credits`, `amounts` | the formulas, by user and by payee |
//! | `refusals` | refusals 1 to 10 with their places |
//! | `table` | what a table of cells is, one such table, all of them; the cells with the direct charges |
//! | `ledger` | opening and closing |
//! | `tally` | the tally of demand 3, and demand 3 over a list of closings |
//! | `program` | a run of the programs, what `settle` prints, and whether an output is right |
//! | `consulta` | what `consulta` prints, and whether an output is right |
//! | `output` | what both outputs have in common |
//! | `sample` | the worked file and its output |
//! | `json`, `vectors` | the vector files, and the comparison with them |
//! | `rng`, `months`, `faults`, `texts` | seeded cases: months, what breaks them, files in LF or CR LF, damaged files |

pub mod amounts;
pub mod charges;
pub mod consulta;
pub mod credits;
pub mod faults;
pub mod json;
pub mod ledger;
pub mod lines;
pub mod months;
mod output;
pub mod program;
pub mod read;
pub mod refusals;
pub mod rng;
pub mod sample;
pub mod share;
pub mod table;
pub mod tally;
pub mod texts;
pub mod vectors;
