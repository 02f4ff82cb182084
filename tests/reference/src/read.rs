//! The month file ("The month file"; refusals 11 and 12; requests Q-3, CR LF read as LF, and Q-1,
//! the user line's last column).
//!
//! The reader goes down the format with the byte at hand and never looks ahead. Each test below leaves the text the
//! moment no accepted file could go on with the byte at hand, so the cursor then stands at the place of refusal 11.

use crate::lines::{Agent, MonthLines, Point, User};
use crate::refusals::Refusal;

/// The names of each block, without their line's end.
pub const MONTH_NAMES: &str = "month,ons";
pub const AGENT_NAMES: &str = "agent,pb,pv,afs,rfs,pa,ret";
pub const USER_NAMES: &str = "user,kind,ret,ong";
pub const POINT_NAMES: &str = "at,tp,tf,dp,df,mp,mf,vp,vf";

/// Digits of a value, not counting its minus sign.
const MAX_DIGITS: usize = 18;

/// The longest text, in bytes, that the file check looks at.
pub const CHECK_LIMIT: u64 = 1_000_000_000_000_000;

/// How many lines of each kind the reader's slices take.
#[derive(Clone, Copy, Debug, PartialEq, Eq)]
pub struct Capacity {
    pub agents: usize,
    pub users: usize,
    pub points: usize,
}

/// No limit to the lines, as in the file check.
pub const ANY_COUNT: Capacity = Capacity { agents: usize::MAX, users: usize::MAX, points: usize::MAX };

/// Reads the one file that begins at `position`: its lines and the position after it, or refusal 11 or 12.
pub fn read_month(text: &[u8], position: usize, capacity: Capacity) -> Result<(MonthLines, usize), Refusal> {
    let mut cursor = Cursor { text, at: position.min(text.len()) };
    cursor.names(MONTH_NAMES)?;
    let [month, ons] = cursor.line()?;
    let agents = cursor.block(AGENT_NAMES, capacity.agents)?;
    let users = cursor.block(USER_NAMES, capacity.users)?;
    let points = cursor.block(POINT_NAMES, capacity.points)?;
    match cursor.here() {
        None | Some(b'm') => {}
        Some(_) => return cursor.fault(),
    }
    let lines = MonthLines {
        month,
        ons,
        agents: agents.into_iter().map(Agent::from_columns).collect(),
        users: users.into_iter().map(User::from_columns).collect(),
        points: points.into_iter().map(Point::from_columns).collect(),
    };
    Ok((lines, cursor.at))
}

/// The file check: −1 for one or more files on end, else the place of refusal 11; −2 for a text too long.
pub fn check_text(text: &[u8]) -> i64 {
    if let Some(answer) = check_length(text.len() as u64) {
        return answer;
    }
    let mut position = 0;
    loop {
        match read_month(text, position, ANY_COUNT) {
            Ok((_, next)) if next == text.len() => return -1,
            Ok((_, next)) => position = next,
            Err(refusal) => return i64::try_from(refusal.place).expect("places lie in the text"),
        }
    }
}

/// The file check's answer where a text's length decides it; apart, since no test holds a text of such a length.
pub fn check_length(length: u64) -> Option<i64> {
    if length > CHECK_LIMIT {
        Some(-2)
    } else {
        None
    }
}

/// The text and where the reader stands in it.
struct Cursor<'a> {
    text: &'a [u8],
    at: usize,
}

impl<'a> Cursor<'a> {
    /// The byte at hand, none at the text's end.
    fn here(&self) -> Option<u8> {
        self.text.get(self.at).copied()
    }

    /// Refusal 11 at the byte at hand; at the text's end that is the text's length.
    fn fault<T>(&self) -> Result<T, Refusal> {
        Err(Refusal::new(11, self.at as u64))
    }

    /// Steps over one byte that has to be there.
    fn byte(&mut self, wanted: u8) -> Result<(), Refusal> {
        if self.here() != Some(wanted) {
            return self.fault();
        }
        self.at += 1;
        Ok(())
    }

    /// The end of a line, of names or of values: LF, or CR LF. Where it is due a CR is in order, since an accepted file
    /// has one there; so a CR without its LF is a fault at the byte after it.
    fn line_end(&mut self) -> Result<(), Refusal> {
        if self.here() == Some(b'\r') {
            self.at += 1;
        }
        self.byte(b'\n')
    }

    /// A line of names.
    fn names(&mut self, names: &str) -> Result<(), Refusal> {
        names.bytes().try_for_each(|wanted| self.byte(wanted))?;
        self.line_end()
    }

    /// A block: its names, then lines for as long as one begins.
    fn block<const COLUMNS: usize>(&mut self, names: &str, capacity: usize) -> Result<Vec<[i64; COLUMNS]>, Refusal> {
        self.names(names)?;
        let mut lines = Vec::new();
        while let Some(b'-' | b'0'..=b'9') = self.here() {
            if lines.len() == capacity {
                return Err(Refusal::new(12, self.at as u64));
            }
            lines.push(self.line()?);
        }
        Ok(lines)
    }

    /// A line of values, with commas between them.
    fn line<const COLUMNS: usize>(&mut self) -> Result<[i64; COLUMNS], Refusal> {
        let mut values = [0; COLUMNS];
        for (column, value) in values.iter_mut().enumerate() {
            if column > 0 {
                self.byte(b',')?;
            }
            *value = self.value()?;
        }
        self.line_end()?;
        Ok(values)
    }

    /// A value. What follows its digits is for the line to judge, so a digit too many is a fault at that digit.
    fn value(&mut self) -> Result<i64, Refusal> {
        let negative = self.here() == Some(b'-');
        if negative {
            self.at += 1;
        }
        match self.here() {
            // 0 stands alone, and takes no minus sign.
            Some(b'0') if !negative => {
                self.at += 1;
                Ok(0)
            }
            Some(b'1'..=b'9') => {
                let size = self.digits();
                Ok(if negative { -size } else { size })
            }
            _ => self.fault(),
        }
    }

    /// The number of up to `MAX_DIGITS` digits at hand.
    fn digits(&mut self) -> i64 {
        let mut number = 0;
        for _ in 0..MAX_DIGITS {
            match self.here() {
                Some(digit @ b'0'..=b'9') => number = number * 10 + i64::from(digit - b'0'),
                _ => break,
            }
            self.at += 1;
        }
        number
    }
}
