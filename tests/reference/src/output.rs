//! What the outputs of both programs have in common: the line of a refusal, payees by name, and lines taken one by one.

use crate::refusals::Refusal;

pub(crate) fn refused_line(refusal: &Refusal) -> String {
    format!("refused,{},{}\n", refusal.number, refusal.place)
}

/// The payees as they are printed: the agents by their numbers, then ONS.
pub(crate) fn payee_names(payees: usize) -> Vec<String> {
    (1..payees).map(|number| number.to_string()).chain(Some("ons".to_string())).collect()
}

/// The output's lines, LF included, and the number of the last one taken.
pub(crate) struct OutputLines<L> {
    lines: L,
    number: usize,
}

/// The lines of an output.
pub(crate) fn output_lines(output: &[u8]) -> OutputLines<impl Iterator<Item = &[u8]>> {
    OutputLines { lines: output.split_inclusive(|&byte| byte == b'\n'), number: 0 }
}

impl<'a, L: Iterator<Item = &'a [u8]>> OutputLines<L> {
    fn next(&mut self) -> Option<&'a [u8]> {
        self.number += 1;
        self.lines.next()
    }

    pub(crate) fn same(&mut self, wanted: &str) -> Result<(), String> {
        match self.next() {
            Some(line) if line == wanted.as_bytes() => Ok(()),
            line => Err(self.wrong(line, wanted)),
        }
    }

    /// The cents of a line that has to begin so, in the one way to write them.
    pub(crate) fn cents_after(&mut self, start: &str) -> Result<i64, String> {
        let line = self.next();
        let cents = line
            .and_then(|line| line.strip_prefix(start.as_bytes()))
            .and_then(|rest| rest.strip_suffix(b"\n"))
            .and_then(|cents| std::str::from_utf8(cents).ok())
            .and_then(|cents| cents.parse::<i64>().ok().filter(|number| number.to_string() == cents));
        cents.ok_or_else(|| self.wrong(line, &format!("{}(cents)\n", start)))
    }

    pub(crate) fn end(&mut self) -> Result<(), String> {
        match self.next() {
            None => Ok(()),
            Some(more) => Err(format!("line {}: {:?} where the output should end", self.number, shown(more))),
        }
    }

    fn wrong(&self, line: Option<&[u8]>, wanted: &str) -> String {
        format!("line {}: {:?} and not {:?}", self.number, line.map(shown), wanted)
    }
}

fn shown(line: &[u8]) -> String {
    String::from_utf8_lossy(line).into_owned()
}
