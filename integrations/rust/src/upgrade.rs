//! What becomes of messages between two dictionaries.

use crate::{layouts, raw, text, Dictionary, Error, Kind, Policy, Unknown};

/// Which messages a side sends that goes by its dictionary.
#[derive(Clone, Copy, Debug, Default, PartialEq, Eq, Hash)]
pub enum Sends {
    /// Also with AVPs that the dictionary doesn't know, where a rule lets any in.
    #[default]
    Any,
    /// With AVPs that the dictionary knows.
    Known,
    /// With AVPs that a rule of their level names.
    Listed,
    /// With these, and where a wildcard is all that a level allows, with AVPs that the dictionary knows.
    Filled,
}

/// What is asked of two dictionaries: all that can break where the side of one sends and the side of another reads
/// (docs/UPGRADING.md).
///
/// ```
/// use wittalen::{Breaking, Dictionary, Sends};
///
/// # fn main() -> Result<(), wittalen::Error> {
/// let declared = "%avp Usage 9002 Unsigned32 any\n<Report> ::= < Diameter Header: 302, REQ > ";
/// let (sender, receiver) = (Dictionary::new(format!("{declared} 1*2 {{ Usage }}"))?, Dictionary::new(format!("{declared} {{ Usage }}"))?);
/// let found = Breaking { sends: Sends::Listed, ..Default::default() }.ask(&sender, &receiver)?;
/// assert_eq!(found.text, "Report: too-many Usage: 1..2 sent, 1 accepted\n");
/// # Ok(())
/// # }
/// ```
#[derive(Clone, Debug, Default, PartialEq, Eq)]
pub struct Breaking {
    /// Which messages are sent.
    pub sends: Sends,
    /// What becomes of unknown AVPs where messages are read.
    pub unknown: Unknown,
    /// The names of the commands that are asked for; all where there are none.
    pub commands: Vec<String>,
    /// The text of a list of accepted lines (docs/FORMATS.md).
    pub accepted: String,
    /// After each line a message that shows it.
    pub with_messages: bool,
    /// One line for each cause.
    pub once: bool,
    /// Also a line for each AVP that is read as another format.
    pub meaning: bool,
}

/// What can break.
#[derive(Clone, Debug, PartialEq, Eq)]
pub struct Upgrade {
    /// Whether nothing breaks, or nothing but what the list accepts.
    pub is_safe: bool,
    /// What `diacmd breaking` writes.
    pub text: String,
}

impl Breaking {
    /// What can break where the side of `a` sends and the side of `b` reads. A refused list or name gives [`Error::Input`].
    pub fn ask(&self, a: &Dictionary, b: &Dictionary) -> Result<Upgrade, Error> {
        let sends = match self.sends {
            Sends::Any => 0,
            Sends::Known => 1,
            Sends::Listed => 2,
            Sends::Filled => 3,
        };
        let options = u32::from(self.with_messages) | u32::from(self.once) << 1 | u32::from(self.meaning) << 2;
        let question = (sends, self.unknown.number(), options);
        let commands = self.commands.join("\n");
        let found = raw::breaking(a.handle(), b.handle(), question, commands.as_bytes(), self.accepted.as_bytes());
        let (lines, is_safe) = found.map_err(|(status, problem)| refusal(status, &problem, 0))?;
        Ok(Upgrade { is_safe, text: text(lines) })
    }
}

/// Whether messages stay valid.
#[derive(Clone, Debug, PartialEq, Eq)]
pub struct Comparison {
    /// Whether each message that is valid under the first dictionary, of a command that the table lists, is valid under the second.
    pub holds: bool,
    /// The line of `diacmd compare`: `yes`, or the first pair that fails, with its test.
    pub line: String,
}

/// Compares two dictionaries by the text of a table of pairs (docs/FORMATS.md). A refused table gives [`Error::Input`].
pub fn compare(a: &Dictionary, b: &Dictionary, unknown: Unknown, table: impl AsRef<[u8]>) -> Result<Comparison, Error> {
    let table = table.as_ref();
    let found = raw::compare(a.handle(), b.handle(), unknown.number(), table);
    let (line, holds) = found.map_err(|(status, problem)| refusal(status, &problem, column_of(table, &problem)))?;
    Ok(Comparison { holds, line: text(line).trim_end_matches('\n').into() })
}

/// The column of a problem of a table, or 0 where no line has it.
fn column_of(table: &[u8], problem: &layouts::Problem) -> usize {
    match problem.line {
        0 => 0,
        _ => raw::line_column(table, raw::table_place(table, problem)).1,
    }
}

fn refusal(status: u32, problem: &layouts::Problem, column: usize) -> Error {
    match status {
        raw::REFUSED => Error::Input { kind: Kind::of(problem.kind), line: problem.line, column },
        other => Error::of(other),
    }
}

/// What `diacmd check` writes on standard error for a message, with the dictionary of this text: for people. It is empty for a valid
/// message.
pub fn explain(dictionary: impl AsRef<[u8]>, message: &[u8], policy: Policy) -> Result<String, Error> {
    raw::explain(dictionary.as_ref(), policy.limits(), message).map(text).map_err(Error::of)
}
