//! What a check says.

use std::fmt;

use crate::{layouts, raw, text};

numbered! {
    /// Why a message isn't valid (docs/FAULTS.md). As text it is its word in the lines of `diacmd check`.
    Reason {
        /// The version of the header.
        Version = 0,
        /// The Message Length.
        Length = 1,
        /// The flags of the header, or of an AVP.
        Bits = 2,
        /// No command has the code.
        Command = 3,
        /// No command of the code has the Application-ID.
        Application = 4,
        /// The P flag.
        Proxiable = 5,
        /// An AVP Length that no AVP can have.
        AvpLength = 6,
        /// An AVP that the dictionary doesn't know.
        Unknown = 7,
        /// The M flag of an AVP.
        MBit = 8,
        /// An AVP is missing.
        Missing = 9,
        /// No rule lets an AVP in.
        NotAllowed = 10,
        /// There are more of an AVP than its rule lets in.
        TooMany = 11,
        /// The length of data.
        LeafLength = 12,
        /// The value of data.
        LeafValue = 13,
        /// More groups are nested than the policy lets in.
        Depth = 14,
    }
}

impl fmt::Display for Reason {
    fn fmt(&self, f: &mut fmt::Formatter) -> fmt::Result {
        match raw::reason_word(self.number()) {
            Some(word) => f.write_str(&text(word)),
            None => write!(f, "reason-{}", self.number()),
        }
    }
}

/// What a fault is about.
#[derive(Clone, Copy, Debug, PartialEq, Eq, Hash)]
#[non_exhaustive]
pub enum Subject {
    /// The message.
    Nothing,
    /// The AVP of this code and Vendor-ID, which is 0 where it has none.
    Avp {
        /// The AVP code.
        code: u32,
        /// The Vendor-ID.
        vendor: u32,
    },
    /// The AVPs that no rule lists, which are missing.
    Wildcard,
    /// A number of a later library.
    Other(u32),
}

/// The first fault of a message.
#[derive(Clone, Copy, Debug, PartialEq, Eq, Hash)]
pub struct Fault {
    /// The Result-Code (RFC 6733 section 7.1).
    pub code: u32,
    /// The offset, in bytes from the first of the message.
    pub offset: u32,
    /// Why the message isn't valid.
    pub reason: Reason,
    /// What has the fault.
    pub subject: Subject,
}

/// The verdict on a message. [`Dictionary::describe`](crate::Dictionary::describe) has names; without them a verdict as text has numbers.
#[derive(Clone, Copy, Debug, PartialEq, Eq, Hash)]
#[non_exhaustive]
pub enum Verdict {
    /// It is valid, as a message of the command with this number, for [`Dictionary::command_name`](crate::Dictionary::command_name).
    Valid(u32),
    /// It has a fault.
    Fault(Fault),
    /// There are fewer bytes than a header, or than the Message Length.
    Truncated,
    /// There are more bytes than the Message Length.
    Trailing,
    /// A number of a later library.
    Other(u32),
}

const VALID: u32 = 0;
const FAULT: u32 = 1;
const TRUNCATED: u32 = 2;
const TRAILING: u32 = 3;
const NOTHING: u32 = 0;
const AVP: u32 = 1;
const WILDCARD: u32 = 2;

impl Verdict {
    /// Whether the message is valid.
    pub fn is_valid(&self) -> bool {
        matches!(self, Verdict::Valid(_))
    }

    pub(crate) fn of(raw: &layouts::Verdict) -> Self {
        let subject = match raw.subject {
            NOTHING => Subject::Nothing,
            AVP => Subject::Avp { code: raw.avp_code, vendor: raw.avp_vendor },
            WILDCARD => Subject::Wildcard,
            other => Subject::Other(other),
        };
        match raw.outcome {
            VALID => Verdict::Valid(raw.command),
            FAULT => Verdict::Fault(Fault { code: raw.code, offset: raw.place, reason: Reason::of(raw.reason), subject }),
            TRUNCATED => Verdict::Truncated,
            TRAILING => Verdict::Trailing,
            other => Verdict::Other(other),
        }
    }

    pub(crate) fn raw(&self) -> layouts::Verdict {
        let of = |outcome| layouts::Verdict { outcome, ..Default::default() };
        match *self {
            Verdict::Valid(command) => layouts::Verdict { command, ..of(VALID) },
            Verdict::Fault(fault) => fault.raw(of(FAULT)),
            Verdict::Truncated => of(TRUNCATED),
            Verdict::Trailing => of(TRAILING),
            Verdict::Other(outcome) => of(outcome),
        }
    }
}

impl Fault {
    fn raw(&self, empty: layouts::Verdict) -> layouts::Verdict {
        let (subject, avp_code, avp_vendor) = match self.subject {
            Subject::Nothing => (NOTHING, 0, 0),
            Subject::Avp { code, vendor } => (AVP, code, vendor),
            Subject::Wildcard => (WILDCARD, 0, 0),
            Subject::Other(subject) => (subject, 0, 0),
        };
        layouts::Verdict {
            code: self.code,
            place: self.offset,
            reason: self.reason.number(),
            subject,
            avp_code,
            avp_vendor,
            ..empty
        }
    }
}

impl fmt::Display for Verdict {
    fn fmt(&self, f: &mut fmt::Formatter) -> fmt::Result {
        match self {
            Verdict::Valid(command) => write!(f, "valid {command}"),
            Verdict::Fault(fault) => write!(f, "{fault}"),
            Verdict::Truncated => f.write_str("truncated"),
            Verdict::Trailing => f.write_str("trailing"),
            Verdict::Other(outcome) => write!(f, "outcome {outcome}"),
        }
    }
}

impl fmt::Display for Fault {
    fn fmt(&self, f: &mut fmt::Formatter) -> fmt::Result {
        write!(f, "fault {} at {} {} ", self.code, self.offset, self.reason)?;
        match self.subject {
            Subject::Avp { code, vendor } => write!(f, "{code}:{vendor}"),
            Subject::Wildcard => f.write_str("AVP"),
            _ => f.write_str("-"),
        }
    }
}

/// What becomes of AVPs that the dictionary doesn't know.
#[derive(Clone, Copy, Debug, Default, PartialEq, Eq, Hash)]
pub enum Unknown {
    /// One is accepted if its M flag is clear, else it is a fault.
    #[default]
    Kept,
    /// Each is a fault.
    Refused,
}

impl Unknown {
    pub(crate) fn number(self) -> u32 {
        match self {
            Unknown::Kept => 0,
            Unknown::Refused => 1,
        }
    }
}

/// By what messages are checked, beside the dictionary. By itself unknown AVPs are kept, and any number of groups may be nested.
#[derive(Clone, Copy, Debug, Default, PartialEq, Eq, Hash)]
pub struct Policy {
    /// What becomes of AVPs that the dictionary doesn't know.
    pub unknown: Unknown,
    /// How many groups may be nested; any number where it is `None`.
    pub levels: Option<u32>,
}

impl Policy {
    pub(crate) fn limits(self) -> raw::Limits {
        (self.unknown.number(), self.levels.unwrap_or(raw::ANY_LEVELS))
    }
}
